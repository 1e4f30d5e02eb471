"""The night as one value, in the shape pressroom.status/1: what a terminal, a board and scripts show.

Times are ISO 8601 with zone; what is unknown is None, never left out. All of it is read from the journal's views, so it
says what the service itself acts on. `status_parts.py` has the lists of an edition.
"""
import os
from collections.abc import Collection, Mapping
from dataclasses import dataclass, field
from typing import Any

from pressroom.night import events
from pressroom.night import status_faults as wrong
from pressroom.night import status_parts as parts
from pressroom.night.book import Book

SCHEMA = "pressroom.status/1"
EVENTS = 50
State = dict[str, Any]


@dataclass
class Live:
    """What the service knows besides its journal. `making` are the keys of plates that are being made."""

    spool: str
    making: Collection[str] = ()
    busy: int = 0
    slots: int = 0
    scanned: float | None = None
    scan_seconds: float = 0.0
    scan_fault: str | None = None
    least_free: float = 0.0
    refused: Mapping[str, tuple[str, float]] = field(
        default_factory=dict
    )  # editions that can't begin: why, since when


def status(book: Book, live: Live, name: str | None = None) -> State:
    """Returns the status of all editions that aren't closed, or of one."""
    where, values = ("", ()) if name is None else (" AND name = ?", (name,))
    rows = book.journal.rows(
        f"SELECT * FROM edition WHERE state <> 'closed'{where} ORDER BY id DESC", *values
    )
    editions = [edition(book, live, row) for row in rows]
    common = machine_faults(book) + wrong.refused_faults(book, live.refused)
    counts = {
        "editions": len(editions),
        "under_way": sum(one["state"] == "under-way" for one in editions),
        "finished": sum(one["state"] == "finished" for one in editions),
        "faults": sum(len(one["faults"]) for one in editions) + len(common),
        "approve": sum(ask["kind"] == "approve" for one in editions for ask in one["asks"]),
        "held": sum(ask["kind"] == "release" for one in editions for ask in one["asks"]),
    }
    return {
        "schema": SCHEMA,
        "time": events.iso(book.now()),
        "counts": counts,
        "service": service(book, live, common),
        "faults": common,
        "editions": editions,
        "events": [event(row) for row in last_events(book, name)],
    }


def last_events(book: Book, name: str | None) -> list[Any]:
    """Returns the newest events, of one edition or of all."""
    where, values = ("", ()) if name is None else (" WHERE edition = ?", (name,))
    return book.journal.rows(f"SELECT * FROM event{where} ORDER BY seq DESC LIMIT {EVENTS}", *values)


def event(row: Any) -> State:
    """Returns an event in the status's form."""
    about = {key: row[key] for key in ("edition", "page", "pair", "site", "version")}
    said = {"kind": row["name"], "user": row["who"], "text": events.words(row), "seq": row["seq"]}
    return {"time": events.iso(row["at"]), **about, **said}


def machine_faults(book: Book) -> list[State]:
    """Returns the waits that belong to no edition: the disk, and the house file."""
    rows = book.journal.rows("SELECT * FROM pause WHERE kind IN ('disk', 'house', 'take') ORDER BY since")
    return [wrong.pause_fault(book, row, None, None, [], None) for row in rows]


# ---- the service


def service(book: Book, live: Live, faults: list[State]) -> State:
    """Returns the state of the service's parts; its own is the worst of them."""
    room = os.statvfs(live.spool)
    free = room.f_bavail * room.f_frsize
    down = sorted(row[0] for row in book.journal.rows("SELECT key FROM pause WHERE kind = 'site'"))
    sites = [
        row[0]
        for row in book.journal.rows(
            "SELECT DISTINCT s.name FROM site s JOIN edition e ON e.id = s.edition WHERE e.state = 'open' ORDER BY s.name"
        )
    ]
    is_full = free < live.least_free * 1e6
    said: State = {
        "pass": {
            "at": events.iso(live.scanned),
            "seconds": live.scan_seconds,
            "state": "ok" if live.scan_fault is None else "degraded",
            "fault": live.scan_fault,
            "next": "when a file, a job or a command comes",
        },
        "disk": {
            "state": "degraded" if is_full else "ok",
            "free_bytes": free,
            "size_bytes": room.f_blocks * room.f_frsize,
            "editions_left": None,
        },
        "workers": {"state": "ok", "busy": live.busy, "count": live.slots},
        "journal": {"state": "ok", "entries": book.journal.value("SELECT max(seq) FROM event") or 0},
        "links": {
            "state": "degraded" if down else "ok",
            "up": [s for s in sites if s not in down],
            "down": down,
        },
    }
    worst = "degraded" if faults or any(part["state"] != "ok" for part in said.values()) else "ok"
    return {"state": worst, **said}


# ---- an edition


def edition(book: Book, live: Live, row: Any) -> State:
    """Returns one edition."""
    number = row["id"]
    pairs = parts.pairs(book, live.making, number)
    pages = parts.pages(book, number, pairs)
    complete = parts.complete(book, number)
    sites = parts.sites(book, number, pairs)
    faults = wrong.faults(book, number, pages, pairs)
    asks = wrong.asks(pages, pairs)
    finished = len(complete) == len(sites) and bool(sites)
    state = "cancelled" if row["state"] == "cancelled" else "finished" if finished else "under-way"
    return {
        "name": row["name"],
        "title": row["name"],
        "date": row["day"],
        "state": state,
        "finished": events.iso(parts.finished_at(book, number)) if state == "finished" else None,
        "approval": bool(row["ask"]),
        "zones": sorted({site["zone"] for site in sites if site["zone"]}),
        "sections": parts.sections(pages, pairs),
        "sites": sites,
        "pages": pages,
        "pairs": pairs,
        "next": wrong.next_pair(book, pairs, sites) if state == "under-way" else None,
        "faults": faults,
        "asks": asks,
        "complete": complete,
        "counts": {
            "pages": parts.count(parts.PAGE_STATES, (page["state"] for page in pages)),
            "pairs": parts.count(
                parts.PAIR_STATES, (site["state"] for pair in pairs for site in pair["sites"])
            ),
            "faults": len(faults),
            "asks": len(asks),
        },
    }
