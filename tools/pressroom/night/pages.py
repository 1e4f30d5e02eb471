"""Enters what came in, and the verdicts of intake: each a transaction with its events."""
import json
import sqlite3
from collections.abc import Sequence
from typing import Any

from pressroom.night import due, pauses
from pressroom.night.book import Book
from pressroom.night.records import Found, PageFault, PageKey, Taken, Unfit, shown

WHERE = "zone = ? AND section = ? AND number = ?"


def is_seen(book: Book, stamp: str) -> bool:
    """Returns whether a file with this stamp was taken, or told, before."""
    return book.journal.value("SELECT 1 FROM look_in WHERE stamp = ?", stamp) is not None


def arrived(
    book: Book,
    edition: int,
    key: PageKey,
    found: Found,
    taken: Taken,
    waited: float = 0.0,
    seconds: float = 0.0,
) -> bool:
    """Enters a file that is in the store. The bytes of the newest arrival are no new one. Returns whether it is new.

    It `waited` so many seconds since it was first seen, and was copied within `seconds` more.
    """
    name, where = book.edition_name(edition), shown(found.name)
    with book.journal.transaction() as db:
        place = book.journal.value(f"SELECT id FROM place WHERE edition = ? AND {WHERE}", edition, *key)
        db.execute("INSERT OR IGNORE INTO blob VALUES (?, ?, ?)", [taken.sha, taken.kind, taken.size])
        last = book.journal.value("SELECT sha FROM arrival WHERE place = ? ORDER BY id DESC LIMIT 1", place)
        is_new = bool(last != taken.sha)
        see(book, found.stamp, edition, found.name, "page" if is_new else "same")
        if is_new:
            values = [place, taken.sha, found.name, book.now()]
            db.execute("INSERT INTO arrival (place, sha, name, at) VALUES (?, ?, ?, ?)", values)
        about = {"edition": name, "page": str(key), "file": where, "sha": taken.sha}
        times = {"waited": round(waited, 3), "seconds": round(seconds, 3)}
        book.tell("arrived" if is_new else "same", **about, bytes=taken.size, **times)
        pauses.clear(book, "take", found.stamp, edition=name)
        due.settle(book, edition)
    return is_new


def in_force(book: Book, edition: int, key: PageKey) -> bytes | None:
    """Returns the name of a page's newest arrival that isn't refused, or None."""
    name = book.journal.value(
        "SELECT a.name FROM place_now n JOIN arrival a ON a.id = n.arrival"
        " WHERE n.edition = ? AND n.zone = ? AND n.section = ? AND n.number = ?",
        edition,
        *key,
    )
    return None if name is None else bytes(name)


def stray(book: Book, edition: int, found: Found) -> None:
    """Enters a file that isn't a page of its edition, which is told once."""
    with book.journal.transaction():
        see(book, found.stamp, edition, found.name, "stray")
        book.tell("stray", edition=book.edition_name(edition), file=shown(found.name))


def unfit(book: Book, what: Unfit) -> None:
    """Enters what can't be taken, which is told once."""
    edition = book.journal.value("SELECT id FROM edition WHERE name = ? AND state <> 'closed'", what.edition)
    with book.journal.transaction():
        see(book, what.stamp, edition, what.name, "unfit")
        name = None if edition is None else what.edition
        book.tell("unfit", edition=name, file=shown(what.name), why=what.why)


def see(book: Book, stamp: str, edition: int | None, name: bytes, result: str) -> None:
    """Enters a file of in/ by its stamp."""
    book.journal.db.execute(
        "INSERT OR REPLACE INTO look_in (stamp, edition, name, result, at) VALUES (?, ?, ?, ?, ?)",
        [stamp, edition, name, result, book.now()],
    )


def places_of(book: Book, sha: str, settings: str) -> list[sqlite3.Row]:
    """Returns the places of open editions whose newest arrival that isn't refused has these bytes."""
    return book.journal.rows(
        "SELECT g.place, g.edition, e.name, p.zone, p.section, p.number FROM page g"
        " JOIN place p ON p.id = g.place JOIN edition e ON e.id = g.edition"
        " WHERE e.settings = ? AND e.state = 'open' AND g.sha = ? AND g.state = 'arrived' ORDER BY g.place",
        settings,
        sha,
    )


def accepted(
    book: Book,
    sha: str,
    settings: str,
    folder: str,
    inks: str,
    layers: Sequence[dict[str, Any]],
    notes: Sequence[str],
    seconds: float,
) -> None:
    """Enters intake's verdict that a page is good, whose layers are in renders/`folder`, synced."""
    with book.journal.transaction() as db:
        places = places_of(book, sha, settings)
        values = [
            sha,
            settings,
            folder,
            inks,
            json.dumps(list(layers)),
            json.dumps(notes),
            seconds,
            book.now(),
        ]
        db.execute(
            "INSERT INTO render (sha, settings, state, folder, inks, layers, notes, seconds, at)"
            " VALUES (?, ?, 'accepted', ?, ?, ?, ?, ?, ?)",
            values,
        )
        db.execute("DELETE FROM pause WHERE kind = 'page' AND key = ?", [f"{sha} {settings}"])
        for row in places:
            about = {"edition": row["name"], "page": str(PageKey(row["zone"], row["section"], row["number"]))}
            book.tell("accepted", **about, sha=sha, seconds=seconds, notes=notes)
        for edition in {row["edition"] for row in places}:
            due.settle(book, edition)


def refused(book: Book, sha: str, settings: str, fault: PageFault) -> None:
    """Enters intake's verdict that a page is wrong. The event says which older page stays in force."""
    with book.journal.transaction() as db:
        places = places_of(book, sha, settings)
        values = [sha, settings, json.dumps(fault), book.now()]
        db.execute(
            "INSERT INTO render (sha, settings, state, fault, at) VALUES (?, ?, 'refused', ?, ?)", values
        )
        db.execute("DELETE FROM pause WHERE kind = 'page' AND key = ?", [f"{sha} {settings}"])
        for row in places:
            still = book.journal.value(
                "SELECT a.at FROM page g JOIN arrival a ON a.id = g.arrival WHERE g.place = ?", row["place"]
            )
            about = {"edition": row["name"], "page": str(PageKey(row["zone"], row["section"], row["number"]))}
            more = {"kind": fault["kind"], "fault": fault["text"], "at_mm": fault["at_mm"]}
            book.tell("refused", **about, sha=sha, still=still, **more)
        for edition in {row["edition"] for row in places}:
            due.settle(book, edition)


def failed(book: Book, sha: str, settings: str, fault: str, why: str) -> None:
    """Enters that a page couldn't be converted, by no fault of its own."""
    places = places_of(book, sha, settings)
    with book.journal.transaction():
        about = {}
        if places:
            row = places[0]
            about = {"edition": row["name"], "page": str(PageKey(row["zone"], row["section"], row["number"]))}
        pauses.enter(book, "page", f"{sha} {settings}", fault, why, **about)
