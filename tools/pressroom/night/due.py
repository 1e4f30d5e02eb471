"""Begins versions that are due, and drops those that will never be right again.

`settle` is called at the end of each transaction that changes a page, plates or what a site has, so that the scheduler
only sees versions that its editions need.
"""
import dataclasses
import hashlib
import sqlite3
from collections.abc import Iterable

from pressroom.night.book import Book, pair_name
from pressroom.night.moves import about_pair, move, tell
from pressroom.night.records import Complete, PageKey, Ready


def digest(text: str) -> str:
    """Returns the SHA-256 of a text."""
    return hashlib.sha256(text.encode()).hexdigest()


def settle(book: Book, edition: int) -> None:
    """Drops versions that are superseded, and begins those that are due, within the present transaction."""
    of_edition = "SELECT id FROM site WHERE edition = ?"
    gone = f"SELECT v.* FROM superseded u JOIN version v ON v.id = u.version WHERE v.site IN ({of_edition})"
    for row in book.journal.rows(gone, edition):
        move(book, row, "dropped")
        tell(book, "dropped", row, why="another one is wanted")
    for row in book.journal.rows("SELECT * FROM due_version WHERE edition = ? ORDER BY pair", edition):
        begin(book, row)
    for row in book.journal.rows("SELECT * FROM due_resend WHERE edition = ? ORDER BY pair", edition):
        begin_again(book, row)
    for row in book.journal.rows("SELECT * FROM due_complete WHERE edition = ? ORDER BY site", edition):
        begin_complete(book, row)


def next_number(book: Book) -> int:
    """Returns the number of the version that is entered next. Numbers are never used again."""
    return int(book.journal.value("SELECT seq FROM sqlite_sequence WHERE name = 'version'") or 0) + 1


def plates_of(book: Book, plates: int) -> dict[str, sqlite3.Row]:
    """Returns the plates of a pair by name."""
    return {
        row["name"]: row
        for row in book.journal.rows("SELECT * FROM plate WHERE plates = ? ORDER BY name", plates)
    }


def asked_for(book: Book, pair: int, names: Iterable[str]) -> tuple[set[str], list[str]]:
    """Returns the plates of a pair that were asked for again, and the reasons."""
    rows = book.journal.rows(
        "SELECT plate, reason FROM request WHERE pair = ? AND version IS NULL ORDER BY id", pair
    )
    some: set[str] = set()
    for row in rows:
        some |= set(names) if row["plate"] is None else {row["plate"]} & set(names)
    return some, list(dict.fromkeys(row["reason"] for row in rows))


def ready_of(book: Book, pair: int, plates: int, sums: str, number: int, since: int | None) -> Ready:
    """Returns what READY says of plates: which differ from those of `since`, and which print nothing."""
    names, mine = about_pair(book, pair), plates_of(book, plates)
    before = None if since is None else book.journal.value("SELECT plates FROM version WHERE id = ?", since)
    was = {} if before is None else {name: row["sha"] for name, row in plates_of(book, before).items()}
    again, reasons = asked_for(book, pair, mine)
    left = str(PageKey(names["lz"], names["ls"], names["ln"]))
    pages = left, str(PageKey(names["rz"], names["rs"], names["rn"]))
    expose = [n for n, row in mine.items() if n in again or was.get(n) != row["sha"] and not row["empty"]]
    return Ready(
        edition=names["edition"],
        date=names["day"],
        pair=pair_name(names["section"], names["number"]),
        pages=pages,
        version=number,
        since=since,
        sums=sums,
        plates=len(mine),
        expose=tuple(expose),
        empty=tuple(name for name, row in mine.items() if row["empty"]),
        resend="; ".join(reasons) or None,
        blank=tuple(page for page, blank in zip(pages, (names["lb"], names["rb"])) if blank),
    )


def begin(book: Book, due: sqlite3.Row) -> int:
    """Enters a version of a pair. It answers what was asked for again."""
    number = next_number(book)
    ready = ready_of(book, due["pair"], due["plates"], due["sums"], number, due["since"])
    text = book.texts.ready_text(ready)
    folder = f"{ready.edition}/{ready.pair}/{number:06}-{digest(text)[:8]}"
    book.journal.db.execute(
        "INSERT INTO version (id, site, kind, pair, plates, sums, since, folder, ready, at, moved)"
        " VALUES (?, ?, 'plates', ?, ?, ?, ?, ?, ?, ?, ?)",
        [
            number,
            due["site"],
            due["pair"],
            due["plates"],
            due["sums"],
            due["since"],
            folder,
            text,
            book.now(),
            book.now(),
        ],
    )
    answer(book, due["pair"], number)
    return number


def begin_again(book: Book, due: sqlite3.Row) -> int:
    """Enters a resend, which is put beside the version that the site has: VERSION.rN with the plates asked for."""
    of, number = due["of"], next_number(book)
    nth = book.journal.value("SELECT count(*) + 1 FROM version WHERE of = ?", of)
    names = plates_of(book, due["plates"])
    again, reasons = asked_for(book, due["pair"], names)
    ready = ready_of(book, due["pair"], due["plates"], due["sums"], of, of)
    expose = tuple(name for name in names if name in again)
    empty = tuple(name for name in ready.empty if name in again)
    lines = sums_text(book, due["plates"], expose)
    of_these = {"expose": expose, "empty": empty, "plates": len(expose), "sums": digest(lines)}
    ready = dataclasses.replace(ready, **of_these, resend="; ".join(reasons))
    text = book.texts.ready_text(ready)
    folder = book.journal.value("SELECT folder FROM version WHERE id = ?", of) + f".r{nth}"
    book.journal.db.execute(
        "INSERT INTO version (id, site, kind, pair, plates, sums, of, nth, folder, ready, at, moved)"
        " VALUES (?, ?, 'resend', ?, ?, ?, ?, ?, ?, ?, ?, ?)",
        [
            number,
            due["site"],
            due["pair"],
            due["plates"],
            due["sums"],
            of,
            nth,
            folder,
            text,
            book.now(),
            book.now(),
        ],
    )
    answer(book, due["pair"], number)
    return number


def sums_text(book: Book, plates: int, names: Iterable[str]) -> str:
    """Returns the lines of SHA256SUMS for some plates, as sha256sum writes them."""
    mine = plates_of(book, plates)
    return "".join(f"{mine[name]['sha']}  {name}\n" for name in sorted(names))


def answer(book: Book, pair: int, number: int) -> None:
    """Notes that a version answers what was asked for again."""
    book.journal.db.execute(
        "UPDATE request SET version = ? WHERE pair = ? AND version IS NULL", [number, pair]
    )


def begin_complete(book: Book, due: sqlite3.Row) -> int:
    """Enters COMPLETE of a site: each pair, its version and sums."""
    number = next_number(book)
    site = book.journal.row(
        "SELECT s.name, e.name AS edition, e.day FROM site s JOIN edition e ON e.id = s.edition WHERE s.id = ?",
        due["site"],
    )
    assert site is not None
    pairs = []
    for line in due["list"].split("\n"):
        pair, version, sums = line.split(" ")
        names = about_pair(book, int(pair))
        pairs.append((pair_name(names["section"], names["number"]), int(version), sums))
    text = book.texts.complete_text(
        Complete(site["edition"], site["day"], site["name"], number, tuple(pairs))
    )
    folder = f"{site['edition']}/COMPLETE/{number:06}-{digest(text)[:8]}"
    book.journal.db.execute(
        "INSERT INTO version (id, site, kind, sums, list, folder, ready, at, moved) VALUES (?, ?, 'complete', ?, ?, ?, ?, ?, ?)",
        [number, due["site"], digest(due["list"]), due["list"], folder, text, book.now(), book.now()],
    )
    return number
