"""Versions on their way: sent, seen, looked for, kept. The database refuses wrong moves. due.py has their beginning."""
import sqlite3
from collections.abc import Iterable, Mapping

from pressroom.night import pauses
from pressroom.night.book import Book
from pressroom.night.due import settle
from pressroom.night.moves import get, move, tell

OPEN = "('queued', 'sending', 'leaving', 'unknown')"
# Seconds after which a READY that was seen has surely been written to a site's disk, by the kernel's own rule of 30.
SETTLED = 40.0
# Seconds beyond rsync's timeout after which no killed rsync can still finish a READY.
GHOSTS = 60.0


def sending(book: Book, number: int) -> None:
    """A job sends the plates of a version."""
    with book.journal.transaction():
        move(book, get(book, number), "sending")


def leaving(book: Book, number: int, seconds: float = 0.0) -> bool:
    """Takes the step after which only the site knows, after its plates were sent within so many seconds. Returns
    whether the version may leave; if not, it is queued."""
    row = get(book, number)
    try:
        with book.journal.transaction():
            move(book, row, "leaving")
            tell(book, "leaving", row, since=row["since"], seconds=seconds)
    except sqlite3.IntegrityError as error:
        if "may not leave" not in str(error):
            raise
        with book.journal.transaction():
            move(book, row, "queued")
            settle(book, row["edition"])
        return False
    return True


def sent(book: Book, number: int, kept: bool = False, seconds: float | None = None) -> None:
    """READY was seen at the site, so many seconds after it began to be sent. `kept`: it was synced there by a method
    that can."""
    row = get(book, number)
    with book.journal.transaction():
        there(book, row, seconds)
        if kept:
            keep(book, row)
        pauses.clear(book, "site", row["site_name"], site=row["site_name"])
        settle(book, row["edition"])


def there(book: Book, row: sqlite3.Row, seconds: float | None = None) -> None:
    """Notes that a version is at its site. What the site had of the pair is old, but for a resend's own version."""
    if row["kind"] != "resend":
        book.journal.db.execute(
            "UPDATE version SET state = 'old', moved = ? WHERE site = ? AND pair IS ? AND state IN ('sent', 'kept')"
            " AND id <> ?",
            [book.now(), row["site"], row["pair"], row["id"]],
        )
    move(book, row, "sent", book.uptime())
    if row["kind"] == "complete":
        tell(book, "sent", row, whole=True, expose=[], empty=[], seconds=seconds)
        pairs = row["list"].count("\n") + 1
        book.tell(
            "complete", edition=row["edition_name"], site=row["site_name"], version=row["id"], count=pairs
        )
        return
    which = {word: words_of(row["ready"], word) for word in ("expose", "empty")}
    tell(book, "sent", row, **which, seconds=seconds)


def words_of(ready: str, word: str) -> list[str]:
    """Returns the values of a READY's lines that begin with a word."""
    return [line[len(word) + 1 :] for line in ready.splitlines() if line.startswith(word + " ")]


def keep(book: Book, row: sqlite3.Row) -> None:
    """Notes that a version was seen a second time, long enough after the first."""
    move(book, row, "kept", book.uptime())
    tell(book, "kept", row)


def failed(book: Book, number: int, why: str, fault: str = "network") -> None:
    """A job of a version ended otherwise than by seeing READY. After `leaving`, nobody here knows."""
    row = get(book, number)
    if row["state"] not in ("sending", "leaving"):
        return
    with book.journal.transaction():
        if row["state"] == "leaving":
            move(book, row, "unknown")
            tell(book, "unknown", row, why=why)
        else:
            move(book, row, "queued")
        pauses.enter(book, "site", row["site_name"], fault, why, site=row["site_name"])
        settle(book, row["edition"])


def whole(book: Book, site: int, text: str) -> None:
    """Notes that all plates of a site were verified together."""
    edition = book.journal.value("SELECT edition FROM site WHERE id = ?", site)
    with book.journal.transaction() as db:
        db.execute("INSERT OR IGNORE INTO whole VALUES (?, ?, ?)", [site, text, book.now()])
        db.execute("DELETE FROM pause WHERE kind = 'whole' AND key = ?", [str(site)])
        name = book.journal.value("SELECT name FROM site WHERE id = ?", site)
        book.tell("verified", edition=book.edition_name(edition), site=name)
        settle(book, edition)


# ---- looks


def looked(
    book: Book,
    site: str,
    asked: Iterable[int],
    seen: Mapping[str, str],
    acked: Iterable[str],
    began: float,
    timeout: float,
) -> None:
    """Enters what a look at a site found, of the versions that it asked for. `began` is by `uptime`."""
    taken, acks = set(), set(acked)
    with book.journal.transaction() as db:
        for number in asked:
            row = get(book, number)
            is_there = seen.get(row["folder"]) == row["ready"]
            saw(book, row, is_there, began, timeout)
            if is_there and row["folder"] in acks and row["acked"] is None:
                db.execute("UPDATE version SET acked = ? WHERE id = ?", [book.now(), number])
                tell(book, "acked", row)
            taken.add(row["edition"])
        pauses.clear(book, "site", site, site=site)
        for edition in taken:
            settle(book, edition)


def saw(book: Book, row: sqlite3.Row, is_there: bool, began: float, timeout: float) -> None:
    """Moves a version by what a look says that began then."""
    state, seen = row["state"], row["seen"]
    if state == "unknown" and is_there:
        there(book, row)
    elif state == "unknown" and seen is None:
        book.journal.db.execute("UPDATE version SET seen = ? WHERE id = ?", [began, row["id"]])
    elif state == "unknown" and began - seen > timeout + GHOSTS:
        move(book, row, "queued")
        if not book.journal.value("SELECT 1 FROM may_leave WHERE version = ?", row["id"]):
            tell(book, "withheld", row, why="it may not leave now")
    elif state == "sent" and is_there and began - (seen or 0) >= SETTLED:
        keep(book, row)
    elif not is_there and began >= (seen or 0) and may_be_lost(row) and not has_open(book, row):
        move(book, row, "queued")
        tell(book, "lost", row)


def may_be_lost(row: sqlite3.Row) -> bool:
    """Returns whether a version that a look lacks is sent again. A resend that was kept has been acted on."""
    return bool(row["state"] == "sent" or row["state"] == "kept" and row["kind"] != "resend")


def has_open(book: Book, row: sqlite3.Row) -> bool:
    """Returns whether another version of the pair is under way to the site."""
    sql = f"SELECT 1 FROM version WHERE site = ? AND pair IS ? AND state IN {OPEN}"
    return book.journal.value(sql, row["site"], row["pair"]) is not None


def stale(book: Book) -> None:
    """At the start: no job of an earlier service is left, so what was being sent is queued, and what left is unknown.

    Seconds of another boot don't count: looks begin anew.
    """
    with book.journal.transaction() as db:
        if book.journal.value("SELECT boot FROM spool") != book.boot:
            db.execute("UPDATE spool SET boot = ?", [book.boot])
            db.execute("UPDATE version SET seen = ? WHERE seen IS NOT NULL", [book.uptime()])
            db.execute("UPDATE pause SET until = ?", [book.uptime()])
        for row in book.journal.rows("SELECT * FROM version WHERE state IN ('sending', 'leaving')"):
            move(book, row, "queued" if row["state"] == "sending" else "unknown")
            if row["state"] == "leaving":
                tell(book, "unknown", row, why="the service ended")
        for row in book.journal.rows("SELECT id FROM edition WHERE state <> 'closed'"):
            settle(book, row["id"])
