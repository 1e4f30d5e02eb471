"""Pauses after attempts that failed for no fault of a page: they double, and end by a success or with the boot."""
from pressroom.night.book import Book

# The first pause and the longest, in seconds, by the kind of fault.
FIRST, LONGEST = {"network": 10.0, "limit": 60.0}, 600.0
# After so many tries a page that only exceeds its limits is told to a person.
ASK_A_PERSON = 3


def length(fault: str, tries: int) -> float:
    """Returns the seconds of the pause after so many failed tries."""
    return float(min(LONGEST, FIRST.get(fault, 5.0) * 2 ** min(tries - 1, 20)))


def enter(book: Book, kind: str, key: str, fault: str, why: str, **about: str) -> float:
    """Enters a failed attempt with its event, within a transaction. Returns the seconds of the pause."""
    last = book.journal.row("SELECT tries, since, alerted FROM pause WHERE kind = ? AND key = ?", kind, key)
    tries = 1 if last is None else last["tries"] + 1
    seconds = length(fault, tries)
    since, alerted = (book.now(), 0) if last is None else (last["since"], last["alerted"])
    values = [kind, key, tries, fault, why, since, alerted, book.uptime() + seconds]
    book.journal.db.execute("INSERT OR REPLACE INTO pause VALUES (?, ?, ?, ?, ?, ?, ?, ?)", values)
    if kind == "site":
        # A site that hung may have a READY under way for as long as it hung: looks for what is unknown begin anew.
        book.journal.db.execute(
            "UPDATE version SET seen = NULL WHERE state = 'unknown' AND site IN (SELECT id FROM site WHERE name = ?)",
            [key],
        )
    needs = fault == "limit" and tries >= ASK_A_PERSON
    book.tell("waits", kind=kind, fault=fault, why=why, tries=tries, next=seconds, needs=needs, **about)
    return seconds


def clear(book: Book, kind: str, key: str, **about: str) -> bool:
    """Ends a pause with its event, within a transaction, if there is one. Returns whether there was."""
    last = book.journal.row("SELECT since FROM pause WHERE kind = ? AND key = ?", kind, key)
    if last is None:
        return False
    book.journal.db.execute("DELETE FROM pause WHERE kind = ? AND key = ?", [kind, key])
    book.tell("goes_on", kind=kind, seconds=max(0.0, book.now() - last["since"]), **about)
    return True


def is_over(book: Book, kind: str, key: str) -> bool:
    """Returns whether an attempt may be made now."""
    until = book.journal.value("SELECT until FROM pause WHERE kind = ? AND key = ?", kind, key)
    return until is None or until <= book.uptime()


def next_end(book: Book) -> float | None:
    """Returns in how many seconds the next pause ends, or None."""
    until = book.journal.value("SELECT min(until) FROM pause WHERE until > ?", book.uptime())
    return None if until is None else max(0.0, until - book.uptime())
