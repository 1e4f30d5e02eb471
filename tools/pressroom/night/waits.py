"""What waits to be tried again: what each wait is about, which last too long, and which are about nothing any more."""
from collections.abc import Collection
from typing import Any

from pressroom.night import events, making, pages
from pressroom.night.book import Book
from pressroom.night.records import PageKey


def about(book: Book, row: Any) -> dict[str, Any]:
    """Returns the edition, page, pair and site of a pause, as far as it has them."""
    kind, key = row["kind"], row["key"]
    if kind == "site":
        return {"site": key}
    if kind == "page":
        for place in pages.places_of(book, *key.split(" ", 1)):
            page = PageKey(place["zone"], place["section"], place["number"])
            return {"edition": place["name"], "page": str(page)}
    if kind == "plates":
        left, right, press = key.split(" ", 2)
        for _, edition, pair, _ in making.wanting(book, int(left), int(right), press):
            return {"edition": edition, "pair": pair}
    if kind == "whole":
        sql = "SELECT e.name AS edition, s.name AS site FROM site s JOIN edition e ON e.id = s.edition WHERE s.id = ?"
        found = book.journal.row(sql, int(key))
        return dict(found) if found is not None else {}
    return {}


def tell_alerts(book: Book, seconds: float) -> None:
    """Tells each wait once that lasts longer than so many seconds."""
    now = book.now()
    for row in book.journal.rows("SELECT * FROM pause WHERE NOT alerted AND since < ?", now - seconds):
        with book.journal.transaction() as db:
            db.execute("UPDATE pause SET alerted = 1 WHERE kind = ? AND key = ?", [row["kind"], row["key"]])
            lasts = events.lasted(now - row["since"])
            book.tell("alert", **about(book, row), why=f"waits since {lasts}: {row['why']}")


def forget(book: Book, stamps: Collection[str] | None) -> None:
    """Ends the waits of what isn't to be done any more: a page or plates that nobody wants, a file that is gone, a site
    to which nothing goes. `stamps` are the files of in/, or None where it can't be read."""
    rows = book.journal.rows
    wanted = {
        "page": {f"{row['sha']} {row['settings']}" for row in rows("SELECT sha, settings FROM due_render")},
        "plates": {
            making.key_of(row["left"], row["right"], row["making"])
            for row in rows("SELECT * FROM due_plates")
        },
        "whole": {str(row["site"]) for row in rows("SELECT site FROM due_whole")},
        "site": {
            row[0]
            for row in rows(
                "SELECT s.name FROM site s JOIN edition e ON e.id = s.edition WHERE e.state = 'open' OR EXISTS (SELECT 1"
                " FROM version v WHERE v.site = s.id AND v.state IN ('queued', 'sending', 'leaving', 'unknown', 'sent'))"
            )
        },
    }
    if stamps is not None:
        wanted["take"] = set(stamps)
    gone = [
        [row["kind"], row["key"]]
        for row in rows("SELECT kind, key FROM pause")
        if row["kind"] in wanted and row["key"] not in wanted[row["kind"]]
    ]
    if gone:
        with book.journal.transaction() as db:
            db.executemany("DELETE FROM pause WHERE kind = ? AND key = ?", gone)
