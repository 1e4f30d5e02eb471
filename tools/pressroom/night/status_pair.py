"""The history of one pair, in the shape pressroom.pair/1: its versions, what each was made of, and its steps."""
import json
from typing import Any

from pressroom.night import events
from pressroom.night.book import Book, Refused, pair_name

SCHEMA = "pressroom.pair/1"
State = dict[str, Any]
STEPS = 200


def pair_status(book: Book, edition: str, name: str) -> State:
    """Returns the history of a pair, newest first; raises Refused where it isn't known."""
    number = book.edition(edition)
    rows = [
        row
        for row in book.journal.rows(
            "SELECT p.*, s.name AS site_name FROM pair p JOIN site s ON s.id = p.site WHERE s.edition = ?",
            number,
        )
        if pair_name(row["section"], row["number"]) == name
    ]
    if not rows:
        raise Refused(f"{edition} has no pair {name}")
    places = sorted({row[side] for row in rows for side in ("left", "right")})
    pages = [book.page_name(place) for place in places]
    return {
        "schema": SCHEMA,
        "time": events.iso(book.now()),
        "edition": edition,
        "pair": name,
        "versions": versions(book, [row["id"] for row in rows]),
        "steps": steps(book, edition, name, pages),
        "approvals": approvals(book, number, name),
    }


def versions(book: Book, pairs: list[int]) -> list[State]:
    """Returns each set of plates that was sent to sites, with the contents of its pages and what changed."""
    signs = ", ".join("?" * len(pairs))
    rows = book.journal.rows(
        f"SELECT v.*, s.name AS site_name, f.left, f.right FROM version v JOIN site s ON s.id = v.site JOIN plates f"
        f" ON f.id = v.plates WHERE v.pair IN ({signs}) ORDER BY v.id DESC",
        *pairs,
    )
    return [
        {
            "version": row["id"],
            "site": row["site_name"],
            "kind": row["kind"],
            "state": "acknowledged" if row["acked"] is not None else row["state"],
            "since": row["since"],
            "folder": row["folder"],
            "pages": contents(book, row["pair"], row["left"], row["right"]),
            "expose": [line[7:] for line in row["ready"].splitlines() if line.startswith("expose ")],
            "changed": changed(book, row),
            "at": events.iso(row["moved"]),
        }
        for row in rows
    ]


def contents(book: Book, pair: int, left: int, right: int) -> dict[str, str | None]:
    """Returns the first digits of the contents of a pair's two pages, None for a blank one."""
    row = book.journal.row("SELECT left, right FROM pair WHERE id = ?", pair)
    assert row is not None
    found: dict[str, str | None] = {}
    for place, key in ((row["left"], left), (row["right"], right)):
        sha = book.journal.value("SELECT sha FROM render WHERE key = ?", key)
        found[book.page_name(place)] = None if sha is None else sha[:12]
    return found


def changed(book: Book, row: Any) -> list[str]:
    """Returns the pages of a version that differ from those of the version before it."""
    if row["since"] is None:
        return []
    old = book.journal.row(
        "SELECT f.left, f.right FROM version v JOIN plates f ON f.id = v.plates WHERE v.id = ?", row["since"]
    )
    if old is None:
        return []
    was, now = (contents(book, row["pair"], some["left"], some["right"]) for some in (old, row))
    return [page for page in now if now[page] != was[page]]


def steps(book: Book, edition: str, pair: str, pages: list[str]) -> list[State]:
    """Returns what happened to a pair and its pages, newest first."""
    signs = ", ".join("?" * len(pages))
    rows = book.journal.rows(
        f"SELECT * FROM event WHERE edition = ? AND (pair = ? OR page IN ({signs})) ORDER BY seq DESC LIMIT {STEPS}",
        edition,
        pair,
        *pages,
    )
    found = []
    for row in rows:
        text = (f"{row['page']} " if row["page"] else "") + events.words(row)
        about = {
            "user": row["who"],
            "site": row["site"],
            "version": row["version"],
            "more": json.loads(row["more"]),
        }
        found.append({"time": events.iso(row["at"]), "kind": row["name"], "text": text, **about})
    return found


def approvals(book: Book, edition: int, name: str) -> State:
    """Returns where this pair is among those that wait for approval."""
    rows = book.journal.rows(
        "SELECT DISTINCT p.section, p.number FROM pair_now n JOIN pair p ON p.id = n.pair WHERE n.edition = ?"
        " AND 'asks' IN (n.left_state, n.right_state) ORDER BY p.section, p.number",
        edition,
    )
    names = [pair_name(row["section"], row["number"]) for row in rows]
    at = names.index(name) if name in names else None
    previous = names[at - 1] if at else None
    following = (
        names[at + 1]
        if at is not None and at + 1 < len(names)
        else (names[0] if names and at is None else None)
    )
    return {
        "previous": previous,
        "next": following,
        "position": None if at is None else at + 1,
        "count": len(names),
    }
