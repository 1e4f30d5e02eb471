"""The commands of people: hold, release, approve, reject, resend and cancel. Each is one transaction with its event.

A command that names what a person saw is refused as stale if something else is there now. Each answer says which sites
had the page already, for which the command is in time, and where the pair may be out.
"""
import sqlite3
from collections.abc import Callable
from dataclasses import dataclass, field
from typing import Any

from pressroom.night import due
from pressroom.night.book import Book, Refused, pair_name
from pressroom.night.records import shown


@dataclass
class Answer:
    """What a command did, in words, and its facts."""

    text: str
    more: dict[str, Any] = field(default_factory=dict)


@dataclass(frozen=True)
class Asker:
    """Who gives a command, by the peer of the socket, and his word."""

    who: str
    word: str = ""


def reach(book: Book, place: int) -> dict[str, list[str]]:
    """Returns the sites of a page's pairs by what they have: had it, had an older one, in time, may be out."""
    rows = book.journal.rows(
        "SELECT s.name, p.id, EXISTS (SELECT 1 FROM version v WHERE v.pair = p.id AND v.state IN ('leaving', 'unknown')) AS out,"
        " f.id IS NOT NULL AS some, CASE p.left WHEN g.place THEN f.left ELSE f.right END IS g.render AND g.render IS NOT NULL"
        " AS had FROM pair p JOIN site s ON s.id = p.site JOIN page g ON g.place = ? LEFT JOIN there t ON t.pair = p.id"
        " LEFT JOIN version v ON v.id = t.id LEFT JOIN plates f ON f.id = v.plates"
        " WHERE g.place IN (p.left, p.right) ORDER BY s.id",
        place,
    )
    kinds = {"had_it": [r["name"] for r in rows if r["had"] and not r["out"]]}
    kinds["older"] = [r["name"] for r in rows if r["some"] and not r["had"]]
    kinds["may_be_out"] = [r["name"] for r in rows if r["out"]]
    kinds["in_time"] = [r["name"] for r in rows if not r["out"] and not r["had"]]
    return kinds


def told(name: str, page: str, asker: Asker, kinds: dict[str, list[str]]) -> Answer:
    """Returns the answer of a command on a page."""
    words = [f"{page} {name}"]
    words += [f"{', '.join(kinds['had_it'])} had it"] if kinds["had_it"] else []
    words += [f"{', '.join(kinds['older'])} had an older one"] if kinds["older"] else []
    words += [f"in time for {', '.join(kinds['in_time'])}"] if kinds["in_time"] else []
    words += [f"may be out at {', '.join(kinds['may_be_out'])}"] if kinds["may_be_out"] else []
    return Answer("; ".join(words), dict(kinds))


def act(
    book: Book,
    name: str,
    edition: str,
    page: str,
    asker: Asker,
    work: Callable[[sqlite3.Connection, int], bool],
) -> Answer:
    """Does something to a page in a transaction with its event. `work` returns whether anything changed."""
    row = open_edition(book, edition)
    place = book.place(row, page)
    try:
        with book.journal.transaction() as db:
            kinds = reach(book, place)
            if work(db, place):
                about = {
                    "edition": edition,
                    "page": page,
                    "who": asker.who,
                    "by": asker.who,
                    "word": shown(asker.word),
                }
                book.tell(name, **about, **kinds)
                due.settle(book, row)
            else:
                return Answer(f"{page} was {name} already")
    except sqlite3.IntegrityError as error:
        if "stale" not in str(error):
            raise
        raise Refused(f"{page}: {stale_text(book, place)}") from None
    return told(name, page, asker, kinds)


def stale_text(book: Book, place: int) -> str:
    """Returns why a command that named what was seen is refused."""
    row = book.journal.row("SELECT state, arrival, newest FROM page WHERE place = ?", place)
    assert row is not None
    if row["state"] == "arrived":
        return f"arrival {row['newest']} is in intake; look at it first"
    return f"it isn't what you saw: arrival {row['newest'] or 'none'} is there now; look at it first"


def open_edition(book: Book, name: str) -> int:
    """Returns the row of an edition that is open; raises Refused."""
    row = book.edition(name)
    if book.journal.value("SELECT state FROM edition WHERE id = ?", row) != "open":
        raise Refused(f"{name} is cancelled")
    return row


def hold(book: Book, edition: str, page: str, asker: Asker) -> Answer:
    """Holds a place, whatever comes, until it is released."""

    def work(db: sqlite3.Connection, place: int) -> bool:
        values = [asker.who, book.now(), asker.word, place]
        sql = "UPDATE place SET held = 1, held_by = ?, held_at = ?, held_word = ? WHERE id = ? AND NOT held"
        return db.execute(sql, values).rowcount > 0

    return act(book, "held", edition, page, asker, work)


def release(book: Book, edition: str, page: str, seen: int, asker: Asker) -> Answer:
    """Releases a place on the newest arrival that the person saw (0: none). Anything newer makes the command stale."""

    def work(db: sqlite3.Connection, place: int) -> bool:
        sql = "UPDATE place SET held = 0, seen = ? WHERE id = ? AND held"
        return db.execute(sql, [seen, place]).rowcount > 0

    return act(book, "released", edition, page, asker, work)


def judge(
    book: Book, verdict: str, edition: str, page: str, arrival: int, render: int, asker: Asker
) -> Answer:
    """Approves or rejects what the person saw: this render of this arrival."""

    def work(db: sqlite3.Connection, place: int) -> bool:
        mine = book.journal.value("SELECT 1 FROM arrival WHERE id = ? AND place = ?", arrival, place)
        if mine is None:
            raise Refused(f"{page}: {stale_text(book, place)}")
        sql = "SELECT verdict FROM verdict WHERE arrival = ? AND render = ?"
        before = book.journal.value(sql, arrival, render)
        values = [arrival, render, verdict, asker.word, asker.who, book.now()]
        db.execute("INSERT OR REPLACE INTO verdict VALUES (?, ?, ?, ?, ?, ?)", values)
        return bool(before != verdict)

    return act(book, verdict, edition, page, asker, work)


def resend(
    book: Book, edition: str, site: str, pair: str | None, ink: str | None, reason: str, asker: Asker
) -> Answer:
    """Asks for plates of a site again: all of its pairs, one pair, or one plate of a pair by its ink."""
    row = open_edition(book, edition)
    if not reason.strip() or "\n" in reason:
        raise Refused("a resend needs a reason, on one line")
    pairs = book.journal.rows(
        "SELECT p.id, p.section, p.number, p.left, p.right, n.left_state, n.right_state, t.id AS version, n.plates FROM pair p JOIN site s ON s.id = p.site"
        " JOIN pair_now n ON n.pair = p.id LEFT JOIN there t ON t.pair = p.id WHERE s.edition = ? AND s.name = ?",
        row,
        site,
    )
    if not pairs:
        raise Refused(f"{edition} has no site {site}")
    if pair is not None:
        pairs = [p for p in pairs if pair_name(p["section"], p["number"]) == pair]
        if not pairs:
            raise Refused(f"{edition} has no pair {pair}")
    with book.journal.transaction():
        count = sum(ask_again(book, edition, site, p, ink, shown(reason), asker) for p in pairs)
        if not count:
            raise Refused(f"{site} has no such plate yet, so nothing is sent again")
        due.settle(book, row)
    waits = [text for p in pairs if p["version"] is not None and (text := waiting(book, p))]
    return Answer("; ".join([f"{site}: {count} to be sent again", *waits]), {"count": count, "waits": waits})


def waiting(book: Book, pair: sqlite3.Row) -> str:
    """Returns for which of its pages a pair can't leave now, or nothing."""
    pages = [
        f"{book.page_name(pair[side])} ({pair[side + '_state']})"
        for side in ("left", "right")
        if pair[side + "_state"] != "ready"
    ]
    return f"{pair_name(pair['section'], pair['number'])} waits for {', '.join(pages)}" if pages else ""


def ask_again(
    book: Book, edition: str, site: str, pair: sqlite3.Row, ink: str | None, reason: str, asker: Asker
) -> bool:
    """Enters a request for a pair that the site has. Returns whether it has it."""
    if pair["version"] is None:
        return False
    plates = book.journal.value("SELECT plates FROM version WHERE id = ?", pair["version"])
    names = list(due.plates_of(book, plates))
    plate = None
    if ink is not None:
        plate = next((name for name in names if name.endswith(f"-{ink}.tif") or name == ink), None)
        if plate is None:
            return False
    values = [pair["id"], plate, reason, asker.who, book.now()]
    book.journal.db.execute(
        "INSERT INTO request (pair, plate, reason, who, at) VALUES (?, ?, ?, ?, ?)", values
    )
    count = book.journal.value(
        "SELECT count(*) FROM request WHERE pair = ? AND plate IS ?", pair["id"], plate
    )
    name = pair_name(pair["section"], pair["number"])
    about = {"edition": edition, "site": site, "pair": name, "who": asker.who}
    book.tell("resend", **about, plate=plate, reason=reason, count=count)
    return True


def cancel(book: Book, edition: str, asker: Asker) -> Answer:
    """Cancels an edition: nothing more is made or leaves. What is at sites stays there."""
    row = open_edition(book, edition)
    with book.journal.transaction() as db:
        had = {
            r["name"]: r["pairs"]
            for r in book.journal.rows(
                "SELECT s.name, (SELECT count(*) FROM there t WHERE t.site = s.id) AS pairs FROM site s WHERE s.edition = ?",
                row,
            )
        }
        out = book.journal.value(
            "SELECT count(*) FROM version v JOIN site s ON s.id = v.site WHERE s.edition = ? AND v.state IN ('leaving', 'unknown')",
            row,
        )
        db.execute("UPDATE edition SET state = 'cancelled' WHERE id = ?", [row])
        book.tell("cancelled", edition=edition, who=asker.who, by=asker.who, had=had, may_be_out=out)
        due.settle(book, row)
    words = [f"{edition} is cancelled"] + [
        f"{site} has {count} pairs" for site, count in had.items() if count
    ]
    return Answer("; ".join(words + ([f"{out} may be out"] if out else [])), {"had": had, "may_be_out": out})
