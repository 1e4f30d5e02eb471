"""Enters house files and editions: what is planned, with the time by which each pair must leave."""
import hashlib
import json
import time

from pressroom.night.book import Book, Refused
from pressroom.night.records import Planned, Site

# The plates of a pair, before its pages are known.
PLATES = 4


def enter_house(book: Book, text: str) -> int:
    """Puts a house file in force for new editions. Returns its row."""
    total = hashlib.sha256(text.encode()).hexdigest()
    with book.journal.transaction() as db:
        book_row = book.journal.value("SELECT id FROM house WHERE sum = ?", total)
        if book_row is None:
            values = [total, text, book.now()]
            book_row = db.execute("INSERT INTO house (sum, text, at) VALUES (?, ?, ?)", values).lastrowid
        if (
            book.journal.value("SELECT house FROM spool") != book_row
            or last_of_house(book) == "house_refused"
        ):
            db.execute("UPDATE spool SET house = ?", [book_row])
            book.tell("house", house=total[:4])
        db.execute("DELETE FROM pause WHERE kind = 'house'")
    return int(book_row)


def last_of_house(book: Book) -> str | None:
    """Returns the name of the last event about the house file: `house` or `house_refused`."""
    sql = "SELECT name FROM event WHERE name IN ('house', 'house_refused') ORDER BY seq DESC LIMIT 1"
    name: str | None = book.journal.value(sql)
    return name


def refuse_house(book: Book, fault: str) -> None:
    """Tells once that a house file can't be used. The last good one stays in force."""
    last = book.journal.row(
        "SELECT more FROM event WHERE name IN ('house', 'house_refused') ORDER BY seq DESC LIMIT 1"
    )
    now = book.journal.row("SELECT h.at FROM house h JOIN spool s ON s.house = h.id")
    with book.journal.transaction():
        if now is not None and (last is None or json.loads(last["more"]).get("fault") != fault):
            book.tell("house_refused", fault=fault, since=now["at"])


def press_at(begun: float, start: str | None) -> float | None:
    """Returns the first time after an edition began at which the clock shows the press's start, as "23:30"."""
    if start is None:
        return None
    hour, minute = map(int, start.split(":"))
    day = time.localtime(begun)
    for days in (0, 1):
        at = time.mktime((day.tm_year, day.tm_mon, day.tm_mday + days, hour, minute, 0, 0, 0, -1))
        if at > begun:
            return at
    return at


def leave_by(site: Site, at: float | None, after: int) -> float | None:
    """Returns when a pair must leave: the press's start, less the lead, less the plates that come after it there."""
    return None if at is None else at - site.lead * 60 - after * PLATES * site.plate_seconds


def begin(book: Book, planned: Planned, house: int, toml: str | None) -> int:
    """Begins an edition, whole, in one transaction. Returns its row; raises Refused where the name is taken."""
    now = book.now()
    with book.journal.transaction() as db:
        if book.journal.value("SELECT 1 FROM edition WHERE name = ? AND state <> 'closed'", planned.name):
            raise Refused(f"{planned.name} has begun already")
        edition = db.execute(
            "INSERT INTO edition (name, day, house, toml, settings, ask, deliver, at) VALUES (?, ?, ?, ?, ?, ?, ?, ?)",
            [
                planned.name,
                planned.date,
                house,
                toml,
                planned.settings,
                int(planned.ask),
                planned.deliver,
                now,
            ],
        ).lastrowid
        assert edition is not None
        places = {}
        for page in planned.pages:
            places[page.key] = db.execute(
                "INSERT INTO place (edition, zone, section, number, blank) VALUES (?, ?, ?, ?, ?)",
                [edition, page.zone, page.section, page.number, int(page.blank)],
            ).lastrowid
        for site in planned.sites:
            at = press_at(now, site.press_start)
            row = db.execute(
                "INSERT INTO site (edition, name, press, zone, press_at, lead, plate_seconds) VALUES (?, ?, ?, ?, ?, ?, ?)",
                [edition, site.name, site.press, site.zone, at, site.lead, site.plate_seconds],
            ).lastrowid
            pairs = [pair for pair in planned.pairs if pair.site == site.name]
            for number, pair in enumerate(pairs):
                values = [row, pair.section, pair.number, places[pair.left], places[pair.right], pair.making]
                db.execute(
                    "INSERT INTO pair (site, section, number, left, right, making, leave_by) VALUES (?, ?, ?, ?, ?, ?, ?)",
                    [*values, leave_by(site, at, len(pairs) - 1 - number)],
                )
        total = book.journal.value("SELECT sum FROM house WHERE id = ?", house)
        book.tell("begin", edition=planned.name, house=total[:4])
    return edition
