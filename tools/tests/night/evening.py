"""An edition in a journal of its own, without a disk or jobs: what the tests of the night's journal share."""
import hashlib
import json
from dataclasses import dataclass, field
from typing import Any

from pressroom.night import begin, events, making, pages, versions
from pressroom.night.book import Book
from pressroom.night.journal import Journal
from pressroom.night.records import Complete, Found, Page, PageKey, Pair, Planned, Ready, Site, Taken

ZONES = {"OSLO": "", "BERGEN": "west", "TROMSO": ""}


def digest(text: str) -> str:
    return hashlib.sha256(text.encode()).hexdigest()


class Texts:
    """READY's lines, as the design has them."""

    def ready_text(self, ready: Ready) -> str:
        since = "none" if ready.since is None else f"{ready.since:06}"
        lines = [
            f"edition {ready.edition}",
            f"pair {ready.pair}",
            f"version {ready.version:06}",
            f"since {since}",
        ]
        lines += [f"sums {ready.sums}"] + [f"expose {name}" for name in ready.expose]
        lines += [f"empty {name}" for name in ready.empty] + (
            [f"resend {ready.resend}"] if ready.resend else []
        )
        return "\n".join([*lines, "end", ""])

    def complete_text(self, complete: Complete) -> str:
        lines = [f"{pair} {version:06} {sums}" for pair, version, sums in complete.pairs]
        return "\n".join([f"edition {complete.edition}", f"version {complete.version:06}", *lines, "end", ""])


@dataclass
class Clock:
    """Both clocks of a book, set by the test."""

    wall: float = 1_700_000_000.0
    up: float = 1000.0

    def pass_by(self, seconds: float) -> None:
        self.wall += seconds
        self.up += seconds


@dataclass
class Evening:
    """An edition MON of four pages, with a page 2 of the west's own, for three sites."""

    book: Book
    clock: Clock
    edition: int
    stamps: int = 0
    folders: int = 0
    told: int = 0
    shas: dict[str, str] = field(default_factory=dict)

    def one(self, sql: str, *values: Any) -> Any:
        return self.book.journal.value(sql, *values)

    def come(self, page: str, text: str) -> bool:
        """A file comes for a page. Returns whether it is a new arrival."""
        self.stamps += 1
        zone, _, place = page.rpartition("/")
        found = Found("MON", f"MON/{page}.pdf".encode(), f"stamp {self.stamps}", len(text))
        key = PageKey(zone, place[0], int(place[1:]))
        return pages.arrived(self.book, self.edition, key, found, Taken(digest(text), len(text), "pdf"))

    def accept(self, text: str) -> None:
        self.folders += 1
        pages.accepted(self.book, digest(text), "S", f"R{self.folders}", "CMYK", [{"file": "0.tif"}], [], 1.0)

    def refuse(self, text: str) -> None:
        fault: Any = {"kind": "trim", "text": "trim 210 x 297 mm", "at_mm": None}
        pages.refused(self.book, digest(text), "S", fault)

    def page(self, page: str, text: str) -> None:
        """A page comes and is accepted."""
        self.come(page, text)
        self.accept(text)

    def make(self) -> int:
        """Makes all plates that are due. Returns how many pairs were made."""
        due = self.book.journal.rows("SELECT * FROM due_plates")
        for row in due:
            self.folders += 1
            plates = {
                f"MON-{ink}.tif": digest(f"{ink} {row['left']} {row['right']} {row['making']}")
                for ink in "CK"
            }
            values = (row["left"], row["right"], row["making"], f"P{self.folders}")
            making.made(self.book, *values, digest(json.dumps(plates)), plates, [], 2.0)
        return len(due)

    def queued(self) -> list[int]:
        return [
            row[0]
            for row in self.book.journal.rows("SELECT id FROM version WHERE state = 'queued' ORDER BY id")
        ]

    def deliver(self) -> None:
        """Sends all that is queued and may leave."""
        for number in self.queued():
            versions.sending(self.book, number)
            if versions.leaving(self.book, number):
                versions.sent(self.book, number)

    def look_all(self) -> None:
        """After a while all sites are seen to have all that was sent."""
        self.clock.pass_by(60)
        for site in ZONES:
            rows = self.book.journal.rows(
                "SELECT v.* FROM version v JOIN site s ON s.id = v.site WHERE s.name = ? AND v.state IN ('sent', 'kept')",
                site,
            )
            seen = {row["folder"]: row["ready"] for row in rows}
            versions.looked(self.book, site, [row["id"] for row in rows], seen, [], self.clock.up, 60.0)

    def all_pages(self) -> None:
        for page in ("A01", "A02", "A03", "A04", "west/A02"):
            self.page(page, f"{page} first")

    def approve(self, page: str) -> Any:
        """Approves what is there now, as a person who looks at it does."""
        from pressroom.night import desk

        now = self.now(page)
        return desk.judge(
            self.book, "approved", "MON", page, now["arrival"], now["render"], desk.Asker("eva")
        )

    def now(self, page: str) -> Any:
        place = self.book.place(self.edition, page)
        row = self.book.journal.row("SELECT * FROM page WHERE place = ?", place)
        assert row is not None
        return row

    def state(self, page: str) -> str:
        return str(self.now(page)["state"])

    def lines(self) -> list[str]:
        """The texts of the events since the last call."""
        rows = self.book.journal.rows("SELECT * FROM event WHERE seq > ? ORDER BY seq", self.told)
        self.told = rows[-1]["seq"] if rows else self.told
        return [events.text(row) for row in rows]


def planned(ask: bool = False, deliver: Any = "pair", start: str | None = None) -> Planned:
    places = [Page("", "A", number) for number in range(1, 5)] + [Page("west", "A", 2)]
    sites = [Site(name, "P", zone, start, 10.0, 60.0) for name, zone in ZONES.items()]
    pairs = []
    for name, zone in ZONES.items():
        for number in (1, 2):
            sides = [PageKey(zone if zone and n == 2 else "", "A", n) for n in (5 - number, number)]
            pairs.append(Pair(name, "A", number, sides[0], sides[1], f"M{number}"))
    return Planned(
        "MON", "2026-12-07", {"A": 4}, tuple(places), tuple(sites), tuple(pairs), "S", ask, deliver
    )


def evening(folder: str, **how: Any) -> Evening:
    """Begins an edition in a new journal."""
    clock = Clock()
    book = Book(Journal.open(folder), Texts(), lambda: clock.wall, lambda: clock.up, "boot")
    house = begin.enter_house(book, "house")
    return Evening(book, clock, begin.begin(book, planned(**how), house, None))
