#!/usr/bin/env python3
"""A night without jobs: a real journal behind the service's real sockets, in which each state of a page and of a pair
is so at once. The tests of the board show it, and check/board.py shows it to browsers.

    tools/tests/board/stage.py SPOOL [EDITIONS]

It runs until it is ended. Each line of standard input is something that happens: `page EDITION PAGE TEXT` comes and is
accepted, `refuse EDITION PAGE TEXT`, `make`, `deliver`, `acks`, `cut` (answers are cut off from now on), `slow SECONDS`,
`plain` (neither any more).
"""
import hashlib
import json
import os
import selectors
import sys
import time
from typing import Any

sys.dont_write_bytecode = True
sys.path.insert(0, os.path.join(os.path.dirname(os.path.abspath(__file__)), "..", ".."))

from pressroom.night import begin, desk, edition as editions, making, pages, pauses, status, versions
from pressroom.night.asked import Asked
from pressroom.night.book import Book
from pressroom.night.journal import Journal
from pressroom.night.records import Found, Page, PageKey, Pair, Planned, Site, Taken
from pressroom.night.sockets import Client, Sockets, run_folder

SITES = {"OSLO": "city", "BERGEN": "west", "STAVANGER": "west"}
SECTIONS = {"A": 16, "B": 8}
OWN = {"west": (("A", 2), ("A", 5), ("A", 12)), "city": (("A", 9),)}
INKS = "CMYK"


def digest(text: str) -> str:
    return hashlib.sha256(text.encode()).hexdigest()


def planned(name: str, start: float, sections: dict[str, int] = SECTIONS, ask: bool = True) -> Planned:
    """The plan of an edition: pages of two sections, three sites in two zones, presses that start at a time."""
    places = [Page("", section, n) for section, count in sections.items() for n in range(1, count + 1)]
    places += [Page(zone, *place) for zone, own in OWN.items() for place in own if place[0] in sections]
    sites = [
        Site(site, "P", zone, time.strftime("%H:%M", time.localtime(start + 600 * number)), 10.0, 60.0)
        for number, (site, zone) in enumerate(SITES.items())
    ]
    pairs = []
    for site, zone in SITES.items():
        for section, count in sections.items():
            for number in range(1, count // 2 + 1):
                left, right = (
                    PageKey(zone if (section, n) in OWN[zone] else "", section, n)
                    for n in (count + 1 - number, number)
                )
                pairs.append(Pair(site, section, number, left, right, f"M{section}{number}"))
    return Planned(
        name,
        time.strftime("%Y-%m-%d"),
        dict(sections),
        tuple(places),
        tuple(sites),
        tuple(pairs),
        "S",
        ask,
        "pair",
    )


class Stage:
    """A journal with editions, and what happens in it."""

    def __init__(self, spool: str, count: int = 1, sections: dict[str, int] = SECTIONS) -> None:
        self.spool, self.folders = spool, 0
        for name in ("journal", "plates", "run", "in"):
            os.makedirs(os.path.join(spool, name), exist_ok=True)
        self.book = Book(Journal.open(os.path.join(spool, "journal")), editions)
        house = begin.enter_house(self.book, "house")
        self.names = ["MORNING", *(f"E{number}" for number in range(2, count + 1))]
        self.rows: dict[str, int] = {}
        for number, name in enumerate(self.names):
            self.rows[name] = begin.begin(
                self.book, planned(name, time.time() + 7200 + number * 900, sections), house, None
            )

    def come(self, name: str, page: str, text: str) -> None:
        """A file comes for a page."""
        zone, _, place = page.rpartition("/")
        self.folders += 1
        found = Found(name, f"{name}/{page}.pdf".encode(), f"stamp {self.folders}", len(text))
        key = PageKey(zone, place[0], int(place[1:]))
        pages.arrived(self.book, self.rows[name], key, found, Taken(digest(text), len(text), "pdf"))

    def page(self, name: str, page: str, text: str) -> None:
        """A page comes and is accepted."""
        self.come(name, page, text)
        self.folders += 1
        pages.accepted(self.book, digest(text), "S", f"R{self.folders}", INKS, [{"file": "0.tif"}], [], 1.0)

    def refuse(self, name: str, page: str, text: str) -> None:
        self.come(name, page, text)
        fault: Any = {
            "kind": "trim",
            "text": "trim 270 x 400 mm, not 280 x 400 mm: 10 mm too narrow",
            "at_mm": None,
        }
        pages.refused(self.book, digest(text), "S", fault)

    def approve(self, name: str, page: str, who: str = "eva") -> None:
        place = self.book.place(self.rows[name], page)
        now = self.book.journal.row("SELECT * FROM page WHERE place = ?", place)
        assert now is not None
        desk.judge(self.book, "approved", name, page, now["arrival"], now["render"], desk.Asker(who))

    def make(self, *pairs: str) -> None:
        """Makes the plates that are due, of these making sums or of all."""
        for row in self.book.journal.rows("SELECT * FROM due_plates"):
            if pairs and row["making"] not in pairs:
                continue
            self.folders += 1
            names = {
                f"MORNING-{row['making'][1]}-{int(row['making'][2:]):03}-{ink}.tif": digest(
                    f"{ink} {row['left']} {row['right']}"
                )
                for ink in INKS
            }
            values = (row["left"], row["right"], row["making"], f"P{self.folders}")
            making.made(self.book, *values, digest(json.dumps(names) + row["making"]), names, [], 2.0)

    def deliver(self, *sites: str) -> None:
        """Sends what is queued for these sites, or for all."""
        for row in self.book.journal.rows(
            "SELECT v.id, s.name FROM version v JOIN site s ON s.id = v.site WHERE v.state = 'queued' ORDER BY v.id"
        ):
            if not sites or row["name"] in sites:
                versions.sending(self.book, row["id"])
                if versions.leaving(self.book, row["id"]):
                    versions.sent(self.book, row["id"])

    def acks(self, *sites: str) -> None:
        """Sites acknowledge all that they have."""
        with self.book.journal.transaction() as db:
            for row in self.book.journal.rows(
                "SELECT v.id, s.name FROM version v JOIN site s ON s.id = v.site WHERE v.state IN ('sent', 'kept') AND v.acked IS NULL"
            ):
                if not sites or row["name"] in sites:
                    db.execute("UPDATE version SET acked = ? WHERE id = ?", [self.book.now(), row["id"]])
                    self.book.tell("acked", number=row["id"], site=row["name"])

    def fail(self, site: str) -> None:
        """A site gives no answer."""
        with self.book.journal.transaction():
            pauses.enter(self.book, "site", site, "network", f"rsync to {site}: no answer", site=site)

    def night(self, name: str = "MORNING") -> None:
        """Each state is so: absent, arrived, refused, held, to approve, made; waits, ready, .. failed."""
        both = [f"A{number:02}" for number in (2, 3, 4, 5, 7, 8, 9, 12, 13, 14, 15, 16)] + [
            f"B{number:02}" for number in range(1, 9)
        ]
        own = ["west/A02", "west/A12", "city/A09"]
        for page in [*both, *own]:
            self.page(name, page, f"{name} {page} first")
        for page in [*both, "west/A02"]:
            self.approve(name, page)
        self.refuse(name, "A10", f"{name} A10 first")
        self.page(name, "A06", f"{name} A06 first")
        self.page(name, "A11", f"{name} A11 first")
        self.approve(name, "A11")
        self.make("MA2", "MA3", "MB1", "MB2", "MB3")
        self.deliver()
        self.acks()
        self.page(name, "A11", f"{name} A11 second")
        self.page(name, "A14", f"{name} A14 second")
        self.approve(name, "A14")
        self.fail("BERGEN")
        self.make("MA3", "MB4")
        self.deliver("OSLO", "STAVANGER")
        desk.hold(self.book, name, "A06", desk.Asker("desk", "waits for the result of the match"))
        desk.hold(self.book, name, "city/A09", desk.Asker("night-editor", "the lawyer reads it"))


class Service:
    """Answers at the sockets as the service does."""

    def __init__(self, stage: Stage) -> None:
        self.stage, self.selector = stage, selectors.DefaultSelector()
        self.cut, self.slow = False, 0.0
        self.asked = Asked(stage.book, self.live)

    def live(self) -> status.Live:
        return status.Live(self.stage.spool, slots=2, scanned=time.time())

    def status(self) -> dict[str, Any]:
        """What the service says of the night."""
        return status.status(self.stage.book, self.live())

    def answer(self, client: Client, message: dict[str, Any]) -> dict[str, Any] | None:
        time.sleep(self.slow)
        said = self.asked.answer(client, message)
        if self.cut and said is not None:
            client.unsent += json.dumps(said).encode()[: len(json.dumps(said)) // 2] + b"\n"
            return None
        return said

    def run(self) -> None:
        """Serves until standard input ends."""
        self.sockets = Sockets(run_folder(self.stage.spool), self.selector, self.answer)
        self.selector.register(sys.stdin, selectors.EVENT_READ, self)
        while True:
            for key, mask in self.selector.select(0.2):
                if key.fileobj is sys.stdin:
                    line = sys.stdin.readline()
                    if not line:
                        return
                    self.happens(line.split())
                else:
                    self.sockets.heard(key.fd, mask)
            for client in self.sockets.followers():
                self.asked.tell(client)
            self.sockets.flush_all()

    def happens(self, words: list[str]) -> None:
        name, *rest = words
        if name == "cut":
            self.cut = True
        elif name == "slow":
            self.slow = float(rest[0])
        elif name == "plain":
            self.cut, self.slow = False, 0.0
        elif name in ("page", "refuse"):
            getattr(self.stage, name)(rest[0], rest[1], " ".join(rest[2:]))
        else:
            getattr(self.stage, name)(*rest)
        print("done", *words, flush=True)


def main() -> int:
    spool, count = sys.argv[1], int(sys.argv[2]) if len(sys.argv) > 2 else 1
    stage = Stage(spool, count)
    for name in stage.names:
        stage.night(name)
    service = Service(stage)
    print("ready", flush=True)
    try:
        service.run()
    finally:
        service.sockets.close()
    return 0


if __name__ == "__main__":
    sys.exit(main())
