"""A service over a real journal and real folders, with jobs that answer, die or hang as a test says."""
import hashlib
import io
import json
import os
import re
import socket
from dataclasses import dataclass, field
from types import SimpleNamespace
from typing import Any

import evening
from pressroom.night import house_file, houses
from pressroom.night.book import Book
from pressroom.night.folders import Folders
from pressroom.night.journal import Journal
from pressroom.night.records import Page, PageKey, Pair, Planned, Site
from pressroom.night.service import Output, Service

SITES = {"OSLO": "", "BERGEN": "west"}


class Fault(Exception):
    """A house file that can't be used."""


class Editions(evening.Texts):
    """Houses and editions of four pages for two sites. A house's text is lines: `site NAME`, `approve`, `rest`."""

    Fault = Fault

    def house_of(self, text: str, file: str = "") -> Any:
        if "broken" in text:
            raise Fault(f"{file} line 2: sites: broken")
        sites = [SimpleNamespace(name=name) for name in re.findall("site ([A-Z]+)", text)]
        night = SimpleNamespace(settle=0.0, alert=300.0, least_free=0.0, keep=14, metrics=None)
        house = SimpleNamespace(sites=sites, profile=None)
        return SimpleNamespace(house=house, night=night, ask="approve" in text, text=text)

    def planned(self, house: Any, text: str | None, name: str) -> Planned:
        if text is not None and "bad" in text:
            raise Fault("edition.toml line 1: bad")
        day = text.strip() if text else "2026-12-07"
        pages = [Page("", "A", number) for number in range(1, 5)] + [Page("west", "A", 2)]
        sites = [Site(site.name, "P", SITES.get(site.name, "")) for site in house.house.sites]
        pairs = []
        for site in sites:
            for number in (1, 2):
                zone = [site.zone if page == 2 else "" for page in (5 - number, number)]
                left, right = PageKey(zone[0], "A", 5 - number), PageKey(zone[1], "A", number)
                making = hashlib.sha256(f"{number} {'press' in house.text}".encode()).hexdigest()[:8]
                pairs.append(Pair(site.name, "A", number, left, right, making))
        return Planned(name, day, {"A": 4}, tuple(pages), tuple(sites), tuple(pairs), "S", house.ask, "pair")

    def place_of(self, house: Any, planned: Planned, name: bytes) -> PageKey | None:
        found = re.fullmatch(rb"(?:(west)/)?A0([1-4])(?:_v[0-9]+)?\.pdf", name)
        if found is None or found[1] and found[2] != b"2":
            return None
        return PageKey((found[1] or b"").decode(), "A", int(found[2]))

    def version_of(self, house: Any, planned: Planned, name: bytes) -> int:
        found = re.search(rb"_v([0-9]+)", name)
        return int(found[1]) if found else 0

    def pair_plan(self, house: Any, planned: Planned, pair: Pair, left: Any, right: Any) -> Any:
        names = [one and one.layers[0]["file"] for one in (left, right)]
        return {"blank": True}, {"pair": pair.name, "making": pair.making, "pages": names}

    def whole_plan(self, house: Any, planned: Planned, site: str, renders: Any) -> Any:
        return {
            "site": site,
            "pages": {str(key): render.layers[0]["file"] for key, render in renders.items()},
        }

    def method(self, house: Any, site: str) -> dict[str, Any] | None:
        return (
            {"name": "fake", "target": site, "timeout": 1.0}
            if site in [s.name for s in house.house.sites]
            else None
        )


class Job:
    """A job that has its answer as soon as it is asked; without one it hangs, or dies."""

    def __init__(self, world: "World", kind: str):
        self.world, self.kind, self.why, self.is_late = world, kind, "killed by SIGKILL", False
        self.ours, self.theirs = socket.socketpair()
        self.ours.setblocking(False)
        self.said: list[Any] = []
        world.jobs.append(self)

    def fileno(self) -> int:
        return self.ours.fileno()

    def ask(self, request: Any, handles: Any = ()) -> None:
        self.world.asked.append((self.kind, request["kind"], request))
        answer = self.world.behave(request, list(handles))
        if answer == "hang":
            self.world.hanging.append(self)
            return
        self.said.append(answer)
        self.theirs.send(b".")

    def answer(self) -> Any:
        self.ours.recv(1)
        return self.said.pop(0)

    def late(self, now: Any = None) -> bool:
        return self.is_late

    def stop(self) -> None:
        if self in self.world.hanging:
            self.world.hanging.remove(self)
        self.ours.close()
        self.theirs.close()


class Crash(Exception):
    """The service ends here."""


@dataclass
class World:
    """The machine and the sites, which outlive services. `faults` maps a kind of request to what goes wrong next."""

    folder: str
    house: str = "site OSLO\nsite BERGEN\nrest\n"
    faults: dict[str, list[Any]] = field(default_factory=dict)
    sites: dict[str, dict[str, str]] = field(default_factory=dict)
    down: set[str] = field(default_factory=set)
    asked: list[Any] = field(default_factory=list)
    jobs: list[Job] = field(default_factory=list)
    hanging: list[Job] = field(default_factory=list)
    crash_at: int | None = None
    clock: evening.Clock = field(default_factory=evening.Clock)
    service: Any = None

    # ---- jobs

    def start(self, kind: str) -> Job:
        return Job(self, kind)

    def behave(self, request: Any, handles: list[int]) -> Any:
        if self.crash_at is not None and len(self.asked) >= self.crash_at:
            self.crash_at = None
            raise Crash
        fault = self.faults.get(request["kind"], [])
        if fault:
            what = fault.pop(0)
            return what
        return getattr(self, f"do_{request['kind']}")(request, handles)

    def do_page(self, request: Any, handles: list[int]) -> Any:
        with open(os.dup(handles[0]), "rb") as file:
            text = file.read()
        if b"bad" in text:
            fault = {"kind": "trim", "text": "trim 210 x 297 mm, not 280 x 400", "at_mm": None}
            return {"verdict": "refused", "fault": fault}
        os.write(handles[3], text)
        return {
            "verdict": "accepted",
            "inks": "CMYK",
            "layers": [{"kind": "contone", "file": 0}],
            "notes": [],
            "seconds": 1.0,
        }

    def do_plates(self, request: Any, handles: list[int]) -> Any:
        if "out" not in request:
            return self.send_plates(request)
        os.mkdir(request["out"])
        made, plan = {}, request["plan"]
        texts = [open(os.path.join(request["files"], name)).read() for name in plan["pages"]]
        for ink in "CK":
            text = f"{ink} {plan['making']} {texts}"
            name = f"MON-{plan['pair']}-{ink}.tif"
            with open(os.path.join(request["out"], name), "w") as file:
                file.write(text)
            made[name] = hashlib.sha256(text.encode()).hexdigest()
        sums = "".join(f"{digest}  {name}\n" for name, digest in sorted(made.items()))
        with open(os.path.join(request["out"], "SHA256SUMS"), "w") as file:
            file.write(sums)
        return {"made": made, "empty": [], "sums": hashlib.sha256(sums.encode()).hexdigest(), "seconds": 2.0}

    def do_whole(self, request: Any, handles: list[int]) -> Any:
        return {"same": True}

    def send_plates(self, request: Any) -> Any:
        if request["site"] in self.down:
            return {"failed": "no answer", "network": True}
        disk = self.sites.setdefault(request["site"], {})
        for name in request["names"]:
            with open(os.path.join(request["source"], name)) as file:
                disk[f"{request['folder']}/{name}"] = file.read()
        return {"there": True}

    def do_ready(self, request: Any, handles: list[int]) -> Any:
        if request["site"] in self.down:
            return {"unsure": "no answer", "network": True}
        self.sites.setdefault(request["site"], {})[f"{request['folder']}/READY"] = request["text"]
        return {"there": True}

    def do_look(self, request: Any, handles: list[int]) -> Any:
        if request["site"] in self.down:
            return {"failed": "no answer", "network": True}
        disk = self.sites.get(request["site"], {})
        seen = {name: disk[f"{name}/READY"] for name in request["expected"] if f"{name}/READY" in disk}
        return {"seen": seen, "acked": []}

    # ---- the service

    def open(self) -> Service:
        """Begins a service on the folder, as after any end of the one before."""
        folders = Folders(self.folder)
        folders.make()
        file = os.path.join(self.folder, "..", "house.toml")
        if not os.path.exists(file):
            self.write_house(self.house)
        book = Book(
            Journal.open(folders.path("journal")),
            Editions(),
            lambda: self.clock.wall,
            lambda: self.clock.up,
            "boot",
        )
        all_houses = houses.Houses(book, Editions(), file)
        house_file.see(book, all_houses)
        self.printed = io.StringIO()
        self.service = Service(book, folders, all_houses, self, folders.path("run"), Output(self.printed))
        self.service.start()
        return self.service

    def write_house(self, text: str) -> None:
        with open(os.path.join(self.folder, "..", "house.toml"), "w") as file:
            file.write(text)

    def kill(self) -> None:
        """The service ends without a word."""
        for job in list(self.jobs):
            job.stop()
        self.jobs, self.hanging = [], []
        self.service.sockets.close()
        self.service.selector.close()
        self.service.book.journal.close()

    def rounds(self, number: int, step: float = 2.0) -> None:
        """Goes round so many times, each some seconds later, without waiting."""
        for _ in range(number):
            self.clock.pass_by(step)
            for work in self.service.due:
                self.service.due[work] = (self.service.due[work][0], 0.0)
            self.service.patience = lambda most: 0.0
            self.service.round()

    def put(self, name: str, text: str, edition: str = "MON") -> None:
        path = os.path.join(self.folder, "in", edition, name)
        os.makedirs(os.path.dirname(path), exist_ok=True)
        with open(path + ".tmp", "w") as file:
            file.write(text)
        os.rename(path + ".tmp", path)

    def put_all(self) -> None:
        for name in ("A01", "A02", "A03", "A04", "west/A02"):
            self.put(f"{name}.pdf", f"%PDF-{name} first")

    def lines(self) -> list[str]:
        return self.printed.getvalue().splitlines()

    def value(self, sql: str, *values: Any) -> Any:
        return self.service.book.journal.value(sql, *values)

    def right(self) -> list[str]:
        """What isn't as it must be at the end, by the pages that were put last: nothing."""
        wrong = []
        for site in SITES:
            disk = self.sites.get(site, {})
            for number in (1, 2):
                folders = sorted(
                    {name.rsplit("/", 1)[0] for name in disk if name.startswith(f"MON/A-00{number}/")}
                )
                ready = [
                    name for name in folders if f"{name}/READY" in disk and "." not in name.rsplit("/", 1)[1]
                ]
                last = ready[-1] if ready else None
                for ink in "CK":
                    name = f"{last}/MON-A-00{number}-{ink}.tif"
                    if disk.get(name) != self.expected(site, number, ink):
                        wrong.append(f"{site} {number} {ink}: {disk.get(name)}")
            if not any(name.startswith("MON/COMPLETE/") for name in disk):
                wrong.append(f"{site} isn't complete")
        return wrong

    def expected(self, site: str, number: int, ink: str) -> str:
        making = hashlib.sha256(f"{number} False".encode()).hexdigest()[:8]
        pages = [
            f"%PDF-{'west/' if SITES[site] and page == 2 else ''}A0{page} first"
            for page in (5 - number, number)
        ]
        return f"{ink} {making} {pages}"


def record(line: str) -> Any:
    return json.loads(line)
