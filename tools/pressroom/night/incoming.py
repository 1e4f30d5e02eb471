"""Takes what uploaders put below in/: a file that is quiet is copied into the store, entered, and removed there.

An edition begins with the first quiet file of its folder, or with its edition.toml. A file is known by its stamp: what
was taken or told before isn't again. One copy is under way at a time, a chunk a step.
"""
import os
from collections.abc import Generator
from dataclasses import dataclass
from typing import Any

from pressroom.night import begin, clear, houses, pages, pauses, scan, take
from pressroom.night.book import Book
from pressroom.night.folders import Folders
from pressroom.night.records import EDITION_FILE, Found, PageKey, Taken, Unfit, shown

OWN = b"edition.toml"


@dataclass
class Copying:
    """A copy under way: the folder in which the file was found, its edition's row, and the steps that are left."""

    folder: str
    found: Found
    edition: int
    page: Any
    job: str
    began: float  # by the seconds since the boot
    steps: Generator[None, None, Taken]


class Incoming:
    """What is seen in in/ and grab/. `quiet` has for each stamp when it was first seen, by the seconds since the boot."""

    def __init__(self, book: Book, folders: Folders, all_houses: houses.Houses):
        self.book, self.folders, self.houses = book, folders, all_houses
        self.quiet: dict[str, float] = {}
        self.kept: set[str] = set()  # files that can't be removed, by stamp
        self.told: dict[str, tuple[str, float]] = {}  # why an edition doesn't begin, and since when
        self.own_read: set[str] = set()  # the editions' own files that this service read, by stamp
        self.other_day: dict[str, str] = {}  # why pages aren't taken that lie beside a file of another date
        self.queue: list[tuple[str, Found]] = []
        self.copying: Copying | None = None
        self.grabs = max(
            [int(os.path.basename(path)) for path in clear.grabbed(folders.path("grab"))], default=0
        )

    def look(self, settle: float) -> None:
        """Looks at all that lies in grab/ and in/, and queues what is quiet. Raises OSError where in/ can't be read."""
        seen: dict[str, float] = {}
        queue: list[tuple[str, Found]] = []
        for folder in [*clear.grabbed(self.folders.path("grab")), self.folders.path("in")]:
            grabbed = folder != self.folders.path("in")
            items = list(scan.scan(folder))
            for item in items:
                if isinstance(item, Unfit):
                    if not pages.is_seen(self.book, item.stamp):
                        pages.unfit(self.book, item)
                    continue
                seen[item.stamp] = self.quiet.get(item.stamp, self.book.uptime())
                if grabbed or self.book.uptime() - seen[item.stamp] >= settle:
                    queue.append((folder, item))
            if grabbed and not any(isinstance(item, Found) for item in items):
                clear.drop(folder)
        self.quiet = seen
        names = {item.edition for _, item in queue}
        self.told = {name: told for name, told in self.told.items() if name in names}
        self.kept &= set(seen)
        # An edition's own file comes before its pages.
        self.queue = sorted(queue, key=lambda pair: not pair[1].name.endswith(b"/" + OWN))

    def step(self) -> bool:
        """Does one small piece of work. Returns whether there is more to do at once."""
        if self.copying is not None:
            self.copy_on(self.copying)
            return True
        if not self.queue:
            return False
        folder, found = self.queue.pop(0)
        is_own = found.name.endswith(b"/" + OWN) and found.stamp not in self.own_read
        if pages.is_seen(self.book, found.stamp) and not is_own:
            self.clear(folder, found)
        elif pauses.is_over(self.book, "take", found.stamp):
            self.begin(folder, found)
        return bool(self.queue) or self.copying is not None

    def begin(self, folder: str, found: Found) -> None:
        """Begins with a file that wasn't seen before: an edition's own file, a page, or a stray."""
        name = found.name.partition(b"/")[2]
        try:
            own = take.read_small(folder, found, EDITION_FILE) if name == OWN else None
        except take.Changed:
            return
        except take.NotTaken as error:
            pages.unfit(self.book, Unfit(found.edition, found.name, found.stamp, str(error)))
            return
        if self.is_cancelled(found.edition):
            why = f"{found.edition} is cancelled"
            self.own_read.add(found.stamp)
            if not pages.is_seen(self.book, found.stamp):
                pages.unfit(self.book, Unfit(found.edition, found.name, found.stamp, why))
            return
        edition = self.edition_of(found.edition, own)
        if edition is None:
            return
        if own is not None:
            self.own_file(edition, found, own)
            return
        if found.edition in self.other_day:
            pages.unfit(
                self.book, Unfit(found.edition, found.name, found.stamp, self.other_day[found.edition])
            )
            return
        self.take_page(folder, found, edition, name)

    def edition_of(self, name: str, own: bytes | None) -> int | None:
        """Returns the row of a folder's edition, which begins if it wasn't known; None where it can't begin."""
        row = self.book.journal.row("SELECT id FROM edition WHERE name = ? AND state <> 'closed'", name)
        if row is not None:
            return int(row["id"])
        now = self.houses.now()
        if now is None:
            return None
        try:
            text = None if own is None else own.decode("utf-8")
            planned = self.houses.editions.planned(now[1], text, name)
        except (self.houses.editions.Fault, UnicodeDecodeError, OSError) as error:
            self.refuse(name, f"{name}: {error}")
            return None
        self.told.pop(name, None)
        return begin.begin(self.book, planned, now[0], text)

    def is_cancelled(self, name: str) -> bool:
        sql = "SELECT 1 FROM edition WHERE name = ? AND state = 'cancelled'"
        return self.book.journal.value(sql, name) is not None

    def refuse(self, name: str, fault: str) -> None:
        """Tells once why an edition can't begin as it is."""
        if self.told.get(name, ("", 0.0))[0] != fault:
            self.told[name] = fault, self.book.now()
            with self.book.journal.transaction():
                self.book.tell("edition_refused", fault=shown(fault))

    def own_file(self, edition: int, found: Found, own: bytes) -> None:
        """Compares an edition's own file with the one by which it began. A different one is told, and applied by a
        command alone; pages beside one of another date aren't taken."""
        row = self.book.journal.row("SELECT name, day, toml FROM edition WHERE id = ?", edition)
        assert row is not None
        if row["toml"] is not None and row["toml"].encode() == own:
            self.other_day.pop(row["name"], None)
            self.told.pop(row["name"], None)
            self.enter_own(edition, found)
            return
        try:
            day = self.houses.editions.planned(self.houses.of(edition), own.decode("utf-8"), row["name"]).date
        except (self.houses.editions.Fault, UnicodeDecodeError, OSError) as error:
            self.refuse(row["name"], f"{row['name']}/edition.toml: {error}")
            return
        self.told.pop(row["name"], None)
        self.own_read.add(found.stamp)
        if day != row["day"]:
            self.other_day[row["name"]] = f"for {day}, and {row['name']} of {row['day']} is under way"
        if pages.is_seen(self.book, found.stamp):
            return
        with self.book.journal.transaction():
            pages.see(self.book, found.stamp, edition, found.name, "same")
            self.book.tell("changed", edition=row["name"], day=day)

    def enter_own(self, edition: int, found: Found) -> None:
        """Notes that an edition's own file was read."""
        self.own_read.add(found.stamp)
        if pages.is_seen(self.book, found.stamp):
            return
        with self.book.journal.transaction():
            pages.see(self.book, found.stamp, edition, found.name, "same")

    def take_page(self, folder: str, found: Found, edition: int, name: bytes) -> None:
        """Begins to copy a page, or tells that it is none of this edition."""
        try:
            house = self.houses.of(edition)
        except houses.Unreadable as error:
            self.wait(found, error)
            return
        page = self.houses.editions.place_of(house, houses.planned_of(self.book, edition), name)
        if page is None:
            pages.stray(self.book, edition, found)
            return
        newer = self.newer(house, edition, page, name)
        if newer is not None:
            why = f"not used: {shown(newer)} has a higher version"
            pages.unfit(self.book, Unfit(found.edition, found.name, found.stamp, why))
            return
        job = self.folders.next_job(self.book.journal.epoch)
        try:
            os.mkdir(self.folders.path("making", job), 0o700)
        except OSError as error:
            self.wait(found, error)
            return
        steps = take.copy(folder, found, self.folders.path("making", job, "page"), self.folders.path("store"))
        self.copying = Copying(folder, found, edition, page, job, self.book.uptime(), steps)

    def newer(self, house: Any, edition: int, page: PageKey, name: bytes) -> bytes | None:
        """Returns the file of a page that has a higher version in its name than this one and isn't refused, or None."""
        last = pages.in_force(self.book, edition, page)
        if last is None:
            return None
        plan, version_of = houses.planned_of(self.book, edition), self.houses.editions.version_of
        before = version_of(house, plan, last.partition(b"/")[2])
        return last if before > version_of(house, plan, name) else None

    def copy_on(self, copying: Copying) -> None:
        """Copies the next chunk, and enters the page when it is in the store."""
        try:
            next(copying.steps)
            return
        except StopIteration as end:
            taken: Taken = end.value
            seen = self.quiet.get(copying.found.stamp, copying.began)
            times = copying.began - seen, self.book.uptime() - copying.began
            pages.arrived(self.book, copying.edition, copying.page, copying.found, taken, *times)
            self.clear(copying.folder, copying.found)
        except take.Changed:
            pass
        except take.NotTaken as error:
            found = copying.found
            pages.unfit(self.book, Unfit(found.edition, found.name, found.stamp, str(error)))
        except OSError as error:
            self.wait(copying.found, error)
        self.copying = None
        self.folders.discard(copying.job)

    def wait(self, found: Found, error: OSError) -> None:
        """Enters that a page can't be taken now, which is the machine's fault."""
        with self.book.journal.transaction():
            about = {"edition": found.edition, "file": shown(found.name)}
            pauses.enter(self.book, "take", found.stamp, "machine", str(error.strerror), **about)

    def clear(self, folder: str, found: Found) -> None:
        """Removes a page that is in the store from where it came. What isn't a page stays where it is."""
        result = self.book.journal.value("SELECT result FROM look_in WHERE stamp = ?", found.stamp)
        in_grab = folder != self.folders.path("in")
        is_own = found.name.endswith(b"/" + OWN)
        if found.stamp in self.kept or (not in_grab and (is_own or result not in ("page", "same"))):
            return
        self.grabs += 1
        said = clear.clear(folder, found, self.folders.path("grab", str(self.grabs)))
        if said.startswith("kept"):
            self.kept.add(found.stamp)
            with self.book.journal.transaction():
                self.book.tell(
                    "unfit",
                    edition=found.edition,
                    file=shown(found.name),
                    why=f"can't be removed: {said[6:]}",
                )

    def close(self) -> None:
        """Ends the copy that is under way."""
        if self.copying is not None:
            self.copying.steps.close()
            self.copying = None
