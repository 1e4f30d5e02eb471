"""Tasks: what the service does with one job, from its request to the transaction that enters its answer.

A task is begun, asked again where a job has more than one step, and ended once. Whatever a job dies of, the task ends by
`failed`, which is this machine's or the network's fault and never the page's.
"""
import os
from collections.abc import Iterable
from dataclasses import dataclass
from typing import Any, Protocol

from pressroom.night import answers, due, houses, making, moves, pages, pauses, versions
from pressroom.night.book import Book
from pressroom.night.folders import Folders
from pressroom.night.records import OUTPUTS, Job, Kind
from pressroom.night.scheduler import LookWork, Looks, PageWork, PlatesWork, SendWork, WholeWork


@dataclass
class Room:
    """What all tasks use."""

    book: Book
    folders: Folders
    houses: houses.Houses
    looks: Looks

    def next_job(self) -> str:
        return self.folders.next_job(self.book.journal.epoch)


class Task(Protocol):
    """One job's work. `kind` is that of its runner, `key` what no other task may work on at the same time."""

    kind: Kind
    key: str

    def begin(self, job: Job) -> bool:
        """Asks the job; raises OSError, the machine's fault. Returns whether there was anything to ask."""

    def answered(self, job: Job, answer: dict[str, Any]) -> bool:
        """Takes an answer. Returns whether the job is done; otherwise it was asked again."""

    def failed(self, why: str, limit: bool) -> None:
        """Enters that the job ended without a verdict. `limit`: it passed a limit of its own."""


class PageTask:
    """A page goes to intake: its bytes, house file and profile as handles, and outputs that it may only write."""

    kind: Kind = "page"

    def __init__(self, room: Room, work: PageWork):
        self.room, self.work, self.key = room, work, work.key
        self.name = room.next_job()

    def begin(self, job: Job) -> bool:
        room, handles = self.room, []
        try:
            handles.append(os.open(room.folders.path("store", self.work.sha), os.O_RDONLY | os.O_CLOEXEC))
            row = room.houses.row_of(self.work.edition)
            handles.append(memory("house", room.houses.text(row).encode()))
            handles.append(profile_of(room.houses.get(row)))
            folder = room.folders.path("making", self.name)
            os.mkdir(folder, 0o700)
            flags = os.O_WRONLY | os.O_CREAT | os.O_EXCL | os.O_CLOEXEC
            for number in range(OUTPUTS):
                handles.append(os.open(os.path.join(folder, f"{number:02}.tif"), flags, 0o600))
            suffix = room.book.journal.value("SELECT kind FROM blob WHERE sha = ?", self.work.sha)
            page = room.book.page_name(self.work.place)
            job.ask({"kind": "page", "suffix": suffix, "page": page}, handles)
        finally:
            for handle in handles:
                os.close(handle)
        return True

    def answered(self, job: Job, answer: dict[str, Any]) -> bool:
        job.stop()  # Nothing may write to the outputs from here on.
        if answer.get("verdict") == "accepted":
            self.accepted(answer)
        elif answer.get("verdict") == "refused":
            self.room.folders.discard(self.name)
            pages.refused(self.room.book, self.work.sha, self.work.settings, answers.fault(answer))
        else:
            why = answers.why(answer, "why")
            self.failed(why, why.startswith("limit: "))
        return True

    def accepted(self, answer: dict[str, Any]) -> None:
        """Keeps the outputs that the layers use, syncs them, and enters the verdict."""
        inks, layers, used = answers.layers(answer, self.name)
        notes, seconds = answers.notes(answer), answers.seconds(answer)
        folder = self.room.folders.path("making", self.name)
        for number in range(OUTPUTS):
            path = os.path.join(folder, f"{number:02}.tif")
            if number not in used:
                os.unlink(path)
                continue
            answers.need(os.stat(path).st_size > 0, "an empty output")
            sync_file(path)
        self.room.folders.settle(self.name, "renders")
        pages.accepted(
            self.room.book, self.work.sha, self.work.settings, self.name, inks, layers, notes, seconds
        )

    def failed(self, why: str, limit: bool) -> None:
        self.room.folders.discard(self.name)
        pages.failed(self.room.book, self.work.sha, self.work.settings, "limit" if limit else "machine", why)


class PlatesTask:
    """A pair's plates are made from its two renders, and verified by the job."""

    kind: Kind = "plates"

    def __init__(self, room: Room, work: PlatesWork):
        self.room, self.work, self.key = room, work, work.key
        self.name = room.next_job()

    def begin(self, job: Job) -> bool:
        room, work = self.room, self.work
        planned = houses.planned_of(room.book, work.edition)
        row = room.book.journal.row(
            "SELECT p.section, p.number, s.name AS site FROM pair p JOIN site s ON s.id = p.site WHERE p.id = ?",
            work.pair,
        )
        assert row is not None
        wanted = row["site"], row["section"], row["number"]
        pair = next(pair for pair in planned.pairs if (pair.site, pair.section, pair.number) == wanted)
        renders = houses.render_of(room.book, work.left), houses.render_of(room.book, work.right)
        house = room.houses.of(work.edition)
        blank, plan = room.houses.editions.pair_plan(house, planned, pair, *renders)
        out = room.folders.path("making", self.name)
        job.ask(
            {
                "kind": "plates",
                "blank": blank,
                "plan": plan,
                "files": room.folders.path("renders"),
                "out": out,
            }
        )
        return True

    def answered(self, job: Job, answer: dict[str, Any]) -> bool:
        if "made" not in answer:
            self.failed(answers.why(answer, "why"), False)
            return True
        made, empty, sums = answers.plates(answer)
        there = set(os.listdir(self.room.folders.path("making", self.name)))
        answers.need(there == {*made, "SHA256SUMS"}, f"files {sorted(there)}")
        self.room.folders.settle(self.name, "plates")
        key = (self.work.left, self.work.right, self.work.making)
        seconds = answers.seconds(answer), answers.seconds(answer, "verify")
        making.made(self.room.book, *key, self.name, sums, made, empty, *seconds)
        return True

    def failed(self, why: str, limit: bool) -> None:
        self.room.folders.discard(self.name)
        making.failed(self.room.book, self.work.left, self.work.right, self.work.making, why)


class WholeTask:
    """All plates of a site are verified together before its COMPLETE."""

    kind: Kind = "plates"

    def __init__(self, room: Room, work: WholeWork):
        self.room, self.work, self.key = room, work, work.key

    def begin(self, job: Job) -> bool:
        room, work = self.room, self.work
        site = room.book.journal.value("SELECT name FROM site WHERE id = ?", work.site)
        planned, renders, paths = houses.planned_of(room.book, work.edition), {}, {}
        for row in room.book.journal.rows(
            "SELECT n.left, n.right, p.section, p.number, f.id, f.folder FROM pair_now n JOIN pair p ON p.id = n.pair"
            " JOIN plates f ON f.id = n.plates WHERE n.site = ?",
            work.site,
        ):
            wanted = (site, row["section"], row["number"])
            pair = next(pair for pair in planned.pairs if (pair.site, pair.section, pair.number) == wanted)
            for key, number in ((pair.left, row["left"]), (pair.right, row["right"])):
                render = houses.render_of(room.book, number)
                if render is not None:
                    renders[key] = render
            for name in due.plates_of(room.book, row["id"]):
                paths[name] = room.folders.path("plates", row["folder"], name)
        plan = room.houses.editions.whole_plan(room.houses.of(work.edition), planned, site, renders)
        job.ask(
            {
                "kind": "whole",
                "plan": plan,
                "files": room.folders.path("renders"),
                "site": site,
                "plates": paths,
            }
        )
        return True

    def answered(self, job: Job, answer: dict[str, Any]) -> bool:
        if answer.get("same") is True:
            versions.whole(self.room.book, self.work.site, self.work.list)
        else:
            self.failed(answers.why(answer, "why"), False)
        return True

    def failed(self, why: str, limit: bool) -> None:
        making.not_whole(self.room.book, self.work.site, why)


class SendTask:
    """A version goes to its site: plates and SHA256SUMS, then `leaving` by the journal's guard, then READY."""

    kind: Kind = "send"

    def __init__(self, room: Room, work: SendWork):
        self.room, self.work, self.key, self.left = room, work, work.key, False

    def request(self, kind: str, **more: Any) -> dict[str, Any]:
        method = method_of(self.room, self.work.edition, self.work.site)
        return {"kind": kind, "site": self.work.site, "method": method, **more}

    def begin(self, job: Job) -> bool:
        book = self.room.book
        versions.sending(book, self.work.version)
        row = moves.get(book, self.work.version)
        if row["kind"] == "complete":
            return self.leave(job, 0.0)
        names = list(due.plates_of(book, row["plates"]))
        if row["kind"] == "resend":
            names = versions.words_of(row["ready"], "expose")
        source = self.room.folders.path(
            "plates", book.journal.value("SELECT folder FROM plates WHERE id = ?", row["plates"])
        )
        sums = due.sums_text(book, row["plates"], names)
        job.ask(self.request("plates", folder=row["folder"], source=source, names=names, sums=sums))
        return True

    def leave(self, job: Job, seconds: float) -> bool:
        """Takes the last step before READY: the plates were sent in `seconds`. Returns whether the version may leave."""
        if not versions.leaving(self.room.book, self.work.version, seconds):
            return False
        self.left = True
        row = moves.get(self.room.book, self.work.version)
        job.ask(self.request("ready", folder=row["folder"], text=row["ready"]))
        return True

    def answered(self, job: Job, answer: dict[str, Any]) -> bool:
        if answer.get("there") is not True:
            fault = "machine" if answer.get("network") is False else "network"
            versions.failed(
                self.room.book, self.work.version, answers.why(answer, "failed", "unsure", "why"), fault
            )
            return True
        if not self.left:
            return not self.leave(job, answers.seconds(answer))
        kept = answer.get("kept") is True
        versions.sent(self.room.book, self.work.version, kept, answers.seconds(answer))
        return True

    def failed(self, why: str, limit: bool) -> None:
        versions.failed(self.room.book, self.work.version, why)


class LookTask:
    """A site is asked which of its folders have READY."""

    kind: Kind = "send"

    def __init__(self, room: Room, work: LookWork):
        self.room, self.work, self.key = room, work, work.key
        self.began = room.book.uptime()

    def begin(self, job: Job) -> bool:
        rows = [moves.get(self.room.book, number) for number in self.work.versions]
        expected = {row["folder"]: row["ready"] for row in rows}
        method = method_of(self.room, self.work.edition, self.work.site)
        job.ask({"kind": "look", "site": self.work.site, "method": method, "expected": expected})
        return True

    def answered(self, job: Job, answer: dict[str, Any]) -> bool:
        seen, acked = answer.get("seen"), answer.get("acked", [])
        if not isinstance(seen, dict):
            self.fail(
                answers.why(answer, "failed", "why"),
                "machine" if answer.get("network") is False else "network",
            )
            return True
        timeout = timeout_of(self.room, self.work.edition, self.work.site)
        acks = [name for name in acked if isinstance(name, str)]
        versions.looked(self.room.book, self.work.site, self.work.versions, seen, acks, self.began, timeout)
        self.room.looks.saw(self.work.site, self.work.versions, self.began)
        return True

    def failed(self, why: str, limit: bool) -> None:
        self.fail(why, "network")

    def fail(self, why: str, fault: str) -> None:
        self.room.looks.forget(self.work.site)
        with self.room.book.journal.transaction():
            pauses.enter(self.room.book, "site", self.work.site, fault, why, site=self.work.site)


def method_of(room: Room, edition: int, site: str) -> dict[str, Any]:
    """Returns the way to a site: its delivery, or the folder out/SITE, from which a site fetches."""
    method = room.houses.editions.method(room.houses.of(edition), site)
    if method is not None:
        return method
    return {"name": "folder", "target": room.folders.path("out", site), "make": True}


def timeout_of(room: Room, edition: int, site: str) -> float:
    """Returns the seconds after which no READY of a killed job can appear any more, without the margin."""
    value = method_of(room, edition, site).get("timeout")
    return float(value) if isinstance(value, (int, float)) else 0.0


def profile_of(house: Any) -> int:
    """Returns a handle on a house's profile, or on nothing."""
    path = house.house.profile
    return os.open(path, os.O_RDONLY | os.O_CLOEXEC) if path else memory("profile", b"")


def memory(name: str, data: bytes) -> int:
    """Returns a handle on bytes in memory."""
    handle = os.memfd_create(name, os.MFD_CLOEXEC)
    view = memoryview(data)
    while view:
        view = view[os.write(handle, view) :]
    os.lseek(handle, 0, os.SEEK_SET)
    return handle


def sync_file(path: str) -> None:
    """Syncs a file."""
    handle = os.open(path, os.O_RDONLY | os.O_CLOEXEC)
    try:
        os.fsync(handle)
    finally:
        os.close(handle)


def longest_timeout(room: Room, editions: Iterable[int]) -> float:
    """Returns the longest timeout of the sites of editions."""
    found = [0.0]
    for edition in editions:
        for row in room.book.journal.rows("SELECT name FROM site WHERE edition = ?", edition):
            try:
                found.append(timeout_of(room, edition, row["name"]))
            except houses.Unreadable:
                continue
    return max(found)
