"""One version of an edition in progress: checks its plans, makes and verifies plates, marks sites READY, and
writes the report.

`make` runs the plans, `late` makes what changed; each passes in how plates come into a version's folder.
"""
import json
import os
import tempfile
import time
from collections.abc import Callable, Iterator
from typing import Any, TypedDict

from pressroom.base import disk, runs
from pressroom.base.console import Console, fault_of
from pressroom.plans.plan_reader import Plan
from pressroom.plans.ring import ring_of
from pressroom.versions.version import REPORT, Version

ALL_READY, SOME_NOT_READY, CANT_BEGIN, PLAN_REFUSED, FILE_REFUSED, OTHER_WORKS = range(6)


class Changed(TypedDict, total=False):
    """What READY says of a change: the version before, and the plates that changed since."""

    since: str
    made: list[str]


class SiteResult(TypedDict):
    """What the report says of a site."""

    press: str
    plates: int
    retried: bool
    ready: bool
    why: str


Plates = Callable[[Plan, list[str]], runs.Call]
Changes = Callable[[str], Changed]


class Refused(Exception):
    """The edition can't be made: the status, and the lines that say why."""

    def __init__(self, status: int, lines: list[str]) -> None:
        super().__init__("\n".join(lines))
        self.status, self.lines = status, lines


class Job:
    """A version, the program, and the results of its presses and sites so far."""

    def __init__(self, version: Version, program: str, console: Console) -> None:
        self.version, self.program, self.console = version, program, console
        self.seconds = runs.Seconds()
        # What is known of each press and site, for the report.
        self.presses: dict[str, dict[str, object]] = {}
        self.sites: dict[str, SiteResult] = {}
        self.wrong: dict[str, str] = {}
        self.notes: list[dict[str, Any]] = []
        self.begun = time.strftime("%Y-%m-%dT%H:%M:%SZ", time.gmtime())
        self.scratch = tempfile.TemporaryDirectory(prefix="pressroom-")

    def pass_on(self, notes: list[dict[str, Any]]) -> None:
        """Reports the notes of the intake that made WORK, and keeps them for the report."""
        self.notes = notes
        tell_notes(self.console, notes)

    def check(self) -> list[Plan]:
        """Returns the plans if the program accepts all of them with their files; otherwise raises Refused."""
        plans, status = self.version.plans(), 0
        lines: list[str] = []
        with self.seconds.of("check"):
            for plan in plans:
                words = ["--program", self.program, self.source(plan), self.version.files]
                answer = runs.call(runs.command("check", *words))
                found = [line for line in answer.lines if line.startswith(("fault: ", "plateroom: "))]
                notes = [line for line in answer.lines if line.startswith("note: ")]
                self.presses[plan.name] = {"faults": found, "notes": notes}
                if answer.status not in (0, 1):
                    lines += [f"{plan.name}: {line}" for line in found or [answer.note]]
                    status = status or (answer.status if answer.status in (3, 4) else CANT_BEGIN)
        if not status:
            lines = [
                f"site {site} is in the plans {first} and {second}" for site, first, second in twice(plans)
            ]
            status = PLAN_REFUSED if lines else 0
        if status:
            raise Refused(status, lines)
        return plans

    def source(self, plan: Plan) -> str:
        """The path of a plan of this version."""
        return os.path.join(self.version.source, f"{plan.name}.json")

    def plan_file(self, plan: Plan, sites: list[str]) -> str:
        """The path of the plan of these sites alone."""
        if set(sites) == set(plan.sites()):
            return self.source(plan)
        path = os.path.join(self.scratch.name, f"{plan.name}.json")
        disk.write_whole(path, plan.alone(sites))
        return path

    def begin_bar(self, plans: list[Plan]) -> None:
        """Begins the progress bar of finished plates."""
        sites = [(plan, site) for plan in plans for site in plan.sites()]
        self.bar = self.console.gauge("plates", sum(len(plan.plates(site)) for plan, site in sites))
        self.done = runs.Done(self.bar, [self.version.file(site) for _, site in sites])

    def run(self, plan: Plan, sites: list[str], keys: int = 0) -> runs.Call:
        """Runs a plan for these sites into the version's folder."""
        path = self.plan_file(plan, sites)
        words = ["keys"] if keys else ["run"]
        words += [path, self.version.files, self.version.path] + [str(keys)] * bool(keys)
        words.append(str(ring_of(plan.shape(), len(sites) + bool(keys))))
        with self.seconds.of("run"):
            return runs.call([self.program, *words], self.done.look)

    def press(self, plan: Plan, sites: list[str], plates: Plates, changes: Changes | None = None) -> None:
        """Makes the plates of a press by `plates(plan, sites)`, verifies them, tries each site once more
        that isn't right, and makes the right ones READY. `changes(site)` gives the words of READY on what
        changed."""
        answer = plates(plan, sites)
        self.note_press(plan, answer)
        finished = [site for site in sites if site in answer.finished()]
        right = self.verify(plan, finished)
        for site in sites:
            why = "" if site in right else self.wrong.get(site) or answer.why(site)
            entry: SiteResult = {
                "press": plan.name,
                "plates": len(plan.plates(site)),
                "retried": bool(why),
                "ready": False,
                "why": why,
            }
            self.sites[site] = entry
            if why:
                why = self.retry(plan, site, why)
            if not why:
                why = self.make_ready(plan, site, changes(site) if changes and not entry["retried"] else {})
            entry["ready"], entry["why"] = not why, why
            fields: dict[str, object] = {"site": site, "plates": entry["plates"]}
            if why:
                self.console.tell("fault", f"site {site} isn't READY: {why}", **fields, why=why)
            else:
                self.console.tell("ready", f"site {site}, {entry['plates']} plates", **fields)

    def note_press(self, plan: Plan, answer: runs.Call) -> None:
        """Records what the program printed for a press."""
        told: dict[str, object] = {"status": answer.status, "lines": answer.lines, "refusal": answer.note}
        self.presses.setdefault(plan.name, {}).update(told)
        try:
            text = "".join(f"{line}\n" for line in answer.lines).encode()
            disk.write_whole(self.version.file(f"{plan.name}.report"), text)
        except OSError as error:
            self.console.tell("fault", f"{plan.name}.report can't be written: {error.strerror}")

    def verify(self, plan: Plan, sites: list[str]) -> set[str]:
        """Which of these sites have all plates, byte for byte. `wrong` then says what the others lack."""
        self.wrong = {}
        with self.seconds.of("verify"):
            if not sites or self.is_same(plan, sites):
                return set(sites)
            if len(sites) == 1:
                return set()
            return {site for site in sites if self.is_same(plan, [site])}

    def is_same(self, plan: Plan, sites: list[str]) -> bool:
        """Whether `verify` accepts all plates of these sites."""
        words = ["verify", self.plan_file(plan, sites), self.version.files, self.version.path]
        answer = runs.call([self.program, *words])
        if answer.status and len(sites) == 1:
            self.wrong[sites[0]] = "verify: " + (answer.lines[0] if answer.lines else answer.why(sites[0]))
        return answer.status == 0

    def retry(self, plan: Plan, site: str, why: str) -> str:
        """Makes one site again from the start, alone, since disks recover. Returns why it still isn't right,
        or nothing."""
        self.console.tell("retry", f"site {site} alone: {why}", site=site, why=why)
        try:
            disk.remove(self.version.file(site))
            answer = self.run(plan, [site])
        except OSError as error:
            return fault_of(error)
        if site not in answer.finished():
            return answer.why(site)
        return "" if self.verify(plan, [site]) else self.wrong[site]

    def make_ready(self, plan: Plan, site: str, changed: Changed) -> str:
        """Writes SHA256SUMS and READY. Returns why they couldn't be written, or nothing."""
        with self.seconds.of("sums"):
            try:
                self.version.ready(site, plan.plates(site), plan.form["edition"], **changed)
            except OSError as error:
                return fault_of(error)
        return ""

    def end(self, plans: list[Plan]) -> int:
        """Moves `current` when all sites are READY, writes the report, and returns the status."""
        self.bar.close()
        all_ready = all(self.sites[site]["ready"] for plan in plans for site in plan.sites())
        status = ALL_READY if all_ready else SOME_NOT_READY
        counts = {
            "pages": sum(len(plan.form["pages"]) for plan in plans),
            "plates": sum(site["plates"] for site in self.sites.values() if site["ready"]),
        }
        try:
            self.write_report(status, **counts)
            if all_ready:
                self.version.make_current()
        except OSError as error:
            self.console.tell("fault", fault_of(error))
            return SOME_NOT_READY
        ready = sum(site["ready"] for site in self.sites.values())
        text = f"{self.version.path}: {ready} of {len(self.sites)} sites READY, {counts['plates']} plates"
        self.console.tell(
            "done", text, version=self.version.name, status=status, seconds=self.seconds.by_step, **counts
        )
        return status

    def refuse(self, refused: Refused) -> int:
        """Prints why the edition isn't made, keeps only the report, and returns the status."""
        for line in refused.lines:
            self.console.tell("fault", line)
        self.version.drop_source()
        self.write_report(refused.status, refused=refused.lines)
        return refused.status

    def write_report(self, status: int, **more: object) -> None:
        """Writes report.json."""
        plans = {"presses": self.presses, "sites": self.sites, "seconds": self.seconds.by_step}
        plans["notes"] = self.notes
        report = {"version": self.version.name, "begun": self.begun, "status": status, **more, **plans}
        text = json.dumps(report, indent=1, ensure_ascii=False) + "\n"
        disk.write_whole(self.version.file(REPORT), text.encode())


def tell_notes(console: Console, notes: list[dict[str, Any]]) -> None:
    """Reports notes as `notes_of` returns them."""
    for note in notes:
        fields = {key: value for key, value in note.items() if key not in ("text", "event")}
        console.tell("note", note["text"], **fields)


def twice(plans: list[Plan]) -> Iterator[tuple[str, str, str]]:
    """Each site that two plans have, with the names of both."""
    first: dict[str, str] = {}
    for plan in plans:
        for site in plan.sites():
            if site in first:
                yield site, first[site], plan.name
            first[site] = plan.name
