"""Makes the plates of pages that came late, as a new READY version of the whole edition. The version before is
unchanged: plates that didn't change are hard links to its own."""
import argparse
import os

from pressroom.base import disk, runs
from pressroom.base.console import Console, fault_of
from pressroom.intake.state import notes_of
from pressroom.plans.plan_reader import Plan, plans_of
from pressroom.versions import version
from pressroom.versions.job import (
    tell_notes,
    ALL_READY,
    CANT_BEGIN,
    FILE_REFUSED,
    OTHER_WORKS,
    PLAN_REFUSED,
    Changed,
    Job,
    Refused,
)

FRESH = "fresh.parts"


def late(work: str, out: str, console: Console, program: str) -> tuple[int, version.Version | None]:
    """Makes a version of WORK from what changed since OUT/current. Returns the status and the current
    version."""
    try:
        with disk.Lock(os.path.join(out, version.LOCK)):
            old = version.current(out)
            if old is None:
                console.tell("fault", f"{out} has no version that is READY: begin with pressroom make")
                return CANT_BEGIN, None
            return late_locked(work, out, old, console, program)
    except disk.Busy:
        console.tell("fault", f"another make or late works in {out}")
        return OTHER_WORKS, None


def late_locked(
    work: str, out: str, old: version.Version, console: Console, program: str
) -> tuple[int, version.Version]:
    """The same, under the lock of OUT."""
    new = version.begin(out)
    new.take(work)
    if new.taken_sums() == old.taken_sums():
        disk.remove(new.path)
        tell_notes(console, notes_of(work))
        console.tell("done", f"nothing changed since {old.path}", version=old.name, status=ALL_READY)
        return ALL_READY, old
    job = Job(new, program, console)
    console.tell("begin", f"{new.path} beside {old.path}", version=new.name, since=old.name)
    job.pass_on(notes_of(work))
    try:
        plans = job.check()
    except Refused as refused:
        return job.refuse(refused), new
    before = {plan.name: plan for plan in old.plans()} if old.source_kept() else {}
    job.begin_bar(plans)
    for plan in plans:
        changes = Changes(job, old, before.get(plan.name))
        job.press(plan, plan.sites(), changes.plates, changes.of)
    return job.end(plans), new


class Changes:
    """Makes the plates of a press in a version from what changed since another version."""

    def __init__(self, job: Job, old: version.Version, old_plan: Plan | None) -> None:
        self.job, self.old, self.old_plan = job, old, old_plan
        self.made: dict[str, list[str]] = {}
        self.fresh = job.version.file(FRESH)

    def plates(self, plan: Plan, sites: list[str]) -> runs.Call:
        """Makes the plates that changed, and links the others. Without the old plan it makes all."""
        if self.old_plan is None:
            return self.job.run(plan, sites)
        old = os.path.join(self.old.source, f"{plan.name}.json"), self.old.files
        words = ["replate", *old, self.job.plan_file(plan, sites), self.job.version.files, self.fresh]
        with self.job.seconds.of("run"):
            answer = runs.call([self.job.program, *words], self.job.done.look)
        for site in answer.finished():
            try:
                self.join(plan, site)
            except OSError as error:
                # `verify` then names the missing plates.
                self.job.console.tell("fault", fault_of(error), site=site)
        disk.remove(self.fresh)
        return answer

    def join(self, plan: Plan, site: str) -> None:
        """Moves a site's new plates into its folder, by their names, and links the old ones of all other
        names."""
        folder, fresh = self.job.version.file(site), os.path.join(self.fresh, site)
        os.makedirs(folder, exist_ok=True)
        made = []
        for name in plan.plates(site):
            if os.path.exists(os.path.join(fresh, name)):
                os.rename(os.path.join(fresh, name), os.path.join(folder, name))
                made.append(name)
            else:
                disk.link_or_copy(self.old.file(site, name), os.path.join(folder, name))
        disk.sync_folder(folder)
        self.made[site] = made

    def of(self, site: str) -> Changed:
        """What READY says of a site: the version before, and the plates that changed since."""
        return {"since": self.old.name, "made": self.made[site]} if site in self.made else {}


class Placed:
    """Files that replaced others. The old ones are kept until the new ones are accepted."""

    def __init__(self, work: str) -> None:
        self.kept = os.path.join(work, ".before")
        self.before: list[tuple[str, str | None]] = []
        # The folders that were made for them, outermost first.
        self.made: list[str] = []

    def put(self, source: str, target: str) -> None:
        """Puts a copy of a file at a path, in place of a file there, if any."""
        old: str | None = os.path.join(self.kept, str(len(self.before)))
        if old and os.path.exists(target):
            os.makedirs(self.kept, exist_ok=True)
            disk.remove(old)
            disk.link_or_copy(target, old)
        else:
            old = None
        self.before.append((target, old))
        missing, folder = [], os.path.dirname(os.path.abspath(target))
        while not os.path.isdir(folder):
            missing.append(folder)
            folder = os.path.dirname(folder)
        self.made += reversed(missing)
        disk.copy_whole(source, target)

    def undo(self) -> None:
        """Puts the old files back."""
        for target, old in reversed(self.before):
            if old is None:
                disk.remove(target)
            else:
                disk.copy_whole(old, target)
        for folder in reversed(self.made):
            if os.path.isdir(folder) and not os.listdir(folder):
                os.rmdir(folder)
        self.forget()

    def forget(self) -> None:
        """Removes what is kept."""
        disk.remove(self.kept)


def take_pages(words: argparse.Namespace, console: Console, placed: Placed) -> int:
    """Takes the pages into WORK. Returns 0, or the status of what is wrong with them."""
    plans = plans_of(words.work)
    files = {name for plan in plans for name in plan.files()}
    for page in words.pages:
        name = os.path.relpath(page, words.base) if words.base else os.path.basename(page)
        if name.endswith(".json") and name.removesuffix(".json") in {plan.name for plan in plans}:
            placed.put(page, os.path.join(words.work, name))
        elif words.into:
            placed.put(page, os.path.join(words.into, name))
        elif name in files:
            placed.put(page, os.path.join(words.work, "files", name))
        else:
            console.tell("fault", f"{page}: no plan of {words.work} has a file {name}")
            return CANT_BEGIN
    if not words.into:
        return 0
    answer = runs.call(runs.command("intake", words.house, words.into, words.work))
    for line in [*answer.lines, *answer.note.splitlines()]:
        # The notes of an intake that ends with 0 are reported with the version that is made of it.
        if answer.status or not line.startswith("note: "):
            console.tell("intake", line)
    return 0 if answer.status == 0 else FILE_REFUSED


def take_and_make(words: argparse.Namespace, console: Console, program: str) -> int:
    """Takes the pages and makes the version; where one is refused, the old pages come back."""
    placed = Placed(words.work)
    status = CANT_BEGIN
    try:
        status = take_pages(words, console, placed)
        if status == 0:
            status = late(words.work, words.out, console, program)[0]
    finally:
        if status in (CANT_BEGIN, PLAN_REFUSED, FILE_REFUSED, OTHER_WORKS):
            placed.undo()
        else:
            placed.forget()
    return status
