"""The versions of an edition: OUT has a folder DATE-TIME for each time that plates were made, and a link
`current`.

A version holds, with names that no site can have:

    SITE/                 the plates of a site; SHA256SUMS and then READY, when all are verified
    made-from/            the plans and files that it was made of, by hard links, with their SHA256SUMS
    PRESS.report          what the program printed for a press
    report.json           the result of each press and site, faults, and seconds by step
"""
import calendar
import os
import re
import time
from collections.abc import Iterable

from pressroom.base import disk
from pressroom.plans.plan_reader import Plan, plans_of

FORM = "%Y%m%d-%H%M%S"
CURRENT, LOCK, SOURCE, SUMS, READY, REPORT = (
    "current",
    ".lock",
    "made-from",
    "SHA256SUMS",
    "READY",
    "report.json",
)


def versions(out: str) -> list[str]:
    """The names of the versions of OUT, in the order in which they were begun."""
    if not os.path.isdir(out):
        return []
    return sorted(name for name in os.listdir(out) if re.fullmatch(r"\d{8}-\d{6}", name))


def current(out: str) -> "Version | None":
    """The version to which `current` leads, or None."""
    try:
        name = os.readlink(os.path.join(out, CURRENT))
    except OSError:
        return None
    return Version(out, name) if name in versions(out) else None


def begin(out: str) -> "Version":
    """Makes the folder of a new version. Its name is later than all others, also where the clock went
    back."""
    now = time.time()
    for name in versions(out)[-1:]:
        now = max(now, calendar.timegm(time.strptime(name, FORM)) + 1)
    while True:
        name = time.strftime(FORM, time.gmtime(now))
        try:
            os.mkdir(os.path.join(out, name))
            return Version(out, name)
        except FileExistsError:
            now += 1


def sums_text(sums: dict[str, str]) -> bytes:
    """The lines of `sha256sum` for these names and sums."""
    return "".join(f"{digest}  {name}\n" for name, digest in sorted(sums.items())).encode()


class Version:
    """One folder DATE-TIME of OUT."""

    def __init__(self, out: str, name: str) -> None:
        self.out, self.name, self.path = out, name, os.path.join(out, name)
        self.source = self.file(SOURCE)
        self.files = os.path.join(self.source, "files")

    def file(self, *names: str) -> str:
        """The path of a file of this version."""
        return os.path.join(self.path, *names)

    def plans(self) -> list[Plan]:
        """The plans that it was made from."""
        return plans_of(self.source)

    def take(self, work: str) -> None:
        """Links the plans of WORK and the files that they name, so that later arrivals change nothing
        here."""
        os.makedirs(self.files)
        for plan in plans_of(work):
            disk.write_whole(os.path.join(self.source, f"{plan.name}.json"), plan.text)
            for name in plan.files():
                source, target = os.path.join(work, "files", name), os.path.join(self.files, name)
                if os.path.isfile(source) and not os.path.lexists(target):
                    os.makedirs(os.path.dirname(target), exist_ok=True)
                    disk.link_or_copy(source, target)
        disk.write_whole(os.path.join(self.source, SUMS), self.source_sums())

    def source_sums(self) -> bytes:
        """The sums of plans and files as they are now."""
        return source_sums(self.source)

    def source_kept(self) -> bool:
        """Whether plans and files are those that this version was made from."""
        return self.taken_sums() == self.source_sums()

    def taken_sums(self) -> bytes | None:
        """The sums of plans and files when this version was begun; None if it never got that far."""
        try:
            with open(os.path.join(self.source, SUMS), "rb") as file:
                return file.read()
        except FileNotFoundError:
            return None

    def drop_source(self) -> None:
        """Removes what it was made from."""
        disk.remove(self.source)

    def is_ready(self, site: str) -> bool:
        """Whether a site is READY."""
        return os.path.isfile(self.file(site, READY))

    def ready_sites(self) -> list[str]:
        """The names of the sites that are READY."""
        return sorted(name for name in os.listdir(self.path) if self.is_ready(name))

    def ready(
        self, site: str, plates: list[str], edition: str, since: str | None = None, made: Iterable[str] = ()
    ) -> None:
        """Writes a site's SHA256SUMS and then READY. `since` names the version of which `made` are the
        changes."""
        sums = sums_text({name: disk.sha256(self.file(site, name)) for name in plates})
        disk.write_whole(self.file(site, SUMS), sums)
        lines = [f"edition {edition}", f"version {self.name}", f"plates {len(plates)}"]
        lines += [f"since {since}"] * bool(since) + [f"made {name}" for name in sorted(made)]
        disk.write_whole(self.file(site, READY), "".join(f"{line}\n" for line in lines).encode())

    def carry(self, site: str, other: "Version") -> None:
        """Takes a READY site of another version, by hard links; its READY is written last, and anew."""
        os.makedirs(self.file(site), exist_ok=True)
        with os.scandir(other.file(site)) as entries:
            names = [entry.name for entry in entries if entry.name.endswith(".tif")]
        for name in names:
            disk.link_or_copy(other.file(site, name), self.file(site, name))

    def keys_lines(self, plan: Plan) -> list[str]:
        """The lines of ink keys in the report of a press."""
        try:
            with open(self.file(f"{plan.name}.report"), encoding="utf-8") as file:
                return [line for line in file.read().splitlines() if line.startswith("keys ")]
        except FileNotFoundError:
            return []

    def make_current(self) -> None:
        """Points OUT/current at this version."""
        disk.move_link(os.path.join(self.out, CURRENT), self.name)


def source_sums(folder: str) -> bytes:
    """The sums of a folder's plans and of the files that they name, as far as present."""
    sums: dict[str, str] = {}
    for plan in plans_of(folder):
        sums[f"{plan.name}.json"] = disk.sha256(os.path.join(folder, f"{plan.name}.json"))
        for name in plan.files():
            path = os.path.join(folder, "files", name)
            if f"files/{name}" not in sums and os.path.isfile(path):
                sums[f"files/{name}"] = disk.sha256(path)
    return sums_text(sums)
