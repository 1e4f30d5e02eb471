"""Finds the files of an edition's folder, and the place of each in the edition."""
import os
import re
import time
from dataclasses import dataclass

from pressroom.house.house import Place

KINDS = {".pdf": "pdf", ".tif": "tiff", ".tiff": "tiff"}
# A file that wasn't written for this many seconds counts as complete.
QUIET = 2.0


@dataclass(frozen=True)
class PageFile:
    """A page's file: its place, its path, its name relative to the folder, its kind, `pdf` or `tiff`, and the
    version in its name, 0 if the house's pattern has none.
    """

    place: Place
    path: str
    name: str
    kind: str
    version: int = 0


class Names:
    """Reads places out of file names by the house's pattern."""

    def __init__(self, house):
        self.house = house
        self.forms = [
            (section, re.compile(self.form(section)))
            for section in sorted(house.sections, key=len, reverse=True)
        ]

    def form(self, section):
        """Returns the pattern as a regular expression for one section."""
        signs = {"{section}": re.escape(section), "{page}": "0*(?P<page>[1-9][0-9]{0,2})", "*": ".*"}
        signs["{version}"] = "(?P<version>[0-9]{1,9})"
        parts = re.split(r"(\{section\}|\{page\}|\{version\}|\*)", self.house.names)
        return "".join(signs.get(part, re.escape(part)) for part in parts)

    def read(self, stem, zone):
        """Returns the place and the version of a file name without its ending, or None and 0."""
        for section, form in self.forms:
            found = form.fullmatch(stem)
            if found and int(found["page"]) <= self.house.sections[section]:
                return Place(zone, section, int(found["page"])), int(found.groupdict().get("version") or 0)
        return None, 0


def listed(folder):
    """Returns the names in a folder, sorted, without those that begin with a dot."""
    return sorted(name for name in os.listdir(folder) if not name.startswith("."))


def find(house, folder):
    """Returns a list of files for each place, and the names of what isn't a page of the house."""
    names, found, strays = Names(house), {}, []

    def see(path, name, zone):
        stem, ending = os.path.splitext(os.path.basename(name))
        kind = KINDS.get(ending.lower()) if os.path.isfile(path) else None
        place, version = names.read(stem, zone) if kind else (None, 0)
        if place is None:
            strays.append(name)
        else:
            found.setdefault(place, []).append(PageFile(place, path, name, kind, version))

    for name in listed(folder):
        path = os.path.join(folder, name)
        if name in house.zones() and os.path.isdir(path):
            for inner in listed(path):
                see(os.path.join(path, inner), f"{name}/{inner}", name)
        else:
            see(path, name, None)
    return found, strays


def newest(sources):
    """Returns the files of a place that have the highest version, and the others."""
    highest = max(source.version for source in sources)
    return (
        [source for source in sources if source.version == highest],
        [source for source in sources if source.version < highest],
    )


def is_quiet(path, patience):
    """Waits until the file is no longer being written. Returns False if it still is after `patience` seconds.
    """
    end = time.monotonic() + patience
    while True:
        before = os.stat(path)
        if time.time() - before.st_mtime >= QUIET:
            return True
        if time.monotonic() >= end:
            return False
        time.sleep(min(QUIET / 4, max(0.05, end - time.monotonic())))


def needed(house, given):
    """Returns the places that a site prints and for which `given` has no file and no blank page."""
    missing = {}
    for zone in {site.zone for site in house.sites}:
        for section, count in house.sections.items():
            for page in range(1, count + 1):
                own, common = Place(zone, section, page), Place(None, section, page)
                if own not in given and common not in given:
                    missing[common] = None
    return sorted(missing, key=lambda place: (list(house.sections).index(place.section), place.page))
