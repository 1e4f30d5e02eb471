"""Records what intake made of each page, so that the next call makes only what changed.

A page is identified by the SHA-256 of its file and of everything else that its layers depend on: the house's
keys, and the versions of the programs and of this package. The names of its files contain part of these
sums, so the files of older plans are not overwritten.
"""
import fcntl
import hashlib
import json
import os
import re
import shutil
from typing import Any

from pressroom import __version__
from pressroom.plans import plans

STATE = "state"
OWN = re.compile(r"[A-Za-z0-9_]+-[0-9a-f]{16}-[a-z0-9]+\.tif(\.new)?")


def sum_of(path):
    """Returns the SHA-256 of a file."""
    with open(path, "rb") as file:
        return hashlib.file_digest(file, "sha256").hexdigest()


def settings(house, versions):
    """Returns the sum of what a page's layers and notes depend on besides its own file."""
    values = [
        __version__,
        versions,
        house.dpi,
        house.trim,
        house.tolerance,
        [house.spot.separation, house.spot.names, house.spot.aliases] if house.spot else None,
        house.rgb,
        house.spots,
        house.overprint_black,
        vars(house.check),
        sum_of(house.profile) if house.profile else None,
        sorted((press.name, press.limit) for press in house.presses.values()),
    ]
    return hashlib.sha256(json.dumps(values).encode()).hexdigest()


def notes_of(path: str) -> list[dict[str, Any]]:
    """Returns the notes of the last intake into the folder WORK, as Work.note records them; none if there was no
    intake.
    """
    try:
        with open(os.path.join(path, STATE), encoding="utf-8") as file:
            found = json.load(file)["notes"]
        return [note for note in found if isinstance(note, dict) and isinstance(note.get("text"), str)]
    except (OSError, ValueError, LookupError, TypeError):
        return []


class Work:
    """The folder WORK: `files`, the plans, and `state`. A lock keeps other intakes out."""

    def __init__(self, path):
        self.path, self.files = path, os.path.join(path, "files")
        os.makedirs(self.files, exist_ok=True)
        self.lock = open(os.path.join(path, ".lock"), "w")
        fcntl.flock(self.lock, fcntl.LOCK_EX | fcntl.LOCK_NB)
        for name in os.listdir(path):
            if name.startswith(".page-"):
                shutil.rmtree(os.path.join(path, name), ignore_errors=True)
        self.pages, self.notes = self.read(), notes_of(path)

    def read(self):
        """Returns the pages of the last call by place, or none if the state can't be read."""
        try:
            with open(os.path.join(self.path, STATE), encoding="utf-8") as file:
                pages = json.load(file)["pages"]
            return {place: page for place, page in pages.items() if self.holds(page)}
        except (OSError, ValueError, LookupError, TypeError, AttributeError):
            return {}

    def holds(self, page):
        """Returns whether all files of a page are present with their sizes."""
        try:
            return all(
                os.path.getsize(os.path.join(self.files, layer["file"])) == size
                for layer, size in zip(page["page"]["layers"], page["sizes"], strict=True)
            )
        except OSError:
            return False

    def keep(self, place, key, page, notes):
        """Records a page that was made. `page` has its inks and layers in the plan's form."""
        sizes = [os.path.getsize(os.path.join(self.files, layer["file"])) for layer in page["layers"]]
        new = {"key": key, "page": page, "sizes": sizes, "notes": notes}
        if self.pages.get(str(place), {}).get("key") != key:
            self.pages[str(place)] = new
            self.write()

    def note(self, notes):
        """Records all notes of this call: objects with `text` and the fields of the event."""
        self.notes = notes
        self.write()

    def write(self):
        stored = {"version": __version__, "pages": self.pages, "notes": self.notes}
        plans.write(os.path.join(self.path, STATE), stored)

    def save(self, places):
        """Records only the pages of these places."""
        self.pages = {name: page for name, page in self.pages.items() if name in set(map(str, places))}
        self.write()

    def clean(self):
        """Removes the pages' files that neither a plan in the folder nor the state names."""
        kept = plans.plan_files(self.path)
        kept |= {layer["file"] for page in self.pages.values() for layer in page["page"]["layers"]}
        for name in os.listdir(self.files):
            if name not in kept and OWN.fullmatch(name):
                os.remove(os.path.join(self.files, name))
