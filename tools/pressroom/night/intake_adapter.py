"""The one place where the night calls intake: one page, by a house file's text, in a folder of its own."""
import os
from collections.abc import Sequence
from dataclasses import dataclass

from pressroom.intake import bitmaps
from pressroom.base.console import Missing, need
from pressroom.house.house import House
from pressroom.intake.intake import PROGRAMS, Intake, see_libraries
from pressroom.base.limits import Limits, Passed
from pressroom.night.house_reader import Fault, page_house
from pressroom.night.records import Layer
from pressroom.intake.pdf import Refused
from pressroom.intake.second import PROGRAM as SECOND

# The limits of each program that reads a page: seconds, and megabytes of memory and of a file.
LIMITS = Limits(seconds=120, memory=2000, output=4000)


@dataclass(frozen=True)
class Accepted:
    """A page's inks in the plan's letters, its layers from the bottom up in the plan's form, and its
    notes."""

    inks: str
    layers: Sequence[Layer]
    notes: Sequence[str]


@dataclass(frozen=True)
class Refusal:
    """What is wrong with the page: a kind of intake's faults, a text, and left, top, width, height in mm."""

    kind: str
    text: str
    at_mm: Sequence[float] | None


@dataclass(frozen=True)
class NoVerdict:
    """Why intake couldn't say whether the page is right."""

    why: str


def made(text: str, profile: str | None, name: str, kind: str, folder: str) -> Accepted | Refusal | NoVerdict:
    """Makes the layers of the page `name` of a folder, as files in it. `profile` is a file there, or None."""
    try:
        need(*PROGRAMS)
        see_libraries()
        own = os.path.join(folder, profile) if profile else None
        house = page_house(text, os.path.join(folder, "house.toml"), own)
        page = Page(house, folder)
        if page.opinion.missing and house.check.second == "fault":
            return NoVerdict(f"{SECOND} is not installed")
        found = (
            bitmaps.made_of(house, LIMITS, name, folder) if kind == "tiff" else page.rendered(name, folder)
        )
    except (Fault, Missing) as error:
        return NoVerdict(str(error))
    except Passed as error:
        return NoVerdict(f"limit: {error}")
    except Refused as error:
        return Refusal(error.kind, str(error), error.place)
    except MemoryError:
        return NoVerdict("memory")
    layers = [{"kind": layer.keys["kind"], "file": layer.file} | layer.keys for layer in found.layers]
    notes = [note_text(*note) for note in found.notes]
    if page.opinion.missing and kind == "pdf":
        notes.append(f"not compared: {SECOND} is not installed")
    return Accepted(found.inks, layers, notes)


class Page(Intake):
    """Intake without a folder WORK: it renders, and keeps nothing."""

    def __init__(self, house: House, folder: str) -> None:
        super().__init__(house, None, LIMITS, 0)


def note_text(kind: str, text: str, box: Sequence[float] | None) -> str:
    """Returns a note as intake tells it: with its place where it has one."""
    if not box:
        return text
    left, top, width, height = box
    return f"{text}, {width:g} x {height:g} mm at {left:g}, {top:g}"
