"""Inspects the first page of a PDF before it's rendered, with qpdf and pressroom.reading, under limits.

`inspect` returns the PDF to render and an Inspected, or raises Refused.
"""
import functools
import json
import os
import re
import sys
import tempfile
from dataclasses import dataclass
from typing import TYPE_CHECKING, cast

from pressroom.base.limits import Limits, Passed

if TYPE_CHECKING:
    from pressroom.reading.read import Read

# The marks that begin and end a PDF, and in how many bytes at the end the second must be. What follows it may be
# zeros. Ghostscript runs a file that begins otherwise as PostScript.
START_MARK, END_MARK, TAIL = b"%PDF-", b"%%EOF", 1024
MILLIMETRE = 72 / 25.4
READER = os.path.join(os.path.dirname(os.path.dirname(os.path.abspath(__file__))), "reading", "read.py")


class Refused(Exception):
    """A fault of the page. `kind` is a word for scripts, `place` a box in millimetres or None."""

    def __init__(self, kind: str, text: str, place: tuple[float, ...] | None = None) -> None:
        super().__init__(text)
        self.kind, self.place = kind, place


@dataclass(frozen=True)
class Inspected:
    """A page that can be rendered: its trim and crop boxes in points of the unrotated page, its rotation in
    degrees, which of the boxes is rendered, whether it may have RGB, whether it has Lab, whether it may have white
    text, its unit in points, whether something may be transparent or overprint, the names of its separations but the
    four inks, a letter for each byte, whether it may have transfer functions, whether a viewer shows it otherwise than it
    prints, what mutool can't show, and whether a shading or a table is in tints of colorants.
    """

    trim: tuple[float, ...]
    crop: tuple[float, ...]
    turn: int
    box: str
    notes: tuple[tuple[str, str], ...]
    rgb: bool
    lab: bool
    white: bool
    unit: float
    blends: bool
    overprints: bool
    spots: frozenset[str]
    transfers: bool
    otherwise: bool
    unlike: tuple[str, ...]
    tints: bool

    def may_be_painted(self, planes: int) -> bool:
        """Returns whether Ghostscript's library can paint this page in strips with the pixels of `psdcmyk`.
        `planes` is how many separations have a plane besides the four inks.

        In strips the library can't blend, doesn't overprint, and returns several spots in another order.
        """
        return not self.blends and not self.overprints and planes < 2

    def millimetres(self) -> tuple[float, float]:
        """Returns the width and height of the trimmed page, rotated as it is shown."""
        left, lower, right, upper = self.trim
        size = (right - left) / MILLIMETRE, (upper - lower) / MILLIMETRE
        return (size[1], size[0]) if self.turn % 180 else size


def see_ends(path: str) -> None:
    """Refuses a file that doesn't begin and end as a PDF does. Zeros after its end are removed."""
    with open(path, "r+b") as file:
        if file.read(len(START_MARK)) != START_MARK:
            raise Refused("damaged", "it doesn't begin with %PDF-")
        size = os.path.getsize(path)
        while size:
            file.seek(max(0, size - TAIL))
            last = file.read(min(size, TAIL))
            size -= len(last) - len(last.rstrip(b"\0"))
            if last.strip(b"\0"):
                break
        file.truncate(size)
        file.seek(max(0, size - TAIL))
        if END_MARK not in file.read():
            raise Refused("damaged", "incomplete: no %%EOF at its end")


def first_line(note: bytes) -> str:
    """Returns the first line of a program's output that begins with Error, or else its first line."""
    lines = [line for line in note.decode("utf-8", "replace").splitlines() if line.strip()]
    named = [line for line in lines if line.startswith("Error")]
    return printable((named + lines)[0]) if lines else "no reason given"


def printable(text: str) -> str:
    """Returns text of a PDF or a program fit for a message: no control characters, at most 120 characters."""
    shown = "".join(letter if letter.isprintable() else "?" for letter in text)
    return shown if len(shown) <= 120 else shown[:117] + "..."


def see_damage(limits: Limits, name: str, folder: str) -> None:
    """Refuses a PDF that is incomplete, damaged or locked."""
    see_ends(os.path.join(folder, name))
    status, out, note = limits.run(["qpdf", "--check", name], folder)
    said = (note + out).decode("utf-8", "replace")
    if "invalid password" in said:
        raise Refused("locked", "it needs a password")
    if status == 2 or (status == 3 and re.search(r"damaged|reconstruct", said)):
        line = re.sub(rf"^(WARNING: |qpdf: )?{name}:? ?", "", first_line(note or out))
        raise Refused("damaged", f"damaged or incomplete: {line}")


@functools.cache
def compiled() -> tempfile.TemporaryDirectory[str]:
    """Returns a folder for the reader's compiled modules. To compile them takes as long as reading a page of text, and
    the folder of pressroom may be read-only.
    """
    return tempfile.TemporaryDirectory(prefix="pressroom-")


def read(limits: Limits, name: str, folder: str) -> "Read":
    """Returns what pressroom.reading reads of the PDF's first page. It may write `edited.pdf`."""
    status, out, note = limits.run([sys.executable, READER, name, compiled().name], folder, "the reader of PDFs")
    path = os.path.join(folder, "read.json")
    if status or not os.path.isfile(path):
        raise Refused("damaged", f"damaged: its objects can't be read: {last_line(note)}")
    with open(path, encoding="utf-8") as file:
        found = json.load(file)
    if isinstance(found, list):
        if found[0] == "limit":
            raise Passed(printable(found[1]))
        raise Refused(found[0], printable(found[1]))
    return cast("Read", found)


def last_line(note: bytes) -> str:
    """Returns the last line of a program's output."""
    lines = note.decode("utf-8", "replace").split("\n")
    return printable(next((line for line in reversed(lines) if line.strip()), "no reason given"))


def inspect(limits: Limits, name: str, folder: str) -> tuple[str, Inspected]:
    """Inspects the first page of a PDF in the folder, which also has the files of write_profiles. Returns the PDF
    to render, which may be an edited copy, and an Inspected.
    """
    see_damage(limits, name, folder)
    page = read(limits, name, folder)
    if page["fonts"]:
        names = ", ".join(map(printable, page["fonts"]))
        raise Refused("font", f"not embedded: {'font' if len(page['fonts']) == 1 else 'fonts'} {names}")
    notes = []
    if page["count"] != 1:
        notes.append(("pages", f"it has {page['count']} pages; only the first is used"))
    if page["turn"]:
        notes.append(("rotated", f"rotated by {page['turn']} degrees"))
    if not page["trimmed"]:
        notes.append(("trim", "no trim box; the whole page is used"))
    if page["blending"]:
        notes.append(("blending", "transparency in RGB is blended in CMYK"))
    trim, crop = (tuple(side * page["unit"] for side in box) for box in (page["trim"], page["crop"]))
    box = "Trim" if page["trimmed"] else "Crop"
    shown = page["rgb"], page["lab"], page["white"], page["unit"]
    paints = page["blends"], page["overprints"], frozenset(page["spots"]), page["transfers"]
    viewed = page["otherwise"], tuple(page["unlike"]), page["tints"]
    inspected = Inspected(trim, crop, page["turn"], box, tuple(notes), *shown, *paints, *viewed)
    return "edited.pdf" if page["edited"] else name, inspected
