"""Renders a page once more, small, with an independent program: `mutool draw` of MuPDF.

It renders the PDF that came, and not the copy that intake edited. Debian's mutool has no colour management: CMYK
and grey keep their numbers, and RGB becomes C = 1 - R - K and so on, with K the least of the three, so its
numbers can be read back. Each spot is a plane of its own, and overprint is simulated.
"""
from __future__ import annotations

import os
import re
import struct
from collections.abc import Callable
from dataclasses import dataclass
from typing import TYPE_CHECKING, Any

from pressroom.base.limits import Limits, Passed
from pressroom.intake.pdf import Inspected, Refused, printable
from pressroom.intake.planes import Planes
from pressroom.intake.shrunk import DPI, Grid

if TYPE_CHECKING:
    from numpy.typing import NDArray

PROGRAM = "mutool"
# With every spot in a plane of its own; and with every spot converted by its tint transform, which leaves out
# overprint.
SPOTS, CONVERTED = "2", "0"
# How far the size of the rendering may be from that of the crop box, in pixels: it is rounded up.
ROUNDED = 2
# What mutool reports where it leaves something out, or paints a part of a picture.
WRONG = re.compile(r"^(?:error: |warning: (?=premature end|.*truncated))(.+)$", re.MULTILINE)


class Unseen(Exception):
    """The page can't be rendered once more. The text says why."""


@dataclass(frozen=True)
class Second:
    """A second rendering as arrays of rows and columns of ink, 0 to 255.

    `process` has the four inks, `spots` each spot by name, `converted` the four inks with all spots converted,
    None unless some are mixed; `wrong` what the program reported.
    """

    process: NDArray[Any]
    spots: dict[bytes, NDArray[Any]]
    converted: NDArray[Any] | None
    wrong: tuple[str, ...]


def grid_of(inspected: Inspected, height: int, dpi: int) -> Grid:
    """Returns where a page lies in the second rendering, which shows the crop box. `height` is the page's in
    pixels of a resolution: Ghostscript aligns the page at the trim's lower left corner.
    """
    left, lower, right, upper = (float(side) for side in inspected.trim)
    crop_left, crop_lower, crop_right, crop_upper = (float(side) for side in inspected.crop)
    wide, high = crop_right - crop_left, crop_upper - crop_lower
    # From the crop box to the trim: on the page as it is shown, at the left and below.
    gaps = [left - crop_left, lower - crop_lower, crop_right - right, crop_upper - upper]
    turns = inspected.turn // 90
    beside, below = gaps[turns], gaps[(turns + 1) % 4]
    if turns % 2:
        wide, high = high, wide
    one = DPI / 72
    return Grid(beside * one, (high - below) * one - height * DPI / dpi, round(wide * one), round(high * one))


def render(limits: Limits, folder: str, pdf: str, grid: Grid, is_house: Callable[[bytes], bool]) -> Second:
    """Renders the first page of a PDF in the folder. `is_house` returns whether a spot of this name is the house's;
    all others are mixed into the four inks.

    Raises Unseen.
    """
    planes, wrong = drawn(limits, folder, pdf, grid, SPOTS)
    inks = inked(planes.mapped())
    spots: dict[bytes, NDArray[Any]] = {spot.name: inks[spot.plane] for spot in planes.spots}
    converted = None
    if any(plane.any() for name, plane in spots.items() if not is_house(name)):
        converted = inked(drawn(limits, folder, pdf, grid, CONVERTED)[0].mapped())[:4]
    return Second(inks[:4], spots, converted, wrong)


def size_of(path: str) -> tuple[int, int]:
    """Returns the width and height in the header of a PSD file."""
    with open(path, "rb") as file:
        height, width = struct.unpack(">II", file.read(22)[14:])
    return width, height


def inked(stored: NDArray[Any]) -> NDArray[Any]:
    """Returns planes of a PSD file as ink."""
    import numpy as np

    found: NDArray[Any] = np.invert(stored)
    return found


def drawn(limits: Limits, folder: str, pdf: str, grid: Grid, spots: str) -> tuple[Planes, tuple[str, ...]]:
    """Calls mutool. Returns its planes and what it reported."""
    name = f"second-{spots}.psd"
    words = [
        PROGRAM,
        "draw",
        "-q",
        "-N",
        "-c",
        "cmyk",
        "-O",
        spots,
        "-r",
        str(DPI),
        "-F",
        "psd",
        "-o",
        name,
        pdf,
        "1",
    ]
    try:
        status, out, note = limits.run(words, folder)
    except Passed as error:
        raise Unseen(str(error)) from None
    said = (out + note).decode("utf-8", "replace")
    wrong = tuple(dict.fromkeys(printable(line) for line in WRONG.findall(said)))
    path = os.path.join(folder, name)
    if status or not os.path.isfile(path) or not os.path.getsize(path):
        raise Unseen(wrong[0] if wrong else f"it exits with {status}")
    try:
        size = size_of(path)
    except struct.error:
        raise Unseen("its planes are cut off") from None
    if abs(size[0] - grid.width) > ROUNDED or abs(size[1] - grid.height) > ROUNDED:
        raise Unseen(f"it has {size[0]} x {size[1]} pixels, and not {grid.width} x {grid.height}")
    try:
        return Planes(path, size), wrong
    except (Refused, struct.error, LookupError) as error:
        raise Unseen(f"its planes can't be read: {error}") from None
