"""Surveys a page at a low resolution: where it shows RGB, where ink is above the limit, and where white text
is over four inks.

Places are boxes in millimetres from the upper left corner of the trimmed page: left, top, width and height.
"""
import math
import re

from pressroom.intake.pdf import MILLIMETRE
from pressroom.intake.separations import DPI

ONE = 25.4 / DPI
# The side of a cell in millimetres, and the least area in square millimetres that is reported. A cell has
# too much ink if half of it has.
CELL, LARGE = 5, 400
# White text below this size in points is thin. An ink counts as present from this value of 255.
THIN, INKED = 10, 26
FONT = re.compile(r'<fontspec id="(\d+)" size="(-?\d+)" [^>]*color="#([0-9a-f]{6})"')
TEXT = re.compile(
    r'<text top="(-?[\d.]+)" left="(-?[\d.]+)" width="(-?[\d.]+)" height="(-?[\d.]+)" font="(\d+)">'
)


def rgb_of(gs, trim_size, house):
    """Returns where RGB shows, or None. Renders the page twice, with profiles that differ only for RGB.
    `house` is the name of the house's spot, whose colour doesn't matter, or None.
    """
    size = tuple(max(1, math.ceil(side / ONE)) for side in trim_size)
    inks = gs.render(DPI, size, "survey.psd").mixed(house)
    other = gs.render(DPI, size, "marked.psd", "marked").mixed(house)
    return box_of((inks != other).any(axis=2), ONE)


def box_of(marked, one):
    """Returns the box around the marked pixels, whose side is `one` mm, or None if none is marked."""
    rows, columns = marked.any(axis=1).nonzero()[0], marked.any(axis=0).nonzero()[0]
    if not len(rows):
        return None
    left, top = columns[0], rows[0]
    return tuple(round(float(n) * one, 1) for n in (left, top, columns[-1] + 1 - left, rows[-1] + 1 - top))


def above(seen, limit):
    """Returns the area in square millimetres whose ink is above a limit in percent, and its place; None if
    it isn't large. `seen` is the page's ink at the low resolution: an array of rows, columns and inks.
    """
    import numpy as np

    heavy = seen.astype(np.uint16).sum(axis=2) > limit * 2.55 + 2
    side = round(CELL / ONE)
    rows, columns = (-(-n // side) for n in heavy.shape)
    padded = np.zeros((rows * side, columns * side), dtype=bool)
    padded[: heavy.shape[0], : heavy.shape[1]] = heavy
    cells = padded.reshape(rows, side, columns, side).mean(axis=(1, 3)) >= 0.5
    area = float(cells.sum()) * (side * ONE) ** 2
    return (area, box_of(cells, side * ONE)) if area >= LARGE else None


def thin_white(limits, name, inspected, seen, folder):
    """Returns the places of small white text over four inks."""
    words = ["pdftohtml", "-xml", "-i", "-stdout", "-zoom", "1", "-f", "1", "-l", "1", "-nomerge"]
    status, out, _ = limits.run([*words, "-noroundcoord", name, "text"], folder)
    text = out.decode("utf-8", "replace")
    # poppler doesn't apply the page's unit.
    unit, (left, top) = inspected.unit, corner(inspected)
    white = {
        number
        for number, size, colour in FONT.findall(text)
        if colour == "ffffff" and 0 < int(size) * unit < THIN
    }
    places = []
    for y, x, width, height, font in TEXT.findall(text) if status == 0 else ():
        if font not in white:
            continue
        x, y, width, height = (float(value) * unit for value in (x, y, width, height))
        box = [value / MILLIMETRE for value in (x - left, y - top, width, height)]
        if lies_on_four(box, seen):
            places.append(tuple(round(value, 1) for value in box))
    return places


def corner(inspected):
    """Returns the trim's upper left corner as poppler counts: in points from that of the crop box, on the
    rotated page.
    """
    left, lower, right, upper = inspected.trim
    crop_left, crop_lower, crop_right, crop_upper = inspected.crop
    return {
        0: (left - crop_left, crop_upper - upper),
        90: (lower - crop_lower, left - crop_left),
        180: (crop_right - right, lower - crop_lower),
        270: (crop_upper - upper, crop_right - right),
    }[inspected.turn]


def lies_on_four(box, seen):
    """Returns whether at least half of the inked pixels in this box have all four inks."""
    x, y, width, height = (round(value / ONE) for value in box)
    part = seen[max(0, y) : y + max(1, height), max(0, x) : x + max(1, width)]
    inked = part[part.any(axis=2)] if part.size else part
    return bool(len(inked)) and float((inked.min(axis=-1) >= INKED).mean()) >= 0.5
