"""Makes a page's files from its planes of ink, which arrive as strips of rows from the top.

A plane holds one of the four inks or a spot: 0 is bare, 255 is full. The house's spot stays separate. All
other spots are mixed into the four inks.
"""
import math
import os
from dataclasses import dataclass, field

from pressroom.intake.shrunk import Shrunk
from pressroom.tiff.strips import STRIP, StripFile

# The low resolution, in pixels an inch: for the places of spots, and for ink at the pixels' centres.
DPI = 72
# The most tints of the spot. A page has at most 32 layers.
MOST_TINTS = 24


@dataclass(frozen=True)
class Spot:
    """A separation besides the four inks: its name as bytes, its plane, and its mixture of the four, each
    from 0 to 1.
    """

    name: bytes
    plane: int
    mixture: tuple

    def is_named(self, text):
        """Returns whether this is the separation's name, in either encoding that PDFs use."""
        return text in (decoded(self.name, "utf-8"), decoded(self.name, "latin-1"))

    def shown(self):
        return decoded(self.name, "utf-8") or self.name.decode("latin-1")


def decoded(name, encoding):
    try:
        return name.decode(encoding)
    except UnicodeDecodeError:
        return None


@dataclass
class Shown:
    """What the page shows of a spot: its box in pixels and, for the house's spot, the values of its ink."""

    spot: Spot
    house: bool
    box: list | None = None
    values: set = field(default_factory=set)

    def add(self, ink, top):
        """Adds a strip that has ink. Returns the rows and columns that the ink spans."""
        import numpy as np

        rows, columns = ink.any(axis=1).nonzero()[0], ink.any(axis=0).nonzero()[0]
        found = [columns[0], top + rows[0], columns[-1] + 1, top + rows[-1] + 1]
        old = self.box or found
        self.box = [*map(int, (min(old[0], found[0]), min(old[1], found[1])))]
        self.box += [*map(int, (max(old[2], found[2]), max(old[3], found[3])))]
        part = slice(rows[0], rows[-1] + 1), slice(columns[0], columns[-1] + 1)
        if self.house:
            self.values |= set(np.bincount(ink[part].ravel(), minlength=256).nonzero()[0].tolist())
        return part


def all_pixels(planes):
    """Returns where the separation All is painted: it has one tint in all planes, but for what black prints over
    it. `planes` is an array of planes, rows and columns.
    """
    found = (planes[0] == planes[1]) & (planes[0] == planes[2]) & (planes[3] >= planes[0]) & (planes[0] > 0)
    for plane in planes[4:]:
        found &= plane == planes[0]
    return found


def tables_of(spot, table):
    """Returns the ink of each tint of a spot, a table for each of the four inks: by its mixture, unless the
    table that Ghostscript made of its tint transform differs from that by more than a 255th.
    """
    import numpy as np

    tables = [(np.arange(256) * part + 0.5).astype(np.uint8) for part in spot.mixture]
    if table is not None:
        own = np.frombuffer(table, np.uint8).reshape(4, 256)
        if abs(own.astype(int) - np.stack(tables)).max() > 1:
            return list(own)
    return tables


class Separations:
    """Writes the files `cmyk.tif` and `spot-N.tif` to a page's folder, and records what the page shows.

    `tables` has the inks of spots by name, where Ghostscript made them; `has_all` is whether the page has the
    separation All, which isn't a mixture of spots. If means over blocks are `asked`, it writes them, too.
    """

    def __init__(self, folder, size, dpi, spots, house, tables=None, has_all=False, asked=None):
        import numpy as np

        self.folder, self.size, self.dpi, self.colours = folder, size, dpi, set()
        self.spots = [Shown(spot, bool(house) and spot.is_named(house)) for spot in spots]
        self.cmyk = StripFile(os.path.join(folder, "cmyk.tif"), *size, 4)
        width, height = (max(1, -(-side * DPI // dpi)) for side in size)
        self.seen = np.zeros((height, width, 4), np.uint8)
        self.columns = np.minimum((np.arange(width) * 2 + 1) * dpi // (2 * DPI), size[0] - 1)
        self.lines = np.minimum((np.arange(height) * 2 + 1) * dpi // (2 * DPI), size[1] - 1)
        self.tables = {}
        for spot in spots:
            self.tables[spot.plane] = tables_of(spot, (tables or {}).get(spot.name))
        self.mixed = [shown.spot.plane for shown in self.spots if not shown.house]
        self.has_all = has_all and bool(self.mixed)
        self.kept = {}
        self.shrunk = Shrunk(asked, size, dpi) if asked else None

    def add(self, strip, planes):
        """Adds a strip: an array of planes, rows and columns, which this may change."""
        if self.has_all:
            everywhere = all_pixels(planes)
            for plane in self.mixed:
                planes[plane][everywhere] = 0
        inked = [plane.view(bool).any() for plane in planes]
        self.look(strip, planes, inked)
        for shown in self.spots:
            number = shown.spot.plane
            if not inked[number]:
                continue
            part = shown.add(planes[number], strip * STRIP)
            if shown.house:
                self.keep(shown, strip, planes[number])
            else:
                self.mix(shown.spot, planes, part, inked)
        for number, letter in enumerate("CMYK"):
            if inked[number]:
                self.colours.add(letter)
                self.cmyk.write(strip, number, planes[number])
        if self.shrunk:
            spot = next((planes[s.spot.plane] for s in self.spots if s.house and inked[s.spot.plane]), None)
            self.shrunk.add(strip * STRIP, [*(planes[n] if inked[n] else None for n in range(4)), spot])

    def look(self, strip, planes, inked):
        """Samples this strip's ink at the centres of the low-resolution pixels, with all spots mixed in."""
        import numpy as np

        top = strip * STRIP
        first, last = np.searchsorted(self.lines, (top, top + planes.shape[1]))
        if first == last or not any(inked):
            return
        taken = planes[:, self.lines[first:last] - top][:, :, self.columns]
        total = taken[:4].astype(np.uint16)
        for plane, tables in self.tables.items():
            for ink, table in enumerate(tables):
                total[ink] += table[taken[plane]]
        self.seen[first:last] = np.moveaxis(np.minimum(total, 255), 0, 2)

    def mix(self, spot, planes, part, inked):
        """Mixes a spot into the four inks in this part of a strip."""
        import numpy as np

        for ink, table in enumerate(self.tables[spot.plane]):
            if table.any():
                below = planes[ink][part]
                below += np.minimum(table[planes[spot.plane][part]], 255 - below)
                inked[ink] = inked[ink] or bool(below.any())

    def keep(self, shown, strip, ink):
        """Keeps a strip of the house's spot in a sparse file until all tints are known."""
        import numpy as np

        name = f"spot-{shown.spot.plane}.ink"
        if name not in self.kept:
            path, shape = os.path.join(self.folder, name), self.size[::-1]
            self.kept[name] = np.memmap(path, np.uint8, "w+", shape=shape), []
        plane, strips = self.kept[name]
        plane[strip * STRIP : strip * STRIP + len(ink)] = ink
        strips.append(strip)

    def end(self):
        """Closes the file of the four inks. Returns what the page has, in values that JSON can hold: the
        letters of its inks, and the spots that show.
        """
        self.cmyk.close()
        if self.shrunk:
            self.shrunk.save(self.folder)
        colours = "".join(letter for letter in "CMYK" if letter in self.colours)
        spots = [self.facts(shown) for shown in self.spots if shown.box]
        return {"colours": colours, "spots": spots}

    def facts(self, shown):
        """Returns a spot's name, whether it's the house's, its place in mm, its tints and how many it had."""
        one, (left, top, right, bottom) = 25.4 / DPI, (side * DPI / self.dpi for side in shown.box)
        left, top, right, bottom = math.floor(left), math.floor(top), math.ceil(right), math.ceil(bottom)
        place = [round(n * one, 1) for n in (left, top, right - left, bottom - top)]
        tints = self.tints(shown) if shown.house else []
        had = len(shown.values - {0})
        return {"name": shown.spot.shown(), "house": shown.house, "place": place, "tints": tints, "had": had}

    def tints(self, shown):
        """Writes a line image for each tint of the house's spot. Returns the tints. Too many tints are
        rounded to even steps.
        """
        import numpy as np

        values, steps = sorted(shown.values - {0}), np.arange(256)
        if len(values) > MOST_TINTS:
            steps = np.rint(np.rint(steps * MOST_TINTS / 255) * 255 / MOST_TINTS).astype(int)
        plane, strips = self.kept[f"spot-{shown.spot.plane}.ink"]
        tints = sorted({int(steps[value]) for value in values} - {0})
        for tint in tints:
            file = StripFile(os.path.join(self.folder, f"spot-{tint}.tif"), *self.size, 1)
            for strip in strips:
                bits = np.packbits((steps == tint)[plane[strip * STRIP : (strip + 1) * STRIP]], axis=1)
                if bits.any():
                    file.write(strip, 0, bits)
            file.close()
        return tints
