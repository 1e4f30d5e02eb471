"""Makes a page's layers for the plan: files at the plate's resolution, in the page's own folder.

The four inks are one planar contone file. Each tint of the spot is a line image, painted in S over it.
"""
import os
from dataclasses import dataclass

from pressroom.intake.pdf import Refused, first_line, printable
from pressroom.intake.separations import MOST_TINTS
from pressroom.tiff.strips import STRIP
from pressroom.tiff.tiff import Tiff


@dataclass(frozen=True)
class Layer:
    """A layer: its file in the page's folder, how that file's name ends in WORK, and its other keys."""

    file: str
    ending: str
    keys: dict


@dataclass(frozen=True)
class Made:
    """A page that was made: its inks in the plan's letters, its layers from the bottom up, and its notes."""

    inks: str
    layers: tuple
    notes: tuple


def packed(limits, folder, name, out, *more):
    """Copies a TIFF file to `out` in packed strips. Returns the path of `out`."""
    words = ["tiffcp", *more, "-c", "packbits", "-r", str(STRIP), name, out]
    status, _, note = limits.run(words, folder)
    if status:
        raise Refused("damaged", f"can't be packed: {first_line(note)}")
    return os.path.join(folder, out)


def inked(path):
    """Returns the letters of the inks that appear in a planar packed file."""
    image, blank, found = Tiff(path), set(), ""
    for plane, letter in enumerate("CMYK"):
        for strip in range(image.strips):
            data = image.stored(strip, plane)
            if data in blank:
                continue
            top = strip * image.each
            if any(any(row) for row in image.rows(top, top + image.rows_of(strip), plane)):
                found += letter
                break
            blank.add(data)
    image.close()
    return found


def letters(colours, spot):
    """Returns the plan's letters for a page that has these inks."""
    return ("CMYK" if set(colours) & set("CMY") else "K") + ("S" if spot else "")


class Rendering:
    """Makes the layers of one page with Ghostscript."""

    def __init__(self, house, gs, mixing):
        self.house, self.gs, self.mixing = house, gs, mixing
        self.size, self.notes, self.seen = house.page_pixels(), [], None

    def made(self, strips, asked=None):
        """Makes the page's layers. `strips` is whether the page may be painted in strips, `asked` what means of
        its inks are needed.
        """
        house = self.house.spot.separation if self.house.spot else None
        mixing, tints = self.mixing, []
        page, self.seen = self.gs.separate(
            self.house.dpi, self.size, house, strips, mixing.tables, mixing.has_all, asked
        )
        for spot in page["spots"]:
            if spot["house"]:
                tints += self.tints(spot)
            else:
                self.mixed(mixing.shown(spot["name"]), spot["place"])
        for name, place in mixing.without_plane(self.gs, self.house.trim):
            self.mixed(name, place)
        bottom = [Layer("cmyk.tif", "cmyk", {"kind": "contone"})] if page["colours"] or not tints else []
        return Made(letters(page["colours"], tints), (*bottom, *tints), tuple(self.notes))

    def mixed(self, spot, place):
        """Notes a spot that isn't the house's and was mixed into the four inks, or refuses it."""
        name, place = printable(spot), tuple(place)
        if self.house.spots == "refuse":
            raise Refused("spot", f"the spot {name} isn't the house's", place)
        self.notes.append(("spot", f"the spot {name} is mixed into CMYK", place))

    def tints(self, spot):
        """Returns the layers of the house's spot, one for each tint."""
        if spot["had"] > MOST_TINTS:
            text = f"the spot has {spot['had']} tints; they are rounded to {MOST_TINTS} even steps"
            self.notes.append(("tints", text, tuple(spot["place"])))
        layers = []
        for tint in spot["tints"]:
            keys = {"kind": "line", "ink": [0, 0, 0, 0, tint], "paint": "overprint"}
            layers.append(Layer(f"spot-{tint}.tif", f"s{tint}", keys))
        return layers
