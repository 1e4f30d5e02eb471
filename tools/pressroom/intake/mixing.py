"""Decides how a page's separations become inks: which keep a plane of their own while Ghostscript renders, and
by which tables the others are mixed into the four inks.

The house's spot has a plane. Where nothing overprints, Ghostscript mixes all other spots by their tint
transforms as it paints. Where something does, they have planes too, so that what overprints them or is below
them stays, and are mixed afterwards by tables of 256 tints that Ghostscript made of their transforms.
"""
import dataclasses
import json
import math
import os
import sys
from dataclasses import dataclass
from typing import TYPE_CHECKING, Any

from pressroom.base.limits import Limits
from pressroom.house.house import House, Spot
from pressroom.intake.colorant_names import ALL, COLUMNS, PROCESS, SIDE, TINTS, is_spot, name_key, text_of
from pressroom.intake.pdf import Inspected, Refused, first_line, printable
from pressroom.intake.separations import DPI, all_pixels
from pressroom.intake.survey import ONE, box_of

if TYPE_CHECKING:
    import numpy as np
    from numpy.typing import NDArray
    from pressroom.intake.ghostscript import Ghostscript

    Inks = NDArray[np.uint8]
Place = tuple[float, ...]

READER = os.path.join(os.path.dirname(os.path.abspath(__file__)), "colorants.py")
# The copies of a PDF in which the house's spot has one name, and in which spots of several transforms have several.
INKED, RENAMED = "inked.pdf", "renamed.pdf"
# How many 255ths a mixture may differ from the sum of its inks, a table from another of the same spot, and how
# many a mixed page may lack of a spot's ink.
NEAR, EQUAL, LACKING = 3, 2, 8


@dataclass(frozen=True)
class Uneven:
    """A colour space whose inks can't be told apart: the process inks that it has, by number, and the table of
    each of its spots alone.
    """

    process: tuple[int, ...]
    tables: dict[bytes, "Inks"]

    def overprinted(self, inks: "Inks", numbers: dict[bytes, int], mixed: "Inks") -> "Inks":
        """Returns where the space's spots and other inks are, or where the mixed inks lack what a spot has.
        `inks` has all planes, `numbers` those of spots by name, and `mixed` the page as it's mixed.
        """
        import numpy as np

        own = [numbers[name] for name in self.tables if name in numbers]
        painted = np.any(inks[own] > 0, axis=0)
        others = [plane for plane in range(len(inks)) if plane not in (*own, *self.process)]
        wrong = np.any(inks[others] > 0, axis=0)
        for name, table in self.tables.items():
            if name in numbers:
                lacks = mixed[:4].astype(int) + LACKING < table[:, inks[numbers[name]]]
                wrong |= np.any(lacks, axis=0)
        result: "Inks" = painted & wrong
        return result


@dataclass(frozen=True)
class Mixing:
    """How a page is rendered: the PDF; the names of separations that have a plane, or None for all that it has; the tables
    of spots by name, each 4 inks of 256 tints; whether the page has the separation All; and the names that
    spots have in the PDF, by those that the rendered file has; colour spaces whose inks can't be told apart; and the kinds
    of colour spaces through which spots are mixed.
    """

    pdf: str
    planes: tuple[bytes, ...] | None = None
    tables: dict[bytes, bytes] = dataclasses.field(default_factory=dict)
    has_all: bool = False
    names: dict[str, str] = dataclasses.field(default_factory=dict)
    uneven: tuple[Uneven, ...] = ()
    alternates: frozenset[str] = frozenset()

    def shown(self, name: str) -> str:
        """Returns the name of a spot as the page's PDF has it."""
        return self.names.get(name, name)

    def without_plane(self, gs: "Ghostscript", trim: tuple[float, float]) -> list[tuple[str, Place]]:
        """Returns the spots without a plane that show, each with its place in millimetres, seen at a low
        resolution. Refuses a page where such a spot overprints, or something overprints it.
        """
        if self.planes is None:
            return []
        size = small(trim)
        planes = dataclasses.replace(gs, planes=None).render(DPI, size, "spots.psd")
        inks, found = 255 - planes.mapped(), []
        if self.has_all and planes.spots:
            inks[4:][:, all_pixels(inks)] = 0
        numbers = {spot.name: spot.plane for spot in planes.spots}
        for uneven in self.uneven:
            other = 255 - gs.render(DPI, size, "uneven.psd").mapped()
            place = box_of(uneven.overprinted(inks, numbers, other), ONE)
            if place:
                said = ", ".join(self.shown(text_of(name)) for name in uneven.tables)
                raise Refused(
                    "spot",
                    f"{printable(said)} overprints, but its tint transform can't be split by inks",
                    place,
                )
        for spot in planes.spots:
            place = box_of(inks[spot.plane] > 0, ONE)
            if place and spot.name and spot.name not in self.planes:
                found.append((self.shown(spot.shown()), place))
        return found


def mixing_of(house: House, limits: Limits, inspected: Inspected, gs: "Ghostscript") -> Mixing:
    """Returns how a page is rendered. Refuses a page that a transfer function changes."""
    own = {house.spot.separation.encode().decode("latin-1")} if house.spot else set()
    usual: list[set[str]] = [{"All"}, own, set()]
    if inspected.spots in usual and not inspected.transfers:
        return Mixing(gs.pdf)
    mixing, functions = Reading(limits, gs, house.spot).mixing(inspected.overprints, house.spots == "mix")
    if functions:
        width, height = house.trim
        place = changed(gs, (width, height), mixing.pdf)
        if place:
            said = printable(", ".join(functions))
            raise Refused("transfer", f"a transfer function changes its tints: {said}", place)
    return mixing


def small(trim: tuple[float, float]) -> tuple[int, int]:
    """Returns a page's size in pixels of the low resolution."""
    width, height = (max(1, math.ceil(side / ONE)) for side in trim)
    return width, height


def changed(gs: "Ghostscript", trim: tuple[float, float], pdf: str) -> Place | None:
    """Returns where transfer functions change the page, seen at a low resolution, or None."""
    size = small(trim)
    calls = [dataclasses.replace(gs, pdf=name, planes=()) for name in (pdf, "transfers.pdf")]
    first, other = (call.render(DPI, size, f"{call.pdf}.psd").mapped() for call in calls)
    place: Place | None = box_of((first != other).any(axis=0), ONE)
    return place


class Reading:
    """Reads the separations of a page's PDF in its folder."""

    def __init__(self, limits: Limits, gs: "Ghostscript", house: Spot | None) -> None:
        self.limits, self.gs, self.folder = limits, gs, gs.folder
        self.names = names_of(house) if house else {}
        self.house = name_key(house.separation.encode()) if house else None

    def ask(
        self, pdf: str, copy: str, tints: str | None, renames: list[tuple[int, int, str]]
    ) -> dict[str, Any]:
        """Calls colorants.py. Returns its answer."""
        asked: dict[str, object] = {
            "pdf": pdf,
            "copy": copy,
            "tints": tints,
            "renames": renames,
            "house": self.house,
        }
        asked["names"] = [(key, name.encode().hex()) for key, name in self.names.items()]
        words = [sys.executable, "-B", READER, json.dumps(asked)]
        status, out, note = self.limits.run(words, self.folder, "the reading of separations")
        try:
            answer = json.loads(out)
        except ValueError:
            answer = None
        if status or not isinstance(answer, dict):
            raise Refused("spot", f"its separations can't be read: {first_line(note)}")
        return answer

    def is_house(self, name: bytes) -> bool:
        return is_spot(name) and name_key(name) == self.house

    def mixing(self, overprints: bool, mixed: bool) -> tuple[Mixing, list[str]]:
        """Returns how the page is rendered, and the transfer functions that change tints. `mixed` is whether the
        house mixes other spots, `overprints` whether something on the page may overprint.
        """
        gs = self.gs
        answer = self.ask(gs.pdf, INKED, "tints.pdf" if mixed else None, [])
        spaces = [[bytes.fromhex(name) for name in names] for names in answer["spaces"]]
        pdf = INKED if answer["changed"] else gs.pdf
        functions = [str(name) for name in answer["transfers"]]
        used = {name for names in spaces for name in names}
        spots = {name for name in used if is_spot(name) and not self.is_house(name)}
        own = set(filter(self.is_house, used))
        through = {
            kind for names, kind in zip(spaces, answer["alternates"]) if mixed and spots & set(names)
        }
        made = Mixing(pdf, tuple(sorted(spots | own)), has_all=ALL in used, alternates=frozenset(through))
        if not spots or not mixed:
            return made, functions
        both = any(spots & set(names) and any(map(self.is_house, names)) for names in spaces)
        if not overprints and not both:
            return dataclasses.replace(made, planes=tuple(sorted(own))), functions
        values = sampled(gs, len(answer["samples"]))
        return self.with_tables(made, spaces, answer["samples"], values), functions

    def with_tables(
        self, made: Mixing, spaces: list[list[bytes]], samples: list[tuple[int, list[float]]], values: "Inks"
    ) -> Mixing:
        """Returns the mixing of a page whose spots have planes. Spots of one name and several transforms get
        several names. A space whose inks can't be told apart has no plane: Ghostscript mixes it as it paints.
        """
        tables: dict[bytes, "Inks"] = {}
        names: dict[bytes, bytes] = {}
        renames: list[tuple[int, int, str]] = []
        uneven: list[Uneven] = []
        used = {name for inner in spaces for name in inner}
        for number, inner in enumerate(spaces):
            rows = [place for place, (space, _) in enumerate(samples) if space == number]
            if not rows:
                continue
            tints = [samples[place][1] for place in rows]
            own, additive = tables_of(inner, tints, values[rows], self.is_house)
            if not additive and any(map(self.is_house, inner)):
                said = ", ".join(map(text_of, inner))
                raise Refused("spot", f"the tint transform of {printable(said)} can't be split by inks")
            apart: dict[bytes, "Inks"] = {}
            for colorant, table in own.items():
                name = inner[colorant]
                new = same_name(name, table, tables) if additive else free_name(name, used | set(names))
                (tables if additive else apart).setdefault(new, table)
                if new != name:
                    names[new] = name
                    renames.append((number, colorant, new.hex()))
            if apart:
                process = tuple(place for place, name in enumerate(PROCESS) if name in inner)
                uneven.append(Uneven(process, apart))
        pdf = made.pdf
        if renames:
            pdf = RENAMED
            # The same file as before, whose colour spaces have the same numbers.
            self.ask(self.gs.pdf, pdf, None, renames)
        planes = tuple(sorted({*tables, *filter(self.is_house, used)}))
        stored = {name: table.tobytes() for name, table in tables.items()}
        shown = {text_of(new): text_of(name) for new, name in names.items()}
        return dataclasses.replace(
            made, pdf=pdf, planes=planes, tables=stored, names=shown, uneven=tuple(uneven)
        )


def names_of(spot: Spot) -> dict[str, str]:
    """Returns what each name of a separation in a PDF is replaced by, by its key."""
    found = {name_key(name.encode()): spot.separation for name in spot.names}
    for name, meant in spot.aliases:
        found.setdefault(name_key(name.encode()), found.get(name_key(meant.encode()), meant))
    return found


def same_name(name: bytes, table: "Inks", tables: dict[bytes, "Inks"]) -> bytes:
    """Returns the name of a spot with this table: its own, or one with a number if its own has another table."""
    number, new = 1, name
    while new in tables and abs(tables[new].astype(int) - table).max() > EQUAL:
        number += 1
        new = name + b" (%d)" % number
    return new


def free_name(name: bytes, used: set[bytes]) -> bytes:
    """Returns a name that isn't used."""
    number = 1
    while name + b" [%d]" % number in used:
        number += 1
    return name + b" [%d]" % number


def tables_of(
    names: list[bytes], tints: list[list[float]], values: "Inks", is_house: Any
) -> tuple[dict[int, "Inks"], bool]:
    """Returns the table of each spot of a space, and whether all mixtures are the sum of their inks. Samples
    are in the order of colorants.samples_of.
    """
    import numpy as np

    spots = [n for n, name in enumerate(names) if is_spot(name) and not is_house(name)]
    found = {n: values[TINTS * place : TINTS * (place + 1)].T.copy() for place, n in enumerate(spots)}
    additive = all(int(table[:, 0].max()) <= 1 for table in found.values())
    for tint, value in zip(tints[TINTS * len(spots) :], values[TINTS * len(spots) :]):
        total = np.zeros(4)
        for n, share in enumerate(tint):
            if n in found:
                total += found[n][:, round(share * 255)]
            elif names[n] in PROCESS:
                total[PROCESS.index(names[n])] += share * 255
        additive = additive and bool(abs(np.minimum(total, 255) - value).max() <= NEAR)
    return found, additive


def sampled(gs: "Ghostscript", count: int) -> "Inks":
    """Returns the four inks of each sample of the page that colorants.py wrote, 0 to 255."""
    import numpy as np

    size = COLUMNS * SIDE, max(SIDE, SIDE * -(-count // COLUMNS))
    call = dataclasses.replace(gs, pdf="tints.pdf", box="Media", planes=())
    inks = 255 - call.render(72, size, "tints.psd").mapped()
    squares = inks[:4, SIDE // 2 :: SIDE, SIDE // 2 :: SIDE].reshape(4, -1)
    return np.ascontiguousarray(squares[:, :count].T)
