"""Changes shadings so that Ghostscript 10.00 paints them right: ISO 32000-1, 8.7.4.5.

It can't paint shadings by a function of x and y, so they become axial shadings, or meshes. Neutral RGB becomes grey:
in a luminosity mask by its luminosity, elsewhere in black ink alone.
"""
from collections.abc import Callable

import numpy as np
import pikepdf

from pressroom.reading.boxes import box_of, clipped
from pressroom.reading.functions import Function, Values, function_of, of_samples, pairs
from pressroom.reading.meshes import grey_mesh, lattice
from pressroom.reading.objects import (
    Unreadable,
    copied,
    get,
    is_array,
    is_dictionary,
    is_stream,
    number,
    numbers,
    without,
)
from pressroom.reading.spaces import LUMINOSITY, NEUTRAL, Blacks, space_of

# Samples of a function of one input, and cells of a mesh along each side: at first, and if these aren't enough.
SAMPLES, CELLS, MORE_CELLS = 1025, 128, 256
# How much a mesh may differ from the function in the middle of a cell.
CLOSE = 4 / 255


class Shadings:
    """The shadings of a PDF. `rgb` and `lab` are whether one shows colours in RGB or Lab, `areas` whether one is by a
    function of x and y, and `tints` whether one is in tints of colorants.
    """

    def __init__(self, pdf: pikepdf.Pdf, blacks: Blacks) -> None:
        self.pdf, self.blacks, self.rgb, self.lab = pdf, blacks, False, False
        self.areas, self.tints = False, False

    def changed(self, shading: pikepdf.Object, where: str, mask: bool) -> pikepdf.Object:
        """Returns what is painted in a shading's place, which may be the same shading."""
        if not is_dictionary(shading):
            raise Unreadable("damaged", f"damaged: {where} isn't a shading")
        try:
            by_area = number(get(shading, b"/ShadingType")) == 1
            self.areas |= by_area
            made = self.by_area(shading) if by_area else shading
            space = space_of(get(made, b"/ColorSpace"))
            self.tints |= space.kind == "other"
            self.lab |= space.has("lab")
            if space.kind == "rgb":
                return self.neutral(made, mask)
        except Unreadable as error:
            raise Unreadable(error.kind, f"{error} ({where})") from None
        self.rgb |= space.has("rgb") and not mask
        return made

    def by_area(self, shading: pikepdf.Object) -> pikepdf.Object:
        """Returns an axial shading or a mesh in place of a shading by a function of x and y."""
        domain = numbers(get(shading, b"/Domain")) or (0.0, 1.0, 0.0, 1.0)
        matrix = numbers(get(shading, b"/Matrix")) or (1.0, 0.0, 0.0, 1.0, 0.0, 0.0)
        function = function_of(get(shading, b"/Function"))
        if len(domain) != 4 or len(matrix) != 6 or len(function.domain) != 2:
            raise Unreadable("damaged", "damaged: a shading by a function has a malformed domain or matrix")
        kept = {key: get(shading, key) for key in (b"/ColorSpace", b"/Background", b"/BBox")}
        if matrix == (1.0, 0.0, 0.0, 1.0, 0.0, 0.0):
            for axis in (0, 1):
                if is_constant(function, domain, 1 - axis):
                    made, box = filled(self.axial(function, domain, axis), kept), box_of(kept[b"/BBox"])
                    area = domain[0], domain[2], domain[1], domain[3]
                    made[b"/BBox"] = [*(clipped(box, area) if box else area)]
                    return made
        cells = CELLS if is_close(function, domain, CELLS) else MORE_CELLS
        return filled(
            lattice(self.pdf, grid(function, domain, cells), domain, matrix, limits_of(shading)), kept
        )

    def axial(self, function: Function, domain: tuple[float, ...], axis: int) -> pikepdf.Object:
        """Returns an axial shading of a function that depends on x alone (axis 0), or on y alone."""
        left, right, lower, upper = domain
        low, high = (left, right) if axis == 0 else (lower, upper)
        places = np.empty((2, 4 * SAMPLES))
        places[axis] = np.linspace(low, high, 4 * SAMPLES)
        places[1 - axis] = lower if axis == 0 else left
        coords = [left, 0, right, 0] if axis == 0 else [0, lower, 0, upper]
        return pikepdf.Dictionary(
            ShadingType=2, Coords=coords, Domain=[low, high],
            Function=of_samples(self.pdf, function(places), (low, high)),
        )  # fmt: skip

    def neutral(self, shading: pikepdf.Object, mask: bool) -> pikepdf.Object:
        """Returns a shading in grey in place of one in RGB. Outside of masks one that has a colour stays RGB."""
        function = get(shading, b"/Function")
        if function is None:
            made = grey_mesh(self.pdf, shading, self.luminous if mask else self.black, mask)
            self.rgb |= made is None
            return shading if made is None else made
        if not mask and not self.is_grey(function_of(function)):
            self.rgb = True
            return shading
        change = self.luminous if mask else self.black
        made = copied(shading)
        made[b"/Function"] = self.mapped(function, change, mask)
        background = numbers(get(shading, b"/Background"))
        if len(background) == 3:
            made[b"/Background"] = [float(change(np.array([background]).T)[0, 0])]
        made[b"/ColorSpace"] = pikepdf.Name("/DeviceGray")
        return self.like(shading, made)

    def like(self, shading: pikepdf.Object, made: pikepdf.Object) -> pikepdf.Object:
        """Returns a stream with these keys if the shading is one."""
        if not is_stream(shading):
            return made
        stream = pikepdf.Stream(self.pdf, shading.read_bytes())
        stream.stream_dict = without(made, b"/Length", b"/Filter", b"/DecodeParms")
        return self.pdf.make_indirect(stream)

    def is_grey(self, function: Function) -> bool:
        low, high = function.domain[0]
        values = function(np.linspace(low, high, SAMPLES)[None])
        return len(values) == 3 and bool((values.max(axis=0) - values.min(axis=0) < NEUTRAL).all())

    def mapped(self, function: object, change: Callable[[Values], Values], mask: bool) -> pikepdf.Object:
        """Returns a function whose one output is changed from the three of this one."""
        kind = number(get(function, b"/FunctionType"))
        if is_dictionary(function) and kind == 3 and is_array(get(function, b"/Functions")):
            made = without(function, b"/Range")
            parts = [self.mapped(part, change, mask) for part in made[b"/Functions"]]
            made[b"/Functions"] = pikepdf.Array(parts)
            return made
        if is_dictionary(function) and kind == 2 and mask and get(function, b"/Range") is None:
            made = copied(function)
            for key in (b"/C0", b"/C1"):
                made[key] = [float(change(np.array([numbers(made.get(key))]).T)[0, 0])]
            return made
        found = function_of(function)
        low, high = found.domain[0]
        return of_samples(self.pdf, change(found(np.linspace(low, high, SAMPLES)[None])), (low, high))

    def luminous(self, colours: Values) -> Values:
        return np.asarray(np.array([LUMINOSITY]) @ np.clip(colours, 0, 1), float)

    def black(self, colours: Values) -> Values:
        steps = np.clip(colours.mean(axis=0), 0, 1)
        return np.array([[self.blacks.grey(step) for step in steps]])


def filled(shading: pikepdf.Object, more: dict[bytes, pikepdf.Object | None]) -> pikepdf.Object:
    """Adds the values that aren't missing."""
    for key, value in more.items():
        if value is not None:
            shading[key] = value
    return shading


def limits_of(shading: pikepdf.Object) -> Values:
    """Returns the range of each of a shading's components."""
    found = pairs(get(shading, b"/Function"), b"/Range")
    return found if len(found) else np.array([[0.0, 1.0]])


def grid(function: Function, domain: tuple[float, ...], cells: int) -> Values:
    """Returns the function's values at the corners of cells: (outputs, rows, columns)."""
    left, right, lower, upper = domain
    xs, ys = np.meshgrid(np.linspace(left, right, cells + 1), np.linspace(lower, upper, cells + 1))
    values = function(np.stack([xs.ravel(), ys.ravel()]))
    return values.reshape(len(values), cells + 1, cells + 1)


def is_constant(function: Function, domain: tuple[float, ...], axis: int) -> bool:
    """Returns whether the function doesn't depend on x (axis 0) or y (axis 1), at the corners of many cells."""
    values = grid(function, domain, 31)
    first = values[:, :, :1] if axis == 0 else values[:, :1]
    return bool((abs(values - first) < 1e-6).all())


def is_close(function: Function, domain: tuple[float, ...], cells: int) -> bool:
    """Returns whether a mesh of so many cells is close to the function, in the middle of every fourth cell."""
    values = grid(function, domain, cells // 2)
    corners = values[:, ::2, ::2]
    middle = (corners[:, :-1, :-1] + corners[:, 1:, 1:] + corners[:, :-1, 1:] + corners[:, 1:, :-1]) / 4
    return bool((abs(values[:, 1::2, 1::2] - middle) < CLOSE).all())
