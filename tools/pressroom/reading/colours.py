"""Rewrites the colours that a content stream sets: ISO 32000-1, 8.6.8.

Neutral RGB and Lab become DeviceGray, which prints in black ink alone; within a luminosity mask every RGB colour
becomes its luminosity. All other RGB is set by `rg` or `RG`, and converted by Ghostscript.
"""
from dataclasses import dataclass, replace

import pikepdf

from pressroom.reading.resources import Resources

from pressroom.reading.spaces import (
    DEVICE, Blacks, Space, is_neutral, lab_range, lightness, luminosity, space_of,
)  # fmt: skip
from pressroom.reading.tokens import Instruction, Operand, escaped

# Operators that set colours, with the space that they choose.
DIRECT = {b"g": "gray", b"G": "gray", b"rg": "rgb", b"RG": "rgb", b"k": "cmyk", b"K": "cmyk"}
GREY_PATTERN = pikepdf.Array([pikepdf.Name("/Pattern"), pikepdf.Name("/DeviceGray")])


@dataclass(frozen=True)
class State:
    """What the graphics state has of colour and text: ISO 32000-1, 8.4.1 and 9.3. Spaces that are None are unknown."""

    fill: Space = Space("gray")
    stroke: Space = Space("gray")
    mode: int = 0
    font: object = None
    named: bytes = b""


class Colours:
    """Rewrites the colours of one page. `rgb` and `lab` are whether a colour is set that isn't neutral, and `white`
    whether one may be that is white.
    """

    def __init__(self, blacks: Blacks) -> None:
        self.blacks, self.rgb, self.lab, self.white = blacks, False, False, False

    def set(
        self, instruction: Instruction, state: State, resources: Resources, mask: bool
    ) -> tuple[State, bytes | None]:
        """Returns the state after an operator that sets a colour or its space, and what takes its place, or None."""
        operator, operands = instruction.operator, instruction.operands
        fill = operator.islower()
        if operator in DIRECT:
            state, colour = chosen(state, Space(DIRECT[operator]), fill), values(operands)
            bare = [1 - part for part in colour] if operator in b"kK" else colour
            self.white |= min(bare, default=1) > 0.99
            is_rgb = operator in (b"rg", b"RG") and len(colour) == 3
            return state, self.neutral(colour, fill, mask) if is_rgb else None
        if operator in (b"cs", b"CS"):
            space = self.named(operands, resources)
            return chosen(state, space, fill), self.initial(space, fill, mask)
        space, self.white = (state.fill if fill else state.stroke), True
        return state, self.colour(operands, space, resources, fill, mask)

    def named(self, operands: tuple[Operand, ...], resources: Resources) -> Space:
        """Returns the colour space of this name."""
        word = operands[-1] if operands and isinstance(operands[-1], bytes) else b""
        if word in DEVICE:
            return Space(DEVICE[word], pikepdf.Name(word.decode()))
        return space_of(resources.needed(b"/ColorSpace", word, "colour space"))

    def initial(self, space: Space, fill: bool, mask: bool) -> bytes | None:
        """Returns what takes the place of an operator that chooses a colour space: a new space begins with black."""
        if space.kind == "rgb":
            return self.grey((0.0, 0.0, 0.0), fill, mask)
        if space.kind == "indexed" and space.base is not None and space.base.kind == "rgb":
            return self.flat(space.colour(0), fill, mask)
        return None

    def colour(
        self, operands: tuple[Operand, ...], space: Space, resources: Resources, fill: bool, mask: bool
    ) -> bytes | None:
        """Returns what takes the place of the operators sc and scn, or None."""
        given = values(operands)
        if space.kind == "rgb" and len(given) == 3:
            return self.flat(given, fill, mask)
        if space.kind == "indexed" and space.base is not None and len(given) == 1:
            if space.base.kind == "rgb":
                return self.flat(space.colour(int(given[0])), fill, mask)
            self.lab |= space.base.kind == "lab"
        if space.kind == "lab" and len(given) == 3:
            return self.lab_colour(given, space, resources, fill, mask)
        if space.kind == "pattern" and space.base is not None and given and isinstance(operands[-1], bytes):
            return self.patterned(given, operands[-1], space, resources, fill, mask)
        self.rgb |= space.kind == "other" and space.has("rgb")
        return None

    def flat(self, colour: tuple[float, ...], fill: bool, mask: bool) -> bytes:
        """Returns the operator that sets an RGB colour."""
        made = self.neutral(colour, fill, mask) if len(colour) == 3 else b"0 " + (b"g" if fill else b"G")
        return made or written(colour) + (b" rg" if fill else b" RG")

    def neutral(self, colour: tuple[float, ...], fill: bool, mask: bool) -> bytes | None:
        """Returns the operator that sets a grey in place of an RGB colour, or None if it stays RGB."""
        if mask or is_neutral(colour):
            return self.grey(colour, fill, mask)
        self.rgb = True
        return None

    def grey(self, colour: tuple[float, ...], fill: bool, mask: bool) -> bytes:
        """Returns the operator that sets a grey."""
        value = luminosity(colour) if mask else self.blacks.grey(sum(colour) / 3)
        return b"%.6f %s" % (value, b"g" if fill else b"G")

    def lab_colour(
        self, colour: tuple[float, ...], space: Space, resources: Resources, fill: bool, mask: bool
    ) -> bytes | None:
        """Returns what sets a Lab colour: a grey if it's neutral or within a mask."""
        low, high = lab_range(space)[:2], lab_range(space)[2:]
        clipped = (colour[0], max(low[0], min(colour[1], low[1])), max(high[0], min(colour[2], high[1])))
        value = lightness((clipped[0], 0.0, 0.0) if mask else clipped)
        if value is not None:
            return self.grey((value, value, value), fill, mask)
        self.lab = True
        choose, paint = (b"cs", b"sc") if fill else (b"CS", b"SC")
        word = escaped(resources.added(b"/ColorSpace", space.object()))
        return b"%s %s %s %s" % (word, choose, written(colour), paint)

    def patterned(
        self,
        colour: tuple[float, ...],
        word: bytes,
        space: Space,
        resources: Resources,
        fill: bool,
        mask: bool,
    ) -> bytes | None:
        """Returns what paints an uncoloured pattern in a colour of RGB."""
        base = space.base
        if base is None or base.kind != "rgb" or len(colour) != 3:
            self.rgb |= base is not None and base.has("rgb")
            self.lab |= base is not None and base.has("lab")
            return None
        choose, paint = (b"cs", b"scn") if fill else (b"CS", b"SCN")
        if mask or is_neutral(colour):
            value = luminosity(colour) if mask else self.blacks.grey(sum(colour) / 3)
            own = resources.added(b"/ColorSpace", GREY_PATTERN)
            return b"%s %s %.6f %s %s" % (escaped(own), choose, value, escaped(word), paint)
        self.rgb = True
        own = resources.added(b"/ColorSpace", space.object())
        return b"%s %s %s %s %s" % (escaped(own), choose, written(colour), escaped(word), paint)


def chosen(state: State, space: Space, fill: bool) -> State:
    return replace(state, fill=space) if fill else replace(state, stroke=space)


def written(colour: tuple[float, ...]) -> bytes:
    """Returns components as a content stream has them."""
    return b" ".join(b"%.6f" % part for part in colour)


def values(operands: tuple[Operand, ...]) -> tuple[float, ...]:
    """Returns the numbers among operands."""
    return tuple(item for item in operands if isinstance(item, float))
