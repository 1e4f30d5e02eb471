"""Colour spaces of a page, and what the house's rules make of flat colours: ISO 32000-1, 8.6.

Grey with a profile is DeviceGray and CMYK with a profile is DeviceCMYK: the file's numbers are the inks. Neutral RGB
and Lab become grey that prints in black ink alone, of the same lightness.
"""
from dataclasses import dataclass, field

import pikepdf

from pressroom.reading.objects import get, is_array, is_dictionary, is_stream, name, number, numbers

# Colours count as neutral if their components differ by less than half a step of 255.
NEUTRAL = 1 / 510
# Weights of red, green and blue in a luminosity mask: ISO 32000-1, 11.5.3 and 10.3.5.
LUMINOSITY = (0.3, 0.59, 0.11)
DEVICE = {b"/DeviceGray": "gray", b"/DeviceRGB": "rgb", b"/DeviceCMYK": "cmyk", b"/Pattern": "pattern"}
INLINE = {b"/G": b"/DeviceGray", b"/RGB": b"/DeviceRGB", b"/CMYK": b"/DeviceCMYK", b"/I": b"/Indexed"}
COUNTS = {"gray": 1, "rgb": 3, "cmyk": 4, "lab": 3, "indexed": 1}


@dataclass(frozen=True)
class Space:
    """A colour space: gray, rgb, cmyk, lab, indexed, pattern or other, with its base and its table of colours. `value`
    is the PDF's object.
    """

    kind: str
    value: object = field(default=None, compare=False)
    base: "Space | None" = None
    table: bytes = b""

    def object(self) -> pikepdf.Object:
        """Returns the PDF's object of this space."""
        return self.value if isinstance(self.value, pikepdf.Object) else pikepdf.Name("/DeviceGray")

    def has(self, kind: str) -> bool:
        """Returns whether this space, or that which it is based on, is of this kind."""
        return self.kind == kind or (self.base is not None and self.base.has(kind))

    def colour(self, index: int) -> tuple[float, ...]:
        """Returns an entry of an indexed space, in the units of its base."""
        count = COUNTS.get(self.base.kind, 0) if self.base else 0
        at = max(0, min(index, len(self.table) // count - 1)) * count if count else 0
        return tuple(byte / 255 for byte in self.table[at : at + count])


def profile_kind(stream: object) -> str:
    """Returns the kind of space that a profile describes."""
    count = number(get(stream, b"/N"))
    if count == 3 and is_stream(stream):
        try:
            if stream.read_bytes()[16:20] == b"Lab ":
                return "lab"
        except pikepdf.PdfError:
            pass
    return {1: "gray", 3: "rgb", 4: "cmyk"}.get(int(count or 0), "other")


def space_of(value: object, depth: int = 0) -> Space:
    """Returns the colour space of an object."""
    if depth > 8:
        return Space("other", value)
    if word := name(value):
        return Space(DEVICE.get(word, "other"), value)
    if not is_array(value) or not len(value):
        return Space("other", value)
    word = name(value[0])
    second = value[1] if len(value) > 1 else None
    if word in (b"/CalRGB", b"/CalGray", b"/CalCMYK", b"/Lab"):
        return Space(
            {b"/CalRGB": "rgb", b"/CalGray": "gray", b"/CalCMYK": "cmyk", b"/Lab": "lab"}[word], value
        )
    if word == b"/ICCBased":
        return Space(profile_kind(second), value)
    if word == b"/Indexed":
        table = value[3] if len(value) > 3 else b""
        data = (
            table.read_bytes()
            if is_stream(table)
            else bytes(table)
            if isinstance(table, pikepdf.String)
            else b""
        )
        return Space("indexed", value, space_of(second, depth + 1), data)
    if word == b"/Pattern":
        return Space("pattern", value, space_of(second, depth + 1) if second is not None else None)
    return Space(DEVICE.get(word, "other"), value)


def untagged(value: object) -> pikepdf.Object | None:
    """Returns what takes the place of a space of grey or CMYK with a profile, or None if the value is no such space."""
    if not is_array(value) or not 1 < len(value) < 3:
        return None
    word = name(value[0])
    if word == b"/CalGray":
        return pikepdf.Name("/DeviceGray")
    if word == b"/ICCBased" and is_dictionary(value[1]):
        count = number(get(value[1], b"/N"))
        return {1: pikepdf.Name("/DeviceGray"), 4: pikepdf.Name("/DeviceCMYK")}.get(int(count or 0))
    return None


def is_neutral(colour: tuple[float, ...]) -> bool:
    """Returns whether an RGB colour is grey."""
    return max(colour) - min(colour) < NEUTRAL


def lightness(colour: tuple[float, ...]) -> float | None:
    """Returns the value of the RGB grey that has the lightness of a neutral Lab colour, or None if it has a colour."""
    light, *rest = colour
    if any(abs(part) >= 0.5 for part in rest):
        return None
    return encoded(luminance(light))


def luminance(light: float) -> float:
    """Returns the luminance of a lightness from 0 to 100, from 0 to 1."""
    step = (max(0.0, min(light, 100.0)) + 16) / 116
    return step**3 if step > 6 / 29 else (step - 4 / 29) * 3 * (6 / 29) ** 2


def encoded(share: float) -> float:
    """Returns the component of sRGB that has this luminance."""
    return 12.92 * share if share <= 0.0031308 else float(1.055 * share ** (1 / 2.4) - 0.055)


def luminosity(colour: tuple[float, ...]) -> float:
    """Returns the luminosity of an RGB colour."""
    return sum(weight * part for weight, part in zip(LUMINOSITY, colour))


class Blacks:
    """The grey that prints as much black ink as the house's profile gives to a neutral RGB colour: a table of the ink
    of 65536 steps.
    """

    def __init__(self, table: bytes) -> None:
        self.table = table

    def grey(self, value: float) -> float:
        return 1 - self.table[int(max(0.0, min(value, 1.0)) * 65535)] / 255


def lab_range(space: Space) -> tuple[float, ...]:
    """Returns the range of a and b."""
    found = numbers(get(space.value[1], b"/Range")) if is_array(space.value) else ()
    return found if len(found) == 4 else (-100.0, 100.0, -100.0, 100.0)
