"""The graphics state of a content stream as far as observations need it: matrix, clip, colours, line width,
overprint and text position. See ISO 32000-1, 8.4 and 9.3.
"""
from __future__ import annotations

import math
from collections.abc import Iterable
from dataclasses import dataclass, field, replace

# A matrix a b c d e f maps x, y to a x + c y + e, b x + d y + f.
Matrix = tuple[float, float, float, float, float, float]
# Left, lower, right and upper edge in the page's user space.
Box = tuple[float, float, float, float]
Point = tuple[float, float]
IDENTITY: Matrix = (1.0, 0.0, 0.0, 1.0, 0.0, 0.0)
# The inks of a colour that isn't known: a pattern, or a space that isn't followed.
UNKNOWN = "unknown"
BLACK, BARE, COLOUR = "black", "bare", "colour"


def times(one: Matrix, other: Matrix) -> Matrix:
    """Returns the matrix that applies `one` and then `other`."""
    a, b, c, d, e, f = one
    g, h, i, j, k, m = other
    return (a * g + b * i, a * h + b * j, c * g + d * i, c * h + d * j, e * g + f * i + k, e * h + f * j + m)


def moved(matrix: Matrix, x: float, y: float) -> Point:
    """Returns the point to which a matrix maps x, y."""
    a, b, c, d, e, f = matrix
    return a * x + c * y + e, b * x + d * y + f


def around(points: Iterable[Point]) -> Box:
    """Returns the box around points."""
    xs, ys = zip(*points)
    return min(xs), min(ys), max(xs), max(ys)


def box_of(matrix: Matrix, left: float, lower: float, right: float, upper: float) -> Box:
    """Returns the box around a rectangle that a matrix maps."""
    return around(moved(matrix, x, y) for x in (left, right) for y in (lower, upper))


def common(one: Box, other: Box) -> Box | None:
    """Returns what two boxes have in common, or None."""
    left, lower = max(one[0], other[0]), max(one[1], other[1])
    right, upper = min(one[2], other[2]), min(one[3], other[3])
    return (left, lower, right, upper) if left <= right and lower <= upper else None


def joined(boxes: Iterable[Box]) -> Box:
    """Returns the box around boxes."""
    return around(point for left, lower, right, upper in boxes for point in ((left, lower), (right, upper)))


def scale_of(matrix: Matrix) -> float:
    """Returns the least factor by which a matrix scales a line's width."""
    a, b, c, d = matrix[:4]
    total, area = a * a + b * b + c * c + d * d, abs(a * d - b * c)
    rest = math.sqrt(max(0.0, total * total - 4 * area * area))
    return math.sqrt(max(0.0, (total - rest) / 2))


@dataclass(frozen=True)
class Font:
    """A font: the advance of each code in thousandths of its size, that of all other codes, the bytes of a code, and
    whether its glyphs are content streams, which may have colours of their own.
    """

    widths: dict[int, float] = field(default_factory=dict)
    other: float = 500.0
    each: int = 1
    drawn: bool = False

    def advance(self, text: bytes) -> float:
        """Returns the advance of a text, for a size of 1."""
        step = self.each
        codes = (int.from_bytes(text[at : at + step], "big") for at in range(0, len(text), step))
        return sum(self.widths.get(code, self.other) for code in codes) / 1000


@dataclass(frozen=True)
class State:
    """The graphics state. Colours are BLACK (black ink alone, full), BARE, COLOUR or UNKNOWN; `over_fill` and
    `over_stroke` are whether fills and strokes overprint, `mode` is the overprint mode.
    """

    matrix: Matrix
    clip: Box
    fill: str = BLACK
    stroke: str = BLACK
    fill_space: str = "/DeviceGray"
    stroke_space: str = "/DeviceGray"
    width: float = 1.0
    over_fill: bool = False
    over_stroke: bool = False
    mode: int = 0
    font: Font = Font()
    size: float = 0.0
    spacing: float = 0.0
    words: float = 0.0
    wide: float = 1.0
    leading: float = 0.0
    rise: float = 0.0
    shows: int = 0

    def changed(self, **values: object) -> State:
        """Returns this state with other values."""
        return replace(self, **values)


def ink_of(space: str, values: list[float]) -> str:
    """Returns what a colour prints: BLACK, BARE, COLOUR or UNKNOWN."""
    if space == "/DeviceCMYK" and len(values) == 4:
        if values[:3] == [0, 0, 0] and values[3] == 1:
            return BLACK
        return COLOUR if any(values) else BARE
    if space == "/DeviceGray" and len(values) == 1:
        return BLACK if values[0] == 0 else BARE if values[0] == 1 else COLOUR
    if space == "/DeviceRGB" and len(values) == 3:
        return BLACK if not any(values) else BARE if values == [1, 1, 1] else COLOUR
    if space == "/Black" and len(values) == 1:
        return BLACK if values[0] == 1 else BARE if values[0] == 0 else COLOUR
    return UNKNOWN
