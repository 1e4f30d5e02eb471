"""Compares a page's planes with a second rendering of it, and finds the areas that differ by more ink than the two
ways to render explain.

Both are means over blocks (shrunk.py). For each block the second rendering gives bounds of ink, and the page
differs where it leaves them by more than LEAST in a square of two by two blocks, 2.8 mm wide:

- Without RGB the bounds are the ink itself, of the four inks and of the house's spot.
- Where RGB may show, black generation is the house's. There each of C, M and Y is compared together with K, and
  the bounds span what the three ways to convert RGB give: C = 1 - R, the house's profile, and black alone. Where
  something is transparent, too, they span what these ways give for any colour that is mixed with white.
- Where a spot that is mixed is over other ink, the bounds span overprint and knockout.
- A shading or a table in tints isn't compared where mutool shows it in the four inks, or its spot is mixed.
- Where spots that are mixed overlap, and may overprint, any more ink is within the bounds.
"""
from __future__ import annotations

from collections.abc import Callable
from dataclasses import dataclass
from typing import TYPE_CHECKING, Any

from pressroom.intake.second import Second
from pressroom.intake.shrunk import BLOCK, DENSITIES, DPI, INKS, Grid

if TYPE_CHECKING:
    from numpy.typing import NDArray

    Array = NDArray[Any]

# The difference in ink that is passed over, of 1: LEAST, and STEPS for each pixel an inch of the plate, whose
# pixels make edges of text and lines heavier.
LEAST, STEPS = 0.1, 12
# The part of a block's samples that must lie on the page.
WHOLE = 0.8
# The side of a square in pixels, and how many squares apart parts of an area may be.
SIDE, NEAR = 2 * BLOCK, 2
# Up to this, of 255, ink is none, and the inks of a colour are equal.
NONE, NEUTRAL = 2, 15
NAMES = "C", "M", "Y", "K", "spot", "C+K", "M+K", "Y+K"
MILLIMETRES = 25.4 / DPI


@dataclass(frozen=True)
class Colours:
    """What the house makes of RGB: the inks of its profile as a table of steps of R, G and B, and the black ink
    that alone has the lightness of each neutral step, of 0 to 255.
    """

    profile: Array
    blacks: Array


@dataclass(frozen=True)
class Shows:
    """What a page shows: the place of RGB in millimetres, or None; whether there may be neutral text and line
    art, whether other colours are converted all over the page, whether something is transparent, whether a
    shading or a table is in tints of colorants, and what the house makes of RGB.
    """

    rgb: tuple[float, ...] | None
    neutral: bool
    converted: bool
    transparent: bool
    tints: bool
    colours: Colours


@dataclass(frozen=True)
class Area:
    """An area that differs: its box in millimetres on the page, and for each ink that differs its name, the
    page's mean and the second rendering's in percent, where they differ most.
    """

    place: tuple[float, float, float, float]
    inks: tuple[tuple[str, int, int], ...]

    def text(self) -> str:
        ours = ", ".join(f"{name} {ours}" for name, ours, _ in self.inks)
        theirs = ", ".join(f"{name} {theirs}" for name, _, theirs in self.inks)
        return f"prints {ours} percent, and mutool shows {theirs}"


def ink_bounds(
    second: Second, is_house: Callable[[bytes], bool], colours: Colours | None
) -> tuple[Array, Array]:
    """Returns the least and the most ink of each pixel, 0 to 255: planes of the four inks and the house's spot."""
    import numpy as np

    others = np.zeros_like(second.process[0])
    low = np.stack([*second.process, others])
    for name, plane in second.spots.items():
        target = low[4] if is_house(name) else others
        target += np.minimum(plane, 255 - target)
    high = low
    if second.converted is not None:
        high = low.copy()
        mix(second, low, high, others)
    if colours is not None and low[3].any():
        high = low.copy() if high is low else high
        alone = low[:3].max(axis=0) <= NONE
        black = colours.blacks[(255 - low[3]).astype(int) * (len(colours.blacks) - 1) // 255]
        np.minimum(low[3], black, out=low[3], where=alone)
        np.maximum(high[3], black, out=high[3], where=alone)
    return low, high


def mix(second: Second, low: Array, high: Array, others: Array) -> None:
    """Adds spots that are mixed into the four inks to the bounds."""
    import numpy as np

    mixed = second.converted
    assert mixed is not None
    every = np.stack([*second.process, *second.spots.values()])
    is_all = every.max(axis=0) - every.min(axis=0) <= NONE
    spot, bare = (others > NONE) & ~is_all, low.max(axis=0) <= NONE
    np.copyto(low[:4], mixed, where=spot & bare)
    np.copyto(high[:4], mixed, where=spot & bare)
    most = high[:4] + np.minimum(np.maximum(mixed, others), 255 - high[:4])
    np.copyto(high[:4], most, where=spot & ~bare)
    several = sum((plane > NONE).astype(np.uint8) for plane in second.spots.values())
    np.copyto(high[:4], 255, where=spot & (several > 1))
    # The tint 0 of some spots has ink.
    np.maximum(high[:4], mixed, out=high[:4], where=~spot & bare)


def shares(colours: Colours) -> tuple[Array, Array]:
    """Returns for each of three inks the least and the most ink, together with black, that the house makes of
    RGB, as a part of the ink of C = 1 - R.
    """
    import numpy as np

    side = len(colours.profile)
    steps = 255 * (1 - np.arange(side) / (side - 1))
    found = []
    for ink in range(3):
        plain = np.moveaxis(np.broadcast_to(steps, (side, side, side)), 2, ink)
        part = colours.profile[..., ink].astype(float) + colours.profile[..., 3]
        found.append((part / np.maximum(plain, 1))[plain > 64])
    least, most = (np.array([edge(part) for part in found]) for edge in (np.min, np.max))
    return np.minimum(least, 1)[:, None, None], np.maximum(most, 1)[:, None, None]


def density_bounds(low: Array, high: Array, shown: Shows) -> tuple[Array, Array]:
    """Returns the least and the most of each of three inks together with black, 0 to 255."""
    import numpy as np

    colours = shown.colours
    least, most = (inks[:3] + np.minimum(inks[3], 255 - inks[:3]) for inks in (low, high))
    side = len(colours.blacks) - 1
    steps = ((255 - least.astype(int)) * side + 127) // 255
    profile = np.moveaxis(colours.profile[steps[0], steps[1], steps[2]], 2, 0)
    profile = profile[:3] + np.minimum(profile[3], 255 - profile[:3])
    neutral = most.max(axis=0) - least.min(axis=0) <= NEUTRAL
    black = np.where(neutral, colours.blacks[steps[0]], least)
    if shown.transparent:
        under, over = shares(colours)
        least, most = least * under, np.minimum(most * over, 255)
    return np.minimum(np.minimum(least, profile), black), np.maximum(np.maximum(most, profile), black)


def windows(plane: Array, grid: Grid) -> tuple[Array, Array]:
    """Returns the least and the most of a plane's means over squares of two by two blocks, which begin at each
    block and are shifted by at most a pixel. The plane is of 0 to 255, the means of 0 to 1.
    """
    import numpy as np

    rows, columns = grid.blocks()
    # Sums of all pixels above and to the left of a corner, with a margin of a pixel.
    sums = np.zeros((rows * BLOCK + 3, columns * BLOCK + 3), np.uint32)
    part = plane[: rows * BLOCK, : columns * BLOCK]
    sums[2 : 2 + part.shape[0], 2 : 2 + part.shape[1]] = part
    np.cumsum(np.cumsum(sums, axis=0, out=sums), axis=1, out=sums)
    found = []
    for down in range(3):
        bands = sums[down + SIDE :: BLOCK][: rows - 1] - sums[down::BLOCK][: rows - 1]
        for right in range(3):
            total = (
                bands[:, right + SIDE :: BLOCK][:, : columns - 1] - bands[:, right::BLOCK][:, : columns - 1]
            )
            found.append(total)
    least, most = np.minimum.reduce(found), np.maximum.reduce(found)
    return least / (255 * SIDE * SIDE), most / (255 * SIDE * SIDE)


def squares(means: Array) -> Array:
    """Returns the means over squares of two by two blocks from the means over blocks."""
    total: Array = means[..., :-1, :-1] + means[..., :-1, 1:] + means[..., 1:, :-1] + means[..., 1:, 1:]
    return total / 4


class Comparison:
    """The squares of one page, how far each leaves the bounds, and the two values of each ink."""

    def __init__(self, means: Array, grid: Grid, dpi: int) -> None:
        """`means` are those of Shrunk, `dpi` is the page's resolution."""
        import numpy as np

        self.means, self.grid = means, grid
        self.passed = LEAST + STEPS / dpi
        counts = means[-1]
        whole = counts >= WHOLE * np.median(counts[counts > 0]) if counts.any() else counts > 0
        self.whole = squares(whole.astype(int)) == 1
        self.excess = np.zeros(self.whole.shape, np.float32)
        self.values: dict[str, tuple[Array, Array]] = {}

    def compare(self, name: str, number: int, low: Array, high: Array, where: Array) -> None:
        """Compares a plane of the page with its bounds in some squares."""
        import numpy as np

        if not self.means[number].any() and not low.any():
            return
        ours = squares(self.means[number])
        least, most = windows(low, self.grid)
        if high is not low:
            most = windows(high, self.grid)[1]
        theirs = np.clip(ours, least, most)
        np.maximum(self.excess, (abs(ours - theirs) - self.passed) * (where & self.whole), out=self.excess)
        self.values[name] = ours, theirs

    def tinted(self, spot: Array, second: Second, is_house: Callable[[bytes], bool]) -> Array:
        """Returns which squares have more of the house's spot than the second rendering shows, or mixed spots."""
        found: Array = squares(self.means[4]) - windows(spot, self.grid)[1] > self.passed
        for name, plane in second.spots.items():
            if not is_house(name):
                found |= windows(plane, self.grid)[1] > NONE / 255
        return found

    def areas(self) -> list[Area]:
        """Returns the areas that differ, the largest first."""
        found = sorted(connected(self.excess > 0), key=len, reverse=True)
        return [self.area(squares) for squares in found]

    def area(self, found: list[tuple[int, int]]) -> Area:
        """Returns the area of some squares, with the values where they differ most."""
        worst = max(found, key=lambda square: float(self.excess[square]))
        inks = []
        for name, (ours, theirs) in self.values.items():
            if abs(ours[worst] - theirs[worst]) > self.passed:
                inks.append((name, round(100 * float(ours[worst])), round(100 * float(theirs[worst]))))
        rows, columns = [row for row, _ in found], [column for _, column in found]
        left, top = min(columns) * BLOCK - self.grid.left, min(rows) * BLOCK - self.grid.top
        width = (max(columns) - min(columns) + 2) * BLOCK
        height = (max(rows) - min(rows) + 2) * BLOCK
        place = tuple(round(side * MILLIMETRES, 1) for side in (left, top, width, height))
        return Area((place[0], place[1], place[2], place[3]), tuple(inks))


def connected(marked: Array) -> list[list[tuple[int, int]]]:
    """Returns the marked squares in groups: those of a group are at most NEAR squares apart."""
    rest = {(int(row), int(column)) for row, column in zip(*marked.nonzero())}
    steps = range(-NEAR, NEAR + 1)
    groups = []
    while rest:
        group = [rest.pop()]
        for row, column in group:
            near = {(row + down, column + right) for down in steps for right in steps} & rest
            rest -= near
            group += near
        groups.append(group)
    return groups


def inside(place: tuple[float, ...] | None, grid: Grid, shape: tuple[int, ...]) -> Array:
    """Returns which squares touch a box in millimetres on the page, or none."""
    import numpy as np

    found = np.zeros(shape, bool)
    if place:
        left, top = place[0] / MILLIMETRES + grid.left, place[1] / MILLIMETRES + grid.top
        right, bottom = left + place[2] / MILLIMETRES, top + place[3] / MILLIMETRES
        rows = slice(max(0, int(top / BLOCK) - 2), max(0, int(bottom / BLOCK) + 2))
        found[rows, max(0, int(left / BLOCK) - 2) : max(0, int(right / BLOCK) + 2)] = True
    return found


def differing(
    means: Array, grid: Grid, dpi: int, second: Second, is_house: Callable[[bytes], bool], shown: Shows
) -> list[Area]:
    """Returns the areas where a page differs from its second rendering, the largest first."""
    import numpy as np

    found = Comparison(means, grid, dpi)
    shape = found.whole.shape
    low, high = ink_bounds(second, is_house, shown.colours if shown.neutral else None)
    dense = np.ones(shape, bool) if shown.converted else inside(shown.rgb, grid, shape)
    kept = ~found.tinted(low[4], second, is_house) if shown.tints else np.ones(shape, bool)
    found.compare(NAMES[4], 4, low[4], high[4] if high is not low else low[4], kept)
    if not dense.all():
        for ink in range(4):
            found.compare(NAMES[ink], ink, low[ink], low[ink] if high is low else high[ink], kept & ~dense)
    if dense.any():
        least, most = density_bounds(low, high, shown)
        for ink in range(DENSITIES):
            found.compare(NAMES[INKS + ink], INKS + ink, least[ink], most[ink], kept & dense)
    return found.areas()
