"""Shrinks a page's planes of ink to their means over blocks, which are compared with a second rendering.

A block is a square of BLOCK by BLOCK pixels of that rendering, which has DPI pixels an inch. Its corner and the
plate's rarely meet in a pixel, so a Grid says where the page is among the blocks. The samples are taken at
regular distances, some ten for each pixel of the second rendering.
"""
from __future__ import annotations

import os
from collections.abc import Sequence
from dataclasses import asdict, dataclass
from typing import TYPE_CHECKING, Any

if TYPE_CHECKING:
    import numpy as np
    from numpy.typing import NDArray

# The second rendering's resolution in pixels an inch, the side of a block in its pixels, and how many samples
# are taken along that side of a pixel.
DPI, BLOCK, SAMPLES = 72, 4, 3
# The inks that are compared: the four and the house's spot. Where RGB shows, each of the first three together
# with black is compared in their place.
INKS, DENSITIES = 5, 3
# The file of the means in a page's folder.
FILE = "shrunk.npy"


@dataclass(frozen=True)
class Grid:
    """Where a page lies in the second rendering: the page's upper left corner in pixels from that rendering's, and
    the size of that rendering in pixels.
    """

    left: float
    top: float
    width: int
    height: int

    def blocks(self) -> tuple[int, int]:
        """Returns the number of rows and columns of blocks."""
        return -(-self.height // BLOCK), -(-self.width // BLOCK)


@dataclass(frozen=True)
class Asked:
    """What is asked of a Shrunk: the grid, and whether inks together with black are summed, too."""

    grid: Grid
    densities: bool

    def words(self) -> dict[str, Any]:
        """Returns the fields, for JSON."""
        return asdict(self)

    @classmethod
    def read(cls, words: dict[str, Any]) -> Asked:
        """Returns what `words` returned."""
        return cls(Grid(**words["grid"]), words["densities"])


def taken(count: int, dpi: int, start: float, blocks: int) -> tuple[NDArray[Any], NDArray[Any]]:
    """Returns which pixels of a side of the page are samples, and the block of each."""
    import numpy as np

    step = max(1, dpi // (DPI * SAMPLES))
    pixels = np.arange(min(step // 2, count - 1), count, step)
    within = np.floor((start + (pixels + 0.5) * DPI / dpi) / BLOCK).astype(int)
    kept = (within >= 0) & (within < blocks)
    return pixels[kept], within[kept]


class Shrunk:
    """The sums of ink over blocks while the strips of a page arrive."""

    def __init__(self, asked: Asked, size: tuple[int, int], dpi: int) -> None:
        """`size` is the page's in pixels."""
        import numpy as np

        grid, densities = asked.grid, asked.densities
        rows, columns = grid.blocks()
        self.columns, across = taken(size[0], dpi, grid.left, columns)
        self.lines, self.down = taken(size[1], dpi, grid.top, rows)
        self.across, self.starts = np.unique(across, return_index=True)
        self.sums = np.zeros((INKS + DENSITIES * densities, rows, columns), np.uint32)
        counts = (np.bincount(side, minlength=n) for side, n in ((self.down, rows), (across, columns)))
        self.counts = np.multiply.outer(*counts)

    def add(self, top: int, planes: Sequence[NDArray[np.uint8] | None]) -> None:
        """Adds a strip whose first row is `top`: the four inks and the house's spot, None for a plane that is bare."""
        import numpy as np

        rows = next((len(plane) for plane in planes if plane is not None), 0)
        first, last = np.searchsorted(self.lines, (top, top + rows))
        if first == last or not len(self.columns):
            return
        step = self.columns[1] - self.columns[0] if len(self.columns) > 1 else 1
        across = slice(self.columns[0], self.columns[-1] + 1, step)
        samples = [None if plane is None else plane[self.lines[first:last] - top, across] for plane in planes]
        if len(self.sums) > INKS:
            samples += [together(ink, samples[3]) for ink in samples[:DENSITIES]]
        down, begins = np.unique(self.down[first:last], return_index=True)
        for number, sample in enumerate(samples):
            if sample is not None:
                for row, part in zip(down, np.split(sample, begins[1:])):
                    sums = np.add.reduceat(part.sum(axis=0, dtype=np.uint16), self.starts, dtype=np.uint32)
                    self.sums[number, row, self.across] += sums

    def save(self, folder: str) -> None:
        """Writes the means to the page's folder."""
        import numpy as np

        np.save(os.path.join(folder, FILE), self.means())

    def means(self) -> NDArray[np.float32]:
        """Returns the means of all planes over blocks, 0 to 1, and last the number of each block's samples."""
        import numpy as np

        means = self.sums / (255 * np.maximum(self.counts, 1))
        found: NDArray[np.float32] = np.concatenate([means, self.counts[np.newaxis]]).astype(np.float32)
        return found


def together(ink: NDArray[np.uint8] | None, black: NDArray[np.uint8] | None) -> NDArray[np.uint8] | None:
    """Returns the sum of an ink and black, at most 255."""
    import numpy as np

    if ink is None or black is None:
        return black if ink is None else ink
    found: NDArray[np.uint8] = ink + np.minimum(black, 255 - ink)
    return found
