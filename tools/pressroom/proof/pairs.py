"""The plates of one pair of pages, as picture: in a block of pixels each ink takes its share of the light, as if dots
of different inks overlapped at random."""
from collections.abc import Callable, Iterator

import numpy
from numpy.typing import NDArray

from pressroom.proof.light import light_of, screen_of
from pressroom.proof.names import COLOURS, see_size
from pressroom.tiff.arrays import Bytes, rows_of
from pressroom.tiff.tiff import Broken, Tiff

Colours = dict[str, tuple[int, int, int]]
Step = Callable[[int], object]


class Pair:
    """The plates of a pair of pages, in the order in which inks are printed."""

    def __init__(self, name: str, paths: dict[str, str]) -> None:
        self.name = name
        self.plates = {ink: Tiff(paths[ink]) for ink in COLOURS if ink in paths}
        first = next(iter(self.plates.values()))
        self.width, self.length = first.width, first.length
        for plate in self.plates.values():
            if plate.samples != 1 or plate.bits != 1:
                raise Broken(
                    f"{plate.path}: not a plate: it has {plate.samples} samples of {plate.bits} bits"
                )
            see_size(plate)
            if (plate.width, plate.length) != (self.width, self.length):
                raise Broken(
                    f"{plate.path}: {plate.width} by {plate.length} pixels, and {first.path} has "
                    f"{self.width} by {self.length}"
                )
        self.close()

    def close(self) -> None:
        """Closes all files."""
        for plate in self.plates.values():
            plate.close()

    def label(self) -> str:
        """What stands below the pair."""
        return f"{self.name}   {' '.join(self.plates)}"

    def factor_for(self, side: int) -> int:
        """How many pixels across become one, so that the picture is about so wide."""
        return max(1, -(-self.width // side))

    def size(self, factor: int) -> tuple[int, int]:
        """Width and length of the picture."""
        return -(-self.width // factor), -(-self.length // factor)

    def pixels(self, factor: int, colours: Colours, step: Step) -> Iterator[Bytes]:
        """The picture's rows from the top, each an array of red, green and blue."""
        for shares in zip(*(shares_of(plate, factor) for plate in self.plates.values())):
            light = numpy.ones((len(shares[0]), 3))
            for ink, share in zip(self.plates, shares):
                light *= 1 - share[:, None] * (1 - light_of(colours[ink]))
            step(1)
            yield screen_of(light)
        self.close()

    def dots(
        self, box: tuple[int, int, int, int], zoom: int, colours: Colours, step: Step
    ) -> Iterator[Bytes]:
        """The same of a part of the plates, whose every pixel is so many across."""
        x, y, width, height = box
        plates = [plate.rows(y, y + height) for plate in self.plates.values()]
        for rows in zip(*plates):
            light = numpy.ones((width, 3))
            for ink, row in zip(self.plates, rows):
                bits = numpy.unpackbits(numpy.frombuffer(row, numpy.uint8))[x : x + width] == 1
                light[bits] *= light_of(colours[ink])
            pixels = numpy.repeat(screen_of(light), zoom, axis=0)
            step(zoom)
            yield from [pixels] * zoom
        self.close()


def shares_of(plate: Tiff, factor: int) -> Iterator[NDArray[numpy.float64]]:
    """For each block of so many rows, the share that prints of each block of so many columns."""
    starts = numpy.arange(0, plate.width, factor)
    columns = numpy.diff(numpy.append(starts, plate.width))
    sums, rows = numpy.zeros(plate.width, numpy.uint32), 0
    for strip in range(plate.strips):
        data = rows_of(plate, strip)
        while len(data):
            piece, data = data[: factor - rows], data[factor - rows :]
            sums += numpy.unpackbits(piece, axis=1, count=plate.width).sum(axis=0, dtype=numpy.uint32)
            rows += len(piece)
            if rows == factor:
                yield numpy.add.reduceat(sums, starts) / (columns * rows)
                sums[:], rows = 0, 0
    if rows:
        yield numpy.add.reduceat(sums, starts) / (columns * rows)
