"""Counts the dots of a plate, by column and by square block, while its rows pass once."""
from collections.abc import Iterator

import numpy
from numpy.typing import NDArray

from pressroom.tiff.arrays import Bytes, rows_of
from pressroom.tiff.tiff import Broken, Tiff


def bands(plate: Tiff, rows: int) -> Iterator[Bytes]:
    """The plate's rows from the top as arrays of packed bytes, so many rows in each; the last may have
    fewer."""
    kept: list[Bytes] = []
    count = 0
    for strip in range(plate.strips):
        data = rows_of(plate, strip)
        while len(data):
            piece, data = data[: rows - count], data[rows - count :]
            kept.append(piece)
            count += len(piece)
            if count == rows:
                yield numpy.concatenate(kept)
                kept, count = [], 0
    if count:
        yield numpy.concatenate(kept)


Numbers = NDArray[numpy.int64]
# The most blocks of a plate that are counted.
MOST_BLOCKS = 1 << 26


class Counts:
    """How many pixels of a plate print: in each column, and in each block of `side` by `side` pixels."""

    def __init__(self, plate: Tiff, side: int) -> None:
        self.width, self.length, self.side = plate.width, plate.length, side
        self.columns: Numbers = numpy.zeros(plate.width, numpy.int64)
        if -(-plate.width // side) * -(-plate.length // side) > MOST_BLOCKS:
            raise Broken(f"{plate.path}: {plate.width} by {plate.length} pixels at so few an inch")
        starts, lines = numpy.arange(0, plate.width, side), []
        for band in bands(plate, side):
            sums = numpy.unpackbits(band, axis=1, count=plate.width).sum(axis=0, dtype=numpy.uint32)
            self.columns += sums
            lines.append(numpy.add.reduceat(sums, starts))
        self.blocks: Numbers = numpy.stack(lines).astype(numpy.int64)

    def total(self) -> int:
        """How many pixels print in all."""
        return int(self.columns.sum())

    def keys(self, count: int) -> list[int]:
        """How many print in each of so many keys: column x is of the key x * count / width, rounded down."""
        keys = numpy.arange(self.width) * count // self.width
        found: list[int] = numpy.bincount(keys, self.columns, count).astype(numpy.int64).tolist()
        return found

    def larger(self, times: int) -> Numbers:
        """The counts of blocks of so many blocks across and down."""
        rows, columns = self.blocks.shape
        filled = numpy.pad(self.blocks, ((0, -rows % times), (0, -columns % times)))
        shape = filled.shape[0] // times, times, filled.shape[1] // times, times
        found: Numbers = filled.reshape(shape).sum(axis=(1, 3))
        return found

    def areas(self, times: int = 1) -> Numbers:
        """How many pixels each such block has."""
        side = self.side * times

        def spans(length: int) -> Numbers:
            starts = numpy.arange(0, length, side)
            found: Numbers = numpy.minimum(starts + side, length) - starts
            return found

        found: Numbers = numpy.outer(spans(self.length), spans(self.width))
        return found
