"""Files of a plate for the page: scripts that each carry one block of it, packed by zlib and written in base64.

A page that is opened from a disk can't fetch files, but it loads scripts. `bits` are the plate's own pixels, eight
in a byte, in blocks of 4096 by 4096. `eighth` has the share of each 8 by 8 pixels that prints, 0 to 255, in blocks of
1024 by 1024 shares, and `whole` that of each 16 by 16, in one block. A block without a dot has no file. The sum of
each block, the CRC-32 of its packed bytes, is in the proof's manifest.
"""
import base64
import json
import os
import zlib
from collections.abc import Iterable, Iterator

import numpy
from numpy.typing import NDArray

from pressroom.tiff.arrays import Bytes
from pressroom.tiff.tiff import Broken, Tiff

SIDE, SHARES = 4096, 1024
LEVEL = 6
# How many pixels print of each byte.
PRINTED: Bytes = numpy.array([bin(byte).count("1") for byte in range(256)], numpy.uint8)
# The most blocks of 8 by 8 pixels of a plate, a byte each.
MOST_BLOCKS = 1 << 26
# The sums of a plate's blocks by their names, such as bits-0-0.
Sums = dict[str, str]


class Writer:
    """Writes the blocks of one plate into a folder, and keeps their sums and sizes."""

    def __init__(self, folder: str, key: str) -> None:
        self.folder, self.key = os.path.join(folder, "plates", key), key
        self.sums: Sums = {}
        os.makedirs(self.folder)

    def put(self, name: str, data: bytes) -> None:
        """Writes a block of raw bytes, unless none prints."""
        if data.count(0) < len(data):
            self.script(name, zlib.compress(data, LEVEL))

    def script(self, name: str, packed: bytes) -> None:
        """Writes a script that hands packed bytes to the page."""
        self.sums[name] = write_block(os.path.join(self.folder, f"{name}.js"), f"{self.key}/{name}", packed)

    def counts(self, head: object, cells: NDArray[numpy.int64]) -> None:
        """Writes the counts of squares, of at most 64 by 64 pixels: a line of JSON, and two bytes a square."""
        data = json.dumps(head, separators=(",", ":")).encode() + b"\n" + cells.astype("<u2").tobytes()
        self.script("counts", zlib.compress(data, LEVEL))


def see_blocks(plate: Tiff) -> None:
    """Raises Broken if a plate has too many blocks to be counted."""
    if -(-plate.width // 8) * -(-plate.length // 8) > MOST_BLOCKS:
        raise Broken(f"{plate.path}: {plate.width} by {plate.length} pixels at so few an inch")


def write_block(path: str, name: str, packed: bytes) -> str:
    """Writes bytes as a script of that name and returns their sum."""
    with open(path, "w", encoding="ascii") as file:
        file.write(f'proofBlock("{name}","{base64.b64encode(packed).decode()}")\n')
    return f"{zlib.crc32(packed):08x}"


class Counter:
    """Counts the pixels that print left of some columns, row by row of packed bytes."""

    def __init__(self, columns: list[int]) -> None:
        self.columns = columns
        self.parts: NDArray[numpy.int64] = numpy.zeros(len(columns), numpy.int64)

    def add(self, rows: Bytes, bytewise: NDArray[numpy.int64]) -> None:
        """Counts rows; `bytewise` has how many pixels print in each column of bytes."""
        ahead: NDArray[numpy.int64] = numpy.zeros(len(bytewise) + 1, numpy.int64)
        numpy.cumsum(bytewise, out=ahead[1:])
        for number, column in enumerate(self.columns):
            self.parts[number] += ahead[column // 8]
            if column % 8:
                masked = rows[:, column // 8] & (0xFF00 >> column % 8 & 0xFF)
                self.parts[number] += int(PRINTED[masked].sum(dtype=numpy.int64))


class Cut:
    """A plate that was cut into blocks: its counts by 8 by 8 pixels, by keys and in all, and the sums of its files."""

    def __init__(self, size: tuple[int, int], rows: Iterable[Bytes], writer: Writer, keys: list[int]) -> None:
        """`rows` are packed, 4096 in each item but the last; bits beyond the width aren't read."""
        (self.width, self.length), self.writer = size, writer
        edges = {count: [-(-key * self.width // count) for key in range(count + 1)] for count in keys}
        counter = Counter(sorted({column for columns in edges.values() for column in columns}))
        self.eighths: Bytes = numpy.concatenate(list(self.read(rows, counter)))
        ahead = dict(zip(counter.columns, counter.parts.tolist()))
        self.keys = {
            count: [ahead[b] - ahead[a] for a, b in zip(columns, columns[1:])]
            for count, columns in edges.items()
        }
        self.total = int(self.eighths.sum(dtype=numpy.int64))
        self.write_shares()

    def read(self, bands: Iterable[Bytes], counter: Counter) -> Iterator[Bytes]:
        """Writes the blocks of bits while the rows pass once, and yields the counts of each 8 by 8 pixels."""
        spare = -self.width % 8
        for down, band in enumerate(bands):
            if spare:
                band[:, -1] &= 0xFF << spare & 0xFF
            for across in range(-(-self.width // SIDE)):
                part = band[:, across * SIDE // 8 : (across + 1) * SIDE // 8]
                self.writer.put(f"bits-{across}-{down}", part.tobytes())
            for top in range(0, len(band), 512):
                rows = band[top : top + 512]
                printed = numpy.pad(PRINTED[rows], ((0, -len(rows) % 8), (0, 0)))
                counted = printed.reshape(-1, 8, printed.shape[1]).sum(axis=1, dtype=numpy.uint8)
                counter.add(rows, counted.sum(axis=0, dtype=numpy.int64))
                yield counted

    def write_shares(self) -> None:
        """Writes the shares of 8 by 8 and of 16 by 16 pixels."""
        shares = self.shares(1)
        rows, columns = shares.shape
        for down in range(-(-rows // SHARES)):
            for across in range(-(-columns // SHARES)):
                part = shares[down * SHARES : (down + 1) * SHARES, across * SHARES : (across + 1) * SHARES]
                self.writer.put(f"eighth-{across}-{down}", part.tobytes())
        self.writer.put("whole", self.shares(2).tobytes())

    def shares(self, times: int) -> Bytes:
        """Returns the share of each block of so many eighths across that prints, as 0 to 255."""
        found: Bytes = numpy.rint(255 * self.larger(times) / self.areas(times)).astype(numpy.uint8)
        return found

    def larger(self, times: int) -> NDArray[numpy.int64]:
        """Returns the counts of blocks of so many eighths across and down."""
        rows, columns = self.eighths.shape
        filled = numpy.pad(self.eighths, ((0, -rows % times), (0, -columns % times)))
        shape = filled.shape[0] // times, times, filled.shape[1] // times, times
        found: NDArray[numpy.int64] = filled.reshape(shape).sum(axis=(1, 3), dtype=numpy.int64)
        return found

    def areas(self, times: int) -> NDArray[numpy.int64]:
        """Returns how many pixels each such block has."""

        def spans(length: int) -> NDArray[numpy.int64]:
            starts = numpy.arange(0, length, 8 * times)
            found: NDArray[numpy.int64] = numpy.minimum(starts + 8 * times, length) - starts
            return found

        found: NDArray[numpy.int64] = numpy.outer(spans(self.length), spans(self.width))
        return found
