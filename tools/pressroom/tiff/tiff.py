"""Reads TIFF files of the kinds that plateroom takes and makes: their fields, and their strips one at a time.

A file is never held in memory whole, and each size is compared with the file's before anything is allocated. Fields
are read by the rules of docs/FORMATS.md, without their tests: plateroom itself reports files of other kinds. Only the
first directory is read. A file that can't be read raises Broken.
"""
import os
import struct
import sys
from array import array
from collections.abc import Iterator
from typing import BinaryIO

from pressroom.base.faults import Fault
from pressroom.base.files import Unreadable, open_regular

PACKBITS = 32773
DEFAULTS = {258: 1, 259: 1, 277: 1, 278: 4294967295, 284: 1}
# The size of a value in bytes, and its letter in arrays, by type: BYTE, SHORT and LONG of TIFF 6.0.
TYPES = {1: (1, "B"), 3: (2, "H"), 4: (4, "I")}
RATIONAL = 5
# The largest file that plateroom loads, in bytes.
MOST_BYTES = 536_870_912


class Broken(Fault):
    """A file can't be read. The text says why."""


def unpacked(data: bytes, size: int) -> Iterator[bytes]:
    """Yields rows of `size` bytes unpacked from PackBits data (TIFF 6.0, section 9). The last may be too short."""
    out, at = bytearray(), 0
    while at < len(data):
        head = data[at]
        if head < 128:
            out += data[at + 1 : at + 2 + head]
            at += 2 + head
        elif head > 128:
            out += data[at + 1 : at + 2] * (257 - head)
            at += 2
        else:
            at += 1
        while len(out) >= size:
            yield bytes(out[:size])
            del out[:size]
    yield bytes(out)


class Tiff:
    """An image: its size in pixels, its format, and its strips."""

    def __init__(self, path: str) -> None:
        self.path, self.size = path, 0
        self.file: BinaryIO | None = None
        self.places: tuple[array[int], array[int]] | None = None
        # Of each field its type, its count of values, and the four bytes that hold or locate them.
        self.fields: dict[int, tuple[int, int, bytes]] = {}
        self.rationals: dict[int, int] = {}
        try:
            self.read_directory()
            self.read_fields()
        except Broken:
            self.close()
            raise

    def close(self) -> None:
        """Closes the file, and forgets the places of its strips. Later reads open it again."""
        if self.file:
            self.file.close()
        self.file = self.places = None

    def open(self) -> BinaryIO:
        """Opens the file, unless it is open. A FIFO or a device is refused."""
        if self.file is None:
            try:
                self.file = open_regular(self.path)
            except Unreadable as error:
                raise Broken(str(error)) from None
            self.size = os.fstat(self.file.fileno()).st_size
        return self.file

    def at(self, place: int, size: int) -> bytes:
        """Returns `size` bytes of the file at `place`."""
        try:
            file = self.open()
            if place + size > self.size:
                raise Broken(f"{self.path}: cut off: no {size} bytes at {place}")
            if size > MOST_BYTES:
                raise Broken(f"{self.path}: more than {MOST_BYTES} bytes in one piece")
            file.seek(place)
            data = file.read(size)
        except (OSError, ValueError) as error:
            raise Broken(f"{self.path}: {getattr(error, 'strerror', None) or error}") from None
        if len(data) < size:
            raise Broken(f"{self.path}: cut off: no {size} bytes at {place}")
        return data

    def whole(self, letter: str, data: bytes) -> int:
        """Returns the number that these bytes have in the file's byte order."""
        value: int = struct.unpack(self.order + letter, data)[0]
        return value

    def read_directory(self) -> None:
        """Reads where the first directory's fields are. Of a tag that occurs twice the first counts."""
        head = self.at(0, 8)
        self.order = {b"II": "<", b"MM": ">"}.get(head[:2], "")
        if not self.order or self.whole("H", head[2:4]) != 42:
            raise Broken(f"{self.path}: no TIFF file")
        place = self.whole("I", head[4:])
        if place == 0:
            raise Broken(f"{self.path}: begun and not finished: it has no directory")
        count = self.whole("H", self.at(place, 2))
        entries = self.at(place + 2, 12 * count)
        for i in range(0, len(entries), 12):
            tag, kind, number = struct.unpack(self.order + "HHI", entries[i : i + 8])
            if tag not in self.fields and kind in TYPES:
                self.fields[tag] = kind, number, entries[i + 8 : i + 12]
            elif kind == RATIONAL:
                self.rationals.setdefault(tag, self.whole("I", entries[i + 8 : i + 12]))

    def read_fields(self) -> None:
        """Reads the fields that give the image's size and format."""
        self.width, self.length = self.number(256), self.number(257)
        self.bits, self.samples = self.number(258), self.number(277)
        self.packed, self.photometric = self.number(259) == PACKBITS, self.number(262)
        self.planar = self.number(284)
        self.each = max(1, min(self.number(278), self.length))
        # If the four inks are separate planes, a row of a plane has one of them.
        self.row_bytes = (self.width * self.bits * (1 if self.planar == 2 else self.samples) + 7) // 8
        self.strips = (self.length + self.each - 1) // self.each
        planes = self.samples if self.planar == 2 else 1
        for tag in (273, 279):
            if tag not in self.fields:
                raise Broken(f"{self.path}: tag {tag} isn't there")
            if self.fields[tag][1] < self.strips * planes:
                raise Broken(f"{self.path}: tag {tag} has fewer values than there are strips")

    def values(self, tag: int, most: int | None = None) -> "array[int]":
        """Returns the values of a field, or only the first `most` of them."""
        if tag not in self.fields:
            if tag not in DEFAULTS:
                raise Broken(f"{self.path}: tag {tag} isn't there")
            return array("I", [DEFAULTS[tag]])
        kind, number, held = self.fields[tag]
        size, letter = TYPES[kind]
        count = number if most is None else min(most, number)
        data = held if size * number <= 4 else self.at(self.whole("I", held), size * count)
        found = array(letter, data[: size * count])
        if (self.order == "<") != (sys.byteorder == "little"):
            found.byteswap()
        return found

    def number(self, tag: int) -> int:
        """Returns the first value of a field."""
        values = self.values(tag, 1)
        if not values:
            raise Broken(f"{self.path}: tag {tag} has no value")
        return values[0]

    def rational(self, tag: int) -> float:
        """Returns the first value of a RATIONAL field."""
        if tag not in self.rationals:
            raise Broken(f"{self.path}: tag {tag} isn't there")
        data = self.at(self.rationals[tag], 8)
        above, below = self.whole("I", data[:4]), self.whole("I", data[4:])
        if not above or not below:
            raise Broken(f"{self.path}: tag {tag} is {above}/{below}")
        return above / below

    def rows_of(self, strip: int) -> int:
        """Returns how many rows a strip of a plane has."""
        return min(self.each, self.length - strip * self.each)

    def place(self, strip: int, plane: int = 0) -> tuple[int, int]:
        """Returns where a strip begins in the file, and its length in bytes."""
        if self.places is None:
            self.places = self.values(273), self.values(279)
        offsets, counts = self.places
        return offsets[plane * self.strips + strip], counts[plane * self.strips + strip]

    def stored(self, strip: int, plane: int = 0) -> bytes:
        """Returns the bytes of a strip as they are in the file."""
        return self.at(*self.place(strip, plane))

    def too_short(self, strip: int) -> Broken:
        """Returns the fault of a strip that has fewer bytes than its rows."""
        return Broken(f"{self.path}: strip {strip} is too short")

    def rows(self, first: int = 0, last: int | None = None, plane: int = 0) -> Iterator[bytes]:
        """Yields the rows from `first` up to, not including, `last`, each as bytes."""
        last = self.length if last is None else min(last, self.length)
        for strip in range(first // self.each, (last + self.each - 1) // self.each):
            top = strip * self.each
            for y, row in zip(range(top, min(last, top + self.rows_of(strip))), self.rows_in(strip, plane)):
                if len(row) < self.row_bytes:
                    raise self.too_short(strip)
                if y >= first:
                    yield row

    def rows_in(self, strip: int, plane: int) -> Iterator[bytes]:
        """Yields the rows of a strip; a packed strip yields one more than it has."""
        if self.packed and self.row_bytes:
            yield from unpacked(self.stored(strip, plane), self.row_bytes)
            return
        place, _ = self.place(strip, plane)
        for y in range(self.rows_of(strip) if self.row_bytes else 0):
            yield self.at(place + y * self.row_bytes, self.row_bytes)
