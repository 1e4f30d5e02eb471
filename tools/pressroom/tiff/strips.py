"""Writes the files of layers strip by strip, packed by libtiff: four planes of 8 bits, or one of 1 bit.

Strips may arrive in any order. libtiff is installed with libtiff-tools, which intake needs anyway.
"""
import ctypes
import ctypes.util
import functools
import os
from typing import TYPE_CHECKING, Any

if TYPE_CHECKING:
    from numpy.typing import NDArray

STRIP = 64
# Fields, in the order of TIFF 6.0, and the compression PackBits.
WIDTH, LENGTH, BITS, COMPRESSION, PHOTOMETRIC, SAMPLES, ROWS, PLANAR, INK_SET = (
    256, 257, 258, 259, 262, 277, 278, 284, 332,
)  # fmt: skip
PACKBITS = 32773


class Unpacked(Exception):
    """libtiff isn't installed, or couldn't write a file."""


@functools.cache
def library() -> ctypes.CDLL:
    """Returns libtiff, with the types of the functions that are used."""
    name = ctypes.util.find_library("tiff")
    if not name:
        raise Unpacked("libtiff isn't installed")
    tiff = ctypes.CDLL(name)
    tiff.TIFFOpen.restype = ctypes.c_void_p
    tiff.TIFFClose.argtypes = [ctypes.c_void_p]
    for call in (tiff.TIFFWriteEncodedStrip, tiff.TIFFWriteRawStrip):
        call.argtypes = [ctypes.c_void_p, ctypes.c_uint32, ctypes.c_void_p, ctypes.c_ssize_t]
        call.restype = ctypes.c_ssize_t
    tiff.TIFFSetErrorHandler(None)
    tiff.TIFFSetWarningHandler(None)
    return tiff


def packed_zeros(count: int) -> bytes:
    """Returns a row of this many zero bytes, packed."""
    runs, rest = divmod(count, 128)
    return b"\x81\0" * runs + (bytes([(1 - rest) % 256, 0]) if rest else b"")


class StripFile:
    """A TIFF file that is being written. In ink and in bits, 0 is bare."""

    def __init__(
        self, path: str, width: int, height: int, planes: int, photometric: int | None = None
    ) -> None:
        photometric = (5 if planes == 4 else 0) if photometric is None else photometric
        self.path, self.height, self.planes = path, height, planes
        self.strips = -(-height // STRIP)
        self.row = width if planes == 4 else (width + 7) // 8
        self.bare = packed_zeros(self.row)
        self.written: set[int] = set()
        self.file = library().TIFFOpen(os.fsencode(path), b"w")
        if not self.file:
            raise OSError(None, "can't be written", path)
        for tag, value in (
            (WIDTH, width), (LENGTH, height), (BITS, 8 if planes == 4 else 1), (COMPRESSION, PACKBITS),
            (PHOTOMETRIC, photometric), (SAMPLES, planes), (ROWS, STRIP),
            (PLANAR, 2 if planes == 4 else 1), *([(INK_SET, 1)] if planes == 4 else []),
        ):  # fmt: skip
            library().TIFFSetField(ctypes.c_void_p(self.file), ctypes.c_uint32(tag), ctypes.c_int(value))

    def rows(self, strip: int) -> int:
        """How many rows a strip has."""
        return min(STRIP, self.height - strip * STRIP)

    def write(self, strip: int, plane: int, data: "NDArray[Any]") -> None:
        """Writes a strip of a plane from a contiguous array of its rows."""
        number, size = plane * self.strips + strip, self.rows(strip) * self.row
        self.see(library().TIFFWriteEncodedStrip(self.file, number, data.ctypes.data, size))
        self.written.add(number)

    def copy(self, strip: int, plane: int, data: bytes) -> None:
        """Writes a strip of a plane as it is stored in another file."""
        number = plane * self.strips + strip
        self.see(library().TIFFWriteRawStrip(self.file, number, data, len(data)))
        self.written.add(number)

    def see(self, count: int) -> None:
        """Raises Unpacked if a strip wasn't written."""
        if count < 0:
            raise Unpacked(f"{os.path.basename(self.path)}: a strip can't be written")

    def close(self) -> None:
        """Writes the missing strips, which are bare, and closes the file."""
        for number in range(self.planes * self.strips):
            if number not in self.written:
                data = self.bare * self.rows(number % self.strips)
                self.see(library().TIFFWriteRawStrip(self.file, number, data, len(data)))
        library().TIFFClose(self.file)
        self.file = None
