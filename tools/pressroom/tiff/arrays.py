"""The rows of a strip as an array. Pillow's decoder expands PackBits faster than Python can; the reader of the file
and all tests of sizes are those of tiff.py."""
import numpy
from numpy.typing import NDArray
from PIL import Image

from pressroom.tiff.tiff import MOST_BYTES, Broken, Tiff

Bytes = NDArray[numpy.uint8]
# Two bytes of PackBits become at most 128.
MOST_TIMES = 64


def rows_of(image: Tiff, strip: int) -> Bytes:
    """Returns the rows of a strip as an array of bytes, a line of the array for each row."""
    data, rows = image.stored(strip), image.rows_of(strip)
    size = rows * image.row_bytes
    if size > len(data) * (MOST_TIMES if image.packed else 1):
        raise image.too_short(strip)
    if size > MOST_BYTES:
        raise Broken(f"{image.path}: strip {strip} has more than {MOST_BYTES} bytes")
    try:
        if image.packed:
            data = Image.frombytes("L", (image.row_bytes, rows), data, "packbits", "L").tobytes()
        return numpy.frombuffer(data, numpy.uint8, size).reshape(rows, -1)
    except ValueError:
        raise image.too_short(strip) from None
