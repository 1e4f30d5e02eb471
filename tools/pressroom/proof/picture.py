"""Pictures of pairs: PNG files row by row, a pair with its name, and a sheet of pairs."""
import struct
import zlib
from typing import Any, BinaryIO

import numpy
from PIL import Image, ImageDraw, ImageFont

from pressroom.proof.pairs import Colours, Pair, Step
from pressroom.tiff.arrays import Bytes

GAP = 12
# An image of Pillow, whose types Debian doesn't have.
Picture = Any


class Png:
    """A PNG file that is written row by row."""

    def __init__(self, file: BinaryIO, width: int, height: int) -> None:
        self.file, self.packer = file, zlib.compressobj(6)
        self.last: Bytes = numpy.zeros((width, 3), numpy.uint8)
        file.write(b"\x89PNG\r\n\x1a\n")
        self.chunk(b"IHDR", struct.pack(">IIBBBBB", width, height, 8, 2, 0, 0, 0))

    def chunk(self, kind: bytes, data: bytes) -> None:
        """Writes a chunk."""
        self.file.write(
            struct.pack(">I", len(data)) + kind + data + struct.pack(">I", zlib.crc32(kind + data))
        )

    def row(self, pixels: Bytes) -> None:
        """Writes the next row, of red, green and blue."""
        # The filter "up": a row is stored as its difference from the one above.
        data = self.packer.compress(b"\x02" + (pixels - self.last).tobytes())
        self.last = pixels
        if data:
            self.chunk(b"IDAT", data)

    def end(self) -> None:
        """Writes what ends the file, and leaves it open."""
        self.chunk(b"IDAT", self.packer.flush())
        self.chunk(b"IEND", b"")


def picture_of(pair: Pair, factor: int, colours: Colours, step: Step) -> Picture:
    """A pair as an image, with its name and inks below."""
    width, height = pair.size(factor)
    font = ImageFont.load_default()
    _, _, wide, high = font.getbbox(pair.label())
    times = max(1, width // (4 * wide))
    text = Image.new("L", (wide, high + 2), 255)
    ImageDraw.Draw(text).text((0, 0), pair.label(), 0, font)
    text = text.resize((text.width * times, text.height * times), Image.NEAREST)
    picture = Image.new("RGB", (max(width, text.width), height + text.height + 4), "white")
    rows = list(pair.pixels(factor, colours, step))
    picture.paste(Image.fromarray(numpy.stack(rows)), (0, 0))
    ImageDraw.Draw(picture).rectangle((0, 0, width - 1, height - 1), outline=(160, 160, 160))
    picture.paste(text, (0, height + 4))
    return picture


def sheet_of(pictures: list[Picture], across: int) -> Picture:
    """All pictures on one sheet."""
    lines = [pictures[i : i + across] for i in range(0, len(pictures), across)]
    width = max(sum(picture.width + GAP for picture in line) for line in lines) + GAP
    height = sum(max(picture.height for picture in line) + GAP for line in lines) + GAP
    sheet, y = Image.new("RGB", (width, height), "white"), GAP
    for line in lines:
        x = GAP
        for picture in line:
            sheet.paste(picture, (x, y))
            x += picture.width + GAP
        y += max(picture.height for picture in line) + GAP
    return sheet
