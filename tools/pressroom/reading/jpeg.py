"""Tests whether a JPEG file has all of its rows: ITU-T T.81.

libjpeg paints what is missing grey and reports it to nobody who asks. So the test is whether the decoder takes more
bytes: bytes that are put in before the end of a whole file are passed over, and those of a file that was cut off
become pixels.
"""
import hashlib
import io
import re

from PIL import Image

# A marker that ends a scan: not a byte of the scan, nor a restart.
MARKER = re.compile(rb"\xff[^\x00\xff\xd0-\xd7]", re.DOTALL)
START, END, SCAN = 0xD8, 0xD9, 0xDA
# Frames in one scan, and all frames. The numbers between them are tables and an extension.
SEQUENTIAL, FRAMES = (0xC0, 0xC1), {*range(0xC0, 0xD0)} - {0xC4, 0xC8, 0xCC}
# What is put in: bytes of many short codes, and of few long ones.
MORE = b"\x55\xaa" * 2048, b"\x12\xef\x9b\x6c" * 1024
# What libjpeg paints in place of missing rows, give or take its conversion of colours; and the most pixels of a file
# that is tested without a look at them.
GREY, SMALL = range(126, 131), 1 << 16
# How many rows are compared at once.
ROWS = 256
UNKNOWN = OSError, SyntaxError, ValueError
Image.MAX_IMAGE_PIXELS = None


class Markers:
    """The markers of a file up to its end: where that is, None if there is none; the frame's marker and components,
    and the components of the scans.
    """

    def __init__(self, data: bytes) -> None:
        self.end: int | None = None
        self.frame, self.scans = 0, 0
        self.components, self.scanned = set[int](), set[int]()
        at = 0
        while (found := MARKER.search(data, at)) is not None:
            marker, at = data[found.start() + 1], found.end()
            if marker == END:
                self.end = found.start()
                return
            if marker in (START, 1):
                continue
            self.see(marker, data[at : at + int.from_bytes(data[at : at + 2], "big")])
            at += int.from_bytes(data[at : at + 2], "big")

    def see(self, marker: int, segment: bytes) -> None:
        """Notes the components of a frame or a scan."""
        if marker in FRAMES:
            self.frame, self.components = marker, set(segment[8::3])
        elif marker == SCAN:
            self.scans += 1
            self.scanned |= set(segment[3 : 3 + 2 * segment[2] : 2]) if len(segment) > 3 else set()


def decoded(data: bytes, side: int) -> Image.Image:
    """Returns the pixels of a file, or of each square of `side` by `side` pixels one."""
    image = Image.open(io.BytesIO(data))
    if side > 1:
        # The types of Pillow that some machines have don't know that the mode may be None.
        getattr(image, "draft")(None, (max(1, image.width // side), max(1, image.height // side)))
    image.load()
    return image


def lack_of(data: bytes) -> str:
    """Returns what a JPEG file lacks: `its end`, `its last rows`, `a component`; or nothing. One with an end that this
    decoder doesn't know is left to Ghostscript.
    """
    markers = Markers(data)
    if markers.end is None:
        return "" if is_whole(data) else "its end"
    if markers.components - markers.scanned:
        return "a component"
    try:
        return "its last rows" if takes_more(data, markers) else ""
    except UNKNOWN:
        return ""


def is_whole(data: bytes) -> bool:
    """Returns whether a file can be decoded to its last row."""
    try:
        decoded(data, 1)
    except UNKNOWN:
        return False
    return True


def takes_more(data: bytes, markers: Markers) -> bool:
    """Returns whether bytes before a file's end become pixels. A large file of one scan that was cut off ends in grey,
    and a small rendering shows it.
    """
    with Image.open(io.BytesIO(data)) as head:
        is_large = head.width * head.height > SMALL
    side = 8 if is_large and markers.frame in SEQUENTIAL and markers.scans == 1 else 1
    image = decoded(data, side)
    last = image.getpixel((image.width - 1, image.height - 1))
    if side > 1 and not all(band in GREY for band in (last if isinstance(last, tuple) else (last,))):
        return False
    pixels = digest(image)
    del image
    return any(
        digest(decoded(data[: markers.end] + more + data[markers.end :], side)) != pixels for more in MORE
    )


def digest(image: Image.Image) -> bytes:
    """Returns the digest of an image's pixels, without a copy of all of them."""
    found = hashlib.blake2b()
    for top in range(0, image.height, ROWS):
        found.update(image.crop((0, top, image.width, min(top + ROWS, image.height))).tobytes())
    return found.digest()
