"""What the newspaper's art is drawn with: bitmaps, an alphabet of strokes, pictures, and TIFF files of both
kinds.

Nothing but Python. A bitmap's row is a whole number whose highest bit is its left pixel, so that letters are
laid by shifts.
"""
import math
import re
import struct
from functools import lru_cache
from itertools import accumulate

# The alphabet. A stroke is a list of points, each column and row of one digit: capitals stand on row 6 and
# reach up to row 0, small letters to row 2, and tails down to row 8.
STROKES = {
    "A": "06 20 46|14 34",
    "B": "00 06|00 30 41 42 33 03|33 44 45 36 06",
    "C": "41 30 10 01 05 16 36 45",
    "D": "00 06 26 44 42 20 00",
    "E": "40 00 06 46|03 33",
    "F": "40 00 06|03 33",
    "G": "41 30 10 01 05 16 36 45 43 23",
    "H": "00 06|40 46|03 43",
    "I": "20 26",
    "J": "40 45 36 16 05",
    "K": "00 06|40 03 46",
    "L": "00 06 46",
    "M": "06 00 23 40 46",
    "N": "06 00 46 40",
    "O": "10 30 41 45 36 16 05 01 10",
    "P": "06 00 30 41 42 33 03",
    "Q": "10 30 41 45 36 16 05 01 10|34 46",
    "R": "06 00 30 41 42 33 03|23 46",
    "S": "41 30 10 01 02 13 33 44 45 36 16 05",
    "T": "00 40|20 26",
    "U": "00 05 16 36 45 40",
    "V": "00 26 40",
    "W": "00 16 23 36 40",
    "X": "00 46|40 06",
    "Y": "00 23 40|23 26",
    "Z": "00 40 06 46",
    "a": "12 32 43 46|44 14 05 16 36 45",
    "b": "00 06 36 45 43 32 02",
    "c": "43 32 12 03 05 16 36 45",
    "d": "40 46 16 05 03 12 42",
    "e": "04 44 43 32 12 03 05 16 36 45",
    "f": "30 21 26|12 32",
    "g": "45 36 16 05 03 12 42 47 38 18 07",
    "h": "00 06|03 12 32 43 46",
    "i": "22 26|20 20",
    "j": "32 37 28 18|30 30",
    "k": "00 06|32 04 36",
    "l": "20 26",
    "m": "02 06|03 12 23 26|23 32 43 46",
    "n": "02 06|03 12 32 43 46",
    "o": "12 32 43 45 36 16 05 03 12",
    "p": "02 08|02 32 43 45 36 06",
    "q": "42 48|42 12 03 05 16 46",
    "r": "02 06|03 12 32",
    "s": "42 12 03 14 34 45 36 06",
    "t": "10 15 26 36|02 32",
    "u": "02 05 16 36 45|42 46",
    "v": "02 26 42",
    "w": "02 16 24 36 42",
    "x": "02 46|42 06",
    "y": "02 26|42 18 08",
    "z": "02 42 06 46",
    "0": "10 30 41 45 36 16 05 01 10",
    "1": "11 20 26",
    "2": "01 10 30 41 42 06 46",
    "3": "01 10 30 41 42 33 13|33 44 45 36 16 05",
    "4": "36 30 04 44",
    "5": "40 00 03 33 44 45 36 16 05",
    "6": "41 30 10 01 05 16 36 45 44 33 13 04",
    "7": "00 40 16",
    "8": "13 02 01 10 30 41 42 33 13 04 05 16 36 45 44 33",
    "9": "05 16 36 45 41 30 10 01 02 13 33 42",
    ".": "16 16",
    ",": "16 07",
    "-": "14 34",
    "'": "10 11",
    ":": "13 13|16 16",
    "!": "10 14|16 16",
    "%": "06 40|00 10|36 46",
    "/": "06 40",
}
SPACE, BETWEEN = 2.4, 1.7
RUN = re.compile(rb"(.)\1{2,127}", re.DOTALL)


class Bitmap:
    """An image of one bit a pixel."""

    def __init__(self, width, height):
        self.width, self.height = width, height
        self.rows = [0] * height

    def span(self, y, left, right):
        """Blackens a row from `left` up to `right`."""
        left, right = max(0, left), min(self.width, right)
        if 0 <= y < self.height and left < right:
            self.rows[y] |= ((1 << (right - left)) - 1) << (self.width - right)

    def box(self, x, y, width, height):
        for row in range(y, y + height):
            self.span(row, x, x + width)

    def frame(self, x, y, width, height, line):
        self.box(x, y, width, line)
        self.box(x, y + height - line, width, line)
        self.box(x, y, line, height)
        self.box(x + width - line, y, line, height)

    def polygon(self, points):
        """Fills a polygon of one outline."""
        for y in range(self.height):
            cuts = sorted(
                x0 + (y + 0.5 - y0) * (x1 - x0) / (y1 - y0)
                for (x0, y0), (x1, y1) in zip(points, points[1:] + points[:1])
                if (y0 <= y + 0.5) != (y1 <= y + 0.5)
            )
            for left, right in zip(cuts[::2], cuts[1::2]):
                self.span(y, math.ceil(left - 0.5), math.ceil(right - 0.5))

    def stroke(self, x0, y0, x1, y1, pen):
        """A line with a round pen of this radius."""
        long = math.hypot(x1 - x0, y1 - y0)
        nx, ny = ((y1 - y0) / long * pen, (x0 - x1) / long * pen) if long else (0.0, 0.0)
        corners = [(x0 + nx, y0 + ny), (x1 + nx, y1 + ny), (x1 - nx, y1 - ny), (x0 - nx, y0 - ny)]
        for y in range(math.floor(min(y0, y1) - pen), math.ceil(max(y0, y1) + pen) + 1):
            middle, ends = y + 0.5, []
            for x, at in ((x0, y0), (x1, y1)):
                if abs(middle - at) <= pen:
                    half = math.sqrt(pen * pen - (middle - at) ** 2)
                    ends += [x - half, x + half]
            for (ax, ay), (bx, by) in zip(corners, corners[1:] + corners[:1]):
                if (ay <= middle) != (by <= middle):
                    ends.append(ax + (middle - ay) * (bx - ax) / (by - ay))
            if ends:
                self.span(y, math.ceil(min(ends) - 0.5), math.ceil(max(ends) - 0.5))

    def lay(self, other, x, y):
        """Lays a bitmap over this one; what is black stays black."""
        shift = self.width - x - other.width
        for i, row in enumerate(other.rows):
            if row and 0 <= y + i < self.height:
                self.rows[y + i] |= row << shift if shift >= 0 else row >> -shift

    def cut(self, other, x, y):
        """Whitens this bitmap where the other is black."""
        shift = self.width - x - other.width
        for i, row in enumerate(other.rows):
            if 0 <= y + i < self.height:
                self.rows[y + i] &= ~(row << shift)

    def packed(self):
        """The rows as bytes."""
        size = (self.width + 7) // 8
        return [(row << (8 * size - self.width)).to_bytes(size, "big") for row in self.rows]


class Face:
    """The alphabet at a size: pixels a unit, and the pen's radius in units."""

    def __init__(self, unit, pen):
        self.unit, self.pen, self.letters = unit, pen, {}

    def letter(self, sign):
        """A letter's bitmap."""
        if sign not in self.letters:
            unit, pen = self.unit, self.pen
            left, right = sides_of(sign)
            bitmap = Bitmap(
                math.ceil((right - left + 2 * pen) * unit) + 1, math.ceil((8 + 2 * pen) * unit) + 1
            )
            for stroke in STROKES[sign].split("|"):
                points = [((int(x) - left + pen) * unit, (int(y) + pen) * unit) for x, y in stroke.split()]
                for (x0, y0), (x1, y1) in zip(points, points[1:]):
                    bitmap.stroke(x0, y0, x1, y1, pen * unit)
            self.letters[sign] = bitmap
        return self.letters[sign]

    def step(self, sign):
        """How far the next letter is."""
        if sign == " ":
            return SPACE * self.unit
        left, right = sides_of(sign)
        return (right - left + BETWEEN) * self.unit

    def width(self, text):
        return sum(map(self.step, text))

    def write(self, bitmap, x, y, text):
        """Writes a line whose capitals begin at y."""
        for sign in text:
            if sign != " ":
                bitmap.lay(self.letter(sign), round(x), y)
            x += self.step(sign)

    def justified(self, bitmap, x, y, width, words):
        """Writes words on a line that they fill."""
        spare = (width - sum(map(self.width, words))) / max(1, len(words) - 1)
        for word in words:
            self.write(bitmap, x, y, word)
            x += self.width(word) + spare


@lru_cache(None)
def sides_of(sign):
    """The leftmost and the rightmost column of a letter."""
    columns = [int(point[0]) for stroke in STROKES[sign].split("|") for point in stroke.split()]
    return min(columns), max(columns)


def fitted(text, width, pen):
    """The face in which a line is so wide."""
    return Face(width / Face(1, pen).width(text), pen)


class Picture:
    """A CMYK image, drawn by a function from place (0 to 1 either way) to red, green and blue of 0 to 1."""

    def __init__(self, width, height, colour, black_only=False):
        self.width, self.height, self.rows = width, height, []
        inks = grey_of if black_only else inks_of
        across = [(x + 0.5) / width for x in range(width)]
        for y in range(height):
            down, row = (y + 0.5) / height, bytearray()
            for u in across:
                row += inks(*colour(u, down))
            self.rows.append(bytes(row))


def inks_of(r, g, b):
    """A colour in four inks: black takes over the darker half of what the other three have in common."""
    least = 1 - max(r, g, b)
    if least <= 0.5:
        return bytes((int(255 - 255 * r), int(255 - 255 * g), int(255 - 255 * b), 0))
    black = 2 * least - 1
    shared = 1 - 0.6 * black
    return bytes(
        (int(255 * (shared - r)), int(255 * (shared - g)), int(255 * (shared - b)), int(255 * black))
    )


def grey_of(r, g, b):
    """A colour in black alone."""
    return bytes((0, 0, 0, int(255 - 76 * r - 150 * g - 28 * b)))


class Fields(Picture):
    """A CMYK image of rectangles, on white."""

    def __init__(self, width, height):
        self.width, self.height = width, height
        self.rows = [bytes(4 * width)] * height

    def box(self, x, y, width, height, inks):
        for row in range(y, y + height):
            old = self.rows[row]
            self.rows[row] = old[: 4 * x] + bytes(inks) * width + old[4 * (x + width) :]


def pack(row):
    """A row in PackBits: repeats of three bytes and more, and literals between."""
    out, at = bytearray(), 0
    for run in RUN.finditer(row):
        start, end = run.span()
        while at < start:
            size = min(128, start - at)
            out.append(size - 1)
            out += row[at : at + size]
            at += size
        out += bytes((257 - end + start, row[start]))
        at = end
    while at < len(row):
        size = min(128, len(row) - at)
        out.append(size - 1)
        out += row[at : at + size]
        at += size
    return bytes(out)


def write_tiff(path, width, rows, photometric, samples, *, order="<", planar=1, packed=True, each=32):
    """Writes a TIFF file: strips, directory, and what doesn't fit into an entry."""
    planes = [[row[i::samples] for row in rows] for i in range(samples)] if planar == 2 else [rows]
    strips = [
        b"".join(pack(row) if packed else row for row in plane[i : i + each])
        for plane in planes
        for i in range(0, len(plane), each)
    ]
    bits = [8] * samples if samples > 1 else [1]
    *places, end = accumulate(map(len, strips), initial=8)
    front = end + end % 2
    entries = [
        (256, "I", [width]),
        (257, "I", [len(rows)]),
        (258, "H", bits),
        (259, "H", [32773 if packed else 1]),
        (262, "H", [photometric]),
        (273, "I", places),
        (277, "H", [samples]),
        (278, "I", [each]),
        (279, "I", [len(strip) for strip in strips]),
        (284, "H", [planar]),
    ]
    directory, beside = struct.pack(order + "H", len(entries)), b""
    place = front + 2 + 12 * len(entries) + 4
    for tag, kind, values in entries:
        data = struct.pack(f"{order}{len(values)}{kind}", *values)
        if len(data) > 4:
            held, beside = struct.pack(order + "I", place + len(beside)), beside + data + bytes(len(data) % 2)
        else:
            held = data.ljust(4, b"\0")
        directory += struct.pack(order + "HHI", tag, {"H": 3, "I": 4}[kind], len(values)) + held
    with open(path, "wb") as file:
        file.write((b"II" if order == "<" else b"MM") + struct.pack(order + "HI", 42, front))
        for strip in strips:
            file.write(strip)
        file.write(bytes(front - file.tell()) + directory + bytes(4) + beside)


def write_line(path, bitmap, photometric=0):
    """A line image or a mask (4 says that it is one)."""
    rows = bitmap.packed()
    if photometric == 1:
        rows = [bytes(255 - byte for byte in row) for row in rows]
    write_tiff(path, bitmap.width, rows, photometric, 1)


def write_picture(path, picture, **form):
    write_tiff(path, picture.width, picture.rows, 5, 4, **form)
