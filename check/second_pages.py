"""Makes pages of text and pictures on which two renderers must agree, by hand: see ISO 32000-1.

A page is 172.8 by 230.4 points, 60.96 by 81.28 mm. Pictures are fractal noise with edges, which looks like a
photograph: sky, ground and grain. Text is in an embedded font of fonts-urw-base35, whose letters are 0.6 wide.
"""
from __future__ import annotations

import os
import struct
import sys
from collections.abc import Callable
from typing import Any

from newspaper import NEWSPAPER

sys.path.insert(0, NEWSPAPER)
from pdf import Pdf

WIDTH, HEIGHT = 172.8, 230.4
FONT = "/usr/share/fonts/opentype/urw-base35/NimbusMonoPS-Bold.otf"
WORDS = (
    "The council voted late on Tuesday to close the harbour road while the old sea wall is made safe".split()
)
TRANSFORM = "<< /FunctionType 2 /Domain [0 1] /C0 [0 0 0 0] /C1 [{}] /N {} >>"
SPOT = "[/Separation /{} /DeviceCMYK {}]"


class Sheet:
    """The content of a page and its resources while they are made."""

    def __init__(self) -> None:
        self.pdf, self.content, self.keys = Pdf(), bytearray(), ""
        self.images = self.states = self.spaces = self.patterns = self.shadings = ""
        self.count = 0

    def name(self) -> str:
        self.count += 1
        return f"N{self.count}"

    def paint(self, text: str) -> Sheet:
        """Adds operators."""
        self.content += text.encode() + b"\n"
        return self

    def text(self, size: float, x: float, y: float, lines: int, colour: str = "0 0 0 1 k") -> Sheet:
        """Adds lines of words, from the top line at y down."""
        across = int((WIDTH - x - 4) / (size * 0.6))
        self.paint(f"BT {colour} /F {size} Tf {size * 1.15:.2f} TL 1 0 0 1 {x} {y} Tm")
        words = " ".join(WORDS * 40)
        for line in range(lines):
            self.paint(f"({words[line * across : line * across + across]}) Tj T*")
        return self.paint("ET")

    def picture(self, mode: str, box: tuple[float, ...], pixels: int, head: str = "", seed: int = 1) -> Sheet:
        """Adds a picture of so many pixels across. `mode` is C, R or G: CMYK, RGB or grey."""
        data, (wide, high) = photograph(mode, box, pixels, seed)
        space = {"C": "/DeviceCMYK", "R": "/DeviceRGB", "G": "/DeviceGray"}[mode]
        return self.image(data, wide, high, f"/ColorSpace {space} /BitsPerComponent 8 {head}", box)

    def image(self, data: bytes, wide: int, high: int, head: str, box: tuple[float, ...]) -> Sheet:
        """Adds an image of these samples in a box: left, lower, width and height."""
        name, head = self.name(), f"/Type /XObject /Subtype /Image /Width {wide} /Height {high} {head}"
        self.images += f"/{name} {self.pdf.add(head, data)} 0 R "
        return self.paint(f"q {box[2]} 0 0 {box[3]} {box[0]} {box[1]} cm /{name} Do Q")

    def form(self, content: str, keys: str = "") -> Sheet:
        """Adds a form with the page's font, and paints it."""
        name = self.name()
        self.images += f"/{name} {self.group(content, keys)} 0 R "
        return self.paint(f"/{name} Do")

    def group(self, content: str, keys: str = "") -> int:
        head = f"/Type /XObject /Subtype /Form /BBox [0 0 {WIDTH} {HEIGHT}] {keys}"
        return self.pdf.add(head, content.encode())

    def state(self, keys: str) -> Sheet:
        """Adds a graphics state, and sets it."""
        name = self.name()
        self.states += f"/{name} << {keys} >> "
        return self.paint(f"/{name} gs")

    def space(self, space: str) -> str:
        """Adds a colour space, and returns its name."""
        name = self.name()
        self.spaces += f"/{name} {space} "
        return name

    def spot(self, separation: str, ink: str, exponent: float = 1) -> str:
        return self.space(SPOT.format(separation, TRANSFORM.format(ink, exponent)))

    def shading(self, kind: int, space: str, coords: str, colours: tuple[str, str], box: str) -> Sheet:
        """Paints a gradient between two colours within a box."""
        name = self.name()
        function = f"<< /FunctionType 2 /Domain [0 1] /C0 [{colours[0]}] /C1 [{colours[1]}] /N 1 >>"
        self.shadings += f"/{name} << /ShadingType {kind} /ColorSpace {space} /Coords [{coords}] "
        self.shadings += f"/Function {function} /Extend [true true] >> "
        return self.paint(f"q {box} re W n /{name} sh Q")

    def write(self, path: str) -> None:
        """Writes the page."""
        pdf, font = self.pdf, self.pdf.add("/Subtype /Type1C", outlines())
        described = (
            "<< /Type /FontDescriptor /FontName /F /Flags 32 /FontBBox [0 -300 600 900] /ItalicAngle 0 "
        )
        about = pdf.add(
            f"{described}/Ascent 900 /Descent -300 /CapHeight 700 /StemV 100 /FontFile3 {font} 0 R >>"
        )
        text = pdf.add(
            "<< /Type /Font /Subtype /Type1 /BaseFont /F /FirstChar 32 /LastChar 126 /Encoding /WinAnsiEncoding "
            f"/Widths [{'600 ' * 95}] /FontDescriptor {about} 0 R >>"
        )
        resources = f"/Font << /F {text} 0 R >> /XObject << {self.images}>> /ExtGState << {self.states}>> "
        resources += (
            f"/ColorSpace << {self.spaces}>> /Shading << {self.shadings}>> /Pattern << {self.patterns}>>"
        )
        stream, box = pdf.add("", bytes(self.content)), f"[0 0 {WIDTH} {HEIGHT}]"
        page = (
            f"<< /Type /Page /Parent {stream + 2} 0 R /MediaBox {box} /TrimBox {box} /Contents {stream} 0 R "
        )
        page = pdf.add(f"{page}/Resources << {resources} >> {self.keys} >>")
        pages = pdf.add(f"<< /Type /Pages /Kids [{page} 0 R] /Count 1 >>")
        pdf.write(path, pdf.add(f"<< /Type /Catalog /Pages {pages} 0 R >>"))


def outlines() -> bytes:
    """Returns the table of outlines (CFF) of the font, an OpenType file."""
    with open(FONT, "rb") as file:
        data = file.read()
    for at in range(12, 12 + 16 * struct.unpack_from(">H", data, 4)[0], 16):
        tag, _, start, size = struct.unpack_from(">4sIII", data, at)
        if tag == b"CFF ":
            return data[start : start + size]
    raise ValueError("the font has no CFF table")


def photograph(mode: str, box: tuple[float, ...], pixels: int, seed: int) -> tuple[bytes, tuple[int, int]]:
    """Returns the samples of a picture and its size: noise of all scales, a horizon, and an edge."""
    import numpy as np

    random, count = np.random.default_rng(seed), {"C": 4, "R": 3, "G": 1}[mode]
    size = round(pixels * box[3] / box[2]), pixels
    rows, columns = np.mgrid[0 : size[0], 0 : size[1]] / pixels
    planes = []
    for plane in range(count):
        values = 0.5 + 0.25 * np.sin(3 * rows + plane) + 0.1 * np.cos(9 * columns + plane)
        scale = 0.3
        for cells in (3, 7, 17, 41, 97):
            grid = random.normal(0, 1, (cells + 2, cells + 2))
            y, x = (rows * cells % cells).astype(int), (columns * cells % cells).astype(int)
            values += scale * grid[y, x] * 0.5
            scale *= 0.6
        values += np.where(rows > 0.4 + 0.1 * columns, -0.2, 0.2) + random.normal(0, 0.04, size)
        planes.append(np.clip(values, 0, 1))
    if mode == "C":
        planes[3] = np.clip(planes[3] - 0.45, 0, 1)
    return (np.stack(planes, -1) * 255).astype(np.uint8).tobytes(), (size[1], size[0])


ALL = (0.0, 0.0, WIDTH, HEIGHT)
UPPER, LOWER = (8.0, 120.0, 156.0, 100.0), (8.0, 10.0, 156.0, 100.0)
OVER = "/OP true /op true /OPM 1"


def many_sizes(sheet: Sheet) -> None:
    for size, y, lines in ((5, 222, 6), (7, 185, 5), (9, 140, 4), (14, 95, 2), (24, 60, 1), (48, 14, 1)):
        sheet.text(size, 6, y, lines)


def white_text(sheet: Sheet) -> None:
    sheet.picture("C", UPPER, 300).text(8, 12, 205, 6, "0 0 0 0 k").text(20, 12, 135, 1, "0 0 0 0 k")
    sheet.paint("0 0 0 1 k 8 10 156 100 re f").text(7, 12, 95, 9, "0 g")
    sheet.text(7, 12, 95, 9, "0 0 0 0 k")


def overprinting_black(sheet: Sheet) -> None:
    sheet.picture("C", UPPER, 320, seed=4).paint("0.3 0.1 0.6 0 k 8 10 156 100 re f")
    sheet.state(OVER).text(9, 12, 205, 8).text(16, 12, 90, 4)


def house_spot(sheet: Sheet) -> None:
    name = sheet.spot("HOUSE", "0.1 0.9 0.6 0")
    sheet.paint(f"/{name} cs 1 scn 8 150 156 60 re f 0.4 scn 8 90 156 40 re f 0.15 scn 8 40 70 40 re f")
    sheet.text(12, 12, 190, 2, "0 0 0 0 k").text(9, 12, 115, 2, f"/{name} cs 1 scn").text(9, 12, 60, 4)


def spot_over_picture(sheet: Sheet) -> None:
    name = sheet.spot("HOUSE", "0.1 0.9 0.6 0")
    sheet.picture("C", ALL, 300, seed=8).state(OVER).paint(f"/{name} cs 0.7 scn 20 120 90 60 re f")
    sheet.text(24, 12, 60, 2, f"/{name} cs 1 scn")


def mixed_spots(sheet: Sheet) -> None:
    one, other = sheet.spot("WINE", "0.2 1 0.7 0.1"), sheet.spot("SEA", "1 0.3 0 0.2", 1.8)
    for step in range(10):
        sheet.paint(f"/{one} cs {(step + 1) / 10} scn {8 + 15 * step} 170 15 40 re f")
        sheet.paint(f"/{one} cs {(step + 1) / 10} scn {8 + 15 * step} 120 15 40 re f")
    sheet.text(10, 12, 100, 3, f"/{one} cs 1 scn").text(10, 12, 50, 3)
    return None if other else None


def mixed_over(sheet: Sheet) -> None:
    name = sheet.spot("WINE", "0.2 1 0.7 0.1")
    sheet.picture("C", UPPER, 280, seed=3).state(OVER).paint(f"/{name} cs 0.6 scn 30 60 90 130 re f")
    sheet.text(14, 12, 50, 2, f"/{name} cs 1 scn").text(9, 40, 180, 6)


def shadow(sheet: Sheet) -> None:
    """A soft shadow that multiplies, and an object with soft edges."""
    sheet.picture("C", ALL, 260, seed=9)
    mask = sheet.pdf.add(
        "/Type /XObject /Subtype /Image /Width 16 /Height 16 /ColorSpace /DeviceGray /BitsPerComponent 8",
        bytes(
            round(255 * (1 - abs(x - 7.5) / 8) * (1 - abs(y - 7.5) / 8)) for y in range(16) for x in range(16)
        ),
    )
    sheet.paint("q").state("/BM /Multiply /ca 0.75")
    head = f"/ColorSpace /DeviceCMYK /BitsPerComponent 8 /SMask {mask} 0 R"
    sheet.image(b"\x40\x40\x40\xff" * 4, 2, 2, head, (30, 30, 110, 110)).paint("Q")
    sheet.picture("C", (40, 60, 100, 100), 200, f"/SMask {mask} 0 R", 11).text(12, 12, 30, 2)


def half_black(sheet: Sheet) -> None:
    sheet.picture("C", ALL, 240, seed=12).state("/ca 0.5").paint("0 0 0 1 k 10 120 150 60 re f")
    sheet.text(20, 12, 90, 2, "0 1 1 0 k").state("/ca 1").text(9, 14, 165, 4, "0 0 0 0 k")


def grey_mask(sheet: Sheet) -> None:
    """A group under a mask of grey pictures and of a gradient."""
    sheet.keys = "/Group << /S /Transparency /CS /DeviceCMYK /I true >>"
    ramp = bytes(range(0, 256))
    head = "/Type /XObject /Subtype /Image /Width 256 /Height 1 /ColorSpace /DeviceGray /BitsPerComponent 8"
    image = sheet.pdf.add(head, ramp)
    keys = f"/Group << /S /Transparency /CS /DeviceGray >> /Resources << /XObject << /I {image} 0 R >> >>"
    mask = sheet.group(f"q {WIDTH} 0 0 {HEIGHT} 0 0 cm /I Do Q", keys)
    sheet.paint("q").state(f"/SMask << /S /Luminosity /G {mask} 0 R >>")
    sheet.paint("0.8 0.2 0 0 k 10 100 150 110 re f Q").text(9, 12, 80, 5)


def rgb_group(sheet: Sheet) -> None:
    sheet.keys = "/Group << /S /Transparency /CS /DeviceRGB /I true >>"
    sheet.picture("R", UPPER, 300, seed=13).paint(
        "0.1 0.4 0.2 0 k 8 60 70 40 re f 0.2 0.4 0.8 rg 90 60 60 40 re f"
    )
    sheet.state("/ca 0.6").paint("0.9 0.2 0.1 rg 40 40 90 90 re f").state("/ca 1").text(
        9, 12, 45, 3, "0 0 0 rg"
    )


def gradients(sheet: Sheet) -> None:
    sheet.shading(2, "/DeviceCMYK", "8 0 164 0", ("1 0 0 0", "0 0.2 1 0"), "8 160 156 60")
    sheet.shading(3, "/DeviceCMYK", "86 90 5 86 90 60", ("0 0.8 0.9 0", "0 0 0 0.1"), "8 40 156 110")
    sheet.text(9, 12, 30, 2)


def rgb_gradients(sheet: Sheet) -> None:
    sheet.shading(2, "/DeviceRGB", "8 0 164 0", ("0.1 0.2 0.7", "0.9 0.9 0.2"), "8 160 156 60")
    sheet.shading(3, "/DeviceRGB", "86 90 5 86 90 60", ("1 1 1", "0.7 0.1 0.2"), "8 40 156 110")
    sheet.text(9, 12, 30, 2, "0 0 0 rg")


def table(sheet: Sheet) -> None:
    """Lines of no width, of a hairline and of half a point, at narrow distances."""
    sheet.paint("0 0 0 1 K")
    for width, lower in ((0, 160), (0.1, 90), (0.5, 20)):
        sheet.paint(f"{width} w")
        for line in range(9):
            sheet.paint(f"8 {lower + 7 * line} m 164 {lower + 7 * line} l S")
            sheet.paint(f"{8 + 19.5 * line} {lower} m {8 + 19.5 * line} {lower + 56} l S")
        sheet.text(5, 12, lower + 45, 7)


def stencils(sheet: Sheet) -> None:
    """Bitmaps: a screened picture of 85 lines an inch, and coarse line art."""
    rows = bytearray()
    for y in range(600):
        bits = 0
        for x in range(800):
            dot = (x % 9 - 4) ** 2 + (y % 9 - 4) ** 2
            bits = bits << 1 | (dot < 4 + 14 * x / 800)
        rows += bits.to_bytes(100, "big")
    sheet.paint("0 0 0 1 k")
    sheet.image(
        bytes(rows), 800, 600, "/ImageMask true /BitsPerComponent 1 /Decode [1 0]", (8, 100, 156, 117)
    )
    art = bytes((0xF0, 0x0F) * 32)
    sheet.paint("0.9 0.3 0 0 k").image(art, 16, 32, "/ImageMask true /BitsPerComponent 1", (8, 10, 70, 70))
    sheet.image(art, 16, 32, "/ColorSpace /DeviceGray /BitsPerComponent 1", (90, 10, 70, 70))


def indexed(sheet: Sheet) -> None:
    import numpy as np

    palette = bytes(round(255 * n % (97 + 31 * n)) % 256 for n in range(64)).hex()
    samples = (np.add.outer(np.arange(90), np.arange(120)) // 9 % 16).astype(np.uint8).tobytes()
    head = f"/ColorSpace [/Indexed /DeviceCMYK 15 <{palette}>] /BitsPerComponent 8"
    sheet.image(samples, 120, 90, head, UPPER)
    sheet.paint("q 0.87 0.5 -0.5 0.87 60 0 cm").picture("C", (10, 20, 80, 60), 150, seed=17).paint("Q")


def hatching(sheet: Sheet) -> None:
    head = "/Type /Pattern /PatternType 1 /TilingType 1 /BBox [0 0 4 4] /XStep 4 /YStep 4 /Resources << >>"
    coloured = sheet.pdf.add(f"{head} /PaintType 1", b"0 0.6 1 0 k 0 0 2 2 re f 1 0 0 0 k 2 2 2 2 re f")
    stencil = sheet.pdf.add(f"{head} /PaintType 2", b"0 0 4 1.3 re f")
    sheet.patterns += f"/P {coloured} 0 R /Q {stencil} 0 R "
    space = sheet.space("[/Pattern /DeviceCMYK]")
    sheet.paint("/Pattern cs /P scn 8 120 156 90 re f").paint(f"/{space} cs 0 0 0 1 /Q scn 8 30 156 80 re f")
    sheet.text(9, 12, 20, 1)


def clipped(sheet: Sheet) -> None:
    """A picture seen through letters and an outline."""
    sheet.paint("q BT /F 60 Tf 7 Tr 1 0 0 1 8 150 Tm (Wall) Tj ET").picture("C", UPPER, 260, seed=21).paint(
        "Q"
    )
    sheet.paint("q 86 20 m 160 90 l 20 110 l h W n").picture("R", LOWER, 260, seed=22).paint("Q")
    sheet.paint("BT 1 Tr 0.5 w 0 1 0 0 K /F 40 Tf 1 0 0 1 8 115 Tm (Late) Tj ET")


def grey_and_black(sheet: Sheet) -> None:
    sheet.picture("G", UPPER, 330, seed=25).text(9, 12, 105, 4, "0.4 g").text(9, 12, 60, 4, "0 g")


def colour_text(sheet: Sheet) -> None:
    for number, colour in enumerate(("1 0 0 0", "0 1 0 0", "0 0 0.9 0", "0.8 0.7 0 0.2", "0.2 0.2 0.2 0.2")):
        sheet.text(9 + 2 * number, 8, 215 - 44 * number, 3, f"{colour} k")


def rgb_page(sheet: Sheet) -> None:
    sheet.picture("R", UPPER, 350, seed=27).text(9, 12, 105, 4, "0 0 0 rg").text(
        11, 12, 60, 2, "0.8 0.1 0.1 rg"
    )
    sheet.paint("0.95 0.93 0.85 rg 8 4 156 26 re f").text(8, 12, 20, 2, "0.35 0.35 0.35 rg")


def two_pictures(sheet: Sheet) -> None:
    sheet.picture("C", UPPER, 700, seed=30).picture("R", (8, 20, 76, 90), 400, seed=31)
    sheet.picture("G", (90, 20, 74, 90), 90, seed=32).text(7, 8, 14, 1)


def turned(sheet: Sheet) -> None:
    sheet.keys = "/Rotate 180"
    sheet.picture("C", LOWER, 300, seed=35).text(9, 12, 215, 8)


def blended(sheet: Sheet) -> None:
    """Blend modes over a picture: Screen, Overlay, Darken and Luminosity of grey."""
    sheet.picture("C", ALL, 240, seed=40)
    for number, mode in enumerate(("Screen", "Overlay", "Darken", "Multiply")):
        sheet.paint("q").state(f"/BM /{mode}").paint(f"0.4 0.1 0.3 0 k 10 {20 + 50 * number} 150 36 re f Q")


MAKERS: tuple[Callable[[Sheet], Any], ...] = (
    many_sizes, white_text, overprinting_black, house_spot, spot_over_picture, mixed_spots, mixed_over, shadow,
    half_black, grey_mask, rgb_group, gradients, rgb_gradients, table, stencils, indexed, hatching, clipped,
    grey_and_black, colour_text, rgb_page, two_pictures, turned, blended,
)  # fmt: skip


def write_pages(folder: str) -> list[str]:
    """Writes all pages to a folder, by the names of their makers. Returns these."""
    for maker in MAKERS:
        sheet = Sheet()
        maker(sheet)
        sheet.write(os.path.join(folder, f"{maker.__name__}.pdf"))
    return [maker.__name__ for maker in MAKERS]
