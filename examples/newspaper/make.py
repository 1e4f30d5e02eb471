#!/usr/bin/env python3
"""Makes a newspaper: the images of an edition of eight broadsheet pages at a quarter of their size, and its
plan.

Two sections of four pages for three sites, of which two have a zone of their own; clustered screens at four
angles, curves, an ink limit of 240 percent, a spot ink under a mask, tone wedges, register marks, and on each
plate its name. All art is drawn here, by draw.py. Needs nothing but Python.
"""
import argparse
import json
import math
import os
import random
import sys

from draw import Bitmap, Face, Fields, Picture, fitted, write_line, write_picture
from pdf import write_page
from pictures import FRUIT, GLOBE, aurora, city, hills, sunset

HERE = os.path.dirname(os.path.abspath(__file__))
TILES = os.path.join(HERE, "..", "tiles")

WIDTH, HEIGHT = 3840, 5440
MARGINS, GUTTER = [120, 200, 120, 80], 160
EDGE, GAP, COLUMNS = 60, 40, 5
COLUMN = (WIDTH - 2 * EDGE - (COLUMNS - 1) * GAP) // COLUMNS
FOOT = 5300
# A contone pixel is so many pixels of a plate.
SCALE = 4
# The wedges of page A1: eleven steps of each ink, and patches of several.
STEPS = [round(255 * step / 10) for step in range(11)]
PATCHES = [
    (255, 255, 255, 0),
    (255, 255, 255, 255),
    (128, 128, 128, 128),
    (200, 200, 200, 200),
    (0, 0, 0, 0),
    (255, 255, 0, 0),
    (0, 255, 255, 0),
    (255, 0, 255, 0),
    (0, 255, 255, 255),
    (60, 50, 50, 0),
    (0, 0, 0, 255),
]
FIELD = 60, 30
WEDGE_AT = EDGE, 4660
SLUG_AT, SLUG_STEP = (EDGE, 5350), 740
SPOT_TINT = 102
INKS = "CMYKS"

SECTIONS = {"A": ["A1", "A2", "A3", "A4"], "B": ["B1", "B2", "B3", "B4"]}
PRINTS = {
    "A1": "CMYK",
    "A2": "K",
    "A3": "K",
    "A4": "CMYKS",
    "B1": "CMYK",
    "B2": "K",
    "B3": "CMYK",
    "B4": "KS",
}
ZONES = {"west": {"A2": "A2west", "B4": "B4west"}, "north": {"A1": "A1north"}}
SITES = {"OSLO": None, "BERGEN": "west", "TROMSO": "north"}
CURVES = {
    "C": [[0, 0], [64, 52], [128, 108], [192, 172], [255, 255]],
    "M": [[0, 0], [64, 50], [128, 106], [192, 171], [255, 255]],
    "Y": [[0, 0], [64, 54], [128, 112], [192, 176], [255, 255]],
    "K": [[0, 0], [64, 47], [128, 100], [192, 166], [255, 255]],
    "S": [[0, 0], [128, 116], [255, 255]],
}
SCREENS = {"C": "tile:C15", "M": "tile:M75", "Y": "tile:Y0", "K": "tile:K45", "S": "diffuse"}

# What made-up news are made of: who does what, and when.
NEWS = [
    part.split(", ")
    for part in (
        "The council, A ferry from the islands, The night shift, Her orchestra, The library on the quay, "
        "A printer of the old school, The weather office, Our reporter, The baker in the market, A teacher",
        "opened, has measured, will repair, counted, waited for, lost sight of, found, asked about",
        "the bridge at the mill, eleven boxes of type, a map of the harbour, all the lamps in the square, "
        "the first train of the morning, a quarter of the budget, the tide tables, two tons of paper, "
        "an unsigned letter, the colour of the river",
        "before breakfast, on Thursday, for the third time, in spite of the rain, without a word, "
        "as in every year, while the presses ran, at the last minute, to great applause, with some delay",
    )
]
SHARES = [
    f"{tree} {kind}" for tree in ("Alder", "Birch", "Elm", "Larch", "Oak", "Yew") for kind in ("Mills", "Ink")
]


def words_from(seed):
    """Words of made-up news without an end."""
    chance = random.Random(seed)
    while True:
        yield from (" ".join(chance.choice(part) for part in NEWS) + ".").split()


class Page:
    """A page under way: what lies below its black text, and the text."""

    def __init__(self, edition, name, seed):
        self.edition, self.name, self.words = edition, name, words_from(seed)
        self.inks = PRINTS[name[:2]]
        self.black, self.layers, self.above = Bitmap(WIDTH, HEIGHT), [], []

    def picture(self, name, x, y, width, height, colour, scale=SCALE, **form):
        """Lays a picture of this size in pixels of the page, with a line around it."""
        width, height = width // scale, height // scale
        self.edition.draw(name, lambda: Picture(width, height, colour, "C" not in self.inks), **form)
        self.layers.append({"kind": "contone", "file": name, "x": x, "y": y, "scale": scale})
        self.black.frame(x, y, width * scale, height * scale, 3)

    def line(self, name, bitmap, x, y, ink, photometric=0, **more):
        self.edition.save_line(name, bitmap, photometric)
        self.above.append({"kind": "line", "file": name, "x": x, "y": y, **more, "ink": ink})

    def coloured(self, name, x, y, width, text, pen, ink):
        """A line of large letters in a colour of its own."""
        face = fitted(text, width, pen)
        bitmap = Bitmap(width, math.ceil((8 + 2 * pen) * face.unit))
        face.write(bitmap, 0, 0, text)
        self.line(name, bitmap, x, y, ink, paint="overprint")

    def write(self, x, y, text, unit, pen=0.4):
        Face(unit, pen).write(self.black, x, y, text)

    def head(self, x, y, width, text, pen=0.5):
        """A headline over this width; gives where the text below begins."""
        face = fitted(text, width, pen)
        face.write(self.black, x, y, text)
        return y + math.ceil(10 * face.unit)

    def text(self, first, last, top, bottom, unit=4.5):
        """Columns of text."""
        face, step = Face(unit, 0.36), round(10 * unit)
        for column in range(first, last):
            x, y = EDGE + column * (COLUMN + GAP), top
            while y + step <= bottom:
                line, wide = [], 0.0
                while wide < COLUMN * 0.86:
                    word = next(self.words)
                    if wide + face.width(word) > COLUMN - 20:
                        break
                    line.append(word)
                    wide += face.width(word) + 2.4 * unit
                face.justified(self.black, x, y, COLUMN, line)
                y += step

    def rule(self, y, line=4):
        self.black.box(EDGE, y, WIDTH - 2 * EDGE, line)

    def running_head(self, text):
        """The line at the top of an inner page."""
        Face(7, 0.4).write(self.black, EDGE, 40, f"{text}     THE MORNING")
        self.rule(110)

    def done(self):
        """The page as the plan has it: pictures, coloured lines, black text, and the names of its plates."""
        file = f"{self.name}-text.tif"
        self.edition.save_line(file, self.black)
        text = {"kind": "line", "file": file, "paint": "overprint"}
        slugs = self.edition.slugs(self.name)
        return {"name": self.name, "inks": self.inks, "layers": self.layers + self.above + [text] + slugs}


class Edition:
    """Where the images go, and what all pages share."""

    def __init__(self, folder):
        self.folder, self.images = folder, {}
        os.makedirs(folder, exist_ok=True)

    def save_line(self, name, bitmap, photometric=0):
        if name not in self.images:
            write_line(os.path.join(self.folder, name), bitmap, photometric)
            self.images[name] = bitmap

    def draw(self, name, picture, **form):
        """Draws a picture, once where several pages have it."""
        if name not in self.images:
            self.images[name] = picture()
            write_picture(os.path.join(self.folder, name), self.images[name], **form)

    def write_pages(self, plan, folder):
        """Writes each page as a PDF file: A1.pdf and so on, those of a zone in a folder of its name."""
        files = {page["name"]: f"{page['name']}.pdf" for page in plan["pages"]}
        for zone in plan["zones"]:
            os.makedirs(os.path.join(folder, zone["name"]), exist_ok=True)
            for item in zone["replace"]:
                files[item["with"]] = f"{zone['name']}/{item['section']}{item['page']}.pdf"
        for page in plan["pages"]:
            path = os.path.join(folder, files[page["name"]])
            write_page(path, page, self.images, plan["page"], plan["dpi"])

    def slugs(self, name):
        """The names of plates that a page carries: of an ink the even page of a pair, where it prints it."""
        layers, own = [], name[:2]
        pages = SECTIONS[own[0]]
        number = pages.index(own) + 1
        other = pages[len(pages) - number]
        even, odd = sorted((own, other), key=lambda page: pages.index(page) % 2 == 0)
        for i, ink in enumerate(INKS):
            if own != next((page for page in (even, odd) if ink in PRINTS[page]), None):
                continue
            text = f"MORNING-{own[0]}-{min(number, len(pages) + 1 - number):03}-{ink}"
            bitmap = Bitmap(SLUG_STEP - 40, 72)
            Face(7, 0.45).write(bitmap, 0, 6, text)
            self.save_line(f"slug-{text}.tif", bitmap)
            values = [255 if letter == ink else 0 for letter in INKS]
            x, y = SLUG_AT[0] + i * SLUG_STEP, SLUG_AT[1]
            layer = {"kind": "line", "file": f"slug-{text}.tif", "x": x, "y": y}
            layers.append(layer | {"paint": "overprint", "ink": values})
        return layers


def wedges():
    """A wedge of each ink, and below them the patches."""
    fields = Fields(len(STEPS) * FIELD[0], 5 * FIELD[1])
    for i, (value, patch) in enumerate(zip(STEPS, PATCHES)):
        for ink in range(4):
            fields.box(i * FIELD[0], ink * FIELD[1], *FIELD, [value if j == ink else 0 for j in range(4)])
        fields.box(i * FIELD[0], 4 * FIELD[1], *FIELD, patch)
    return fields


def front(edition, name, seed, headline, picture, form):
    page = Page(edition, name, seed)
    page.coloured(f"{name}-title.tif", EDGE, 90, WIDTH - 2 * EDGE, "THE MORNING", 0.7, [255, 130, 0, 40])
    page.rule(780, 8)
    page.write(EDGE, 812, "Saturday     Section A     Printed in three towns     A quarter of a sheet", 8)
    page.rule(900)
    top = page.head(EDGE, 980, WIDTH - 2 * EDGE, headline)
    page.picture(f"{name}-photo.tif", EDGE, top + 30, 3 * COLUMN + 2 * GAP, 1560, picture, **form)
    page.text(3, 5, top + 30, top + 1590)
    page.text(0, 5, top + 1650, WEDGE_AT[1] - 120)
    page.rule(WEDGE_AT[1] - 60)
    edition.draw("wedges.tif", wedges)
    page.layers.append(
        {"kind": "contone", "file": "wedges.tif", "x": WEDGE_AT[0], "y": WEDGE_AT[1], "scale": SCALE}
    )
    page.black.frame(2760, WEDGE_AT[1], 1020, 600, 6)
    page.write(2810, WEDGE_AT[1] + 60, "Weather", 14)
    page.write(2810, WEDGE_AT[1] + 230, "West: rain, 11 to 14.", 9)
    page.write(2810, WEDGE_AT[1] + 340, "North: clear, 2 to 6.", 9)
    page.write(2810, WEDGE_AT[1] + 450, "Presses: dry and warm.", 9)
    return page.done()


def news(edition, name, seed, section, headline, second, picture):
    """An inner page: a story, a picture, another story."""
    page = Page(edition, name, seed)
    page.running_head(f"{section} {name[1]}")
    top = page.head(EDGE, 170, WIDTH - 2 * EDGE, headline)
    form = {} if "C" in page.inks else {"planar": 2}
    page.picture(
        f"{picture.__name__}.tif", EDGE + 2 * (COLUMN + GAP), top, 3 * COLUMN + 2 * GAP, 1400, picture, **form
    )
    page.text(0, 2, top, top + 1400)
    page.text(0, 5, top + 1460, 3500)
    page.rule(3530)
    page.text(0, 5, page.head(EDGE, 3590, 3 * COLUMN, second, 0.4), FOOT)
    return page.done()


def tables(edition, name, seed):
    """A page of figures."""
    page, chance, face = Page(edition, name, seed), random.Random(seed), Face(4.5, 0.34)
    page.running_head(f"News {name[1]}")
    top = page.head(EDGE, 170, WIDTH - 2 * EDGE, "What the markets did while we slept")
    for column in range(COLUMNS):
        x = EDGE + column * (COLUMN + GAP)
        for line in range(50):
            y = top + 46 * line
            face.write(page.black, x, y, chance.choice(SHARES))
            face.write(page.black, x + 420, y, f"{chance.uniform(1, 990):.2f}")
            face.write(page.black, x + 590, y, f"{chance.uniform(-9, 9):.1f}%")
            page.black.box(x, y + 40, COLUMN, 1)
    page.rule(top + 2330)
    page.text(
        0, 5, page.head(EDGE, top + 2390, WIDTH - 2 * EDGE, "Paper is dearer, and ink is not", 0.45), FOOT
    )
    return page.done()


def star(points, radius, inner):
    middle = radius, radius
    return [
        (
            middle[0] + math.sin(math.pi * i / points) * (radius if i % 2 == 0 else inner),
            middle[1] - math.cos(math.pi * i / points) * (radius if i % 2 == 0 else inner),
        )
        for i in range(2 * points)
    ]


def spot_star(edition, page, name, x, y, size, first, second):
    """A star in the spot ink: a solid with letters cut out, under a mask of a star's form."""
    solid, mask = Bitmap(size, size), Bitmap(size, size)
    solid.box(0, 0, size, size)
    for text, at in ((first, 0.3), (second, 0.52)):
        face, letters = fitted(text, round(size * 0.6), 0.7), Bitmap(size, size)
        face.write(letters, round(size * 0.2), round(size * at), text)
        solid.cut(letters, 0, 0)
    mask.polygon(star(16, size / 2, size * 0.42))
    edition.save_line(f"{name}-mask.tif", mask, 4)
    page.line(f"{name}.tif", solid, x, y, [0, 0, 0, 0, 255], photometric=1, mask=f"{name}-mask.tif")


def advertisement(edition):
    """Page A4, in all five inks: a picture, a spot star over it, a tint of the spot, and text."""
    page = Page(edition, "A4", 4)
    page.picture(
        "fruit.tif", EDGE, EDGE, WIDTH - 2 * EDGE, 2960, FRUIT, scale=8, order=">", planar=2, packed=False
    )
    spot_star(edition, page, "A4-star", 2240, 1860, 1500, "HALF", "PRICE")
    page.coloured("A4-claim.tif", EDGE, 3480, 2700, "Fresh from the tree", 0.55, [0, 200, 255, 30])
    tint = Bitmap(1200, 600)
    tint.box(0, 0, 1200, 600)
    page.line("A4-tint.tif", tint, EDGE, 4100, [0, 0, 0, 0, SPOT_TINT], paint="overprint")
    page.write(EDGE + 80, 4200, "Until", 16, 0.5)
    page.write(EDGE + 80, 4400, "Friday", 16, 0.5)
    page.text(2, 5, 4100, 4700, 6.5)
    page.head(EDGE, 4800, WIDTH - 2 * EDGE, "GREEN GROCERS AT THE QUAY", 0.6)
    return page.done()


def culture(edition):
    page = Page(edition, "B1", 11)
    page.coloured("B1-title.tif", EDGE, 60, 2400, "WEEKEND", 0.75, [0, 255, 180, 0])
    page.rule(620, 8)
    page.picture("globe.tif", EDGE, 680, WIDTH - 2 * EDGE, 2240, GLOBE, scale=8, order=">")
    top = page.head(EDGE, 3000, WIDTH - 2 * EDGE, "Round the world in eighty pages")
    page.text(0, 5, top, FOOT)
    return page.done()


def sale(edition, name, seed, word):
    """Page B4, in black and the spot."""
    page = Page(edition, name, seed)
    page.coloured(f"{name}-word.tif", EDGE, 120, WIDTH - 2 * EDGE, word, 0.8, [0, 0, 0, 0, 255])
    page.picture("street.tif", EDGE, 1900, 2200, 1700, city, scale=5, planar=2)
    page.text(3, 5, 1900, 3600, 6)
    spot_star(edition, page, f"{name}-star", 2700, 3700, 1000, "NOW", "OPEN")
    page.head(EDGE, 3800, 2400, "Lamps for every street", 0.5)
    page.text(0, 3, 4200, FOOT, 6)
    page.black.frame(EDGE // 2, EDGE // 2, WIDTH - EDGE, FOOT, 10)
    return page.done()


def marks():
    """Register crosses, crop marks and a patch of each ink, in the margins of a plate."""
    width, height = MARGINS[0] + 2 * WIDTH + GUTTER + MARGINS[2], MARGINS[1] + HEIGHT + MARGINS[3]
    found = []
    for x, y in ((width // 2, 100), (width // 2, height - 40), (60, height // 2), (width - 60, height // 2)):
        found += [(x - 36, y - 2, 72, 4), (x - 2, y - 36, 4, 72)]
    for x in (MARGINS[0], MARGINS[0] + WIDTH, MARGINS[0] + WIDTH + GUTTER, width - MARGINS[2]):
        found += [(x - 2, 0, 4, 80), (x - 2, height - 60, 4, 60)]
    marks = [dict(zip(("inks", "x", "y", "w", "h"), (INKS, *place))) for place in found]
    return marks + [
        {"inks": ink, "x": 400 + 160 * i, "y": 40, "w": 120, "h": 120} for i, ink in enumerate(INKS)
    ]


def tile(name):
    with open(os.path.join(TILES, f"{name}.json"), encoding="utf-8") as file:
        return json.load(file)


def make(edition):
    """Draws all images and gives the plan."""
    pages = [
        front(edition, "A1", 1, "Harbour opens after winter", sunset, {"each": 16}),
        news(edition, "A2", 2, "News", "A bridge that nobody asked for", "Library stays open at night", city),
        tables(edition, "A3", 3),
        advertisement(edition),
        culture(edition),
        news(edition, "B2", 12, "Weekend", "Where the path meets the sky", "Ten walks for a wet day", hills),
        news(
            edition,
            "B3",
            13,
            "Weekend",
            "The light that comes at night",
            "How to keep a star chart dry",
            aurora,
        ),
        sale(edition, "B4", 14, "SALE"),
        front(edition, "A1north", 21, "First light over the fells", aurora, {"planar": 2, "order": ">"}),
        news(edition, "A2west", 22, "News", "Rain for the fortieth day", "Umbrellas are not a crime", hills),
        sale(edition, "B4west", 24, "TILBUD"),
    ]
    sections = [{"name": name, "pages": pages} for name, pages in SECTIONS.items()]
    zones = [
        {
            "name": zone,
            "replace": [
                {"section": page[0], "page": int(page[1]), "with": other} for page, other in pages.items()
            ],
        }
        for zone, pages in ZONES.items()
    ]
    return {
        "plan": 2,
        "edition": "MORNING",
        "dpi": 1200,
        "page": [WIDTH, HEIGHT],
        "margins": MARGINS,
        "gutter": GUTTER,
        "limit": 612,
        "tiles": [tile(name) for name in ("C15", "M75", "Y0", "K45")],
        "screens": SCREENS,
        "curves": CURVES,
        "marks": marks(),
        "pages": pages,
        "sections": sections,
        "zones": zones,
        "sites": [{"name": site} | ({"zone": zone} if zone else {}) for site, zone in SITES.items()],
    }


def laid(value, indent=0):
    """JSON in lines of at most 110 columns: what fits stands on one line, and numbers fill theirs."""
    flat = json.dumps(value)
    if indent + len(flat) <= 108 or not isinstance(value, (dict, list)):
        return flat
    pad, end = " " * (indent + 2), "\n" + " " * indent
    if isinstance(value, dict):
        return (
            "{\n"
            + ",\n".join(f"{pad}{json.dumps(k)}: {laid(v, indent + 2)}" for k, v in value.items())
            + end
            + "}"
        )
    if all(isinstance(v, int) for v in value):
        lines, line = [], ""
        for v in map(str, value):
            if len(pad) + len(line) + len(v) + 2 > 108:
                lines, line = lines + [line], ""
            line += (", " if line else "") + v
        return "[\n" + ",\n".join(pad + line for line in lines + [line]) + end + "]"
    return "[\n" + ",\n".join(pad + laid(v, indent + 2) for v in value) + end + "]"


def main():
    parser = argparse.ArgumentParser(
        description=__doc__, formatter_class=argparse.RawDescriptionHelpFormatter
    )
    parser.add_argument(
        "--art",
        metavar="FOLDER",
        default=os.path.join(HERE, "art"),
        help="the folder for the images (art, beside this file)",
    )
    parser.add_argument(
        "--plan",
        metavar="FILE",
        default=os.path.join(HERE, "plan.json"),
        help="the plan to write (plan.json, beside this file)",
    )
    parser.add_argument(
        "--pages", metavar="FOLDER", help="write the pages as PDF files too, for `pressroom intake`"
    )
    words = parser.parse_args()
    try:
        edition = Edition(words.art)
        plan = make(edition)
        with open(words.plan, "w", encoding="utf-8") as file:
            file.write(laid(plan) + "\n")
        if words.pages:
            edition.write_pages(plan, words.pages)
    except OSError as error:
        print(f"make.py: {error.filename}: {error.strerror}", file=sys.stderr)
        return 2
    return 0


if __name__ == "__main__":
    sys.exit(main())
