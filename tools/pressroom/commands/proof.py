"""Makes a picture of what a site's plates print: all its pairs on a sheet, one pair, or the dots of a part.

A PNG shows all pairs on one sheet, each with its name and inks below it; a PDF has a page for each pair. With
--pair the PNG is that pair alone, with --dots a part of it, pixel by pixel. In a block of pixels each ink
takes its share of the light, as if dots of different inks overlapped at random. Needs Pillow and numpy.
Plates are read strip by strip, so a large one takes no more memory than a small one.

status: 0 the picture is made; 1 a plate is damaged or not finished; 2 the arguments are wrong, or there are
no plates or no libraries

example: pressroom proof plates/OSLO front.png --pair A-001
"""
import argparse
import os
import re
from typing import TYPE_CHECKING, Any

from pressroom.base.command_line import Parser
from pressroom.base.console import Console
from pressroom.proof.names import COLOURS, LARGEST, PLATE
from pressroom.tiff.tiff import Broken

if TYPE_CHECKING:
    from pressroom.proof.pairs import Colours, Pair

SHEET_SIDE, PAGE_SIDE, PAIR_SIDE = 400, 1600, 1200


class Wrong(Exception):
    """The arguments name plates that aren't there."""


def numbers(words: str, *ranges: tuple[int, int]) -> Any:
    """A reader of whole numbers with commas between, each in its range."""

    def read(text: str) -> Any:
        values = [int(value) if re.fullmatch(r"[0-9]{1,9}", value) else -1 for value in text.split(",")]
        if len(values) != len(ranges) or not all(
            least <= value <= most for value, (least, most) in zip(values, ranges)
        ):
            raise argparse.ArgumentTypeError(f"{text!r} isn't {words}")
        return values if len(values) > 1 else values[0]

    return read


def letters(text: str) -> str:
    """Reads letters of inks."""
    if not text or set(text) - set(COLOURS):
        raise argparse.ArgumentTypeError(f"{text!r} isn't some of the letters CMYKS")
    return text


def parser() -> Parser:
    """Returns the command's arguments."""
    parser = Parser("proof", __doc__)
    one_or_more = numbers("a whole number of 1 or more", (1, LARGEST))
    parser.add_argument("plates", metavar="PLATES", help="a site's folder, such as plates/OSLO")
    parser.add_argument("out", metavar="OUT", help="the picture to write: a name ending in .png or .pdf")
    parser.add_argument(
        "--pair", metavar="NAME", help="only this pair, such as MORNING-A-001 or A-001; a PNG"
    )
    parser.add_argument(
        "--dots",
        metavar="X,Y,W,H",
        type=numbers("X,Y,W,H in pixels", (0, LARGEST), (0, LARGEST), (1, LARGEST), (1, LARGEST)),
        help="with --pair: only the part of W by H pixels at X, Y, each pixel a square",
    )
    parser.add_argument(
        "--zoom", metavar="N", type=one_or_more, default=8, help="the side of such a square (8)"
    )
    parser.add_argument(
        "--factor",
        metavar="N",
        type=one_or_more,
        help=f"the scale: N pixels across become one (default: a pair is about {SHEET_SIDE} wide on a "
        f"sheet, {PAIR_SIDE} by itself, {PAGE_SIDE} in a PDF)",
    )
    parser.add_argument(
        "--columns", metavar="N", type=one_or_more, default=4, help="pairs across a sheet (4)"
    )
    parser.add_argument(
        "--palette",
        metavar="N",
        type=numbers("2 to 256 colours", (2, 256)),
        help="limit the sheet to N colours, for a small file",
    )
    parser.add_argument(
        "--inks", metavar="LETTERS", type=letters, default="CMYKS", help="only these plates (CMYKS)"
    )
    parser.add_argument(
        "--spot",
        metavar="R,G,B",
        type=numbers("RED,GREEN,BLUE of 0 to 255", (0, 255), (0, 255), (0, 255)),
        default=COLOURS["S"],
        help="the spot's colour on paper (255,100,0)",
    )
    return parser


def read_words() -> argparse.Namespace:
    """Reads and tests the arguments."""
    reads = parser()
    words = reads.parse_args()
    if words.out[-4:].lower() not in (".png", ".pdf"):
        reads.error(f"OUT {words.out!r} ends neither in .png nor in .pdf")
    if words.pair is None and words.dots:
        reads.error("--dots needs --pair")
    if words.pair is not None and words.out[-4:].lower() == ".pdf":
        reads.error("--pair makes a PNG")
    return words


def pairs_of(folder: str, inks: str) -> "list[Pair]":
    """The pairs whose plates are in a site's folder."""
    from pressroom.proof.pairs import Pair

    found: dict[str, dict[str, str]] = {}
    try:
        names = sorted(os.listdir(folder))
    except OSError as error:
        raise Wrong(f"{folder}: {error.strerror}") from None
    for name in names:
        named = PLATE.fullmatch(name)
        if named and named[2] in inks:
            found.setdefault(named[1], {})[named[2]] = os.path.join(folder, name)
    if not found:
        sites = [name for name in names if os.path.isdir(os.path.join(folder, name))]
        named_sites = f"; name one of its sites: {', '.join(sites)}" if sites else ""
        raise Wrong(f"{folder}: no plates of {inks}{named_sites}")
    return [Pair(name, paths) for name, paths in found.items()]


def make(words: argparse.Namespace, part: str, console: Console) -> None:
    """Writes the picture to the path `part`."""
    from PIL import Image

    from pressroom.proof.picture import picture_of, sheet_of

    pairs, colours = pairs_of(words.plates, words.inks), COLOURS | {"S": words.spot}
    if words.pair is not None:
        chosen = [pair for pair in pairs if words.pair in (pair.name, pair.name.split("-", 1)[1])]
        if len(chosen) != 1:
            names = ", ".join(pair.name for pair in pairs)
            raise Wrong(f"{words.plates}: {len(chosen)} pairs {words.pair} among {names}")
        return make_one(words, chosen[0], colours, part, console)
    side = SHEET_SIDE if words.out[-4:].lower() == ".png" else PAGE_SIDE
    factors = [words.factor or pair.factor_for(side) for pair in pairs]
    bar = console.gauge("rows", sum(pair.size(factor)[1] for pair, factor in zip(pairs, factors)))
    pictures = (picture_of(pair, factor, colours, bar.update) for pair, factor in zip(pairs, factors))
    if side == SHEET_SIDE:
        sheet = sheet_of(list(pictures), words.columns)
        if words.palette:
            sheet = sheet.quantize(words.palette, Image.Quantize.MAXCOVERAGE, dither=Image.Dither.NONE)
        sheet.save(part, "PNG", optimize=True)
    else:
        for number, picture in enumerate(pictures):
            picture.save(part, "PDF", resolution=150, quality=90, append=number > 0)


def make_one(
    words: argparse.Namespace, pair: "Pair", colours: "Colours", part: str, console: Console
) -> None:
    """Writes one pair, or its dots, row by row."""
    from pressroom.proof.picture import Png

    with open(part, "wb") as file:
        if words.dots:
            x, y, width, height = words.dots
            if x + width > pair.width or y + height > pair.length:
                raise Wrong(
                    f"--dots {x},{y},{width},{height} leaves the plates of {pair.name}, which have "
                    f"{pair.width} by {pair.length} pixels",
                )
            png = Png(file, width * words.zoom, height * words.zoom)
            rows = pair.dots(
                words.dots, words.zoom, colours, console.gauge("rows", height * words.zoom).update
            )
        else:
            factor = words.factor or pair.factor_for(PAIR_SIDE)
            png = Png(file, *pair.size(factor))
            rows = pair.pixels(factor, colours, console.gauge("rows", pair.size(factor)[1]).update)
        for row in rows:
            png.row(row)
        png.end()


def main() -> int:
    """Runs the command and returns its status."""
    words = read_words()
    console = Console("pressroom proof", words.json)
    part = words.out + ".part"
    try:
        make(words, part, console)
        os.replace(part, words.out)
        console.tell("done", words.out, file=words.out)
        return 0
    except ImportError as error:
        console.leave(2, f"{error.name} isn't installed; proof needs Pillow and numpy")
    except Broken as error:
        console.leave(1, str(error))
    except Wrong as error:
        console.leave(2, str(error))
    except OSError as error:
        console.leave(2, f"{words.out}: {error.strerror or error}")
    finally:
        if os.path.exists(part):
            os.remove(part)
