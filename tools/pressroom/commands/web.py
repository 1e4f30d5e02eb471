"""Makes a folder in which a browser shows plates, from any web server or straight from a disk.

PLATES is the folder of a run, with a folder for each site, or one site's folder. OUT gets index.html, blocks
of each plate and a manifest with their sums. Plates that sites share are cut into blocks once. OUT appears when
everything is made, and replaces an earlier proof there. A damaged plate is named, and the others are shown.

With --plan the proof shows zones, pages and the ink limit, with --old what changed since an earlier edition.

example: pressroom web plates proof --plan plan.json --old yesterday/plates

status: 0 the proof is made; 1 it is made and plates are damaged: the lines name them; 2 the arguments are
wrong, or there are no plates, or a program or a library isn't installed, or OUT can't be written
"""
import os

from pressroom.base.command_line import Parser, numbers, whole
from pressroom.base.console import Console
from pressroom.house.folders import house_file
from pressroom.proof import web


def parser() -> Parser:
    """Returns the command's arguments."""
    parser = Parser("web", __doc__)
    parser.add_argument("plates", metavar="PLATES", help="the folder of a run, or of one site")
    parser.add_argument("out", metavar="OUT", help="the folder to make")
    parser.add_argument("--old", metavar="PLATES", help="plates of an earlier edition: shows what changed")
    parser.add_argument(
        "--plan",
        metavar="PLAN",
        action="append",
        default=[],
        help="the edition plan, for zones, pages and the limit; once for each press",
    )
    parser.add_argument("--house", metavar="FILE", help="the house file, for the spot's name and colour")
    parser.add_argument(
        "--spot",
        metavar="R,G,B",
        help="the spot's colour on paper (255,100,0)",
        type=numbers("RED,GREEN,BLUE of 0 to 255", (0, 255), (0, 255), (0, 255)),
    )
    parser.add_argument(
        "--keys",
        metavar="N",
        action="append",
        type=whole(1, 64),
        help="number of ink keys over a plate, as in `plateroom keys`; may be repeated (32)",
    )
    parser.add_argument(
        "--jobs",
        metavar="N",
        type=whole(1, 256),
        default=os.cpu_count() or 1,
        help="plates at a time (as many as there are processors)",
    )
    return parser


def main() -> int:
    """Runs the command and returns its status."""
    words = parser().parse_args()
    words.house = words.house or house_file()
    web.need_all()
    return 1 if web.make(words, Console("pressroom web", words.json)) else 0
