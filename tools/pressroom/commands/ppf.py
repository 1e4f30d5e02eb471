"""Writes ink key files for presses: CIP3 PPF 3.0, one file for each pair and the sites that print it alike.

PLATES is the folder of a run, with a folder for each site, or one site's folder. A file of OUT is named by
the pair and the first of its sites, such as E1-A-001-OSLO.ppf, and has a preview image of each plate at about
50.8 pixels an inch.

With --keys N it also writes keys-N.csv and keys-N.json: for each plate and key the dots that `plateroom
keys` counts, and the printed area in percent. If the house file has a table [keys] with a press's key `width`
and `offset` in mm, N keys of that width get their printed area too.

example: pressroom ppf plates ppf --keys 32 --house house.toml

status: 0 everything is written; 1 plates are damaged: the lines name them, and their pairs have no file; 2
the arguments are wrong, or there are no plates, or a library isn't installed, or OUT can't be written
"""
import os

from pressroom.base.command_line import Parser, whole
from pressroom.base.console import Console, need_libraries
from pressroom.house.folders import house_file


def parser() -> Parser:
    """Returns the command's arguments."""
    parser = Parser("ppf", __doc__)
    parser.add_argument("plates", metavar="PLATES", help="the folder of a run, or of one site")
    parser.add_argument(
        "out", metavar="OUT", help="the folder for the files; other files in it are left alone"
    )
    parser.add_argument(
        "--keys",
        metavar="N",
        action="append",
        type=whole(1, 64),
        default=[],
        help="also write the tables of N keys over a plate; may be repeated",
    )
    parser.add_argument(
        "--house", metavar="FILE", help="the house file, for the spot's name and a press's keys"
    )
    parser.add_argument(
        "--jobs",
        metavar="N",
        type=whole(1, 256),
        default=os.cpu_count() or 1,
        help="plates at a time (as many as there are processors)",
    )
    return parser


def main() -> int:
    """Runs the command and returns its status."""
    words = parser().parse_args()
    words.house = words.house or house_file()
    need_libraries("numpy", "PIL")
    from pressroom.proof.ppf_sheets import Sheets

    return 1 if Sheets(words, Console("pressroom ppf", words.json)).make() else 0
