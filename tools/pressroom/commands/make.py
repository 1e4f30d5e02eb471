"""Makes the plates of an edition: checks its plans, runs them, verifies every plate, and marks each site
READY.

WORK has a plan PRESS.json for each press and the folder files, as `pressroom intake` leaves them or as
written by hand. The plates go to a new folder OUT/DATE-TIME (UTC) with a folder for each site. A site whose
plates are all verified gets SHA256SUMS and last a file READY; when all sites have it, the link OUT/current
moves to the new folder. A site that couldn't be written, or whose plates differ, is made once more alone.
OUT/DATE-TIME/report.json records the result of each press and site, and how long each step took.

status: 0 all sites are READY and OUT/current leads to them; 1 a site isn't READY, the others are; 2 the
arguments are wrong, WORK has no plan, a program is missing, or OUT can't be written; 3 a plan is refused; 4 a
file is refused or missing; 5 another make or late works in OUT

example: pressroom make work/monday out/monday --keys 32
"""
import argparse

from pressroom.base.ask import program_path
from pressroom.base.command_line import Parser, whole
from pressroom.base.console import Console, need
from pressroom.house.folders import with_folders
from pressroom.versions.make import ENGINES, make


def parser() -> Parser:
    """Returns the command's arguments."""
    parser = Parser("make", __doc__)
    parser.add_argument(
        "work", metavar="WORK", nargs="?", help="the folder of the plans PRESS.json, with the folder files"
    )
    parser.add_argument("out", metavar="OUT", nargs="?", help="the folder of this edition's versions")
    parser.add_argument(
        "--keys",
        metavar="N",
        type=whole(1, 64),
        default=0,
        help="also count the pixels of each plate in N ink keys, 1 to 64, into PRESS.report",
    )
    parser.add_argument(
        "--parts", action="store_true", help="run each plan in parts, for editions too large for one run"
    )
    parser.add_argument(
        "--engine", choices=ENGINES, default="make", help="the program that runs the parts (make)"
    )
    parser.add_argument(
        "--resume",
        action="store_true",
        help="take the sites that are READY in the last version of the same plans and files from there",
    )
    parser.add_program()
    return parser


def read_words() -> argparse.Namespace:
    """Reads and tests the arguments."""
    reads = parser()
    words = with_folders(reads, "work", "out")
    if words.parts and words.keys:
        reads.error("--keys counts a run of the whole plan: it can't be given with --parts")
    return words


def main() -> int:
    """Runs the command and returns its status."""
    words = read_words()
    program = program_path(words.program)
    engine = words.engine if words.parts else None
    if engine:
        need(ENGINES[engine])
    console = Console("pressroom make", words.json)
    return make(words.work, words.out, console, program, words.keys, engine, words.resume)[0]
