"""Makes the plates of pages that came late, as a new READY version of the whole edition.

PAGE is taken into the edition: with --house and --in as a page of IN, which `pressroom intake` converts into
WORK; without them as a file of WORK/files, or as a plan PRESS.json of WORK, each by its name. A new version
OUT/DATE-TIME gets the plates that changed, made by `plateroom replate`, and hard links to all others of the
version to which OUT/current leads. That version is unchanged, so a site may still be fetching it. The rest is
as in make: every plate is verified, each site gets SHA256SUMS and READY, and OUT/current moves. READY names
the version before and each plate that changed.

status: 0 all sites are READY, or nothing changed; 1 a site isn't READY; 2 the arguments are wrong, OUT has no
version that is READY, or a file can't be written; 3 a plan is refused; 4 a page is refused: WORK and IN are
unchanged; 5 another make or late works in OUT

example: pressroom late work/monday A03.pdf out/monday \\
             --house house.toml --in in/monday
"""
import argparse
import os

from pressroom.base.ask import program_path
from pressroom.base.command_line import Parser
from pressroom.base.console import Console
from pressroom.house.folders import folders
from pressroom.versions.late import take_and_make


def parser() -> Parser:
    """Returns the command's arguments."""
    parser = Parser("late", __doc__)
    parser.add_argument("--house", metavar="FILE", help="the house file, for `pressroom intake`")
    parser.add_argument("--in", dest="into", metavar="IN", help="the folder of the edition's pages")
    parser.add_argument(
        "--base",
        metavar="FOLDER",
        help="the name of a page is its path below this folder, as for west/A03.pdf (default: its file name)",
    )
    parser.add_program()
    options = parser.format_usage().removeprefix("usage: ").rstrip()
    parser.usage = f"{options} WORK PAGE [PAGE ..] OUT"
    parser.add_argument(
        "names",
        metavar="WORK PAGE .. OUT",
        nargs="+",
        help="the folder of the edition's plans and files, the pages that came late, and the folder of the "
        "edition's versions; only the pages where pressroom.toml names the folders",
    )
    return parser


def read_words() -> argparse.Namespace:
    """Reads and tests the arguments."""
    reads = parser()
    words = reads.parse_args()
    known = folders()
    if {"work", "out"} <= set(known) and not os.path.isdir(words.names[0]):
        words.work, words.pages, words.out = known["work"], words.names, known["out"]
        if not words.house and not words.into and {"house", "in"} <= set(known):
            words.house, words.into = known["house"], known["in"]
    elif len(words.names) >= 3:
        words.work, *words.pages, words.out = words.names
    else:
        reads.error("the following arguments are required: WORK, PAGE, OUT")
    if bool(words.house) != bool(words.into):
        reads.error("--house and --in are given together or not at all")
    return words


def main() -> int:
    """Runs the command and returns its status."""
    words = read_words()
    return take_and_make(words, Console("pressroom late", words.json), program_path(words.program))
