"""Cuts an edition into parts: plans whose plates together are those of the whole, each at its path.

A part has some sections for some sites, and only the pages that these sites print there, so it loads only its
own files. Everything else of the plan is unchanged. A part is written as OUT/SECTION-SITE.json, named by its
first section and its first site; an identical file that is already present is left alone. For each part it
prints a line:

plan SECTION-SITE.json sections A,B sites OSLO,BERGEN plates P rows R bytes B

P counts the plates for all its sites, R the rows that are made for them, B the bytes of its files: "unknown"
if one is missing.

example: pressroom parts plan.json parts --by both --files art

status: 0 the parts are written; 1 a section for one site has more than --most bytes; 2 the arguments are
wrong, the program can't be run, or a file can't be read or written; 3 the plan is refused, with the program's
line; 4 --most was given, and a file of the plan is missing
"""
import json
import math
import os

from pressroom.base import disk
from pressroom.base.ask import Asked, program_path
from pressroom.base.command_line import Parser
from pressroom.base.console import Console
from pressroom.base.files import read_file
from pressroom.plans.parts import Edition
from pressroom.plans.plan_reader import MOST_BYTES, Plan


def parser() -> Parser:
    """Returns the command's arguments."""
    parser = Parser("parts", __doc__)
    parser.add_argument("plan", metavar="PLAN", help="the edition plan, a JSON file")
    parser.add_argument("out", metavar="OUT", help="the folder for the plans of the parts")
    parser.add_argument(
        "--by",
        choices=("section", "site", "both"),
        default="section",
        help="a part for each section (default), for sites that share at least half of their plates "
        "with the first of them, or for each section of such sites",
    )
    parser.add_argument(
        "--most",
        metavar="BYTES",
        type=int,
        default=math.inf,
        help="the most bytes that the files of a part have: sections are joined up to it, and a larger one is "
        "cut by sites",
    )
    parser.add_argument(
        "--files", metavar="FILES", help="the folder of the plan's images (default: PLAN's folder)"
    )
    parser.add_program()
    return parser


def main() -> int:
    """Runs the command and returns its status."""
    words = parser().parse_args()
    console = Console("pressroom parts", words.json)
    asked = Asked(program_path(words.program))
    text = read_file(words.plan, MOST_BYTES)
    answer = asked.text(text, "/dev/null")
    if answer and answer[1] == 3:
        console.refuse(answer[0])
        return 3
    files = os.path.dirname(words.plan) if words.files is None else words.files
    edition = Edition(Plan("plan", text).form, files)
    for name, size in sorted(edition.sizes.items()):
        if size == math.inf and words.most < math.inf:
            console.leave(4, f"{os.path.join(files, name)} is missing: --most needs its size")
    parts = edition.parts(words.by, words.most)
    for sections, sites in parts:
        size = edition.bytes(sections, sites)
        if size > words.most:
            console.leave(
                1, f"section {sections[0]} of site {sites[0]} has {size} bytes of files and can't be cut"
            )
    os.makedirs(words.out, exist_ok=True)
    for sections, sites in parts:
        name = f"{sections[0]}-{sites[0]}.json"
        part = json.dumps(edition.cut(sections, sites), ensure_ascii=False, separators=(",", ":"))
        disk.write_changed(os.path.join(words.out, name), part.encode())
        console.tell("part", edition.line(name, sections, sites), plan=name, sections=sections, sites=sites)
    return 0
