"""Reports every fault that plateroom finds in a plan and its files, and what it would leave out without a
fault.

It repeats no rule of the program: it asks the program about each use of each file, in a plan whose page is
one pixel, and no plate is made. Notes follow on what is no fault but rarely intended.

status: 0 everything is accepted; 1 there are notes, and --strict was given; 2 the arguments are wrong, or the
program can't be run; 3 the plan is refused; 4 a file is refused or missing

example: pressroom check plan.json art --strict
"""
import json
import os
import re
from typing import Any

from pressroom.base.ask import program_path
from pressroom.base.command_line import Parser
from pressroom.base.console import Console
from pressroom.base.files import read_file
from pressroom.plans.check import Probes, faults, uses
from pressroom.plans.form import PlanForm, is_formed
from pressroom.plans.notes import Notes
from pressroom.plans.plan_reader import MOST_BYTES, json_of

PLACES_SHOWN = 3
# What Python reads as JSON and the program doesn't.
NOT_JSON = "it has NaN, Infinity, half a surrogate pair, or more than 127 levels"
TO_DO = "what to do: docs/FORMATS.md, 'Faults of a %s'"


def where(plan: Any, path: str) -> str:
    """The names on the path to a value of the plan, and the value in short."""
    value: Any = plan
    names: list[str] = []
    for step in path.split("/")[1:]:
        try:
            value = value[int(step) if isinstance(value, list) else step]
        except (LookupError, TypeError, ValueError):
            return f"in {', '.join(names)}" if names else ""
        if isinstance(value, dict) and isinstance(value.get("name"), str):
            names.append(value["name"])
    shown = json.dumps(value)
    return (f"in {', '.join(names)}: " if names else "") + (shown if len(shown) <= 60 else shown[:57] + "...")


def refuse_plan(console: Console, line: str, text: bytes) -> int:
    """Reports the program's line on the plan and where to look."""
    path = re.fullmatch(r"plateroom: plan (.*): \w+", line)
    try:
        plan = json_of(text)
        place = where(plan, path[1]) if path else NOT_JSON if line.endswith("not JSON") else ""
    except ValueError as error:
        place = str(error)
    console.tell("refused", line, place=place)
    if not console.as_json:
        print(*[f"  {place}"] * bool(place), TO_DO % "plan", sep="\n")
    return 3


def report(
    console: Console, plan: PlanForm, twice: list[str], files: str, asked: Probes, quiet: bool
) -> tuple[int, int]:
    """Reports the faults of a plan's files and the notes. Returns how many there are of each."""
    small = {key: value for key, value in plan.items() if key not in ("margins", "gutter", "marks")} | {
        "page": [1, 1]
    }
    whole = asked.text(json.dumps(small).encode(), files)
    single, _ = uses(plan)
    found, taken = faults(asked, plan, files, console.bar) if whole else ([], set(single))
    count = len(found)
    for name, use, fault, places in found:
        more = f" and {len(places) - PLACES_SHOWN} more" if len(places) > PLACES_SHOWN else ""
        text = f"{name} ({use}): {fault}; {', '.join(places[:PLACES_SHOWN])}{more}"
        console.tell("fault", text, file=name, use=use, places=places)
    if whole and not found:
        # Each file is accepted by itself: all of them together are refused.
        console.tell("fault", f"{whole[0].removeprefix('plateroom: ')}, with all files together")
        count = 1
    notes = [
        f"the key {key!r} occurs twice in an object; the last one counts" for key in dict.fromkeys(twice)
    ]
    wrong = {place for *_, places in found for place in places}
    notes += Notes(plan, files, taken, wrong, console.bar).all()
    if not quiet:
        for line in notes:
            console.tell("note", line)
        if count and not console.as_json:
            print(TO_DO % "file")
        names = len({name for _, name in single})
        said = f"{names} files in {len(single)} uses: {count} faults, {len(notes)} notes"
        console.tell("done", said, files=names, uses=len(single), faults=count, notes=len(notes))
    return count, len(notes)


def parser() -> Parser:
    """Returns the command's arguments."""
    parser = Parser("check", __doc__)
    parser.add_argument("plan", metavar="PLAN", help="the edition plan, a JSON file")
    parser.add_argument("files", metavar="FILES", help="the folder of the plan's images")
    parser.add_argument("--strict", action="store_true", help="end with status 1 if there are notes")
    parser.add_argument("--quiet", action="store_true", help="print only faults, no notes and no count")
    parser.add_program()
    return parser


def main() -> int:
    """Runs the command and returns its status."""
    words = parser().parse_args()
    # Faults and notes are what this command is asked for: its result, on standard output.
    console = Console("pressroom check", words.json, report=True)
    asked = Probes(program_path(words.program))
    text = read_file(words.plan, MOST_BYTES)
    if not os.path.isdir(words.files):
        console.leave(2, f"{words.files}: not a folder")
    # A plan's own faults come before any file is loaded, and /dev/null holds no files.
    answer = asked.text(text, "/dev/null")
    if answer and answer[1] == 3:
        return refuse_plan(console, answer[0], text)
    twice: list[str] = []
    try:
        plan = json_of(text, twice)
    except ValueError as error:
        console.leave(2, f"{words.plan}: the program accepts what isn't JSON: {error}")
    if not is_formed(plan):
        console.leave(2, f"{words.plan}: the program accepts a plan of another form than this command knows")
    found, notes = report(console, plan, twice, words.files, asked, words.quiet)
    return 4 if found else 1 if notes and words.strict else 0
