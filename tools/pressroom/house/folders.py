"""What a user may leave out of a command line: the house file and the folders IN, WORK and OUT, if a file
`pressroom.toml` in the current folder names them, and the house file also if PRESSROOM_HOUSE does.

The command line counts first, then PRESSROOM_HOUSE, then the file. Paths in the file are relative to its folder.
"""
import argparse
import os

from pressroom.base.command_line import Parser
from pressroom.house.forms import matching
from pressroom.house.house import read_keys
from pressroom.house.house_keys import Key

FILE, HOUSE = "pressroom.toml", "PRESSROOM_HOUSE"
PATH = matching(r"[^\x00]+", "a path")
# The key of each argument.
KEYS = {
    "house": Key(PATH, "the house file", None),
    "in": Key(PATH, "the folder of an edition's pages", None),
    "work": Key(PATH, "the folder of plans and their files", None),
    "out": Key(PATH, "the folder of an edition's versions", None),
}
ARGUMENTS = {"house": "house", "folder": "in", "into": "in", "work": "work", "out": "out"}


def folders() -> dict[str, str]:
    """Returns the paths that the environment and the file name. Raises HouseFault if the file is wrong."""
    found: dict[str, str] = {}
    if os.path.lexists(FILE):
        keys = read_keys(FILE, FILE)
        values = {name: keys.take(name, declared) for name, declared in KEYS.items()}
        keys.end()
        keys.faults.end()
        found = {name: value for name, value in values.items() if value}
    if os.environ.get(HOUSE):
        found["house"] = os.environ[HOUSE]
    return found


def house_file() -> str | None:
    """Returns the house file that the environment or the file names, or None."""
    return folders().get("house")


def with_folders(parser: Parser, *names: str) -> argparse.Namespace:
    """Reads the arguments. Those of these names may be left out, all together, if the file says them."""
    words = parser.parse_args()
    missing = [name for name in names if getattr(words, name) is None]
    if missing:
        known = folders() if len(missing) == len(names) else {}
        for name in missing:
            setattr(words, name, known.get(ARGUMENTS[name]))
    lacking = [name for name in names if getattr(words, name) is None]
    if lacking:
        metavars = [str(action.metavar) for action in parser._actions if action.dest in lacking]
        parser.error(f"the following arguments are required: {', '.join(metavars)}")
    return words
