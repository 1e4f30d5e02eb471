"""The command line of a command: its options, its help within 80 columns, and its errors in one form.

Each command has `--json`, `--version` and `--help`. An error is one line on standard error that begins with
`pressroom COMMAND:`, and the status is 2. An option that doesn't exist is answered with the nearest one.
"""
import argparse
import difflib
import math
import re
import sys
import textwrap
from collections.abc import Callable, Iterable
from typing import Any, NoReturn

from pressroom import __version__

WIDTH = 80
PROGRAM = "the program (default: $PLATEROOM, then plateroom on the path)"


def nearest(word: str, known: Iterable[str]) -> str:
    """Returns a hint at the known word that is most like this one, or nothing."""
    found = difflib.get_close_matches(word, list(known), 1)
    return f"; did you mean {found[0]}?" if found else ""


def wrapped(text: str) -> str:
    """Returns a text whose paragraphs are wrapped; those with indented lines and examples stay as they are."""
    paragraphs = []
    for paragraph in text.strip().split("\n\n"):
        if re.search(r"^ |^examples?:", paragraph, re.MULTILINE):
            paragraphs.append(paragraph)
        else:
            paragraphs.append(textwrap.fill(paragraph, WIDTH, break_on_hyphens=False, break_long_words=False))
    return "\n\n".join(paragraphs)


class Help(argparse.RawDescriptionHelpFormatter):
    """Help of 80 columns, whatever the terminal has."""

    def __init__(self, prog: str) -> None:
        super().__init__(prog, width=WIDTH)


class Parser(argparse.ArgumentParser):
    """Reads the arguments of one command, which its module's docstring describes."""

    def __init__(self, command: str, text: str | None, json: str = "") -> None:
        super().__init__(prog=f"pressroom {command}", description=wrapped(text or ""), formatter_class=Help)
        self.command = command
        self.add_argument(
            "--json", action="store_true", help=json or "print each event as a JSON object, one a line"
        )
        self.add_argument(
            "--version", action="version", version=f"pressroom {__version__}", help="print the version"
        )

    def add_program(self) -> None:
        """Adds the option that names plateroom's program."""
        self.add_argument("--program", metavar="PATH", help=PROGRAM)

    def options(self) -> dict[str, argparse.Action]:
        """Returns all long options."""
        return {
            name: action
            for action in self._actions
            for name in action.option_strings
            if name.startswith("--")
        }

    def error(self, message: str) -> NoReturn:
        """Prints one line and exits with status 2. An option that doesn't exist comes before all other faults."""
        known = self.options()
        for word in sys.argv[1:]:
            name = word.partition("=")[0]
            if re.fullmatch(r"--[a-z][a-z-]*", name) and not any(one.startswith(name) for one in known):
                message = f"no option {name}{nearest(name, known)}"
                break
        print(f"{self.prog}: {message} (see `pressroom help {self.command}`)", file=sys.stderr)
        sys.exit(2)


def numbers(words: str, *ranges: tuple[int, int]) -> Callable[[str], Any]:
    """Returns a reader of whole numbers with commas between, each in its range; of a single one as a number."""

    def read(text: str) -> Any:
        values = [int(value) if re.fullmatch(r"[0-9]{1,9}", value) else -1 for value in text.split(",")]
        if len(values) != len(ranges) or not all(
            least <= value <= most for value, (least, most) in zip(values, ranges)
        ):
            raise argparse.ArgumentTypeError(f"{text!r} isn't {words}")
        return values if len(values) > 1 else values[0]

    return read


def whole(least: int, most: int) -> Callable[[str], Any]:
    """Returns a reader of a whole number in a range."""
    return numbers(f"a whole number of {least} to {most}", (least, most))


def decimal(least: float, most: float, words: str) -> Callable[[str], float]:
    """Returns a reader of a number in a range."""

    def read(text: str) -> float:
        try:
            value = float(text)
        except ValueError:
            value = math.nan
        if not least <= value <= most:
            raise argparse.ArgumentTypeError(f"{text!r} isn't {words}")
        return value

    return read


def matching(pattern: str, words: str) -> Callable[[str], str]:
    """Returns a reader of a text that a pattern matches whole."""

    def read(text: str) -> str:
        if not re.fullmatch(pattern, text):
            raise argparse.ArgumentTypeError(f"{text!r} isn't {words}")
        return text

    return read
