"""The command line `pressroom COMMAND ..`, which hands its arguments to the module of that command."""
import importlib
import os
import sys

from pressroom import __version__
from pressroom.base.command_line import Parser, nearest
from pressroom.base.console import fault_of
from pressroom.base.faults import Fault

# Each command with its line of help. A command NAME is the module commands/NAME: its function `parser` returns the
# arguments, of which help, man page and completion are made, and `main` reads `sys.argv` and returns the exit status.
# A module is imported only when its command runs, so that a command needs only its own libraries.
COMMANDS = {
    "intake": "make plans and files from the PDFs of a night",
    "approve": "approve a page of the night as you saw it",
    "board": "show the night in a browser, and let editors approve",
    "cancel": "cancel an edition of the night",
    "check": "report every fault of a plan and its files, and what would be lost without a fault",
    "hold": "hold a page of the night until it is released",
    "house": "apply the house file to an edition that is under way",
    "late": "remake the plates that a late page changes, as a new version of the edition",
    "make": "make the plates of an edition: check, run, verify, READY",
    "migrate": "bring a spool of an older pressroom up to date",
    "night": "run the night's service: pages in, pairs out, all evening",
    "parts": "cut an edition into parts for several machines",
    "ppf": "write ink key files (CIP3 PPF) and tables of ink keys",
    "proof": "draw a picture of what a site's plates print",
    "reject": "reject a page of the night, with a word",
    "release": "release a page that was held",
    "resend": "send plates to a site again",
    "status": "show the night: pages, pairs at sites, faults, and what comes next",
    "tile": "write a clustered threshold tile for a plan",
    "web": "make a proof of an edition's plates for the browser",
}

# Commands that no user gives: a job of the night is started by systemd or by the service, `draw` by the board.
INTERNAL = {"job", "draw"}

USAGE = """usage: pressroom COMMAND [ARGUMENT ..]
       pressroom help COMMAND
       pressroom --version
"""
INTERRUPTED, PIPE_CLOSED = 130, 141


def parser_of(name: str) -> Parser:
    """Returns the arguments of a command."""
    parser: Parser = importlib.import_module(f"pressroom.commands.{name}").parser()
    return parser


def usage() -> str:
    """Returns the text that lists all commands."""
    width = max(map(len, COMMANDS))
    return USAGE + "\n" + "".join(f"  {name:{width}}  {summary}\n" for name, summary in COMMANDS.items())


def main(words: list[str] | None = None) -> int:
    """Runs the command that the arguments name and returns its exit status: 2 where they name none."""
    words = sys.argv[1:] if words is None else words
    if words and words[0] == "help" and len(words) > 1:
        words = [words[1], "--help"]
    if words in (["--version"], ["-V"]):
        print(f"pressroom {__version__}")
        return 0
    if not words or words[0] in ("--help", "-h", "help"):
        print(usage(), end="", file=sys.stdout if words else sys.stderr)
        return 0 if words else 2
    name = words[0]
    if name not in COMMANDS and name not in INTERNAL:
        hint = nearest(name, COMMANDS)
        print(f"pressroom: no command {name!r}{hint}; `pressroom --help` lists them", file=sys.stderr)
        return 2
    return run(name, words[1:])


def run(name: str, words: list[str]) -> int:
    """Runs a command. What ends it is one line on standard error that begins with `pressroom COMMAND:`."""
    sys.argv = [f"pressroom {name}", *words]
    try:
        status: int = importlib.import_module(f"pressroom.commands.{name}").main()
        sys.stdout.flush()
        return status
    except Fault as fault:
        status, lines = fault.status, str(fault).split("\n")
    except BrokenPipeError:
        # Nobody reads on: Python's own flush at the end must not fail as well.
        os.dup2(os.open(os.devnull, os.O_WRONLY), sys.stdout.fileno())
        return PIPE_CLOSED
    except OSError as error:
        status, lines = 2, [fault_of(error)]
    except (MemoryError, RecursionError) as error:
        status, lines = 2, [
            f"a file is too large for this machine, or has too many levels ({type(error).__name__})"
        ]
    except KeyboardInterrupt:
        status, lines = INTERRUPTED, ["interrupted"]
    for line in lines:
        print(f"pressroom {name}: {line}", file=sys.stderr)
    return status
