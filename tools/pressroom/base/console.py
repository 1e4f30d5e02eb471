"""Reports faults, notes and progress to the user of a command.

Messages and faults go to standard error, results to standard output. With `--json` each event is one JSON object on a
line of standard output, with the key `event` first, and no bar is shown.
"""
import importlib.util
import json
import shutil
import sys
from collections.abc import Iterable
from typing import Any, NoReturn, Protocol, TypeVar

from pressroom.base.faults import Fault

T = TypeVar("T")
# The events that are messages, and those whose text is printed without their name.
MESSAGES = {"fault", "note", "retry"}
BARE = {"done", "refused", "tile", "part"}
# The Debian package of each program.
PACKAGES = {
    "gs": "ghostscript",
    "mutool": "mupdf-tools",
    "qpdf": "qpdf",
    "pdftohtml": "poppler-utils",
    "pdftoppm": "poppler-utils",
    "prlimit": "util-linux",
    "tiffcp": "libtiff-tools",
    "tiffinfo": "libtiff-tools",
    "rsync": "rsync",
    "make": "make",
    "parallel": "parallel",
    "sbatch": "slurm-wlm",
}


class Missing(Fault):
    """A program or library that the command needs isn't installed. The text names its Debian package."""


def need(*programs: str) -> None:
    """Raises Missing, with the package's name, for the first of these programs that isn't on the path."""
    for program in programs:
        if shutil.which(program) is None:
            package = PACKAGES.get(program, program)
            raise Missing(f"{program} is not installed: apt-get install {package}")


def need_libraries(*names: str) -> None:
    """Raises Missing, with the package's name, for the first of these libraries of Python that isn't installed."""
    for name in names:
        if importlib.util.find_spec(name) is None:
            package = {"PIL": "python3-pil"}.get(name, f"python3-{name}")
            raise Missing(f"{name} is not installed: apt-get install {package}")


def fault_of(error: OSError) -> str:
    """Returns the text of an OSError with the file that it names; of a rename, with the new name."""
    name = error.filename2 or error.filename
    return f"{name}: {error.strerror}" if name else str(error)


def one_line(text: str) -> str:
    """Returns the text of an event without what ends a line, moves a cursor or can't be printed."""
    return "".join(letter if letter.isprintable() else "?" for letter in text)


class Gauge(Protocol):
    """A progress bar that `update` moves and `close` ends."""

    def update(self, count: int) -> object:
        """Moves the bar by so many."""

    def close(self) -> object:
        """Takes the bar away."""


class NoBar:
    """Replaces a progress bar if tqdm isn't installed, and shows nothing."""

    def update(self, count: int) -> None:
        """Does nothing."""

    def close(self) -> None:
        """Does nothing."""


class Console:
    """Writes events as text or as JSON lines, and counts them by kind."""

    def __init__(self, name: str, as_json: bool = False, report: bool = False) -> None:
        """`report` is for a command whose result is faults and notes: they go to standard output."""
        self.name, self.as_json, self.report = name, as_json, report
        self.counts: dict[str, int] = {}
        self.fields: dict[str, object] = {}
        self.drawn: Any = None

    def about(self, **fields: object) -> "Console":
        """Returns a console that shares this one's counts and adds these fields to its events."""
        other = Console(self.name, self.as_json, self.report)
        other.counts, other.fields = self.counts, self.fields | fields
        return other

    def tell(self, event: str, text: str, **fields: object) -> None:
        """Reports one event as text or, with all its fields, as JSON. `event` is a word such as fault."""
        self.counts[event] = self.counts.get(event, 0) + 1
        if self.as_json:
            fields = {"event": event, "text": one_line(text), **self.fields, **fields}
            # Bytes of file names that aren't UTF-8 are escaped as Python reads them.
            line = json.dumps(fields, ensure_ascii=False).encode("utf-8", "backslashreplace")
            print(line.decode(), flush=True)
        else:
            if self.drawn is not None:
                self.drawn.clear()
            stream = sys.stderr if event in MESSAGES and not self.report else sys.stdout
            print(one_line(text) if event in BARE else f"{event}: {one_line(text)}", file=stream, flush=True)

    def bar(self, items: Iterable[T], words: str, total: int | None = None) -> Iterable[T]:
        """Returns the items, with a progress bar if tqdm is installed and they take more than two seconds."""
        try:
            from tqdm import tqdm
        except ImportError:
            return items
        hidden = True if self.as_json else None
        self.drawn = tqdm(items, desc=words, total=total, delay=2, leave=False, disable=hidden)
        drawn: Iterable[T] = self.drawn
        return drawn

    def gauge(self, words: str, total: int) -> Gauge:
        """Returns a bar that `update(N)` moves and `close()` ends, shown in the same cases as `bar`."""
        try:
            from tqdm import tqdm
        except ImportError:
            return NoBar()
        hidden = True if self.as_json else None
        gauge: Gauge = tqdm(desc=words, total=total, delay=2, leave=False, disable=hidden)
        return gauge

    def refuse(self, line: str) -> None:
        """Passes on the program's own line on a plan, on standard error."""
        if self.as_json:
            self.tell("refused", line)
        else:
            print(line, file=sys.stderr)

    def leave(self, status: int, text: str) -> NoReturn:
        """Prints this text after the command's name on standard error, and exits with this status."""
        print(f"{self.name}: {text}", file=sys.stderr)
        sys.exit(status)
