"""Calls of plateroom that make plates, with a progress bar of finished plates, and their reports."""
import os
import re
import subprocess
import sys
import tempfile
import time
from collections.abc import Callable, Sequence

from pressroom.base.ask import HERE
from pressroom.base.console import Gauge
from pressroom.base.disk import Lock

LOOK = 0.2


class Call:
    """The result of a call of the program: its status, its lines, and its line on standard error."""

    def __init__(self, status: int, out: str, note: str) -> None:
        self.status, self.lines, self.note = status, out.splitlines(), note.strip()

    def finished(self) -> set[str]:
        """The sites that are complete by the report of a run or a replate."""
        ends = r"site (\w+) (?:finished |made )"
        return {found[1] for found in (re.match(ends, line) for line in self.lines) if found}

    def why(self, site: str) -> str:
        """Why a site isn't complete: its line, or the refusal, or the status."""
        for line in self.lines:
            if line.startswith(f"site {site} left "):
                return line.removeprefix(f"site {site} ")
        return self.note or f"the program ended with status {self.status}"


def call(
    words: Sequence[str], look: Callable[[], object] = lambda: None, environment: dict[str, str] | None = None
) -> Call:
    """Runs a program and calls `look` at intervals until it ends. A signal N is the status 128 + N."""
    with tempfile.TemporaryFile() as out, tempfile.TemporaryFile() as note:
        process = subprocess.Popen(
            words,
            stdin=subprocess.DEVNULL,
            stdout=out,
            stderr=note,
            env=os.environ | (environment or {}),
            pass_fds=tuple(Lock.held),
        )
        while process.poll() is None:
            look()
            try:
                process.wait(LOOK)
            except subprocess.TimeoutExpired:
                pass
        look()

        texts = []
        for file in (out, note):
            file.seek(0)
            texts.append(file.read().decode("utf-8", "replace"))
    status = process.returncode
    return Call(status if status >= 0 else 128 - status, *texts)


def command(name: str, *words: str) -> list[str]:
    """The arguments that start a command of pressroom: with the entry that PRESSROOM names, otherwise this
    package's."""
    entry = os.environ.get("PRESSROOM")
    start = [entry] if entry else [sys.executable, "-B", os.path.join(HERE, "..", "pressroom.py")]
    return [*start, name, *words]


class Done:
    """The progress bar of plates: counts the finished names below some folders of sites."""

    def __init__(self, bar: Gauge, folders: Sequence[str]) -> None:
        self.bar, self.folders, self.seen = bar, folders, 0

    def look(self) -> None:
        """Moves the bar to the number of plates that are present; it never goes back."""
        now = sum(map(plates_in, self.folders))
        if now > self.seen:
            self.bar.update(now - self.seen)
            self.seen = now


def plates_in(folder: str) -> int:
    """How many finished plates a folder has."""
    try:
        return sum(name.endswith(".tif") for name in os.listdir(folder))
    except OSError:
        return 0


class Seconds:
    """How long each step took, by a clock that never goes back."""

    def __init__(self) -> None:
        self.by_step: dict[str, float] = {}

    def of(self, step: str) -> "Step":
        """The time of a `with` block, added to that of this step."""
        return Step(self, step)


class Step:
    """A `with` block whose time is added to a step."""

    def __init__(self, seconds: Seconds, name: str) -> None:
        self.seconds, self.name = seconds, name

    def __enter__(self) -> None:
        self.begun = time.monotonic()

    def __exit__(self, *error: object) -> None:
        spent = self.seconds.by_step.get(self.name, 0) + time.monotonic() - self.begun
        self.seconds.by_step[self.name] = round(spent, 3)
