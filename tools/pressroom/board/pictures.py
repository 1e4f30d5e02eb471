"""Pictures of plates for the board: made in a process of their own, one after the other, and kept in a folder.

A set of plates is named by the first digits of its sum, as in the status. The board finds it below SPOOL/plates by
SHA256SUMS, so a picture is always of the plates whose sum is beside it.
"""
import hashlib
import os
import resource
import shutil
import subprocess
import sys
import threading
import time
from collections.abc import Iterable

from pressroom.base.console import one_line

TOOLS = os.path.normpath(os.path.join(os.path.dirname(os.path.abspath(__file__)), "..", ".."))
DIGITS = 12
# Seconds and bytes that the pictures of one set take at most, and sets that are kept.
SECONDS, MEMORY, SETS = 180, 2 << 30, 1000
# Seconds after which a set that couldn't be drawn is tried again.
AGAIN = 60.0
NAMES = ("C", "M", "Y", "K", "S", "left", "right")


class Pictures:
    """The pictures of plates. `folder` is where they are kept, and belongs to the board alone."""

    def __init__(self, spool: str, folder: str):
        self.plates, self.folder = os.path.join(spool, "plates"), folder
        self.known: dict[str, str] = {}
        self.faults: dict[str, tuple[float, str]] = {}
        self.queue: list[str] = []
        self.made: set[str] = set()
        self.changed = threading.Condition()

    def begin(self) -> None:
        """Takes over what is there, and begins to draw in a thread of its own."""
        for name in os.listdir(self.folder):
            path = os.path.join(self.folder, name)
            if len(name) == DIGITS and os.path.isdir(path):
                self.made.add(name)
            else:
                shutil.rmtree(path, ignore_errors=True)
        threading.Thread(target=self.run, name="pictures", daemon=True).start()

    def want(self, sums: Iterable[str]) -> None:
        """Says which sets are shown now, the most urgent first. What isn't among them is removed when there are many."""
        wanted = list(dict.fromkeys(sums))[:SETS]
        with self.changed:
            since = time.monotonic() - AGAIN
            self.faults = {one: fault for one, fault in self.faults.items() if fault[0] > since}
            self.queue = [one for one in wanted if one not in self.made and one not in self.faults]
            self.changed.notify()
            for one in list(self.made - set(wanted))[: max(0, len(self.made) - SETS)]:
                self.made.discard(one)
                shutil.rmtree(os.path.join(self.folder, one), ignore_errors=True)

    def inks(self, sums: str | None) -> list[str]:
        """Returns the inks of a set whose pictures are there."""
        if sums not in self.made:
            return []
        return [ink for ink in NAMES[:5] if os.path.exists(self.path(sums, ink))]

    def path(self, sums: str, name: str) -> str:
        return os.path.join(self.folder, sums, f"{name}.png")

    def fault(self, sums: str | None) -> str | None:
        """Returns why a set has no pictures and gets none."""
        return self.faults.get(sums or "", (0.0, None))[1]

    def count(self) -> int:
        """Returns a number that differs where the pictures do."""
        return len(self.made) * 1000 + len(self.faults)

    def find(self, sums: str) -> str | None:
        """Returns the folder of the plates whose SHA256SUMS has this sum."""
        try:
            names = os.listdir(self.plates)
        except OSError:
            return None
        for name in names:
            if name not in self.known:
                try:
                    with open(os.path.join(self.plates, name, "SHA256SUMS"), "rb") as file:
                        self.known[name] = hashlib.sha256(file.read(65_536)).hexdigest()[:DIGITS]
                except OSError:
                    continue
        found = [name for name in names if self.known.get(name) == sums]
        return os.path.join(self.plates, found[0]) if found else None

    def run(self) -> None:
        """Draws what is wanted, one set after the other."""
        while True:
            with self.changed:
                while not self.queue:
                    self.changed.wait()
                sums = self.queue.pop(0)
            fault = self.draw(sums)
            with self.changed:
                if fault is None:
                    self.made.add(sums)
                else:
                    self.faults[sums] = (time.monotonic(), fault)

    def draw(self, sums: str) -> str | None:
        """Draws one set. Returns why it failed, or None."""
        plates = self.find(sums)
        if plates is None:
            return "the plates can't be read by the board"
        part = os.path.join(self.folder, f"{sums}.part")
        shutil.rmtree(part, ignore_errors=True)
        words = [sys.executable, "-B", os.path.join(TOOLS, "pressroom.py"), "draw", plates, part]
        try:
            answer = subprocess.run(
                words, stdin=subprocess.DEVNULL, capture_output=True, timeout=SECONDS, preexec_fn=lower
            )
        except subprocess.TimeoutExpired:
            return f"the picture wasn't drawn within {SECONDS} s"
        except OSError as error:
            return f"the picture can't be drawn: {error.strerror}"
        if answer.returncode:
            said = answer.stderr.decode("utf-8", "replace").strip().splitlines()
            return one_line(said[-1][-200:] if said else f"drawing ended with status {answer.returncode}")
        try:
            os.rename(part, os.path.join(self.folder, sums))
        except OSError as error:
            return f"the picture can't be kept: {error.strerror}"
        return None


def lower() -> None:
    """Gives a process that draws less of the processors, and bounds its memory."""
    os.nice(10)
    resource.setrlimit(resource.RLIMIT_AS, (MEMORY, MEMORY))
