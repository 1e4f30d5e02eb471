"""Damaged and hostile files at every command: it ends with a status and lines that begin with its name, and never with
a traceback, whatever the file. The program is a stub that accepts everything."""
import os
import shutil
import subprocess
import sys
from concurrent.futures import ThreadPoolExecutor
from pathlib import Path

import pytest
from test_house import HOUSE
from tiffs import plate_bytes

from pressroom.front import COMMANDS, INTERNAL

ENTRY = Path(__file__).parents[1] / "pressroom.py"
LATIN = b"Z\xfcrich"
DATA = {
    "nothing": b"",
    "zeros": bytes(1000),
    "Latin-1": LATIN,
    "deep JSON": b"[" * 200000,
    "deep objects": b'{"a":' * 200000,
    "deep TOML": b"a = " + b"[" * 100000,
    "many parts": b"a." * 100000 + b"b = 1",
    "many digits": b"a = " + b"9" * 100000,
    "a plan of nothing": b'{"plan": 2}',
    "a plan of odd things": b'{"plan": 2, "sites": [1], "pages": [[]], "sections": {"name": 2}, "page": [2e9, 1]}',
    "TIFF of large sizes": plate_bytes([b"\xff"] * 4, 8).replace(b"\x08\0\0\0", b"\xff\xff\xff\xff"),
    "half a TIFF": plate_bytes([b"\xff"] * 4, 8)[:60],
    "TIFF whose directory is itself": b"II*\0\x04\0\0\0",
    "PDF of nothing": b"%PDF-1.7\n%%EOF\n",
}
# The arguments of each command, in which FILE is the hostile file, PLATES a folder with it as a plate, and WORK and IN
# folders with it as a plan, a page or a file. PLATE is a right folder of plates, OUT is new.
CALLS: dict[str, list[list[str]]] = {
    "intake": [["FILE", "IN", "OUT"], ["HOUSE", "IN", "OUT", "--wait", "0.1"], ["HOUSE", "FILE", "OUT"]],
    "board": [["SPOOL", "--listen", "FILE"], ["FILE", "--listen", "127.0.0.1:FILE"]],
    "check": [["FILE", "IN"], ["FILE", "FILE"]],
    "draw": [["SITE", "OUT"], ["FILE", "OUT"], ["FILE"]],
    "late": [
        ["WORK", "FILE", "OUT"],
        ["WORK", "FILE", "OUT", "--house", "FILE", "--in", "IN"],
        ["FILE", "FILE", "FILE"],
    ],
    "make": [["WORK", "OUT"], ["FILE", "OUT"]],
    "parts": [["FILE", "OUT"]],
    "ppf": [["PLATES", "OUT"], ["PLATE", "OUT", "--house", "FILE"], ["FILE", "OUT"]],
    "proof": [["SITE", "OUT.png"], ["FILE", "OUT.png"]],
    "night": [
        ["SPOOL", "--house", "HOUSE", "--for", "0.2"],
        ["NEW", "--house", "FILE", "--for", "0.2"],
        ["FILE", "--house", "HOUSE", "--for", "0.2"],
    ],
    "status": [["SPOOL"], ["FILE", "MON", "A-001"]],
    "hold": [["SPOOL", "FILE", "FILE", "--word", "FILE"], ["FILE", "MON", "A01"]],
    "release": [["SPOOL", "MON", "A01", "--arrival", "4294967296"]],
    "approve": [["SPOOL", "FILE", "FILE", "--arrival", "-1"]],
    "reject": [["SPOOL", "MON", "A01", "--word", "FILE"]],
    "resend": [["SPOOL", "FILE", "FILE", "FILE", "K", "--reason", "FILE"]],
    "cancel": [["SPOOL", "FILE"]],
    "house": [["SPOOL", "--apply", "FILE"]],
    "migrate": [["SPOOL", "--again", "FILE"]],
    "job": [["FILE"]],
    "tile": [["K", "--angle", "45", "--ruling", "100", "--wedge", "FILE/x.png"]],
    "web": [
        ["PLATES", "OUT"],
        ["PLATE", "OUT", "--plan", "FILE"],
        ["PLATE", "OUT", "--house", "FILE"],
        ["FILE", "OUT"],
    ],
}


class Room:
    """A folder with everything that the calls name."""

    def __init__(self, folder: Path, data: bytes | None) -> None:
        self.folder, self.data = folder, data
        name = os.fsdecode(LATIN)
        self.put(folder / name)
        for place in ("in/A01.pdf", "in/A02.tif", "in/files/x", "work/p.json", "work/files/a.tif"):
            self.put(folder / place)
        for place in ("spool/journal/night.db", "spool/in/MON/edition.toml", "spool/in/MON/A01.pdf"):
            self.put(folder / place)
        for place in ("plates/OSLO/E1-A-001-K.tif", "plates/OSLO/E1-A-001-C.tif"):
            self.put(folder / place)
        (folder / "plate" / "OSLO").mkdir(parents=True)
        (folder / "plate" / "OSLO" / "E1-A-001-K.tif").write_bytes(plate_bytes([b"\xf0"] * 4, 8))
        (folder / "house.toml").write_text(HOUSE)
        (folder / "stub").write_text("#!/bin/sh\nexit 1\n")
        (folder / "stub").chmod(0o755)
        names = {"FILE": name, "HOUSE": "house.toml", "IN": "in", "WORK": "work", "OUT": "new/out"}
        names |= {"PLATES": "plates", "PLATE": "plate", "SITE": "plates/OSLO", "OUT.png": "out.png"}
        names |= {"SPOOL": "spool", "NEW": "new/spool"}
        self.paths = names | {"FILE/x.png": f"{name}/x.png"}

    def put(self, path: Path) -> None:
        """Puts the hostile file, or a FIFO, at a path."""
        path.parent.mkdir(parents=True, exist_ok=True)
        if self.data is None:
            os.mkfifo(path)
        else:
            path.write_bytes(self.data)

    def call(self, command: str, words: list[str]) -> subprocess.CompletedProcess[bytes]:
        """Calls a command on it, with 1.5 GB of memory and half a minute."""
        line = [sys.executable, "-B", str(ENTRY), command, *(self.paths.get(word, word) for word in words)]
        environment = os.environ | {"PLATEROOM": str(self.folder / "stub"), "OPENBLAS_NUM_THREADS": "1"}
        limits = ["prlimit", "--as=3000000000", "--cpu=25", "--"]
        return subprocess.run(
            [*limits, *line], cwd=self.folder, capture_output=True, env=environment, timeout=120
        )


def lacks(command: str) -> str:
    """A program that a command needs and that isn't installed."""
    needed = {"intake": ["gs", "qpdf", "pdfinfo", "tiffcp", "prlimit"]}.get(command, ["prlimit"])
    return next((name for name in needed if shutil.which(name) is None), "")


def test_each_command_has_calls() -> None:
    assert set(CALLS) == set(COMMANDS) | INTERNAL


@pytest.mark.parametrize("name", [*DATA, "a FIFO"])
def test_no_traceback(tmp_path: Path, name: str) -> None:
    calls = [(command, words) for command, calls in CALLS.items() if not lacks(command) for words in calls]
    rooms = [Room(tmp_path / str(number), DATA.get(name)) for number in range(len(calls))]
    with ThreadPoolExecutor(2) as pool:
        jobs = [pool.submit(room.call, command, words) for room, (command, words) in zip(rooms, calls)]
        for (command, words), job in zip(calls, jobs):
            answer = job.result()
            said = answer.stderr.decode("utf-8", "surrogateescape")
            place = f"{command} {words}: {answer.returncode}\n{said[-2000:]}"
            assert "Traceback" not in said + answer.stdout.decode("utf-8", "replace"), place
            assert 0 <= answer.returncode <= 8, place
            if answer.returncode == 2:
                lines = said.splitlines()
                assert lines and all(
                    line.startswith((f"pressroom {command}: ", "fault: ", "note: ")) for line in lines
                ), place
