"""Intake of one page: the page and the house file come as handles, the layers go into files of the service.

Only a complete verdict of intake refuses a page. Whatever else happens (a program is killed or missing, a
limit is passed, the disk is full, no answer comes) is the machine's, and says nothing about the page.
"""
import os
import shutil
import tempfile
import time
from collections.abc import Sequence
from typing import Any

from pressroom.night import intake_adapter
from pressroom.night.escapes import shown
from pressroom.night.records import OUTPUTS, Layer, PageAnswer, PageFault

# A disk with less room than this may be why a page failed, so that its failure is no verdict.
LEAST_FREE = 64 << 20
LONGEST_HOUSE, LONGEST_PROFILE = 1 << 20, 64 << 20


def work(request: dict[str, Any], handles: Sequence[int]) -> dict[str, Any]:
    """Answers a request of the kind `page`, with the handles of page, house file, profile and outputs."""
    if len(handles) != 3 + OUTPUTS:
        return {"verdict": "none", "why": f"{len(handles)} handles came, not {3 + OUTPUTS}"}
    with tempfile.TemporaryDirectory(prefix="page-") as folder:
        try:
            return dict(answer(request, handles, folder))
        except OSError as error:
            return {"verdict": "none", "why": shown(f"{error.filename or 'disk'}: {error.strerror}")}


def answer(request: dict[str, Any], handles: Sequence[int], folder: str) -> PageAnswer:
    """Returns the verdict on a page; raises OSError for what the machine lacks."""
    begun = time.monotonic()
    page, house, profile, *outputs = handles
    kind = "pdf" if request["suffix"] == "pdf" else "tiff"
    name = f"page.{kind}"
    save(page, os.path.join(folder, name), None)
    has_profile = save(profile, os.path.join(folder, "profile.icc"), LONGEST_PROFILE)
    text = read(house, LONGEST_HOUSE).decode()
    made = intake_adapter.made(text, "profile.icc" if has_profile else None, name, kind, folder)
    if isinstance(made, intake_adapter.NoVerdict):
        return {"verdict": "none", "why": shown(made.why)}
    if isinstance(made, intake_adapter.Refusal):
        if has_no_room(folder):
            return {"verdict": "none", "why": "the disk has no room for a page's files"}
        at = None if made.at_mm is None else [float(side) for side in made.at_mm]
        fault: PageFault = {"kind": made.kind, "text": shown(made.text), "at_mm": at}
        return {"verdict": "refused", "fault": fault}
    layers = stored(made.layers, outputs, folder)
    if layers is None:
        return {"verdict": "none", "why": f"it has more than {OUTPUTS} layers"}
    seconds = round(time.monotonic() - begun, 2)
    notes = [shown(note) for note in made.notes]
    return {"verdict": "accepted", "inks": made.inks, "layers": layers, "notes": notes, "seconds": seconds}


def save(handle: int, path: str, most: int | None) -> int:
    """Copies what a handle reads into a file. Returns its size; more than `most` bytes are refused."""
    with open(os.dup(handle), "rb") as source, open(path, "wb") as target:
        source.seek(0)
        shutil.copyfileobj(source, target, 1 << 20)
        size = target.tell()
    if most is not None and size > most:
        raise OSError(27, f"more than {most} bytes", os.path.basename(path))
    return size


def read(handle: int, most: int) -> bytes:
    """Returns what a handle reads, at most so many bytes."""
    with open(os.dup(handle), "rb") as file:
        file.seek(0)
        return file.read(most)


def has_no_room(folder: str) -> bool:
    """Returns whether the disk of the page's files is full."""
    room = os.statvfs(folder)
    return room.f_bavail * room.f_frsize < LEAST_FREE or (room.f_files > 0 and room.f_favail < 10)


def stored(layers: Sequence[Layer], outputs: Sequence[int], folder: str) -> list[Layer] | None:
    """Copies the files of a page's layers into the outputs, each synced. Returns the layers with the numbers
    of outputs in the place of names; None where there are more files than outputs."""
    numbers: dict[str, int] = {}
    for layer in layers:
        for key in ("file", "mask"):
            if key in layer:
                numbers.setdefault(layer[key], len(numbers))
    if len(numbers) > len(outputs):
        return None
    for name, number in numbers.items():
        fill(os.path.join(folder, name), outputs[number])
    return [{key: numbers[value] if key in ("file", "mask") else value for key, value in layer.items()}
            for layer in layers]  # fmt: skip


def fill(path: str, output: int) -> None:
    """Copies a file into an output from its beginning, and syncs it."""
    with open(path, "rb") as source, open(os.dup(output), "wb") as target:
        shutil.copyfileobj(source, target, 1 << 20)
        target.flush()
        os.fsync(target.fileno())
