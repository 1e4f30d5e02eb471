"""Asks the program about each use of each file of a plan, in a plan whose page is one pixel: no rule of the program
is repeated here, and no plate is made."""
import json
import os
import re
import struct
from collections.abc import Callable, Iterable, Iterator
from typing import Any

from pressroom.base.ask import Asked
from pressroom.plans.form import Layer, Page, PlanForm

# The use of a file: its kind, and what joins it to others.
Use = tuple[Any, ...]
Bar = Callable[[list[Any], str], Iterable[Any]]


class Probes(Asked):
    """Asks the program about one layer after the other."""

    def __init__(self, program: str) -> None:
        super().__init__(program)
        with open(os.path.join(self.folder.name, "probe"), "wb") as file:
            file.write(one_pixel())

    def layer(self, layer: dict[str, Any], image: str | None, mask: str | None = None) -> str | None:
        """The fault of one layer on a page of one pixel, whose files are at these paths."""
        for name, path in (("image", image), ("mask", mask)):
            link = os.path.join(self.folder.name, name)
            if os.path.lexists(link):
                os.remove(link)
            if path:
                os.symlink(os.path.abspath(path), link)
        page = {"name": "p", "inks": "K", "layers": [layer]}
        plan = {
            "plan": 2,
            "edition": "check",
            "dpi": 1,
            "page": [1, 1],
            "pages": [page],
            "sections": [{"name": "A", "pages": ["p", "p"]}],
            "sites": [{"name": "X"}],
        }
        answer = self.text(json.dumps(plan).encode(), self.folder.name)
        if answer is None:
            return None
        named = re.fullmatch(r"plateroom: file \w+: (tag \d+: .*)", answer[0])
        return named[1] if named else "is missing or can't be read" if answer[1] == 5 else answer[0]


def one_pixel() -> bytes:
    """A line image of one pixel, with which to ask about a mask."""
    entries = [(256, 3, 1, 1), (257, 3, 1, 1), (262, 3, 1, 0), (273, 3, 1, 8), (279, 3, 1, 1)]
    directory = struct.pack("<H", len(entries)) + b"".join(struct.pack("<HHII", *entry) for entry in entries)
    return struct.pack("<2sHI", b"II", 42, 10) + b"\x80\0" + directory


def layers_of(plan: PlanForm) -> Iterator[tuple[Page, int, Layer, str]]:
    """Each layer with its page and a text that names its position."""
    for page in plan["pages"]:
        for number, layer in enumerate(page["layers"]):
            yield page, number, layer, f"page {page['name']} layer {number}"


def uses(plan: PlanForm) -> tuple[dict[Use, list[str]], dict[Use, list[str]]]:
    """The uses of files, each with its layers: images and masks, then what joins them: crops and sizes."""
    single: dict[Use, list[str]] = {}
    joined: dict[Use, list[str]] = {}
    for _, _, layer, place in layers_of(plan):
        kind, file = layer["kind"], layer["file"]
        single.setdefault((kind, file), []).append(place)
        if "mask" in layer:
            single.setdefault(("mask", layer["mask"]), []).append(place)
            joined.setdefault(("mask", layer["mask"], kind, file), []).append(place)
        if "crop" in layer:
            joined.setdefault(("crop", tuple(layer["crop"]), kind, file), []).append(place)
    return single, joined


def faults(
    asked: Probes, plan: PlanForm, files: str, bar: Bar
) -> tuple[list[tuple[str, str, str, list[str]]], set[Use]]:
    """The files that are refused, each as name, use, fault and layers; and the uses that are accepted."""
    single, joined = uses(plan)
    found: list[tuple[str, str, str, list[str]]] = []
    taken: set[Use] = set()
    for (use, name), places in bar(list(single.items()), "files"):
        path = os.path.join(files, name)
        if use == "mask":
            fault = asked.layer({"kind": "line", "file": "probe", "mask": "mask"}, None, path)
            # The probe has one pixel: a mask of another size is accepted as a mask.
            fault = None if fault and fault.endswith(": mask size") else fault
        else:
            fault = asked.layer({"kind": use, "file": "image"}, path)
        if fault:
            found.append((name, use, fault, places))
        else:
            taken.add((use, name))
    for (what, value, kind, name), places in bar(list(joined.items()), "crops and masks"):
        if (kind, name) not in taken or (what == "mask" and ("mask", value) not in taken):
            continue
        path = os.path.join(files, name)
        if what == "crop":
            fault = asked.layer({"kind": kind, "file": "image", "crop": value}, path)
            found += [(name, f"{kind} cropped to {list(value)}", fault, places)] if fault else []
        else:
            fault = asked.layer(
                {"kind": kind, "file": "image", "mask": "mask"}, path, os.path.join(files, value)
            )
            found += [(value, f"mask of {name}", fault, places)] if fault else []
    return found, taken
