"""Draws the pictures of one set of plates: one of each ink, and a small one of each page. A process of its own does it.

The pictures of the inks are laid over one another by the browser, each multiplied by the others, which is what
`pressroom proof` computes. Each plate's SHA-256 is compared with SHA256SUMS first: what is drawn is what was verified.
"""
import os
from collections.abc import Mapping
from typing import Any

from PIL import Image, ImageChops

from pressroom.base.faults import Fault
from pressroom.proof.names import COLOURS, PLATE
from pressroom.proof.pairs import Pair
from pressroom.proof.picture import Png
from pressroom.proof.plates import content_of

SUMS = "SHA256SUMS"
# The width of a pair's picture and the box of a page's, in pixels.
SIDE, SMALL = 1600, (102, 144)


def draw(folder: str, out: str) -> None:
    """Draws the plates in a folder as INK.png, left.png and right.png in another; raises Fault or Broken."""
    plates = plates_in(folder)
    os.makedirs(out, exist_ok=True)
    for ink, path in plates.items():
        draw_ink(ink, path, os.path.join(out, f"{ink}.png"))
    draw_pages(out, list(plates))


def plates_in(folder: str) -> dict[str, str]:
    """Returns the plates of a folder by their ink, in printing order; raises Fault where one isn't what was verified."""
    sums = sums_in(os.path.join(folder, SUMS))
    found = {}
    for name, wanted in sums.items():
        named = PLATE.fullmatch(name)
        if named is None:
            raise Fault(f"{name} isn't a plate's name")
        path = os.path.join(folder, name)
        if content_of(path) != wanted:
            raise Fault(f"{name} isn't the plate that was verified")
        found[named[2]] = path
    if not found:
        raise Fault(f"{folder} has no plates")
    return {ink: found[ink] for ink in COLOURS if ink in found}


def sums_in(path: str) -> Mapping[str, str]:
    """Returns the sums of plates by name, as sha256sum writes them."""
    with open(path, encoding="utf-8") as file:
        lines = file.read(65_536).splitlines()
    return {name: digest for digest, _, name in (line.partition("  ") for line in lines)}


def draw_ink(ink: str, path: str, out: str) -> None:
    """Draws one plate in its ink's colour on white."""
    pair = Pair(os.path.basename(path), {ink: path})
    factor = pair.factor_for(SIDE)
    with open(out, "wb") as file:
        png = Png(file, *pair.size(factor))
        for row in pair.pixels(factor, COLOURS, lambda count: None):
            png.row(row)
        png.end()


def draw_pages(out: str, inks: list[str]) -> None:
    """Draws each page small, from the pictures of the inks."""
    picture: Any = None
    for ink in inks:
        with Image.open(os.path.join(out, f"{ink}.png")) as one:
            picture = (
                one.convert("RGB") if picture is None else ImageChops.multiply(picture, one.convert("RGB"))
            )
    width, height = picture.size
    for name, box in (
        ("left", (0, 0, width // 2, height)),
        ("right", (width - width // 2, 0, width, height)),
    ):
        page = picture.crop(box)
        page.thumbnail(SMALL)
        page.save(os.path.join(out, f"{name}.png"), "PNG")
