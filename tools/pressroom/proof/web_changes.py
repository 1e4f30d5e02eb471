"""The differences between plates and those of an earlier edition: the dots that came and those that went."""
import os
from collections.abc import Iterator
from concurrent.futures import Executor
from typing import TYPE_CHECKING, TypedDict

import numpy
from numpy.typing import NDArray

from pressroom.proof.blocks import SIDE, Cut, Sums, Writer
from pressroom.proof.counts import bands
from pressroom.proof.plates import open_plate
from pressroom.tiff.arrays import Bytes
from pressroom.tiff.tiff import Broken

if TYPE_CHECKING:
    from pressroom.proof.web_proof import Proof
    from pressroom.proof.web_view import View

# The side in pixels of the squares by which changes are gathered to rectangles.
SQUARE = 64


class Change(TypedDict):
    """A change of one ink: its key, the dots that came and went, or why they can't be told."""

    key: str
    dots: list[int] | None
    fault: str | None


# The new and the old content, None where there is none, and the size of the view.
Asked = tuple[str | None, str | None, tuple[int, int] | None]


class Changes:
    """The changes of all views. Each pair of contents is compared once."""

    def __init__(self, proof: "Proof") -> None:
        self.proof = proof
        self.asked: dict[Asked, Change] = {}
        self.sums: dict[str, Sums] = {}
        # How many dots came or went in each square, by the key of what came or went.
        self.squares: dict[str, NDArray[numpy.int64]] = {}
        self.paths = {content: path for path, content in proof.contents.items()}

    def of(self, view: "View") -> dict[str, Change]:
        """The changes of a view by ink; those of new and old plates that differ are filled in by `make`."""
        found: dict[str, Change] = {}
        for ink in self.proof.inks:
            new, old = view.new.get(ink), view.old.get(ink)
            if new == old or not view.old or ink in view.damaged:
                continue
            number = len(self.asked)
            size = next(((plate.width, plate.length) for plate in view.plates.values()), None)
            found[ink] = self.asked.setdefault(
                (new, old, size), {"key": f"{view.pair}-{ink}-{number}", "dots": [0, 0], "fault": None}
            )
        return found

    def make(self, pool: Executor) -> None:
        """Compares what differs, several plates at a time."""

        def one(item: tuple[Asked, Change]) -> None:
            (new, old, size), change = item
            try:
                self.compare(new, old, size, change)
            except Broken as error:
                change["fault"], change["dots"] = str(error), None

        list(self.proof.console.bar(pool.map(one, self.asked.items()), "changes", len(self.asked)))

    def compare(self, new: str | None, old: str | None, size: tuple[int, int] | None, change: Change) -> None:
        """Cuts the dots that came and those that went into blocks, and counts them."""
        if size is None:
            raise Broken("there is no plate to show the change on")
        has, had = (self.paths[content] if content else None for content in (new, old))
        for path in (has, had):
            see_size_of(path, size)
        change["dots"] = [
            self.cut(change["key"], "came", has, had, size),
            self.cut(change["key"], "went", had, has, size),
        ]

    def cut(self, key: str, kind: str, has: str | None, lacks: str | None, size: tuple[int, int]) -> int:
        """Cuts the dots that one plate has and the other doesn't, and returns how many they are."""
        writer = Writer(self.proof.folder, f"{key}-{kind}")
        cut = Cut(size, differing(has, lacks, size), writer, [])
        if cut.total:
            self.sums[writer.key] = writer.sums
            self.squares[writer.key] = cut.larger(SQUARE // 8)
        else:
            os.rmdir(writer.folder)
        return cut.total


def see_size_of(path: str | None, size: tuple[int, int]) -> None:
    """Raises Broken unless a plate has this width and length."""
    if path is None:
        return
    plate = open_plate(path)
    plate.close()
    if (plate.width, plate.length) != size:
        raise Broken(f"the plates differ in size: {path} has {plate.width} by {plate.length} pixels")


def differing(has: str | None, lacks: str | None, size: tuple[int, int]) -> Iterator[Bytes]:
    """Yields the dots of one plate that the other doesn't have, as packed rows; a plate that is None is bare."""
    plates = [open_plate(path) if path else None for path in (has, lacks)]
    bare: Bytes = numpy.zeros((SIDE, (size[0] + 7) // 8), numpy.uint8)
    try:
        rows = [
            bands(plate, SIDE) if plate else (bare[: size[1] - y] for y in range(0, size[1], SIDE))
            for plate in plates
        ]
        for a, b in zip(*rows):
            yield a & ~b
    finally:
        for plate in filter(None, plates):
            plate.close()
