"""The ring of a run: how many rows the slowest site may be behind the writer.

A large ring has fewer waits, and its memory is the program's: for each site (and the ink keys) so many rows of
a plate, each with a 128th more.
"""
from __future__ import annotations

from typing import TypedDict

# The most places, the fewest, and the part of the available memory that a ring may take.
MOST, LEAST, PART = 1024, 64, 16
MEMORY = "/proc/meminfo"


class Shape(TypedDict, total=False):
    """What of a plan decides how wide its plates are, in pixels."""

    page: list[int]
    margins: list[int]
    gutter: int


def row_bytes(plan: Shape) -> int:
    """Returns the bytes of a plate's row in the ring: a bit a pixel, a 128th more, and the length."""
    left, _, right, _ = plan.get("margins", [0, 0, 0, 0])
    row = -(-(left + 2 * plan["page"][0] + plan.get("gutter", 0) + right) // 8)
    return row + -(-row // 128) + 2


def available(path: str = MEMORY) -> int | None:
    """Returns the bytes of memory that the machine has available, or None where it doesn't say."""
    try:
        with open(path, encoding="ascii") as file:
            for line in file:
                name, _, rest = line.partition(":")
                if name == "MemAvailable":
                    return int(rest.split()[0]) << 10
    except (OSError, ValueError, IndexError):
        pass
    return None


def places(plan: Shape, readers: int, memory: int | None) -> int:
    """Returns the places of a ring for so many readers, sites and ink keys, with so much memory available:
    1,024, or half as many again and again, down to 64, until the ring takes a 16th of it at most."""
    count = MOST
    if memory is not None:
        while count > LEAST and count * readers * row_bytes(plan) * PART > memory:
            count //= 2
    return count


def ring_of(plan: Shape, readers: int) -> int:
    """Returns the places of a ring for so many readers on this machine as it is now."""
    return places(plan, readers, available())
