"""The ring of a run: its places for a plan, readers and memory. The memory of a ring is that of docs/MANUAL.md."""
import os
import sys
from pathlib import Path

import pytest

sys.dont_write_bytecode = True
sys.path.insert(0, os.path.join(os.path.dirname(os.path.abspath(__file__)), "..", ".."))

from pressroom.plans.ring import Shape, available, places, ring_of, row_bytes

# 33,100 pixels are 4,138 bytes; a 128th more is 33, and the length takes two.
BROADSHEET: Shape = {"page": [16550, 26500]}
# The widest plate: 65,535 pixels, whose rows take 8,258 bytes in the ring.
WIDEST: Shape = {"page": [32767, 10], "gutter": 1}
MB = 1 << 20


@pytest.mark.parametrize(
    "plan, size",
    [
        (BROADSHEET, 4138 + 33 + 2),
        (WIDEST, 8258),
        ({"page": [4, 4]}, 1 + 1 + 2),
        ({"page": [10, 10], "margins": [3, 100, 2, 100], "gutter": 7}, 4 + 1 + 2),
    ],
)
def test_a_row_takes_its_bits_a_128th_and_two_bytes(plan: Shape, size: int) -> None:
    assert row_bytes(plan) == size


@pytest.mark.parametrize(
    "plan, readers, memory, count",
    [
        (BROADSHEET, 3, None, 1024),
        (BROADSHEET, 3, 16 * 1024 * 3 * 4173, 1024),
        (BROADSHEET, 3, 16 * 1024 * 3 * 4173 - 1, 512),
        (WIDEST, 17, 1000 * MB, 256),
        (WIDEST, 17, 100 * MB, 64),
        (WIDEST, 17, 0, 64),
    ],
)
def test_a_ring_has_1024_places_or_what_memory_allows(
    plan: Shape, readers: int, memory: int | None, count: int
) -> None:
    assert places(plan, readers, memory) == count


def test_available_memory_is_what_the_machine_says(tmp_path: Path) -> None:
    path = tmp_path / "meminfo"
    path.write_text("MemTotal:  8000000 kB\nMemFree:  10 kB\nMemAvailable:    2048 kB\n")
    assert available(str(path)) == 2048 * 1024
    path.write_text("MemTotal:  8000000 kB\n")
    assert available(str(path)) is None
    path.write_text("MemAvailable: many kB\n")
    assert available(str(path)) is None
    assert available(str(tmp_path / "none")) is None


def test_a_ring_on_this_machine_is_a_ring_of_the_program() -> None:
    assert ring_of({"page": [8, 8]}, 1) == 1024
    assert ring_of(WIDEST, 17) in (64, 128, 256, 512, 1024)
