"""The TIFF reader: rows as they were written, and files that are damaged or hostile."""
import os
import resource
import struct
from pathlib import Path

import numpy
import pytest
from hypothesis import given, settings
from hypothesis import strategies as st
from tiffs import LONG, Fields, packed, plate_bytes, plate_fields, tiff_bytes, write

from pressroom.proof.counts import Counts
from pressroom.proof.plates import open_plate
from pressroom.tiff.arrays import rows_of
from pressroom.tiff.tiff import Broken, Tiff, unpacked

ROWS = [bytes([row, 255 - row, 0xF0]) for row in range(5)]
STRIPS = [b"".join(map(packed, ROWS[:2])), b"".join(map(packed, ROWS[2:4])), packed(ROWS[4])]
MOST = 4294967295
# Fields in the place of a plate's own, with what the reader says.
HOSTILE: dict[str, tuple[Fields, str]] = {
    "4294967295 rows in one strip": ({257: (LONG, [MOST]), 278: (LONG, [MOST])}, "pixels|too short"),
    "4294967295 rows in as many strips": ({257: (LONG, [MOST]), 278: (LONG, [1])}, "fewer values than"),
    "4294967295 columns": ({256: (LONG, [MOST])}, "pixels"),
    "no column": ({256: (LONG, [0])}, "no pixel"),
    "no row": ({257: (LONG, [0])}, "no pixel"),
    "a strip of 4294967295 bytes": ({279: (LONG, [MOST, 8, 4])}, "cut off"),
    "a strip beyond the file": ({273: (LONG, [MOST, 16, 24])}, "cut off"),
    "a strip of no bytes": ({279: (LONG, [0, 0, 0])}, "too short"),
    "a resolution of nothing": ({282: (5, [0, 0])}, "tag 282 is 0/0"),
    "too few pixels an inch": (
        {256: (LONG, [65535]), 257: (LONG, [65535]), 278: (LONG, [MOST]), 282: (5, [1, MOST])},
        "",
    ),
}


@settings(deadline=None)
@given(
    st.integers(1, 40),
    st.lists(st.binary(min_size=5, max_size=5), min_size=1, max_size=9),
    st.integers(1, 9),
    st.sampled_from("<>"),
)
def test_rows_are_those_written(
    tmp_path_factory: pytest.TempPathFactory, width: int, rows: list[bytes], each: int, order: str
) -> None:
    size = (width + 7) // 8
    rows = [row[:size] for row in rows]
    path = write(tmp_path_factory.mktemp("rows") / "a.tif", plate_bytes(rows, width, each, order))
    image = Tiff(path)
    assert (image.width, image.length, image.row_bytes) == (width, len(rows), size)
    assert list(image.rows()) == rows
    assert list(image.rows(1, 3)) == rows[1:3]
    arrays = [rows_of(image, strip) for strip in range(image.strips)]
    assert numpy.concatenate(arrays).tobytes() == b"".join(rows)


@pytest.mark.parametrize(
    ("data", "row"),
    [
        # The example of TIFF 6.0, section 9.
        (
            "fe aa 02 80 00 2a fd aa 03 80 00 2a 22 f7 aa",
            "aa aa aa 80 00 2a aa aa aa aa 80 00 2a 22 aa aa aa aa aa aa aa aa aa aa",
        ),
        ("80 00 07", "07"),
    ],
)
def test_unpacked(data: str, row: str) -> None:
    wanted = bytes.fromhex(row)
    assert next(unpacked(bytes.fromhex(data), len(wanted))) == wanted


def test_uncompressed_and_first_of_a_tag(tmp_path: Path) -> None:
    fields = plate_fields(24, 5, [b"".join(ROWS)], 5) | {259: (3, [1])}
    image = Tiff(write(tmp_path / "a.tif", tiff_bytes(fields, b"".join(ROWS), ">")))
    assert list(image.rows()) == ROWS
    assert image.rational(282) == 1200


def test_the_first_of_a_tag_counts(tmp_path: Path) -> None:
    """The last field, in the place of tag 283, says another width."""
    fields = plate_fields(24, 5, STRIPS, 2)
    data = tiff_bytes(fields, b"".join(STRIPS))
    last = int.from_bytes(data[4:8], "little") + 2 + 12 * (len(fields) - 1)
    data = data[:last] + struct.pack("<HHII", 256, LONG, 1, 99) + data[last + 12 :]
    assert Tiff(write(tmp_path / "a.tif", data)).width == 24


def test_a_row_that_is_too_short_is_refused(tmp_path: Path) -> None:
    strips = [packed(ROWS[0][:2])]
    path = write(tmp_path / "a.tif", tiff_bytes(plate_fields(24, 1, strips, 1), strips[0]))
    with pytest.raises(Broken, match="strip 0 is too short"):
        list(Tiff(path).rows())


@pytest.mark.parametrize("name", HOSTILE)
def test_hostile_fields_are_a_named_fault(tmp_path: Path, name: str) -> None:
    """Each is refused, and in little memory: an allocation by a field of the file would fail."""
    changed, words = HOSTILE[name]
    fields = plate_fields(24, 5, STRIPS, 2) | changed
    path = write(tmp_path / "a.tif", tiff_bytes(fields, b"".join(STRIPS)))
    before = resource.getrlimit(resource.RLIMIT_AS)
    with open("/proc/self/statm", encoding="ascii") as file:
        now = int(file.read().split()[0]) * resource.getpagesize()
    resource.setrlimit(resource.RLIMIT_AS, (now + (1 << 28), before[1]))
    try:
        with pytest.raises(Broken, match=words):
            plate = open_plate(path)
            for strip in range(plate.strips):
                rows_of(plate, strip)
            Counts(plate, 1)
    finally:
        resource.setrlimit(resource.RLIMIT_AS, before)


def test_no_file_of_its_own(tmp_path: Path) -> None:
    os.mkfifo(tmp_path / "pipe")
    for path, words in (
        (str(tmp_path / "pipe"), "not a regular file"),
        ("/dev/zero", "not a regular file"),
        (str(tmp_path / "away"), "No such file"),
        (write(tmp_path / "empty", b""), "cut off"),
        (write(tmp_path / "begun", b"II*\0\0\0\0\0"), "begun and not finished"),
        (write(tmp_path / "loop", b"II*\0\x08\0\0\0\0\0\x08\0\0\0"), "tag 256 isn't there"),
    ):
        with pytest.raises(Broken, match=words):
            Tiff(path)


@settings(deadline=None, max_examples=300)
@given(st.lists(st.tuples(st.integers(0, 200), st.integers(0, 255)), max_size=8), st.integers(0, 300))
def test_damaged_files_are_read_or_refused(
    tmp_path_factory: pytest.TempPathFactory, changes: list[tuple[int, int]], length: int
) -> None:
    data = bytearray(plate_bytes(ROWS, 24))
    for place, value in changes:
        data[place % len(data)] = value
    path = write(tmp_path_factory.mktemp("damaged") / "a.tif", bytes(data[:length] if length % 2 else data))
    try:
        plate = open_plate(path)
        for strip in range(plate.strips):
            rows_of(plate, strip)
        for _ in zip(range(100), plate.rows()):
            pass
    except Broken as error:
        assert str(error).startswith(path)
