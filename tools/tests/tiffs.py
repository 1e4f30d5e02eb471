"""Makes TIFF files by the layout of TIFF 6.0, section 2: a header, one directory, and the values beside it."""
import struct
from pathlib import Path

Fields = dict[int, tuple[int, list[int]]]
SIZES = {1: (1, "B"), 3: (2, "H"), 4: (4, "I"), 5: (8, "II")}
LONG = 4


def packed(row: bytes) -> bytes:
    """PackBits of a row in literal runs of at most 128 bytes (TIFF 6.0, section 9)."""
    pieces = [row[at : at + 128] for at in range(0, len(row), 128)]
    return b"".join(bytes([len(piece) - 1]) + piece for piece in pieces)


def plate_fields(width: int, length: int, strips: list[bytes], each: int) -> Fields:
    """The fields of a plate of one bit a pixel; the strips begin at byte 8."""
    offsets, at = [], 8
    for strip in strips:
        offsets.append(at)
        at += len(strip)
    return {
        256: (4, [width]),
        257: (4, [length]),
        258: (3, [1]),
        259: (3, [32773]),
        262: (3, [0]),
        273: (4, offsets),
        277: (3, [1]),
        278: (4, [each]),
        279: (4, [len(strip) for strip in strips]),
        282: (5, [1200, 1]),
        283: (5, [1200, 1]),
    }


def tiff_bytes(fields: Fields, data: bytes, order: str = "<") -> bytes:
    """A file with this data at byte 8, and these fields as type and values by tag."""
    outside, entries = b"", b""
    place = 8 + len(data)
    after = place + 2 + 12 * len(fields) + 4
    for tag, (kind, values) in sorted(fields.items()):
        size, letter = SIZES[kind]
        count = len(values) // len(letter)
        stored = struct.pack(f"{order}{len(values)}{letter[0]}", *values)
        if len(stored) > 4:
            held = struct.pack(order + "I", after + len(outside))
            outside += stored
        else:
            held = stored.ljust(4, b"\0")
        entries += struct.pack(order + "HHI", tag, kind, count) + held
    head = {"<": b"II", ">": b"MM"}[order] + struct.pack(order + "HI", 42, place)
    return head + data + struct.pack(order + "H", len(fields)) + entries + b"\0\0\0\0" + outside


def plate_bytes(rows: list[bytes], width: int, each: int = 2, order: str = "<") -> bytes:
    """A plate of these rows, so many in each strip."""
    strips = [b"".join(map(packed, rows[at : at + each])) for at in range(0, len(rows), each)]
    return tiff_bytes(plate_fields(width, len(rows), strips, each), b"".join(strips), order)


def write(path: Path, data: bytes) -> str:
    """Writes a file and returns its path."""
    path.parent.mkdir(parents=True, exist_ok=True)
    path.write_bytes(data)
    return str(path)
