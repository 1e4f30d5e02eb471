"""Reads and writes the data of meshes: ISO 32000-1, 8.7.4.5.5 to 8.7.4.5.8."""
from collections.abc import Callable

import numpy as np
import pikepdf
from numpy.typing import NDArray

from pressroom.reading.functions import Values, pairs
from pressroom.reading.objects import Unreadable, get, is_stream, number, numbers, without
from pressroom.reading.spaces import NEUTRAL

Bits = NDArray[np.uint8]
# Points and colours of a patch, by its flag, in the meshes of types 6 and 7.
PATCHES = {
    6: {0: (12, 4), 1: (8, 2), 2: (8, 2), 3: (8, 2)},
    7: {0: (16, 4), 1: (12, 2), 2: (12, 2), 3: (12, 2)},
}


def lattice(
    pdf: pikepdf.Pdf, values: Values, domain: tuple[float, ...], matrix: tuple[float, ...], limits: Values
) -> pikepdf.Object:
    """Returns a mesh of type 5 whose vertices have these values: (components, rows, columns). The domain is that of x
    and y before the matrix.
    """
    count, rows, columns = values.shape
    limits = np.resize(limits, (count, 2))
    left, right, lower, upper = domain
    xs, ys = np.meshgrid(np.linspace(left, right, columns), np.linspace(lower, upper, rows))
    a, b, c, d, e, f = matrix
    xs, ys = xs * a + ys * c + e, xs * b + ys * d + f
    parts, decode = [], []
    for part, low, high in ((xs, xs.min(), xs.max()), (ys, ys.min(), ys.max())):
        parts.append(((part - low) / ((high - low) or 1) * 65535).round().astype(">u2").tobytes())
        decode += [float(low), float(high) if high > low else float(low) + 1]
    for part, (low, high) in zip(values, limits):
        steps = np.clip((part - low) / ((high - low) or 1), 0, 1) * 65535
        parts.append((steps + 0.5).astype(">u2").tobytes())
        decode += [float(low), float(high)]
    table = [np.frombuffer(part, np.uint8).reshape(-1, 2) for part in parts]
    stream = pikepdf.Stream(
        pdf, np.concatenate(table, axis=1).tobytes(), ShadingType=5, BitsPerCoordinate=16, BitsPerComponent=16,
        VerticesPerRow=columns, Decode=decode,
    )  # fmt: skip
    return pdf.make_indirect(stream)


def grey_mesh(
    pdf: pikepdf.Pdf, shading: pikepdf.Object, change: Callable[[Values], Values], always: bool
) -> pikepdf.Object | None:
    """Returns a mesh in grey in place of one whose vertices have RGB; None if one has a colour, unless `always`."""
    kind, flag_bits = number(get(shading, b"/ShadingType")), int(number(get(shading, b"/BitsPerFlag")) or 0)
    bits, point = (
        int(number(get(shading, key)) or 0) for key in (b"/BitsPerComponent", b"/BitsPerCoordinate")
    )
    decode = pairs(shading, b"/Decode")
    if (
        kind not in (4, 5, 6, 7)
        or not is_stream(shading)
        or len(decode) != 5
        or not (0 < bits <= 16 and 0 < point <= 32)
    ):
        raise Unreadable("damaged", "damaged: a mesh's keys are malformed")
    ones = np.unpackbits(np.frombuffer(shading.read_bytes(), np.uint8))
    flag_bits = 0 if kind == 5 else flag_bits
    places = color_places(ones, int(kind), flag_bits, point, bits)
    if not len(places):
        raise Unreadable("damaged", "damaged: a mesh has no vertices")
    index = places[:, None] + np.arange(3 * bits)
    weights = 2.0 ** np.arange(bits)[::-1]
    steps = ones[index].reshape(-1, 3, bits) @ weights / (2**bits - 1)
    colours = (decode[2:, 0] + steps * (decode[2:, 1] - decode[2:, 0])).T
    if not always and (colours.max(axis=0) - colours.min(axis=0) >= NEUTRAL).any():
        return None
    grey = (np.clip(change(colours)[0], 0, 1) * 65535 + 0.5).astype(np.uint16)
    made = without(shading.stream_dict, b"/Length", b"/Filter", b"/DecodeParms")
    made[b"/ColorSpace"], made[b"/BitsPerComponent"] = pikepdf.Name("/DeviceGray"), 16
    made[b"/Decode"] = [*numbers(get(shading, b"/Decode"))[:4], 0, 1]
    stream = pikepdf.Stream(pdf, repacked(ones, int(kind), flag_bits, point, bits, grey))
    stream.stream_dict = made
    return pdf.make_indirect(stream)


def records(ones: Bits, kind: int, flag_bits: int, point: int, bits: int) -> list[tuple[int, int, int]]:
    """Returns the vertices or patches of a mesh: where each begins, in bits, the bits before its colours, and how many
    colours it has.
    """
    found, at = [], 0
    weights = 2 ** np.arange(flag_bits)[::-1]
    while at + flag_bits < len(ones):
        points, colours = 1, 1
        if kind > 5:
            flag = int(ones[at : at + flag_bits] @ weights) & 3
            points, colours = PATCHES[kind][flag]
        before = flag_bits + points * 2 * point
        size = -(-(before + colours * 3 * bits) // 8) * 8
        if at + size > len(ones):
            break
        found.append((at, before, colours))
        at += size
    return found


def color_places(ones: Bits, kind: int, flag_bits: int, point: int, bits: int) -> NDArray[np.int64]:
    """Returns where each colour of a mesh begins, in bits."""
    return np.array(
        [
            at + before + number * 3 * bits
            for at, before, colours in records(ones, kind, flag_bits, point, bits)
            for number in range(colours)
        ],
        dtype=int,
    )


def repacked(ones: Bits, kind: int, flag_bits: int, point: int, bits: int, grey: NDArray[np.uint16]) -> bytes:
    """Returns a mesh's data with these greys of 16 bits in place of its colours."""
    made, taken = [], 0
    for at, before, colours in records(ones, kind, flag_bits, point, bits):
        part = np.unpackbits(grey[taken : taken + colours].astype(">u2").view(np.uint8))
        taken += colours
        made.append(np.packbits(np.concatenate([ones[at : at + before], part])).tobytes())
    return b"".join(made)
