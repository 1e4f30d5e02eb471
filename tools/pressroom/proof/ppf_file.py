"""Writes CIP3 PPF 3.0: one sheet with its front, and a preview image of each separation.

A sample is PostScript's grey: 0 is full ink, 255 bare paper. Samples are run-length coded and then written
as hex digits, so that the file is 7-bit text of short lines. The preview has whole pixels: where the plate
ends within one, the rest of it is paper, and so the extent is that of the preview.
"""
from typing import TYPE_CHECKING

from pressroom import __version__

if TYPE_CHECKING:
    from pressroom.tiff.arrays import Bytes

# What consoles of presses commonly require: 20 pixels a centimetre.
RESOLUTION = 50.8
LINE = 76


def factor_of(dpi: float) -> int:
    """How many pixels of a plate across become one of the preview."""
    return max(1, round(dpi / RESOLUTION))


def number(value: float) -> str:
    """A number as PostScript reads it, to a thousandth."""
    return f"{value:.3f}".rstrip("0").rstrip(".")


def string(text: str) -> str:
    """A PostScript string in 7-bit characters; a character outside Latin-1 becomes a question mark."""
    codes = text.encode("latin-1", "replace")
    inner = "".join(
        chr(code) if 32 <= code < 127 and code not in b"()\\" else f"\\{code:03o}" for code in codes
    )
    return f"({inner})"


def run_lengths(data: bytes) -> bytes:
    """The bytes in the form that PostScript's RunLengthDecode reads, with their end mark."""
    out, at, literal = bytearray(), 0, bytearray()

    def end_literal() -> None:
        if literal:
            out.append(len(literal) - 1)
            out.extend(literal)
            literal.clear()

    while at < len(data):
        value, same = data[at], 1
        while same < 128 and at + same < len(data) and data[at + same] == value:
            same += 1
        if same >= 3:
            end_literal()
            out += bytes((257 - same, value))
        else:
            for _ in range(same):
                literal.append(value)
                if len(literal) == 128:
                    end_literal()
        at += same
    end_literal()
    out.append(128)
    return bytes(out)


def definitions(items: list[tuple[str, object]]) -> list[str]:
    """PostScript definitions, one a line."""
    return [f"/{key} {value} def" for key, value in items]


def separation(samples: "Bytes", matrix: str, resolution: float) -> list[str]:
    """The lines of one separation's preview: rows of samples from the top."""
    height, width = samples.shape
    digits = run_lengths(samples.tobytes()).hex().upper()
    return [
        "CIP3BeginSeparation",
        *definitions(
            [
                ("CIP3PreviewImageWidth", width),
                ("CIP3PreviewImageHeight", height),
                ("CIP3PreviewImageBitsPerComp", 8),
                ("CIP3PreviewImageComponents", 1),
                ("CIP3PreviewImageMatrix", matrix),
                ("CIP3PreviewImageResolution", f"[{number(resolution)} {number(resolution)}]"),
                ("CIP3PreviewImageEncoding", "/ASCIIHexDecode"),
                ("CIP3PreviewImageCompression", "/RunLengthDecode"),
            ]
        ),
        "CIP3PreviewImage",
        *(digits[at : at + LINE] for at in range(0, len(digits), LINE)),
        ">",
        "CIP3EndSeparation",
    ]


def text_of(
    job: str, sheet: str, sites: list[str], dpi: float, separations: "list[tuple[str, Bytes]]"
) -> str:
    """The whole file. Separations are names with their samples, in printing order, all of one size."""
    height, width = separations[0][1].shape
    factor = factor_of(dpi)
    extent = [number(side * factor * 72 / dpi) for side in (width, height)]
    matrix = f"[{width} 0 0 {-height} 0 {height}]"
    lines = [
        "%!PS-Adobe-3.0",
        "%%CIP3-File Version 3.0",
        *(f"% site {site}" for site in sites),
        "CIP3BeginSheet",
        *definitions(
            [
                ("CIP3AdmJobName", string(job)),
                ("CIP3AdmSheetName", string(sheet)),
                ("CIP3AdmMake", string("plateroom")),
                ("CIP3AdmSoftware", string(f"pressroom {__version__}")),
                ("CIP3AdmPSExtent", f"[{' '.join(extent)}]"),
            ]
        ),
        "CIP3BeginFront",
        *definitions([("CIP3AdmSeparationNames", f"[{' '.join(string(name) for name, _ in separations)}]")]),
        "CIP3BeginPreviewImage",
    ]
    for _, samples in separations:
        lines += separation(samples, matrix, dpi / factor)
    lines += ["CIP3EndPreviewImage", "CIP3EndFront", "CIP3EndSheet", "%%CIP3EndOfFile"]
    return "\n".join(lines) + "\n"
