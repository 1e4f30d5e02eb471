"""Operators and operands of content streams: ISO 32000-1, 7.2 and 7.8.2."""
import os
import sys

import pikepdf
import pytest

sys.dont_write_bytecode = True
sys.path.insert(0, os.path.join(os.path.dirname(os.path.abspath(__file__)), "..", ".."))

from pressroom.reading.objects import keys
from pressroom.reading.tokens import Scrambled, Watch, escaped, instructions, names_of, unescaped


def found(text: bytes) -> list[tuple[bytes, tuple[object, ...]]]:
    return [(item.operator, item.operands) for item in instructions(text, Watch())]


@pytest.mark.parametrize(
    ("text", "wanted"),
    [
        (b"1 0 0 rg", [(b"rg", (1.0, 0.0, 0.0))]),
        (b"q 0 0 9 9 re f 5 w 1 1 m 2 2 l S Q", [(b"q", ()), (b"Q", ())]),
        (
            b"BT 3 Tr /H#20x 10 Tf (a) Tj ET",
            [(b"Tr", (3.0,)), (b"Tf", (b"/H x", 10.0)), (b"Tj", (b"(a)",)), (b"ET", ())],
        ),
        (b"(a(b)\\)c) Tj", [(b"Tj", (b"(a(b)\\)c)",))]),
        (b"[(a) -20 <62>] TJ", [(b"TJ", (b"[(a) -20 <62>]",))]),
        (b"/OC /a BDC EMC", [(b"BDC", (b"/OC", b"/a")), (b"EMC", ())]),
        (b"/P << /A [1 (>>)] /B << >> >> BDC", [(b"BDC", (b"/P", b"<< /A [1 (>>)] /B << >> >>"))]),
        (b"-.5 +.25 1.5. g", [(b"g", (-0.5, 0.25, 0.0))]),
        (b"0 g% rg\nQ", [(b"g", (0.0,)), (b"Q", ())]),
        (b"q 1 0 0rgQ", [(b"q", ()), (b"rg", (1.0, 0.0, 0.0)), (b"Q", ())]),
        (b"", []),
    ],
)
def test_instructions(text: bytes, wanted: list[tuple[bytes, tuple[object, ...]]]) -> None:
    assert found(text) == wanted


def test_painting_is_seen_when_asked_for() -> None:
    watch = Watch()
    watch.painting = True
    words = [item.operator for item in instructions(b"0 0 9 9 re f 1 1 m 2 2 l S\nB* ", watch)]
    assert words == [b"f", b"S", b"B*"]


@pytest.mark.parametrize(
    ("keys_", "data"),
    [
        (b"/W 4 /H 1 /CS /G /BPC 8", b" EI "),
        (b"/W 1 /H 1 /CS /RGB /BPC 8 /F /AHx", b"808080>"),
        (b"/W 8 /H 2 /IM true", b"EI"),
    ],
)
def test_inline_images(keys_: bytes, data: bytes) -> None:
    (image, after) = list(instructions(b"BI " + keys_ + b" ID " + data + b"\nEI 1 0 0 rg", Watch()))
    assert image.operands[0][b"data"] == data and after.operator == b"rg"  # type: ignore[index, call-overload]


def test_an_inline_image_without_an_end() -> None:
    with pytest.raises(Scrambled):
        list(instructions(b"BI /W 9 ID xx", Watch()))


@pytest.mark.parametrize(
    "text", [b"(" * 100_000, b"[(" * 100_000, b"<<" * 100_000, b"q" * 100_000, b"BI " * 30_000]
)
def test_hostile_streams_end(text: bytes) -> None:
    try:
        assert len(list(instructions(text, Watch()))) < 100_000
    except Scrambled:
        pass


def test_names() -> None:
    assert unescaped(b"/A#20#e9") == b"/A \xe9"
    assert escaped(b"/A \xe9") == b"/A#20#e9"
    assert names_of(b"<< /S#e9 [ /A << /B 1 >> ] /T 1 0 R /U (x) /V /W >>") == [
        b"/S\xe9",
        b"/T",
        b"/U",
        b"/V",
    ]
    made = pikepdf.Dictionary()
    made[b"/S\xe9"] = 1
    assert keys(made) == [b"/S\xe9"]
