"""Pictures, colours and boxes of a page."""
import io
import os
import sys
from typing import Any

import numpy as np
import pikepdf
import pytest
from PIL import Image

sys.dont_write_bytecode = True
sys.path.insert(0, os.path.join(os.path.dirname(os.path.abspath(__file__)), "..", ".."))

from pressroom.reading import pictures
from pressroom.reading.boxes import clipped, page_boxes, rotation, unit
from pressroom.reading.objects import Unreadable
from pressroom.reading.jpeg import lack_of
from pressroom.reading.pictures import jpeg_2000
from pressroom.reading.spaces import encoded, is_neutral, lightness, luminance


def test_jpeg_ends() -> None:
    whole = b"\xff\xd8\xff\xe0\0\4\xff\xd9\xff\xda\0\4xx12\xff\0\xff\xd03\xff\xd9"
    assert not lack_of(whole)
    for data in (whole[:-2], whole[:5], b""):
        assert lack_of(data) == "its end"


def waves(mode: str, side: int, flat: bool, **how: Any) -> bytes:
    """Returns a JPEG file of waves, or of grey."""
    y, x = np.mgrid[0:side, 0:side]
    bands = [128 + (0 if flat else 90) * np.sin(x / 7 + y / 11 + band) for band in range(4)]
    samples = np.stack(bands, axis=-1).astype(np.uint8)[..., : len(Image.new(mode, (1, 1)).getbands())]
    file = io.BytesIO()
    Image.fromarray(samples[..., 0] if mode == "L" else samples, mode).save(file, "JPEG", **how)
    return file.getvalue()


@pytest.mark.parametrize("mode", ["L", "RGB", "CMYK"])
@pytest.mark.parametrize("how", [{}, {"progressive": True}, {"subsampling": 2, "quality": 30}])
@pytest.mark.parametrize("side", [8, 61, 400])
def test_jpeg_rows(mode: str, how: dict[str, Any], side: int) -> None:
    how = {key: value for key, value in how.items() if mode != "L" or key != "subsampling"}
    assert not lack_of(waves(mode, side, False, **how)) and not lack_of(waves(mode, side, True, **how))
    whole = waves(mode, side, False, **how)
    for part in (0.2, 0.5, 0.9):
        last = whole.rindex(b"\xff\xda") + 14
        cut = whole[: last + int((len(whole) - last) * part) - 3].rstrip(b"\xff") + b"\xff\xd9"
        assert lack_of(cut) == "its last rows", part


def test_a_jpeg_that_needs_too_much_memory(monkeypatch: pytest.MonkeyPatch) -> None:
    def fails(data: bytes) -> str:
        raise MemoryError

    monkeypatch.setattr(pictures, "lack_of", fails)
    pdf = pikepdf.new()
    picture = pikepdf.Stream(pdf, b"\xff\xd8", Filter=pikepdf.Name("/DCTDecode"))
    with pytest.raises(Unreadable, match="more memory than the limit") as error:
        pictures.see_jpeg(pdf, picture, "the picture I")
    assert error.value.kind == "limit"


def test_jpeg_components() -> None:
    frame = b"\xff\xc0" + (17).to_bytes(2, "big") + b"\x08\0\x08\0\x08\3\1\x11\0\2\x11\1\3\x11\1"
    scan = b"\xff\xda\0\x08\1\1\0\0\x3f\0xx"
    assert lack_of(b"\xff\xd8" + frame + scan + b"\xff\xd9") == "a component"


def test_jpeg_2000_facts() -> None:
    def box(kind: bytes, body: bytes) -> bytes:
        return (len(body) + 8).to_bytes(4, "big") + kind + body

    head = box(b"ihdr", bytes(8) + b"\0\2" + bytes(4)) + box(b"colr", b"\1\0\0" + (17).to_bytes(4, "big"))
    head += box(b"cdef", b"\0\2" + b"\0\0\0\0\0\1" + b"\0\1\0\1\0\0")
    facts = jpeg_2000(box(b"jP  ", b"\r\n\x87\n") + box(b"jp2h", head))
    assert (facts.components, facts.space, facts.alpha) == (1, 17, True)


def test_lightness() -> None:
    assert luminance(100) == pytest.approx(1) and encoded(luminance(53.585)) == pytest.approx(
        0.50196, abs=1e-3
    )
    assert lightness((50.0, 0.0, 3.0)) is None and lightness((0.0, 0.0, 0.0)) == 0
    assert is_neutral((0.5, 0.5019, 0.5)) and not is_neutral((0.5, 0.51, 0.5))


def test_boxes() -> None:
    assert clipped((0, 0, 10, 10), (5, 5, 20, 20)) == (5, 5, 10, 10)
    assert clipped((0, 0, 1, 1), (5, 5, 20, 20)) == (5, 5, 20, 20)
    page = pikepdf.Dictionary(MediaBox=[100, 100, 0, 0], TrimBox=[10, 10, 300, 90], Rotate=450, UserUnit=2)
    assert page_boxes(page) == ((10, 10, 100, 90), (0, 0, 100, 100))
    assert rotation(page) == 90 and unit(page) == 2
    with pytest.raises(Unreadable):
        page_boxes(pikepdf.Dictionary())
