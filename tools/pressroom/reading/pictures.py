"""Tests a page's pictures, and changes those that Ghostscript 10.00 paints wrong.

A JPEG file must have its end and all of its rows. Grey JPEG 2000 without a colour space is DeviceGray, and its own
alpha becomes a soft mask (ISO 32000-1, 7.4.9 and 11.6.5.3). RGB pictures in luminosity masks become grey.
"""
import io
from dataclasses import dataclass
from typing import TYPE_CHECKING

import pikepdf
from PIL import Image

from pressroom.reading.jpeg import lack_of
from pressroom.reading.objects import (
    Unreadable,
    copied,
    get,
    is_array,
    is_stream,
    is_true,
    name,
    number,
    pairs,
)
from pressroom.reading.spaces import LUMINOSITY, Space

if TYPE_CHECKING:
    import numpy as np
    from numpy.typing import NDArray

JPEG, JPEG_2000 = b"/DCTDecode", b"/JPXDecode"
GREY, CMYK = 17, 12


def filters(picture: pikepdf.Object) -> list[bytes]:
    """Returns the filters of a stream."""
    value = get(picture, b"/Filter")
    return [name(item) for item in value] if is_array(value) else [name(value)] if value is not None else []


def coded(pdf: pikepdf.Pdf, picture: pikepdf.Object) -> bytes:
    """Returns the file of a picture whose last filter is that of JPEG or JPEG 2000."""
    first = filters(picture)[:-1]
    data = picture.read_raw_bytes()
    if not first:
        return bytes(data)
    inner = pikepdf.Stream(pdf, data)
    inner.stream_dict = pikepdf.Dictionary(
        Filter=pikepdf.Array([pikepdf.Name(word.decode()) for word in first])
    )
    return bytes(inner.read_bytes())


@dataclass(frozen=True)
class Jpeg2000:
    """What a JPEG 2000 file says of itself: components without its alpha, its colour space's number, its alpha."""

    components: int
    space: int
    alpha: bool


def boxes(data: bytes) -> list[tuple[bytes, bytes]]:
    """Returns the boxes of a JPEG 2000 file, those of its header among them: ISO 15444-1, annex I."""
    found: list[tuple[bytes, bytes]] = []
    at = 0
    while at + 8 <= len(data) and len(found) < 1000:
        size, kind, head = int.from_bytes(data[at : at + 4], "big"), data[at + 4 : at + 8], 8
        if size == 1:
            size, head = int.from_bytes(data[at + 8 : at + 16], "big"), 16
        end = at + size if size >= head else len(data)
        body = data[at + head : end]
        found += boxes(body) if kind == b"jp2h" else [(kind, body[:4096])]
        at = end
    return found


def jpeg_2000(data: bytes) -> Jpeg2000:
    """Returns what a JPEG 2000 file says of itself."""
    if data.startswith(b"\xff\x4f\xff\x51"):
        return Jpeg2000(int.from_bytes(data[40:42], "big"), 0, False)
    count, space, alpha = 0, 0, 0
    for kind, body in boxes(data):
        if kind == b"ihdr":
            count = int.from_bytes(body[8:10], "big")
        elif kind == b"colr" and body[:1] == b"\1" and not space:
            space = int.from_bytes(body[3:7], "big")
        elif kind == b"cdef":
            kinds = [int.from_bytes(body[at + 2 : at + 4], "big") for at in range(2, len(body) - 5, 6)]
            alpha = sum(item in (1, 2) for item in kinds)
        elif kind == b"pclr":
            count = max(count, body[2] if len(body) > 2 else 0)
    return Jpeg2000(count - alpha, space, alpha > 0)


def alternate(picture: pikepdf.Object) -> pikepdf.Object | None:
    """Returns the picture that prints in place of this one, or None: ISO 32000-1, 8.9.5.4."""
    others = get(picture, b"/Alternates")
    every: list[object] = [*others] if is_array(others) else []
    for other in every:
        image = get(other, b"/Image")
        if is_true(get(other, b"/DefaultForPrinting")) and is_stream(image):
            return image
    return None


def see_jpeg(pdf: pikepdf.Pdf, picture: pikepdf.Object, where: str) -> None:
    """Refuses a JPEG picture that is cut off."""
    try:
        lack = lack_of(coded(pdf, picture))
    except MemoryError:
        raise Unreadable("limit", f"{where} is a JPEG file that needs more memory than the limit") from None
    if lack:
        raise Unreadable("damaged", f"damaged: {where} is a JPEG file without {lack}")


def untagged_2000(pdf: pikepdf.Pdf, picture: pikepdf.Object, where: str) -> pikepdf.Object:
    """Returns a JPEG 2000 picture that Ghostscript paints right, which may be the same."""
    facts = jpeg_2000(coded(pdf, picture))
    inside = number(get(picture, b"/SMaskInData")) or 0
    if inside and get(picture, b"/SMask") is None:
        return with_alpha(pdf, picture, where, inside == 2)
    if get(picture, b"/ColorSpace") is not None or facts.alpha:
        return picture
    space = {1: "/DeviceGray", 4: "/DeviceCMYK"}.get(facts.components)
    if space is None or facts.space not in (0, GREY, CMYK):
        return picture
    made = pikepdf.Stream(pdf, picture.read_raw_bytes())
    made.stream_dict = copied(picture.stream_dict)
    made[b"/ColorSpace"] = pikepdf.Name(space)
    return pdf.make_indirect(made)


def with_alpha(pdf: pikepdf.Pdf, picture: pikepdf.Object, where: str, multiplied: bool) -> pikepdf.Object:
    """Returns a picture with a soft mask in place of one with its alpha inside."""
    import numpy as np

    image = opened(pdf, picture, where)
    if image.mode not in ("LA", "RGBA") or get(picture, b"/Decode") is not None:
        raise Unreadable("unsupported", f"{where} is JPEG 2000 whose alpha can't be read ({image.mode})")
    colour = image.convert("L" if image.mode == "LA" else "RGB")
    made = plain(pdf, picture, np.asarray(colour))
    if get(picture, b"/ColorSpace") is not None:
        made[b"/ColorSpace"] = get(picture, b"/ColorSpace")
    mask = plain(pdf, picture, np.asarray(image.getchannel("A")))
    if multiplied:
        mask[b"/Matte"] = [0] * len(colour.getbands())
    made[b"/SMask"] = mask
    return made


def opened(pdf: pikepdf.Pdf, picture: pikepdf.Object, where: str) -> Image.Image:
    """Returns the decoded picture of a JPEG or JPEG 2000 file."""
    try:
        image = Image.open(io.BytesIO(coded(pdf, picture)))
        image.load()
        return image
    except (OSError, SyntaxError, ValueError) as error:
        raise Unreadable("damaged", f"damaged: {where} can't be decoded: {error}") from None


def plain(pdf: pikepdf.Pdf, picture: pikepdf.Object, samples: "NDArray[np.uint8]") -> pikepdf.Object:
    """Returns a picture of these samples, grey or RGB, with the other keys of the picture."""
    import numpy as np

    stream = pikepdf.Stream(pdf, np.ascontiguousarray(samples, np.uint8).tobytes())
    stream.stream_dict = pikepdf.Dictionary(
        Type=pikepdf.Name("/XObject"), Subtype=pikepdf.Name("/Image"), Width=samples.shape[1], Height=samples.shape[0],
        BitsPerComponent=8, ColorSpace=pikepdf.Name("/DeviceGray" if samples.ndim == 2 else "/DeviceRGB"),
    )  # fmt: skip
    for key in (b"/Interpolate", b"/Intent"):
        if (value := get(picture, key)) is not None:
            stream[key] = value
    return pdf.make_indirect(stream)


def samples_of(pdf: pikepdf.Pdf, picture: pikepdf.Object, where: str) -> "NDArray[np.float32]":
    """Returns the components of an RGB picture, rows by columns by three, from 0 to 1."""
    import numpy as np

    if filters(picture)[-1:] in ([JPEG], [JPEG_2000]):
        return np.asarray(opened(pdf, picture, where).convert("RGB")) / np.float32(255)
    width, height, bits = (
        int(number(get(picture, key)) or 0) for key in (b"/Width", b"/Height", b"/BitsPerComponent")
    )
    if bits not in (1, 2, 4, 8, 16) or width < 1 or height < 1:
        raise Unreadable("damaged", f"damaged: {where} has no size")
    row = (width * 3 * bits + 7) // 8
    data = np.frombuffer(picture.read_bytes(), np.uint8)
    if len(data) < row * height:
        raise Unreadable("damaged", f"damaged: {where} has too few samples")
    rows = data[: row * height].reshape(height, row)
    if bits >= 8:
        return rows[:, :: bits // 8][:, : width * 3].reshape(height, width, 3) / np.float32(255)
    ones = np.unpackbits(rows, axis=1)[:, : width * 3 * bits].reshape(height, width, 3, bits)
    return np.asarray(ones @ (2.0 ** np.arange(bits)[::-1]) / (2**bits - 1), np.float32)


def grey(pdf: pikepdf.Pdf, picture: pikepdf.Object, space: Space, where: str) -> pikepdf.Object:
    """Returns a picture in grey, by its luminosity, in place of one in RGB or in a table of RGB."""
    import numpy as np

    if is_array(get(picture, b"/Mask")):
        raise Unreadable("unsupported", f"{where} is RGB with a colour key, within a luminosity mask")
    if space.kind == "indexed":
        made: pikepdf.Object = pikepdf.Stream(pdf, picture.read_raw_bytes())
        made.stream_dict = copied(picture.stream_dict)
        table = np.frombuffer(space.table[: len(space.table) // 3 * 3], np.uint8).reshape(-1, 3) @ np.array(
            LUMINOSITY
        )
        lookup = (table + 0.5).astype(np.uint8).tobytes()
        made[b"/ColorSpace"] = pikepdf.Array(
            [pikepdf.Name("/Indexed"), pikepdf.Name("/DeviceGray"), len(lookup) - 1, pikepdf.String(lookup)]
        )
        return pdf.make_indirect(made)
    decode = pairs(picture, b"/Decode")
    colours = samples_of(pdf, picture, where)
    if len(decode) == 3:
        low, high = np.array(decode).T
        colours = low + colours * (high - low)
    light = np.clip(colours @ np.array(LUMINOSITY), 0, 1)
    made = plain(pdf, picture, (light * 255 + 0.5).astype(np.uint8))
    for key in (b"/SMask", b"/Mask"):
        if (value := get(picture, key)) is not None:
            made[key] = value
    return made
