"""Reads inline images: ISO 32000-1, 8.9.7."""
import re

import pikepdf

from pressroom.reading.objects import get, name
from pressroom.reading.resources import Resources
from pressroom.reading.spaces import DEVICE, INLINE, Space, space_of

# Abbreviations of keys and filters in inline images.
ABBREVIATIONS = {
    b"/BPC": b"/BitsPerComponent", b"/CS": b"/ColorSpace", b"/D": b"/Decode", b"/DP": b"/DecodeParms",
    b"/F": b"/Filter", b"/H": b"/Height", b"/IM": b"/ImageMask", b"/W": b"/Width", b"/AHx": b"/ASCIIHexDecode",
    b"/A85": b"/ASCII85Decode", b"/LZW": b"/LZWDecode", b"/Fl": b"/FlateDecode", b"/RL": b"/RunLengthDecode",
    b"/CCF": b"/CCITTFaxDecode", b"/DCT": b"/DCTDecode",
}  # fmt: skip
NAME = re.compile(rb"/[A-Za-z0-9]+")


def whole(text: bytes) -> bytes:
    """Returns a value of an inline image with its names written out: ISO 32000-1, tables 93 and 94."""
    return NAME.sub(lambda found: ABBREVIATIONS.get(found[0], INLINE.get(found[0], found[0])), text)


def outlined(pdf: pikepdf.Pdf, keys: dict[bytes, bytes], resources: Resources) -> pikepdf.Object:
    """Returns a picture with the keys and data of an inline image, whose names are written out."""
    made = pikepdf.Stream(pdf, keys[b"data"])
    made.stream_dict = pikepdf.Dictionary(Subtype=pikepdf.Name("/Image"))
    for key, text in keys.items():
        if key != b"data":
            made[ABBREVIATIONS.get(key, key)] = pikepdf.Object.parse(whole(text))
    word = name(get(made, b"/ColorSpace"))
    if word and word not in DEVICE:
        made[b"/ColorSpace"] = resources.needed(b"/ColorSpace", word, "colour space")
    return pdf.make_indirect(made)


def space_of_inline(keys: dict[bytes, bytes], resources: Resources) -> Space:
    """Returns the colour space of an inline image."""
    word = keys.get(b"/CS", keys.get(b"/ColorSpace", b""))
    if word.startswith(b"["):
        return space_of(pikepdf.Object.parse(whole(word)))
    full = INLINE.get(word, word)
    return Space(DEVICE[full]) if full in DEVICE else space_of(resources.find(b"/ColorSpace", word))
