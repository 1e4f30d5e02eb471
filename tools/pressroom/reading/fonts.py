"""Says which fonts are embedded: ISO 32000-1, 9.9."""
import pikepdf

from pressroom.reading.objects import get, is_array, is_dictionary, name, shown

FILES = (b"/FontFile", b"/FontFile2", b"/FontFile3")


def is_embedded(font: pikepdf.Object) -> bool:
    """Returns whether a font's glyphs are in the file."""
    kind = name(get(font, b"/Subtype"))
    if kind == b"/Type3":
        return True
    inner: object = font
    if kind == b"/Type0":
        descendants = get(font, b"/DescendantFonts")
        inner = descendants[0] if is_array(descendants) and len(descendants) else None
    descriptor = get(inner, b"/FontDescriptor")
    return is_dictionary(descriptor) and any(get(descriptor, key) is not None for key in FILES)


def shown_name(font: pikepdf.Object) -> str:
    """Returns a font's name for a message."""
    return shown(name(get(font, b"/BaseFont"))) or "without a name"
