"""Makes pages from TIFF files. tiffcp copies each file without changing a pixel, and the copy must be of a
kind that plateroom reads.
"""
import re

from pressroom.intake.layers import Layer, Made, inked, letters, packed
from pressroom.intake.pdf import Refused, first_line, printable
from pressroom.tiff.tiff import Broken, Tiff

ORIENTATION, INK_SET, DOT_RANGE = 274, 332, 336


def field(image, tag, usual):
    """Returns the values of a field, or `usual` if it's absent."""
    return tuple(image.values(tag)) if tag in image.fields else usual


def form(image):
    """Returns `contone` or `line`. Raises Refused if the image is neither."""
    colours = {0: "white is 0", 1: "black is 0", 2: "RGB", 3: "palette", 5: "CMYK", 6: "YCbCr", 8: "Lab"}
    bits = set(field(image, 258, (1,)))
    said = f"{image.samples} samples of {'/'.join(map(str, sorted(bits)))} bits, "
    said += colours.get(image.photometric, f"photometric interpretation {image.photometric}")
    if field(image, ORIENTATION, (1,)) != (1,):
        raise Refused("tiff", "the image is stored turned or mirrored")
    if image.samples == 4 and bits == {8} and image.photometric == 5:
        if field(image, INK_SET, (1,)) != (1,):
            raise Refused("tiff", "its ink set isn't CMYK")
        if field(image, DOT_RANGE, (0, 255))[:2] != (0, 255):
            raise Refused("tiff", "its dot range isn't 0 to 255")
        return "contone"
    if image.samples == 1 and bits == {1} and image.photometric in (0, 1):
        return "line"
    raise Refused("tiff", f"{said}: neither 8-bit CMYK nor a bitmap")


def scale_of(house, width, height):
    """Returns how many pixels of the page one pixel of the image covers in each direction. Raises Refused if
    the image doesn't fill the page.
    """
    page = house.page_pixels()
    scale = page[0] // width if width else 0
    if 1 <= scale <= 64 and (width * scale, height * scale) == page:
        return scale
    raise Refused("size", f"{width} by {height} pixels; the page has {page[0]} by {page[1]}")


def made_of(house, limits, name, folder):
    """Makes the layer of a page that is a TIFF file in the folder."""
    status, out, note = limits.run(["tiffinfo", name], folder)
    if status:
        raise Refused("damaged", f"damaged or incomplete: {first_line(note)}")
    count = len(re.findall(rb"^TIFF Directory at", out, re.MULTILINE))
    notes = [("pages", f"it has {count} images; only the first is used", None)] if count > 1 else []
    try:
        file = "packed.tif"
        image = Tiff(packed(limits, folder, f"{name},0", file, "-s", "-f", "msb2lsb"))
        kind = form(image)
        scale = scale_of(house, image.width, image.length)
        image.close()
        colours = "K"
        if kind == "contone":
            # Separate planes take less space. tiffcp doesn't separate images of other depths.
            file = "planar.tif"
            colours = inked(packed(limits, folder, "packed.tif", file, "-p", "separate"))
    except Broken as error:
        raise Refused("damaged", f"damaged: {printable(str(error).rpartition(': ')[2])}") from None
    keys = {"kind": kind} | ({"scale": scale} if scale > 1 else {})
    layer = Layer(file, "cmyk" if kind == "contone" else "line", keys)
    return Made(letters(colours, ""), (layer,), tuple(notes))
