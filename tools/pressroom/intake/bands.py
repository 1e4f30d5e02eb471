"""Cuts the file of a layer that is too large into bands of rows, each a file and a layer of its own.

plateroom loads files of at most 512 MiB. A band has the packed strips of its rows as they are, so the pixels are
the same.
"""
import os

from pressroom.intake.layers import Layer
from pressroom.intake.pdf import Refused
from pressroom.tiff.strips import StripFile
from pressroom.tiff.tiff import Tiff

# The most bytes of a file, and what its directory takes for each strip of a plane.
MOST_BAND, ENTRY, HEAD = 256_000_000, 16, 1024
# The most layers of a page.
MOST_LAYERS = 32


def cut(folder: str, layers: tuple[Layer, ...]) -> tuple[Layer, ...]:
    """Returns the layers of a page with bands in place of those whose files in the folder are too large. Refuses
    a page that would have too many.
    """
    found = tuple(band for layer in layers for band in banded(folder, layer))
    if len(found) > MOST_LAYERS:
        picture = sum(layer.keys["kind"] == "contone" for layer in found)
        said = (
            f"it needs {len(found)} layers: {picture} of its picture and {len(found) - picture} of the spot"
        )
        raise Refused("layers", f"{said}; a page has at most {MOST_LAYERS}")
    return found


def banded(folder: str, layer: Layer) -> tuple[Layer, ...]:
    """Returns the layer, or its bands from the top if its file is too large."""
    path = os.path.join(folder, layer.file)
    if os.path.getsize(path) <= MOST_BAND:
        return (layer,)
    image, bands = Tiff(path), []
    for number, (first, last) in enumerate(parts(image), 1):
        name, top = f"band{number}-{layer.file}", first * image.each
        write_band(image, first, last, os.path.join(folder, name))
        y = {"y": top * layer.keys.get("scale", 1)} if top else {}
        bands.append(Layer(name, f"{layer.ending}{number}", layer.keys | y))
    image.close()
    os.remove(path)
    return tuple(bands)


def planes_of(image: Tiff) -> int:
    count: int = image.samples if image.planar == 2 else 1
    return count


def parts(image: Tiff) -> list[tuple[int, int]]:
    """Returns the first strip of each band and the strip after its last, as many strips each as are small enough,
    at least one.
    """
    planes, found, first, size = planes_of(image), [], 0, HEAD
    for strip in range(image.strips):
        more = sum(image.place(strip, plane)[1] + ENTRY for plane in range(planes))
        if strip > first and size + more > MOST_BAND:
            found.append((first, strip))
            first, size = strip, HEAD
        size += more
    return [*found, (first, image.strips)]


def write_band(image: Tiff, first: int, last: int, path: str) -> None:
    """Writes the strips from `first` up to, not including, `last` to a file."""
    height = min(last * image.each, image.length) - first * image.each
    band = StripFile(path, image.width, height, planes_of(image), image.photometric)
    for plane in range(planes_of(image)):
        for strip in range(first, last):
            band.copy(strip - first, plane, image.stored(strip, plane))
    band.close()
