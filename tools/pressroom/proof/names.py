"""The names of plates and of inks, and the size that a plate has at most."""
import re

from pressroom.tiff.tiff import Broken, Tiff

# The colours of the inks on paper as red, green and blue, in printing order.
COLOURS = {"C": (0, 255, 255), "M": (255, 0, 255), "Y": (255, 255, 0), "K": (0, 0, 0), "S": (255, 100, 0)}
INK_NAMES = {"C": "Cyan", "M": "Magenta", "Y": "Yellow", "K": "Black", "S": "Spot"}
PLATE = re.compile(r"(\w{1,16}-\w{1,16}-\d{3})-([CMYKS])\.tif", re.ASCII)
# The longest side of a plate in pixels.
LARGEST = 65535


def see_size(plate: Tiff) -> None:
    """Raises Broken if an image has no pixel, or more than a plate may have."""
    if not plate.width or not plate.length:
        raise Broken(f"{plate.path}: not a plate: it has no pixel")
    if max(plate.width, plate.length) > LARGEST:
        raise Broken(f"{plate.path}: not a plate: {plate.width} by {plate.length} pixels")
