"""Reads a page's boxes, rotation and unit: ISO 32000-1, 7.7.3.3 and 14.11.2."""
import pikepdf

from pressroom.reading.objects import Unreadable, get, number, numbers

Box = tuple[float, float, float, float]
MOST_DEPTH = 100


def inherited(page: pikepdf.Object, key: bytes) -> pikepdf.Object | None:
    """Returns a value of the page, or of the nodes of the page tree above it."""
    node: object = page
    for _ in range(MOST_DEPTH):
        value = get(node, key)
        if value is not None:
            return value
        node = get(node, b"/Parent")
        if node is None:
            return None
    return None


def box_of(value: object) -> Box | None:
    """Returns a box with its lower left corner first, or None if it's malformed or empty."""
    found = numbers(value)
    if len(found) != 4:
        return None
    left, lower, right, upper = found
    box = min(left, right), min(lower, upper), max(left, right), max(lower, upper)
    return box if box[0] < box[2] and box[1] < box[3] else None


def clipped(box: Box, edge: Box) -> Box:
    """Returns the part of a box that is within another; the other if they don't meet."""
    left, lower, right, upper = (
        max(box[0], edge[0]), max(box[1], edge[1]), min(box[2], edge[2]), min(box[3], edge[3])
    )  # fmt: skip
    return (left, lower, right, upper) if left < right and lower < upper else edge


def page_boxes(page: pikepdf.Object) -> tuple[Box, Box]:
    """Returns the trim box and the crop box in units of the page."""
    media = box_of(inherited(page, b"/MediaBox"))
    if media is None:
        raise Unreadable("damaged", "damaged: it has no media box")
    crop = clipped(box_of(inherited(page, b"/CropBox")) or media, media)
    own = get(page, b"/TrimBox")
    trim = box_of(own)
    if own is not None and trim is None:
        raise Unreadable("damaged", "damaged: its trim box isn't a box")
    return clipped(trim, media) if trim else crop, crop


def rotation(page: pikepdf.Object) -> int:
    """Returns the page's rotation: 0, 90, 180 or 270 degrees."""
    turn = int(number(inherited(page, b"/Rotate")) or 0) % 360
    return turn if turn % 90 == 0 else 0


def unit(page: pikepdf.Object) -> float:
    """Returns how many points the page's unit is."""
    value = get(page, b"/UserUnit")
    if value is None:
        return 1.0
    found = number(value)
    if found is None or not 0 < found <= 75000:
        raise Unreadable("unit", "its unit isn't a number of points (UserUnit)")
    return found
