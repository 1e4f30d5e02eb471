"""Draws the pictures of a set of plates: one of the board's own processes."""
import sys

from pressroom.base.faults import Fault
from pressroom.tiff.tiff import Broken


def main() -> int:
    """Draws the plates of the first folder into the second. Returns the status."""
    from pressroom.board.draw import draw

    if len(sys.argv) != 3:
        raise Fault("usage: pressroom draw PLATES OUT")
    plates, out = sys.argv[1:]
    try:
        draw(plates, out)
    except Broken as broken:
        raise Fault(str(broken)) from None
    return 0
