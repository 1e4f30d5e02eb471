"""Writes a tile of clustered dots, turned by an angle, for the list `tiles` of an edition plan.

The dots of a tile must continue from tile to tile, so only some angles and rulings are available. The nearest
tile is written to standard output, and its real angle and ruling to standard error. A tile of side N with
dots at (A, B) steps has A * A + B * B dots, the angle atan(B / A), and dpi * sqrt(A * A + B * B) / N lines an
inch. The angle counts clockwise from the plate's upper edge. Thresholds range from 0 to 254, so that full ink
is solid. Needs only Python.

example: pressroom tile K45 --angle 45 --ruling 100 > K45.json

status: 0 the tile is written; 1 no tile is near enough; 2 the arguments are wrong, or a file can't be written
"""
import sys

from pressroom.base.command_line import Parser, decimal, matching
from pressroom.base.console import Console
from pressroom.house.tile import DOTS, MOST, Grid, is_near, nearest, thresholds, tile_text, wedge

SHOWN = 10


def parser() -> Parser:
    """Returns the command's arguments."""
    parser = Parser("tile", __doc__)
    parser.add_argument(
        "name",
        metavar="NAME",
        type=matching(r"[A-Za-z0-9_]{1,16}", "1 to 16 letters A to Z and a to z, digits and _"),
        help="the tile's name in the plan",
    )
    parser.add_argument(
        "--angle",
        metavar="A",
        type=decimal(0, 89.999, "an angle of 0 to below 90"),
        required=True,
        help="degrees, 0 to below 90",
    )
    parser.add_argument(
        "--ruling",
        metavar="R",
        type=decimal(1, 4000, "a ruling of 1 to 4000"),
        required=True,
        help="lines an inch",
    )
    parser.add_argument(
        "--dpi",
        metavar="D",
        type=decimal(1, 10000, "1 to 10000 pixels an inch"),
        default=1200.0,
        help="the plan's dpi (1200)",
    )
    parser.add_argument("--dot", choices=sorted(DOTS), default="round", help="the dot's shape (round)")
    parser.add_argument(
        "--largest",
        metavar="N",
        type=decimal(4, MOST, "a side of 4 to 64"),
        default=float(MOST),
        help="the largest side (64)",
    )
    parser.add_argument("--list", action="store_true", help="print the ten nearest, and no tile")
    parser.add_argument("--wedge", metavar="OUT.png", help="also write a picture of the dots in eleven tones")
    return parser


def main() -> int:
    """Runs the command and returns its status."""
    words = parser().parse_args()
    console = Console("pressroom tile", words.json)
    dpi = int(words.dpi) if words.dpi == int(words.dpi) else words.dpi
    grids = nearest(words.angle, words.ruling, dpi, int(words.largest))
    if words.list:
        for grid in grids[:SHOWN]:
            console.tell("tile", grid.line(dpi), **about(grid, dpi))
        return 0
    if not grids or not is_near(grids[0], words.angle, words.ruling, dpi):
        near = f"the nearest has {grids[0].line(dpi)}" if grids else "there is none"
        console.leave(
            1,
            f"no tile of side up to {words.largest:.0f} is near {words.angle:g} degrees and "
            f"{words.ruling:g} lines an inch at {dpi} dpi; {near}",
        )
    at = thresholds(grids[0], words.dot)
    if words.wedge:
        wedge(words.wedge, grids[0], at)
    text = f"{words.name}: {grids[0].line(dpi)}"
    if words.json:
        side = grids[0].side
        tile = {"name": words.name, "width": side, "height": side, "at": at}
        console.tell("tile", text, **about(grids[0], dpi), tile=tile)
    else:
        print(tile_text(words.name, grids[0], at), end="")
        print(text, file=sys.stderr)
    return 0


def about(grid: Grid, dpi: float) -> dict[str, object]:
    """Returns what an event says of a tile."""
    return {
        "side": grid.side,
        "angle": round(grid.angle, 3),
        "ruling": round(dpi / grid.cell, 3),
        "dots": grid.count,
    }
