"""Tiles of clustered dots, turned by an angle: which there are, the nearest to an angle and a ruling, and the
thresholds of one.

The dots of a tile must continue from tile to tile, so only some angles and rulings are available. A tile of side N
with dots at (A, B) steps has A * A + B * B dots, the angle atan(B / A), and dpi * sqrt(A * A + B * B) / N lines an
inch. The angle counts clockwise from the plate's upper edge. Thresholds range from 0 to 254, so that full ink is
solid.
"""
import math
import struct
import zlib
from collections.abc import Callable

MOST = 64
# How far a tile may differ: in degrees, and as a part of the ruling.
OFF_ANGLE, OFF_RULING = 3.0, 0.05
# How early a position prints, by its part of the way to the next dot in both directions (0 and 1 are dots).
DOTS: dict[str, Callable[[float, float], float]] = {
    "round": lambda u, v: math.cos(2 * math.pi * u) + math.cos(2 * math.pi * v),
    "ellipse": lambda u, v: 1.2 * math.cos(2 * math.pi * u) + 0.8 * math.cos(2 * math.pi * v),
    "line": lambda u, v: 0.02 * math.cos(2 * math.pi * u) + math.cos(2 * math.pi * v),
}


class Grid:
    """A tile's side and the steps of its dots."""

    def __init__(self, side: int, a: int, b: int) -> None:
        self.side, self.a, self.b = side, a, b
        self.count = a * a + b * b
        self.angle = math.degrees(math.atan2(b, a))
        self.cell = side / math.sqrt(self.count)

    def off(self, angle: float, ruling: float, dpi: float) -> tuple[float, float]:
        """Returns the difference from the wanted tile: in degrees, and as a part of the ruling."""
        turn = abs(self.angle - angle) % 90
        return min(turn, 90 - turn), abs(dpi / self.cell / ruling - 1)

    def line(self, dpi: float) -> str:
        """Returns what a person wants to know of the tile."""
        return (
            f"side {self.side}, steps {self.a},{self.b}: {self.angle:.1f} degrees, {dpi / self.cell:.1f} "
            f"lines an inch at {dpi} dpi, {self.count} dots, {min(256, self.side ** 2 + 1)} tones"
        )

    def dot_of(self, x: int, y: int) -> tuple[int, int]:
        """Returns the dot that a pixel belongs to, by its position in units of side / count."""
        i = ((2 * x + 1) * self.a + (2 * y + 1) * self.b + self.side) // (2 * self.side)
        j = ((2 * y + 1) * self.a - (2 * x + 1) * self.b + self.side) // (2 * self.side)
        return (i * self.a - j * self.b) % self.count, (i * self.b + j * self.a) % self.count

    def order(self) -> dict[tuple[int, int], int]:
        """Returns the order in which the dots begin, each as far as possible from those before it."""

        away: dict[tuple[int, int], float] = {
            self.dot_of(x, y): math.inf for y in range(self.side) for x in range(self.side)
        }
        order: dict[tuple[int, int], int] = {}
        while away:
            dot = max(away, key=lambda one: away[one])
            del away[dot]
            order[dot] = len(order)
            for other in away:
                apart = [abs(p - q) for p, q in zip(dot, other)]
                away[other] = min(away[other], sum(min(n, self.count - n) ** 2 for n in apart))
        return order


def thresholds(grid: Grid, dot: str) -> list[int]:
    """Returns the thresholds of the tile, row by row."""
    dark, side, order = DOTS[dot], grid.side, grid.order()
    ranked: list[tuple[float, int, int, int]] = []
    met: dict[tuple[float, tuple[int, int]], int] = {}
    for y in range(side):
        for x in range(side):
            u = ((2 * x + 1) * grid.a + (2 * y + 1) * grid.b) / (2 * side)
            v = ((2 * y + 1) * grid.a - (2 * x + 1) * grid.b) / (2 * side)
            height, of = -round(dark(u, v), 9), grid.dot_of(x, y)
            # Among equal pixels, every dot gets its first before any dot gets its second.
            turn = met[height, of] = met.get((height, of), -1) + 1
            ranked.append((height, turn, order[of], y * side + x))
    at = [0] * len(ranked)
    for rank, (*_, place) in enumerate(sorted(ranked)):
        at[place] = rank * 255 // len(ranked)
    return at


def nearest(angle: float, ruling: float, dpi: float, largest: int) -> list[Grid]:
    """Returns the grids, nearest first; of equally near ones, the smaller first."""
    found: dict[tuple[float, float], tuple[tuple[float, int], Grid]] = {}
    for side in range(4, largest + 1):
        for a in range(1, side // 3 + 1):
            for b in range(0, side // 3 + 1):
                grid = Grid(side, a, b)
                if grid.cell < 3:
                    break
                # Sides below 16 have too few thresholds for all tones.
                turn, part = grid.off(angle, ruling, dpi)
                few = 1.0 if side < 16 else 0.0
                score = round((turn / OFF_ANGLE) ** 2 + (part / OFF_RULING) ** 2 + few, 6)
                key = grid.angle, grid.cell
                if turn < 45 and (key not in found or (score, side) < found[key][0]):
                    found[key] = (score, side), grid
    return [grid for _, grid in sorted(found.values(), key=lambda pair: pair[0])]


def is_near(grid: Grid, angle: float, ruling: float, dpi: float) -> bool:
    """Returns whether a grid is near enough to the wanted angle and ruling to be used."""
    turn, part = grid.off(angle, ruling, dpi)
    return turn <= OFF_ANGLE and part <= OFF_RULING


def tile_text(name: str, grid: Grid, at: list[int]) -> str:
    """Returns the tile in the plan's form, one row on each line."""
    rows = (", ".join(map(str, at[i : i + grid.side])) for i in range(0, len(at), grid.side))
    return (
        f'{{"name": "{name}", "width": {grid.side}, "height": {grid.side}, "at": [\n'
        + ",\n".join(rows)
        + "]}\n"
    )


def wedge(path: str, grid: Grid, at: list[int]) -> None:
    """Writes a picture of the tile's dots in eleven steps from paper to solid, each pixel 3 by 3."""
    side, zoom, field = grid.side, 3, 96
    rows = []
    for y in range(field):
        bits = "".join(
            "0" if 255 * step // 10 > at[y % side * side + x % side] else "1"
            for step in range(11)
            for x in range(field)
        )
        bits = "".join(bit * zoom for bit in bits)
        rows += [b"\0" + int(bits, 2).to_bytes(len(bits) // 8, "big")] * zoom
    with open(path, "wb") as file:
        file.write(b"\x89PNG\r\n\x1a\n")
        for kind, data in (
            (b"IHDR", struct.pack(">IIBBBBB", 11 * field * zoom, field * zoom, 1, 0, 0, 0, 0)),
            (b"IDAT", zlib.compress(b"".join(rows), 9)),
            (b"IEND", b""),
        ):
            file.write(
                struct.pack(">I", len(data)) + kind + data + struct.pack(">I", zlib.crc32(kind + data))
            )
