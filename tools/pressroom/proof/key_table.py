"""Tables of ink keys: the counts of `plateroom keys`, and the printed area in percent."""
import csv
import io
import json
from collections.abc import Iterator
from typing import Protocol

import numpy

from pressroom.proof.counts import Counts

# The width and the offset of a press's keys in mm.
Press = tuple[float, float]
HEAD = "pair", "sites", "ink", "name", "key", "dots", "pixels", "percent"


def press_shares(counts: Counts, dpi: float, count: int, width: float, offset: float) -> list[float]:
    """The printed area in percent of a press's keys, `width` mm wide, beginning `offset` mm from the left edge.

    A column of the plate belongs to the key at its middle. The part of a key beyond the plate
    doesn't print.
    """
    middles = (numpy.arange(counts.width) + 0.5) * 25.4 / dpi
    keys = numpy.floor((middles - offset) / width).astype(int)
    over = (keys >= 0) & (keys < count)
    dots = numpy.bincount(keys[over], counts.columns[over], count)
    return [round(float(100 * n / (width * dpi / 25.4 * counts.length)), 3) for n in dots]


class Counted(Protocol):
    """A plate that was counted: its size in pixels, its pixels an inch, and its counts."""

    width: int
    length: int
    dpi: float
    counts: Counts


class Row:
    """A plate's keys: its sites and ink, the dots and pixels of each key, and a press's shares or None."""

    def __init__(
        self,
        pair: str,
        sites: list[str],
        ink: str,
        name: str,
        plate: Counted,
        count: int,
        press: Press | None,
    ) -> None:
        self.pair, self.sites, self.ink, self.name = pair, sites, ink, name
        self.dots = plate.counts.keys(count)
        columns = numpy.bincount(numpy.arange(plate.width) * count // plate.width, minlength=count)
        self.pixels = [int(number) * plate.length for number in columns]
        self.percent = [
            round(100 * dots / pixels, 3) if pixels else 0.0 for dots, pixels in zip(self.dots, self.pixels)
        ]
        self.press = press_shares(plate.counts, plate.dpi, count, *press) if press else None

    def lines(self) -> Iterator[list[object]]:
        """A line of the table for each key, from 1."""
        for key, (dots, pixels, percent) in enumerate(zip(self.dots, self.pixels, self.percent)):
            line: list[object] = [
                self.pair,
                " ".join(self.sites),
                self.ink,
                self.name,
                key + 1,
                dots,
                pixels,
                f"{percent:.3f}",
            ]
            yield line + ([f"{self.press[key]:.3f}"] if self.press else [])


def as_csv(rows: list[Row], press: Press | None) -> str:
    """The table as text, a line for each plate and key."""
    out = io.StringIO()
    writer = csv.writer(out, lineterminator="\n")
    writer.writerow([*HEAD, "press_percent"] if press else HEAD)
    for row in rows:
        writer.writerows(row.lines())
    return out.getvalue()


def as_json(rows: list[Row], count: int, press: Press | None) -> str:
    """The same as JSON, an object for each plate."""
    plates = []
    for row in rows:
        plate: dict[str, object] = {
            "pair": row.pair,
            "sites": row.sites,
            "ink": row.ink,
            "name": row.name,
            "dots": row.dots,
            "pixels": row.pixels,
            "percent": row.percent,
        }
        plates.append(plate | ({"press_percent": row.press} if press else {}))
    table = {
        "keys": count,
        "press": {"width": press[0], "offset": press[1]} if press else None,
        "plates": plates,
    }
    return json.dumps(table, indent=1, ensure_ascii=False) + "\n"
