"""The second opinion of one call of intake: what pages print is compared with what another program shows of their
PDFs.

Differences become notes, or faults if the house says so.
"""
from __future__ import annotations

import os
import shutil
from collections.abc import Callable
from dataclasses import dataclass

from pressroom.base.limits import Limits
from pressroom.intake import profiles, second
from pressroom.intake.differing import Colours, Shows, differing
from pressroom.intake.pdf import Inspected, Refused
from pressroom.intake.second import PROGRAM, Unseen
from pressroom.intake.shrunk import FILE, Asked

KIND, UNCOMPARED = "differs", "uncompared"
# The most areas of a page that are named.
MOST = 4
# A note: its kind, its text, and its place in millimetres or None.
Note = tuple[str, str, "tuple[float, ...] | None"]


@dataclass(frozen=True)
class Page:
    """A page that was rendered: the PDF to compare with, in a folder that has the means over blocks, what was found
    in the page, where RGB shows, whether something else is converted, such as Lab, and the resolution.
    """

    folder: str
    pdf: str
    inspected: Inspected
    rgb: tuple[float, ...] | None
    converted: bool
    dpi: int


class Opinion:
    """Compares pages. `rule` is the house's: `note`, `fault` or `off`."""

    def __init__(self, rule: str, profile: str, is_house: Callable[[bytes], bool], limits: Limits) -> None:
        """`profile` is the path of the profile that RGB is converted by, and `is_house` returns whether a
        separation's name is that of the house's spot.
        """
        import numpy as np

        self.rule, self.is_house, self.limits = rule, is_house, limits
        self.missing = rule != "off" and shutil.which(PROGRAM) is None
        self.used = rule != "off" and not self.missing
        if self.used:
            blacks = np.array(profiles.blacks(profile), np.uint8)
            self.colours = Colours(profiles.converted(profile), blacks)

    def version(self, folder: str) -> str:
        """Returns what the program calls itself, or nothing if it isn't used."""
        if not self.used:
            return ""
        _, out, note = self.limits.run([PROGRAM, "-v"], folder)
        said: bytes = out + note
        return said.decode("utf-8", "replace").strip()

    def asked(self, page: Page, height: int) -> Asked | None:
        """Returns what means of the page's inks are needed. `height` is the page's in pixels."""
        if not self.used or page.inspected.unlike:
            return None
        grid = second.grid_of(page.inspected, height, page.dpi)
        return Asked(grid, bool(page.rgb) or page.converted)

    def notes(self, page: Page, asked: Asked | None) -> list[Note]:
        """Returns notes on how the page differs. Raises Refused if the house wants a fault."""
        if asked is None:
            unlike = page.inspected.unlike if self.used else ()
            return [(UNCOMPARED, f"not compared with {PROGRAM}: it can't show {what}", None) for what in unlike]
        found = self.found(page, asked)
        if found and self.rule == "fault":
            raise Refused(*found[0])
        return found

    def found(self, page: Page, asked: Asked) -> list[Note]:
        import numpy as np

        means = np.load(os.path.join(page.folder, FILE))
        try:
            shown = second.render(self.limits, page.folder, page.pdf, asked.grid, self.is_house)
        except Unseen as error:
            return [(KIND, f"{PROGRAM} can't draw it: {error}", None)]
        shows = Shows(
            page.rgb,
            page.inspected.rgb,
            page.converted,
            page.inspected.blends,
            page.inspected.tints,
            self.colours,
        )
        areas = differing(means, asked.grid, page.dpi, shown, self.is_house, shows)
        notes: list[Note] = [(KIND, area.text(), area.place) for area in areas[:MOST]]
        if len(areas) > MOST:
            notes.append((KIND, f"{len(areas) - MOST} smaller areas differ, too", None))
        return notes + [(KIND, f"{PROGRAM} reports: {line}", None) for line in shown.wrong]
