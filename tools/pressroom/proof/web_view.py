"""A view of a proof: a pair as some sites print it, with its pages, its changes and its thumbnail."""
import io
import os
from typing import TYPE_CHECKING

import numpy
from PIL import Image

from pressroom.plans import sheets
from pressroom.proof.blocks import write_block
from pressroom.proof.light import light_of, screen_of

if TYPE_CHECKING:
    from pressroom.proof.web_proof import Plate, Proof


class View:
    """A pair as some sites print it: its plates and what is damaged, its pages, and what changed."""

    def __init__(
        self,
        proof: "Proof",
        number: int,
        pair: str,
        sites: list[str],
        new: dict[str, str],
        old: dict[str, str],
    ) -> None:
        self.proof, self.number, self.pair, self.sites, self.old = proof, number, pair, sites, old
        self.section, _, place = pair.partition("-")
        self.place = int(place)
        self.plates: dict[str, Plate] = {}
        self.damaged: dict[str, str] = {}
        for ink, content in new.items():
            self.take(ink, content)
        self.new = {ink: content for ink, content in new.items() if ink in self.plates}
        self.changes = proof.changes.of(self) if proof.old else {}

    def take(self, ink: str, content: str) -> None:
        """Puts a plate into the view, unless it's damaged or of another size than the first."""
        if content in self.proof.faults:
            self.damaged[ink] = self.proof.faults[content]
            return
        plate, first = self.proof.plates[content], next(iter(self.plates.values()), None)
        if first and (plate.width, plate.length) != (first.width, first.length):
            self.damaged[ink] = (
                f"has {plate.width} by {plate.length} pixels, and the plate before it "
                f"{first.width} by {first.length}"
            )
            self.proof.tell_damage(plate.path, self.damaged[ink])
        else:
            self.plates[ink] = plate

    def pages(self) -> dict[str, list[sheets.OnPlate]]:
        """The two pages with their places on the plate, of each site."""
        if not self.plates:
            return {}
        first = next(iter(self.plates.values()))
        pages: dict[str, list[sheets.OnPlate]] = {}
        size = first.width, first.length
        most = max(view.place for view in self.proof.views if view.section == self.section)
        for site in self.sites:
            sheet = self.proof.sheets.get(site)
            if sheet and sheet.size() == size:
                pages[site] = sheet.pages(self.section, self.place)
            else:
                pages[site] = sheets.halves(self.place, 2 * most, *size)
        return pages

    def limit(self) -> int | None:
        """The least ink limit of its sites' plans, in percent."""
        limits = [self.proof.sheets[site].limit for site in self.sites if site in self.proof.sheets]
        return min((limit for limit in limits if limit is not None), default=None)

    def state(self) -> str:
        """Whether it is new, changed or unchanged since the old edition."""
        if not self.old:
            return "new"
        return "changed" if any(change["dots"] != [0, 0] for change in self.changes.values()) else "same"

    def thumb(self) -> dict[str, object]:
        """Writes the picture of the index, in which every ink takes its share of the light."""
        shares = next(iter(self.plates.values())).shares.shape
        light = numpy.ones((*shares, 3))
        for ink, plate in self.plates.items():
            light *= 1 - plate.shares[:, :, None] * (1 - light_of(self.proof.inks[ink]["colour"]))
        picture, file = Image.fromarray(screen_of(light)), io.BytesIO()
        picture.save(file, "JPEG", quality=88, optimize=True)
        path = os.path.join(self.proof.folder, "thumbs", f"{self.number}.js")
        return {
            "sum": write_block(path, f"thumbs/{self.number}", file.getvalue()),
            "width": picture.width,
            "length": picture.height,
        }

    def data(self) -> dict[str, object]:
        """What the page knows of it."""
        data: dict[str, object] = {
            "pair": self.pair,
            "section": self.section,
            "sites": self.sites,
            "damaged": self.damaged,
            "plates": {ink: plate.key for ink, plate in self.plates.items()},
            "pages": self.pages(),
            "limit": self.limit(),
        }
        if self.plates:
            first = next(iter(self.plates.values()))
            data |= {
                "width": first.width,
                "length": first.length,
                "dpi": first.dpi,
                "thumb": self.thumb(),
            }
        if self.proof.old:
            data |= {"state": self.state(), "changes": self.changes}
        return data
