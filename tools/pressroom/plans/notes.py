"""Notes on what is no fault of a plan and its files but rarely intended."""
import os

from pressroom.plans.check import Bar, Use, layers_of
from pressroom.plans.form import INKS, NO_LIMIT, Layer, Page, PlanForm
from pressroom.plans.plan_reader import printed
from pressroom.tiff.tiff import Broken, Tiff

Box = tuple[int, int, int, int]


class Notes:
    """Notes on what is no fault but rarely intended."""

    def __init__(self, plan: PlanForm, files: str, taken: set[Use], wrong: set[str], bar: Bar) -> None:
        self.plan, self.files, self.taken, self.wrong, self.bar = plan, files, taken, wrong, bar
        self.width, self.height = plan["page"]
        self.images: dict[str, Tiff | None] = {}
        self.lines: list[str] = []

    def note(self, line: str) -> None:
        """Adds a note, unless it's there."""
        if line not in self.lines:
            self.lines.append(line)

    def image(self, use: str, name: str) -> Tiff | None:
        """The image of a use that the program accepts, otherwise None."""
        if (use, name) not in self.taken:
            return None
        if name not in self.images:
            self.images[name] = None
            try:
                image = Tiff(os.path.join(self.files, name))
                image.close()
                self.images[name] = image
            except Broken:
                pass
        return self.images[name]

    def all(self) -> list[str]:
        """All notes on the plan."""
        plan = self.plan
        used = {
            name
            for site in plan["sites"]
            for section in plan["sections"]
            for name in printed(plan, section, site)
        }
        for page in plan["pages"]:
            if page["name"] not in used:
                self.note(f"page {page['name']}: no site prints it")
        zones = {site.get("zone") for site in plan["sites"]}
        for zone in plan.get("zones", []):
            if zone["name"] not in zones:
                self.note(f"zone {zone['name']}: no site uses it")
        self.of_tone()
        for page, number, layer, place in self.bar(list(layers_of(plan)), "layers"):
            try:
                self.of_layer(page, number, layer, place)
            except Broken as error:
                self.note(f"{place}: not examined: {error}")
        return self.lines

    def of_tone(self) -> None:
        """Notes on the limit, curves, tiles and marks."""
        limit = self.plan.get("limit", NO_LIMIT)
        if limit <= 400:
            self.note(
                f"limit {limit}: this is {limit * 100 // 255} percent of ink; {limit} percent is "
                f"{limit * 255 // 100}"
            )
        for ink, points in self.plan.get("curves", {}).items():
            if points[0][1]:
                self.note(f"curve {ink}: maps 0 to {points[0][1]}, so it prints on bare paper")
            if points[-1][1] < 255:
                self.note(f"curve {ink}: maps 255 to {points[-1][1]}, so solids are screened")
        for tile in self.plan.get("tiles", []):
            full = tile["at"].count(255)
            if full:
                self.note(
                    f"tile {tile['name']}: {full} of its thresholds are 255, where even full ink does not print"
                )
        inks = {ink for page in self.plan["pages"] for ink in page["inks"]}
        for number, mark in enumerate(self.plan.get("marks", [])):
            if not inks & set(mark["inks"]):
                self.note(f"mark {number}: no page prints {', '.join(mark['inks'])}, so no plate has it")

    def of_layer(self, page: Page, number: int, layer: Layer, place: str) -> None:
        """Notes on a layer whose files are accepted."""
        image = self.image(layer["kind"], layer["file"])
        if image is None or place in self.wrong:
            return
        self.of_place(layer, image, place)
        crop = layer.get("crop", [0, 0, image.width, image.length])
        if layer["kind"] == "line":
            self.of_line(page, layer, image, crop, place)
        else:
            self.of_contone(page, number, layer, image, crop, place)
        mask = self.image("mask", layer["mask"]) if "mask" in layer else None
        if mask and not has_marks(mask, crop):
            self.note(f"{place}: its mask {layer['mask']} admits no pixel, so nothing is painted")
        for read in filter(None, (image, mask)):
            read.close()

    def of_place(self, layer: Layer, image: Tiff, place: str) -> None:
        """What a layer loses at the edges of its page, and where it ends just before them."""
        left, top, right, bottom = self.box(layer, image)
        if left >= self.width or top >= self.height:
            self.note(f"{place}: is outside its page")
            return
        for start, end, side, edge in (
            (left, right, self.width, "right"),
            (top, bottom, self.height, "lower"),
        ):
            if end > side:
                self.note(f"{place}: {end - side} pixels past the page's {edge} edge aren't shown")
            elif start == 0 and side * 19 <= end * 20 < side * 20:
                self.note(f"{place}: ends {side - end} pixels before the page's {edge} edge")

    def box(self, layer: Layer, image: Tiff) -> Box:
        """The left, top, right and lower edge of a layer on its page."""
        _, _, width, height = layer.get("crop", [0, 0, image.width, image.length])
        x, y, scale = layer.get("x", 0), layer.get("y", 0), layer.get("scale", 1)
        return x, y, x + width * scale, y + height * scale

    def of_line(self, page: Page, layer: Layer, image: Tiff, crop: list[int], place: str) -> None:
        """Notes on a line image."""
        ink = (layer.get("ink", [0, 0, 0, 255]) + [0])[:5]
        lost = [letter for letter, value in zip(INKS, ink) if value and letter not in page["inks"]]
        if lost:
            self.note(
                f"{place}: the page prints {page['inks']}, so the layer's {', '.join(lost)} is left out"
            )
        if layer.get("paint") == "overprint" and not any(ink):
            self.note(f"{place}: overprint with no ink paints nothing")
        if not has_marks(image, crop):
            self.note(f"{place}: {layer['file']} has no black pixel there, so nothing is painted")

    def of_contone(
        self, page: Page, number: int, layer: Layer, image: Tiff, crop: list[int], place: str
    ) -> None:
        """Notes on a contone image."""
        if "C" not in page["inks"]:
            lost = inks_in(image, crop)[:3]
            if any(lost):
                letters = ", ".join(letter for letter, there in zip(INKS, lost) if there)
                self.note(
                    f"{place}: the page prints {page['inks']}, so the {letters} of {layer['file']} "
                    "is left out"
                )
        if "S" not in page["inks"] or layer.get("paint") == "overprint" or "mask" in layer:
            return
        left, top, right, bottom = self.box(layer, image)
        for lower, below in enumerate(page["layers"][:number]):
            under = self.image(below["kind"], below["file"])
            if (
                under is None
                or below["kind"] != "line"
                or len(below.get("ink", [])) < 5
                or not below["ink"][4]
            ):
                continue
            box = self.box(below, under)
            if box[0] < right and left < box[2] and box[1] < bottom and top < box[3]:
                self.note(f"{place}: a contone image in knockout removes the spot of layer {lower} below it")


def has_marks(image: Tiff, crop: list[int]) -> bool:
    """Whether a line image or a mask has a black pixel in this part."""
    x, y, width, height = crop
    columns = ((1 << width) - 1) << (8 * image.row_bytes - x - width)
    white = columns if image.photometric == 1 else 0
    return any((int.from_bytes(row, "big") ^ white) & columns for row in image.rows(y, y + height))


def inks_in(image: Tiff, crop: list[int]) -> list[bool]:
    """For each of the four inks whether a contone image has any in this part."""
    x, y, width, height = crop
    found = [False] * 4
    if image.planar == 2:
        for ink in range(4):
            found[ink] = any(row[x : x + width].strip(b"\0") for row in image.rows(y, y + height, ink))
    else:
        for row in image.rows(y, y + height):
            for ink in range(4):
                found[ink] = found[ink] or bool(row[4 * x + ink : 4 * (x + width) : 4].strip(b"\0"))
            if all(found[:3]):
                break
    return found
