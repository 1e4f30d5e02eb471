"""What a proof takes from edition plans: each site's zone, the ink limit, and the places of pages on a plate."""
from typing import TypedDict

from pressroom.base.files import Unreadable
from pressroom.plans.form import NO_LIMIT, PlanForm, Site
from pressroom.plans.plan_reader import NotAPlan, printed, read_plan
from pressroom.tiff.tiff import Broken


class OnPlate(TypedDict):
    """A page on a plate: its number, its name or None, and its left, top, width and height in pixels."""

    number: int
    name: str | None
    box: list[int]


class Sheet:
    """The plates of one site by its plan: the zone, the limit in percent or None, and the pages of each
    pair."""

    def __init__(self, plan: PlanForm, site: Site) -> None:
        self.zone = site.get("zone")
        limit = plan.get("limit", NO_LIMIT)
        self.limit = round(limit / 2.55) if limit < NO_LIMIT else None
        self.width, self.height = plan["page"]
        self.left, self.top, self.right, self.bottom = plan.get("margins", [0] * 4)
        self.gutter = plan.get("gutter", 0)
        self.sections = {section["name"]: printed(plan, section, site) for section in plan["sections"]}

    def size(self) -> tuple[int, int]:
        """Width and length of its plates."""
        return self.left + 2 * self.width + self.gutter + self.right, self.top + self.height + self.bottom

    def pages(self, section: str, pair: int) -> list[OnPlate]:
        """The two pages of a pair."""
        names = self.sections.get(section, [])
        if not 1 <= pair <= len(names) // 2:
            return []
        lefts = self.left, self.left + self.width + self.gutter
        return [
            {"number": number, "name": names[number - 1], "box": [left, self.top, self.width, self.height]}
            for number, left in zip(numbers_of(pair, len(names)), lefts)
        ]


def numbers_of(pair: int, pages: int) -> list[int]:
    """The page numbers of a pair, the left one first: it is even."""
    return sorted((pair, pages + 1 - pair), key=lambda number: number % 2)


def halves(pair: int, pages: int, width: int, length: int) -> list[OnPlate]:
    """The two pages of a pair without a plan: only their numbers, each on its half of the plate."""
    return [
        {"number": number, "name": None, "box": [side * (width // 2), 0, width // 2, length]}
        for side, number in enumerate(numbers_of(pair, pages))
    ]


def sheets_of(paths: list[str]) -> dict[str, Sheet]:
    """The sheet of each site that these plans name; of a site in several plans the first counts."""
    sheets: dict[str, Sheet] = {}
    for path in paths:
        try:
            plan = read_plan(path)
        except (Unreadable, NotAPlan) as error:
            raise Broken(str(error)) from None
        for site in plan["sites"]:
            sheets.setdefault(site["name"], Sheet(plan, site))
    return sheets
