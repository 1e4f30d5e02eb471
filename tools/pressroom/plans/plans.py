"""Makes the plan of each press from the house file and the pages that were made."""
import json
from collections.abc import Mapping
from typing import TypedDict

from pressroom.base import disk
from pressroom.house import tile
from pressroom.house.house import INKS, LARGEST_TILE, House, Place
from pressroom.house.records import Press, Screen
from pressroom.plans import form
from pressroom.plans.plan_reader import plans_of, printed

# The most bytes of a plan's files together that plateroom loads.
MOST_BYTES = 3_221_225_472
BLANK: form.Page = {"name": "blank", "inks": "K", "layers": []}


class Made(TypedDict):
    """What was made of a page: its inks and its layers."""

    inks: str
    layers: list[form.Layer]


def page_names(places: list[Place]) -> dict[Place, str]:
    """Returns a unique name of at most 16 letters, digits and _ for each place."""
    names = {}
    for place in places:
        names[place] = f"{place.section}{place.page:02}" + (f"_{place.zone}" if place.zone else "")
    short = all(len(name) <= 16 for name in names.values())
    if short and len(set(names.values()) | {"blank"}) == len(names) + 1:
        return names
    return {place: f"page{number:04}" for number, place in enumerate(places, 1)}


def limit_of(percent: float) -> int:
    """Returns an ink limit in the plan's units."""
    return int(percent * 255 / 100 + 1e-9)


def screens(press: Press, dpi: int) -> tuple[list[form.Tile], dict[str, str]]:
    """Returns a press's tiles and screens in the plan's form."""
    tiles: dict[Screen, form.Tile] = {}
    names: dict[str, str] = {}
    for ink in INKS:
        screen = press.screens.get(ink)
        if screen is None:
            continue
        if screen.name:
            names[ink] = screen.name
            continue
        if screen not in tiles:
            grid = tile.nearest(screen.angle, screen.ruling, dpi, LARGEST_TILE)[0]
            at = tile.thresholds(grid, screen.dot)
            tiles[screen] = {"name": f"tile{ink}", "width": grid.side, "height": grid.side, "at": at}
        names[ink] = "tile:" + tiles[screen]["name"]
    return list(tiles.values()), names


def curves(press: Press) -> dict[str, list[list[int]]]:
    """Returns a press's curves in the plan's form, percent as 255ths."""
    return {
        ink: [[round(x * 255 / 100), round(y * 255 / 100)] for x, y in points]
        for ink, points in sorted(press.curves.items(), key=lambda pair: INKS.index(pair[0]))
    }


def marks(house: House, press: Press) -> list[form.Mark]:
    """Returns a press's marks in the plan's form, each at least one pixel wide and high."""
    found: list[form.Mark] = []
    for mark in press.marks:
        (left, top), (width, height) = mark.at, mark.size
        x, y = house.pixels(left), house.pixels(top)
        right, bottom = house.pixels(left + width), house.pixels(top + height)
        found.append({"inks": mark.inks, "x": x, "y": y, "w": max(1, right - x), "h": max(1, bottom - y)})
    return found


def plan_of(house: House, press: Press, pages: Mapping[Place, Made]) -> form.PlanForm:
    """Returns the plan of a press. `pages` has the inks and layers of each place that isn't blank."""
    sites = [site for site in house.sites if site.press == press.name]
    zones = list(dict.fromkeys(site.zone for site in sites if site.zone))
    first = {section: number for number, section in enumerate(house.sections)}
    order = [place for place in pages if place.zone is None or place.zone in zones]
    order.sort(key=lambda place: (place.zone or "", first[place.section], place.page))
    names = page_names(order)

    def name(place: Place) -> str:
        return names.get(place, "blank")

    sections: list[form.Section] = [
        {"name": section, "pages": [name(Place(None, section, page)) for page in range(1, count + 1)]}
        for section, count in house.sections.items()
    ]
    given = set(order) | house.blank
    own: list[form.Zone] = [
        {
            "name": zone,
            "replace": [
                {"section": section, "page": page, "with": name(Place(zone, section, page))}
                for section, count in house.sections.items()
                for page in range(1, count + 1)
                if Place(zone, section, page) in given
            ],
        }
        for zone in zones
    ]
    tiles, named = screens(press, house.dpi)
    listed: list[form.Page] = [
        {"name": names[place], "inks": pages[place]["inks"], "layers": pages[place]["layers"]}
        for place in order
    ]
    used = {page for section in sections for page in section["pages"]}
    used |= {item["with"] for zone in own for item in zone["replace"]}
    return {
        "plan": 2,
        "edition": house.edition,
        "dpi": house.dpi,
        "page": list(house.page_pixels()),
        "margins": [house.pixels(side) for side in house.margins],
        "gutter": house.pixels(house.gutter),
        "limit": limit_of(press.limit),
        "tiles": tiles,
        "screens": named,
        "curves": curves(press),
        "marks": marks(house, press),
        "pages": listed + ([BLANK] if "blank" in used else []),
        "sections": sections,
        "zones": own,
        "sites": [
            {"name": site.name, "zone": site.zone} if site.zone else {"name": site.name} for site in sites
        ],
    }


def files_of(plan: form.PlanForm) -> set[str]:
    """Returns the names of all files of a plan that was made here."""
    return {layer["file"] for page in plan["pages"] for layer in page["layers"]}


def largest_part(plan: form.PlanForm, sizes: Mapping[str, int]) -> tuple[str, str, int]:
    """Returns the section and site whose files have the most bytes together, and how many. `sizes` has the
    bytes of each file. No part of a plan is smaller than a section for one site.
    """
    files = {page["name"]: {layer["file"] for layer in page["layers"]} for page in plan["pages"]}
    found = []
    for site in plan["sites"]:
        for section in plan["sections"]:
            names = {file for name in printed(plan, section, site) for file in files[name]}
            found.append((section["name"], site["name"], sum(sizes[file] for file in names)))
    return max(found, key=lambda part: part[2])


def write(path: str, value: object) -> bool:
    """Writes JSON to a file, unless the file already has the same content. Returns whether it wrote."""
    # A name that isn't UTF-8 has surrogates, which JSON can escape.
    text = json.dumps(value, ensure_ascii=False, indent=1) + "\n"
    return disk.write_changed(path, text.encode("utf-8", "backslashreplace"))


def plan_files(work: str) -> set[str]:
    """Returns the names of the files of all plans in a folder, whoever wrote the plans."""
    return {name for plan in plans_of(work, readable=True) for name in plan.files()}
