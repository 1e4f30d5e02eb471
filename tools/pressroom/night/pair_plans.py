"""Plans for plateroom: of one pair at a site, and of a site's whole edition.

A pair's plan has the pair's section alone, all other pages blank, and one site; its two pages have the names
`left` and `right`. `replate` from the blank plan to this one makes the pair's plates, under the names that
they have in the whole edition.
"""
from collections.abc import Mapping
from typing import Any

from pressroom.house.house import House
from pressroom.night.records import PageKey, Pair, Plan, Planned, Render
from pressroom.plans.plans import BLANK, plan_of

PARTS = ("pages", "sections", "zones", "sites")


def frame(house: House, press: str) -> Plan:
    """Returns the keys of a press's plan that don't depend on pages and sites."""
    plan = plan_of(house, house.presses[press], {})
    return {key: value for key, value in plan.items() if key not in PARTS}


def page(name: str, render: Render | None) -> dict[str, Any]:
    """Returns a page of a plan; without a render it is blank."""
    if render is None:
        return {"name": name, "inks": "K", "layers": []}
    return {"name": name, "inks": render.inks, "layers": [dict(layer) for layer in render.layers]}


def pair_plan(
    house: House, planned: Planned, pair: Pair, left: Render | None, right: Render | None
) -> tuple[Plan, Plan]:
    """Returns the blank plan and the plan of a pair, of which a page without a render is blank. `house` is
    that of the edition."""
    site = next(site for site in planned.sites if site.name == pair.site)
    common = frame(house, site.press)
    count = planned.sections[pair.section]
    names = ["blank"] * count
    blank = common | {
        "pages": [BLANK],
        "sections": [{"name": pair.section, "pages": list(names)}],
        "zones": [],
        "sites": [{"name": site.name}],
    }
    names[pair.left.number - 1], names[pair.right.number - 1] = "left", "right"
    pages = [page("left", left), page("right", right)] + ([BLANK] if count > 2 else [])
    return blank, blank | {"pages": pages, "sections": [{"name": pair.section, "pages": names}]}


def whole_plan(house: House, planned: Planned, site: str, renders: Mapping[PageKey, Render]) -> Plan:
    """Returns the plan of a site's whole edition. `renders` has each page that isn't planned blank."""
    its = next(one for one in planned.sites if one.name == site)
    blanks = {one.key for one in planned.pages if one.blank}
    pairs = [pair for pair in planned.pairs if pair.site == site]
    keys = {(key.section, key.number): key for pair in pairs for key in (pair.left, pair.right)}
    order = [key for key in dict.fromkeys(keys.values()) if key not in blanks]
    names = {key: f"page{number:04}" for number, key in enumerate(order, 1)}
    pages = [page(names[key], renders[key]) for key in order]
    sections = [
        {
            "name": section,
            "pages": [names.get(keys[section, number], "blank") for number in range(1, count + 1)],
        }
        for section, count in planned.sections.items()
    ]
    used = any(name == "blank" for section in sections for name in section["pages"])
    return frame(house, its.press) | {
        "pages": pages + ([BLANK] if used else []),
        "sections": sections,
        "zones": [],
        "sites": [{"name": site}],
    }
