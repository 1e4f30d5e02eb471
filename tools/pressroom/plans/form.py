"""The form of an edition plan, as docs/FORMATS.md describes it, as far as these tools read and write it.

`is_formed` tests a JSON value for it. It isn't the program's test: a plan that passes may still be refused.
"""
from collections.abc import Callable
from typing import Any, Required, TypedDict, TypeGuard

INKS = "CMYKS"
# The limit of a plan without one: four inks at 255 each.
NO_LIMIT = 1020
Replace = TypedDict("Replace", {"section": str, "page": int, "with": str})


class Layer(TypedDict, total=False):
    """An image on a page."""

    kind: Required[str]
    file: Required[str]
    mask: str
    crop: list[int]
    x: int
    y: int
    scale: int
    ink: list[int]
    paint: str


class Page(TypedDict):
    """A page: its name, its inks as letters, and its layers from the bottom."""

    name: str
    inks: str
    layers: list[Layer]


class Section(TypedDict):
    """A section: the names of its pages from the first."""

    name: str
    pages: list[str]


class Zone(TypedDict):
    """A zone: the pages that its sites print in the place of others."""

    name: str
    replace: list[Replace]


class Site(TypedDict, total=False):
    """A print site, with its zone, if it has one."""

    name: Required[str]
    zone: str


class Tile(TypedDict):
    """A tile of thresholds, row by row."""

    name: str
    width: int
    height: int
    at: list[int]


class Mark(TypedDict):
    """A solid rectangle of a plate."""

    inks: str
    x: int
    y: int
    w: int
    h: int


class PlanForm(TypedDict, total=False):
    """A plan. Sizes are pixels."""

    plan: int
    edition: Required[str]
    dpi: int
    page: Required[list[int]]
    margins: list[int]
    gutter: int
    limit: int
    tiles: list[Tile]
    screens: dict[str, str]
    curves: dict[str, list[list[int]]]
    marks: list[Mark]
    pages: Required[list[Page]]
    sections: Required[list[Section]]
    zones: list[Zone]
    sites: Required[list[Site]]


Test = Callable[[Any], bool]


def text(value: Any) -> bool:
    """Whether a value is a text."""
    return isinstance(value, str)


def whole(value: Any) -> bool:
    """Whether a value is a whole number of at most 32 bits."""
    return isinstance(value, int) and not isinstance(value, bool) and 0 <= value < 1 << 32


def listed(each: Test, count: int | None = None) -> Test:
    """Returns the test for a list whose items pass one."""
    return lambda value: (
        isinstance(value, list) and (count is None or len(value) == count) and all(map(each, value))
    )


def made_of(required: dict[str, Test], optional: dict[str, Test]) -> Test:
    """Returns the test for an object with these keys; it may have others."""
    return lambda value: (
        isinstance(value, dict)
        and all(key in value and test(value[key]) for key, test in required.items())
        and all(test(value[key]) for key, test in optional.items() if key in value)
    )


LAYER = made_of(
    {"kind": text, "file": text},
    {
        "mask": text,
        "crop": listed(whole, 4),
        "x": whole,
        "y": whole,
        "scale": whole,
        "ink": listed(whole),
        "paint": text,
    },
)
PLAN = made_of(
    {
        "edition": text,
        "page": listed(whole, 2),
        "pages": listed(made_of({"name": text, "inks": text, "layers": listed(LAYER)}, {})),
        "sections": listed(made_of({"name": text, "pages": listed(text)}, {})),
        "sites": listed(made_of({"name": text}, {"zone": text})),
    },
    {
        "margins": listed(whole, 4),
        "gutter": whole,
        "limit": whole,
        "zones": listed(
            made_of(
                {
                    "name": text,
                    "replace": listed(made_of({"section": text, "page": whole, "with": text}, {})),
                },
                {},
            )
        ),
    },
)


def is_formed(value: object) -> TypeGuard[PlanForm]:
    """Whether a JSON value has the form of a plan, and all names that it uses."""
    if not PLAN(value) or not isinstance(value, dict):
        return False
    counts = {section["name"]: len(section["pages"]) for section in value["sections"]}
    items = [item for zone in value.get("zones", []) for item in zone["replace"]]
    used = {name for section in value["sections"] for name in section["pages"]} | {
        item["with"] for item in items
    }
    if not used <= {page["name"] for page in value["pages"]}:
        return False
    return all(1 <= item["page"] <= counts.get(item["section"], 0) for item in items)
