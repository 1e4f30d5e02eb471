"""Reads plans of an edition: which files and plates they name, what each site prints, and the plan of some of
their sites alone."""
import json
import os
from typing import Any

from pressroom.base.faults import Fault
from pressroom.base.files import Unreadable, read_file
from pressroom.plans.form import INKS, PlanForm, Section, Site, is_formed
from pressroom.plans.ring import Shape

# The program takes plans of at most 16 MB, and refuses longer ones by name; these aren't even read.
MOST_BYTES = 1 << 25


class NotAPlan(Fault):
    """A text isn't a plan. The text of the fault names its file."""


def json_of(text: bytes, twice: list[str] | None = None) -> Any:
    """Returns the value of a JSON text, and appends each key that an object has twice to `twice`.

    Raises ValueError, whose text says why, also if the text has too many levels.
    """

    def pairs(items: list[tuple[str, Any]]) -> dict[str, Any]:
        seen: dict[str, Any] = {}
        for key, value in items:
            if key in seen and twice is not None:
                twice.append(key)
            seen[key] = value
        return seen

    try:
        return json.loads(text.decode("utf-8"), object_pairs_hook=pairs)
    except RecursionError:
        raise ValueError("too many levels") from None


class Plan:
    """A plan's text under the name of its press. `value` is None where the text isn't a JSON object."""

    def __init__(self, name: str, text: bytes) -> None:
        self.name, self.text = name, text
        try:
            value = json_of(text)
        except ValueError:
            value = None
        self.value: dict[str, Any] | None = value if isinstance(value, dict) else None
        self.formed: PlanForm | None = None
        if is_formed(self.value):
            self.formed = self.value

    @property
    def form(self) -> PlanForm:
        """The plan. Raises NotAPlan if the text has another form, which the program refuses."""
        if self.formed is None:
            raise NotAPlan(f"{self.name}.json: not an edition plan; `pressroom check` reports why")
        return self.formed

    def is_plan(self) -> bool:
        """False for another JSON object, such as a state: it has no key `plan`."""
        return self.value is None or "plan" in self.value

    def files(self) -> set[str]:
        """The names of all files of its layers, as far as the text has the form of a plan."""
        names: set[str] = set()
        for page in listed(self.value, "pages"):
            for layer in listed(page, "layers"):
                names.update(layer[key] for key in ("file", "mask") if lawful(layer, key))
        return names

    def sites(self) -> list[str]:
        """The names of its sites. This and the following need the form of a plan."""
        return [site["name"] for site in self.form["sites"]]

    def plates(self, site: str) -> list[str]:
        """The names of a site's plates, as the program writes them into the site's folder."""
        inks = {page["name"]: page["inks"] for page in self.form["pages"]}
        the_site = next(item for item in self.form["sites"] if item["name"] == site)
        names = []
        for section in self.form["sections"]:
            for number, (left, right) in enumerate(pairs_of(printed(self.form, section, the_site)), 1):
                kept = inks_of(inks[left] + inks[right])
                names += [f"{self.form['edition']}-{section['name']}-{number:03}-{ink}.tif" for ink in kept]
        return names

    def shape(self) -> Shape:
        """What decides how wide its plates are."""
        plan = self.form
        margins = plan.get("margins", [0, 0, 0, 0])
        return {"page": plan["page"], "margins": margins, "gutter": plan.get("gutter", 0)}

    def alone(self, sites: list[str]) -> bytes:
        """The text of the plan of these of its sites: their plates are those of the whole plan."""
        if set(sites) == set(self.sites()):
            return self.text
        part = self.form.copy()
        part["sites"] = [site for site in self.form["sites"] if site["name"] in sites]
        return json.dumps(part, ensure_ascii=False).encode()


def inks_of(both: str) -> list[str]:
    """The inks of a pair whose pages have these: black alone or the four, and the spot where it is printed."""
    return [ink for ink in INKS if ink in ("K" if "C" not in both else "CMYK") or ink == "S" in both]


def pairs_of(pages: list[str]) -> list[tuple[str, str]]:
    """The two pages of each pair of a section, the one nearer to its front first."""
    return list(zip(pages, reversed(pages)))[: len(pages) // 2]


def printed(plan: PlanForm, section: Section, site: Site) -> list[str]:
    """The names of the pages that a site prints in the places of a section."""
    pages = list(section["pages"])
    for zone in plan.get("zones", []):
        for item in zone["replace"] if zone["name"] == site.get("zone") else []:
            if item["section"] == section["name"]:
                pages[item["page"] - 1] = item["with"]
    return pages


def listed(value: object, key: str) -> list[Any]:
    """The items of a list that an object has under a key; nothing where the form is another."""
    items = value.get(key) if isinstance(value, dict) else None
    return items if isinstance(items, list) else []


def lawful(layer: object, key: str) -> bool:
    """Whether a layer names a file by a path that stays within the folder of files."""
    name = layer.get(key) if isinstance(layer, dict) else None
    if not isinstance(name, str) or any(ord(sign) < 32 or 0xD800 <= ord(sign) < 0xE000 for sign in name):
        return False
    return not {"", ".", ".."} & set(name.split("/"))


def plans_of(work: str, readable: bool = False) -> list[Plan]:
    """The plans of a WORK folder: each file PRESS.json in it, but for JSON objects without the key `plan`.

    Raises OSError if one can't be read, unless only the readable ones are asked for.
    """
    plans = []
    for name in sorted(name for name in os.listdir(work) if name.endswith(".json") and name[0] != "."):
        try:
            text = read_file(os.path.join(work, name), MOST_BYTES)
        except Unreadable as error:
            if readable:
                continue
            raise OSError(None, error.why, error.path) from None
        plans.append(Plan(name.removesuffix(".json"), text))
    return [plan for plan in plans if plan.is_plan()]


def read_plan(path: str) -> PlanForm:
    """The plan of a file. Raises Unreadable if it can't be read, NotAPlan if it has another form."""
    plan = Plan(path.removesuffix(".json"), read_file(path, MOST_BYTES))
    if plan.formed is None:
        raise NotAPlan(f"{path}: not an edition plan; `pressroom check` reports why")
    return plan.formed
