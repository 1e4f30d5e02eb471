"""Parts of an edition: plans whose plates together are those of the whole, each at its path.

A part has some sections for some sites, and only the pages that these sites print there, so it loads only its own
files. Everything else of the plan is unchanged.
"""
import math
import os
from collections.abc import Callable, Iterable, Iterator
from typing import TypeVar

from pressroom.plans.form import PlanForm, Replace
from pressroom.plans.plan_reader import inks_of, pairs_of, printed

T = TypeVar("T")
Pair = tuple[str, str]
Cell = tuple[str, list[str]]


class Edition:
    """A plan, what each site prints of each section, and how large the files are."""

    def __init__(self, plan: PlanForm, files: str) -> None:
        self.plan, self.files = plan, files
        self.sections = [section["name"] for section in plan["sections"]]
        self.sites = [site["name"] for site in plan["sites"]]
        self.prints = {
            (section["name"], site["name"]): printed(plan, section, site)
            for section in plan["sections"]
            for site in plan["sites"]
        }
        self.inks = {page["name"]: page["inks"] for page in plan["pages"]}
        self.images = {
            page["name"]: {
                name for layer in page["layers"] for name in (layer["file"], layer.get("mask")) if name
            }
            for page in plan["pages"]
        }
        self.sizes = {name: self.size(name) for names in self.images.values() for name in names}

    def size(self, name: str) -> float:
        """The bytes of a file: infinity if it is missing."""
        try:
            return os.path.getsize(os.path.join(self.files, name))
        except OSError:
            return math.inf

    def pages(self, sections: list[str], sites: list[str]) -> set[str]:
        """The names of all pages that these sites print in these sections."""
        return {page for section in sections for site in sites for page in self.prints[section, site]}

    def bytes(self, sections: list[str], sites: list[str]) -> float:
        """The bytes of all files of these pages."""
        names = {name for page in self.pages(sections, sites) for name in self.images[page]}
        return sum(self.sizes[name] for name in names)

    def pairs(self, section: str, site: str) -> list[Pair]:
        """The two pages of each pair, the one nearer to the front of the section first."""
        return pairs_of(self.prints[section, site])

    def plates(self, pair: Pair) -> int:
        """How many plates a pair has."""
        return len(inks_of(self.inks[pair[0]] + self.inks[pair[1]]))

    def shares_much(self, sections: list[str], site: str, other: str) -> bool:
        """Whether at least half of a site's plates are also those of another one."""
        every = common = 0
        for section in sections:
            for pair, its in zip(self.pairs(section, site), self.pairs(section, other)):
                every += self.plates(pair)
                common += self.plates(pair) if pair == its else 0
        return 2 * common >= every

    def groups(self, sections: list[str]) -> list[list[str]]:
        """All sites, each with the first one with which it shares much."""
        return grouped(self.sites, lambda group, site: self.shares_much(sections, site, group[0]))

    def cells(self, by: str, most: float) -> Iterator[Cell]:
        """Each section, with sites that stay together there."""
        for section in self.sections:
            if by == "section":
                groups = [self.sites]
            else:
                groups = self.groups([section] if by == "both" else self.sections)
            for group in groups:
                for sites in grouped(group, self.fits(section, most)):
                    yield section, sites

    def fits(self, section: str, most: float) -> Callable[[list[str], str], bool]:
        """Whether a further site of a section fits into a group."""
        return lambda some, site: self.bytes([section], [*some, site]) <= most

    def parts(self, by: str, most: float) -> list[tuple[list[str], list[str]]]:
        """The sections and the sites of each part: where sections are joined, those of the same sites."""
        joins = by == "site" or most < math.inf

        def fits(part: list[Cell], cell: Cell) -> bool:
            sections = [section for section, _ in [*part, cell]]
            return joins and part[0][1] == cell[1] and self.bytes(sections, cell[1]) <= most

        parts = grouped(self.cells(by, most), fits)
        return [([section for section, _ in part], part[0][1]) for part in parts]

    def cut(self, sections: list[str], sites: list[str]) -> PlanForm:
        """The plan of these sections for these sites. A section's own pages are those that the first site
        without a zone prints, otherwise those of the first site, and zones have what differs from them."""
        kept = [site for site in self.plan["sites"] if site["name"] in sites]
        own = next((site for site in kept if "zone" not in site), kept[0])["name"]
        of_zone = {site["zone"]: site["name"] for site in kept if "zone" in site}
        pages = self.pages(sections, sites)
        part = self.plan.copy()
        part["pages"] = [page for page in self.plan["pages"] if page["name"] in pages]
        part["sections"] = [{"name": section, "pages": self.prints[section, own]} for section in sections]
        part["zones"] = [
            {"name": zone["name"], "replace": self.replaced(sections, of_zone[zone["name"]], own)}
            for zone in self.plan.get("zones", [])
            if zone["name"] in of_zone
        ]
        part["sites"] = kept
        return part

    def replaced(self, sections: list[str], site: str, own: str) -> list[Replace]:
        """What a zone's site prints in the place of the sections' own pages."""
        return [
            {"section": section, "page": number, "with": page}
            for section in sections
            for number, page in enumerate(self.prints[section, site], 1)
            if page != self.prints[section, own][number - 1]
        ]

    def line(self, name: str, sections: list[str], sites: list[str]) -> str:
        """What is printed of a part. Sites that print a pair alike share its rows."""
        plates = rows = 0
        _, top, _, bottom = self.plan.get("margins", [0] * 4)
        height = top + self.plan["page"][1] + bottom
        for section in sections:
            for alike in zip(*(self.pairs(section, site) for site in sites)):
                plates += sum(self.plates(pair) for pair in alike)
                rows += sum(self.plates(pair) for pair in set(alike)) * height
        size = self.bytes(sections, sites)
        return (
            f"plan {name} sections {','.join(sections)} sites {','.join(sites)} plates {plates} rows {rows} "
            f"bytes {'unknown' if size == math.inf else size}"
        )


def grouped(items: Iterable[T], fits: Callable[[list[T], T], bool]) -> list[list[T]]:
    """The items in groups: each in the first one into which it fits, otherwise in a group of its own."""
    groups: list[list[T]] = []
    for item in items:
        group = next((group for group in groups if fits(group, item)), None)
        if group is None:
            groups.append([item])
        else:
            group.append(item)
    return groups
