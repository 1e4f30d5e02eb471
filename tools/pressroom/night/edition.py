"""What is planned: an edition's pages, sites and pairs, from the house file and the edition's own
edition.toml.

edition.toml may have `date`, `[sections]`, `[zones]` and `blank`; what it lacks comes from the house file.
"""
import functools
import hashlib
import json
import os
import re
import shutil
import subprocess
from collections.abc import Mapping
from dataclasses import dataclass, replace
from typing import Any

from pressroom import __version__
from pressroom.house.forms import DAY, NAME, Wrong
from pressroom.house.house import House, read_text, read_zones
from pressroom.house.house_keys import Keys
from pressroom.house.records import MOST_SECTIONS, OTHERS, EditionKeys
from pressroom.intake import state
from pressroom.intake.pages import Names
from pressroom.intake.second import PROGRAM as SECOND
from pressroom.night import pair_plans
from pressroom.night.house_reader import Fault, NightHouse, faults_in_a_line, house_of
from pressroom.night.ready import complete_text, ready_text
from pressroom.night.records import EDITION_FILE, Page, PageKey, Pair, Plan, Planned, Render, Site
from pressroom.night.take import kind_of

__all__ = [
    "Fault",
    "complete_text",
    "house_of",
    "method",
    "pair_plan",
    "place_of",
    "planned",
    "ready_text",
    "version_of",
    "whole_plan",
]
FILE = "edition.toml"
DATE = re.compile(r"(?<!\d)\d{4}-\d{2}-\d{2}(?!\d)")
# The programs on whose versions a render depends.
RENDERERS = ("gs", "qpdf", "pdfinfo", "tiffcp")


@dataclass(frozen=True)
class Own:
    """What an edition's own file says; None where it doesn't."""

    date: str | None
    sections: Mapping[str, int] | None
    zones: Mapping[str, tuple[str, ...]] | None
    blank: tuple[str, ...] | None
    keys: Keys


def planned(house: NightHouse, text: str | None, name: str) -> Planned:
    """Returns the edition of a folder's name, with the text of its edition.toml or None.

    Raises Fault with file, line and key, and OSError where a program is missing.
    """
    with faults_in_a_line():
        own = own_of(house.house, text)
        date = date_of(house.house, own, name)
        sections = own.sections if own.sections is not None else house.house.sections
        pages = planned_pages(house.house, own, sections)
    sites = tuple(
        Site(site.name, site.press, site.zone or "", **vars(site.deadline)) for site in house.house.sites
    )
    dated = dated_house(house, date, sections)
    keys = {page.key for page in pages}
    program = program_sum()
    pairs = tuple(
        Pair(site.name, section, number, left, right, making(dated, site.press, section, number, program))
        for site in sites
        for section, count in sections.items()
        for number in range(1, count // 2 + 1)
        for left, right in [pair_pages(keys, site.zone, section, count, number)]
    )
    needed = {key for pair in pairs for key in (pair.left, pair.right)}
    return Planned(
        name=name,
        date=date,
        sections=dict(sections),
        pages=tuple(page for page in pages if page.key in needed),
        sites=sites,
        pairs=pairs,
        settings=settings(house.house),
        ask=house.night.approve,
        deliver="edition" if house.night.deliver == "edition" else "pair",
    )


# ---- the edition's own file


def own_of(house: House, text: str | None) -> Own:
    """Reads edition.toml; without a text it says nothing. Raises HouseFault."""
    if text is not None and len(text.encode("utf-8", "surrogatepass")) > EDITION_FILE:
        raise Fault(f"{FILE}: more than {EDITION_FILE} bytes")
    keys = read_text(text or "", FILE, "an edition's own file")
    values = keys.fill(EditionKeys)
    sections, zones = own_sections(keys), read_zones(keys, house.zones())
    has_sections, has_zones = "sections" in keys.table, "zones" in keys.table
    keys.end()
    keys.faults.end()
    return Own(
        values["date"],
        sections if has_sections else None,
        zones if has_zones else None,
        values["blank"],
        keys,
    )


def own_sections(keys: Keys) -> dict[str, int]:
    """Reads the table of sections: the page count of each."""
    inner = keys.inside("sections")
    if "sections" in keys.table and not 1 <= len(inner.table) <= MOST_SECTIONS:
        keys.faults.add(inner.path, "an edition has 1 to 8 sections, each `NAME = PAGES`")
    for name in inner.table:
        try:
            NAME.read(name)
        except Wrong as error:
            keys.faults.add((*inner.path, name), str(error))
    return {name: inner.take(name, OTHERS["sections.NAME"]) for name in inner.table}


def date_of(house: House, own: Own, name: str) -> str | None:
    """Returns the edition's date: its own, or that in its folder's name, or the house's."""
    named = [found for found in DATE.findall(name) if is_day(found)]
    if own.date and named and own.date not in named:
        own.keys.faults.stop(("date",), f"{own.date}, but the folder's name is {name}")
    return own.date or (named[0] if named else house.night.date)


def is_day(text: str) -> bool:
    """Returns whether a text is a date of the calendar."""
    try:
        return bool(DAY.read(text))
    except Wrong:
        return False


# ---- pages, sites and pairs


def planned_pages(house: House, own: Own, sections: Mapping[str, int]) -> list[Page]:
    """Returns the common pages and those of zones, in order. Pages of the house's lists that this edition is
    too short for are left out; in the edition's own lists they are a fault."""
    zones = house.zone_pages if own.zones is None else own.zones
    blank = {page_key(sections, text) for text in own.blank or ()}
    if own.blank is None:
        places = ((place.zone or "", place.section, place.page) for place in house.blank)
        blank = {PageKey(*place) for place in places if place[2] <= sections.get(place[1], 0)}
    see_own(own, sections, house)
    keys = [
        PageKey("", section, number) for section, count in sections.items() for number in range(1, count + 1)
    ]
    for zone, texts in zones.items():
        found = {page_key(sections, text) for text in texts}
        keys += sorted(
            (PageKey(zone, key.section, key.number) for key in found if key),
            key=lambda key: (list(sections).index(key.section), key.number),
        )
    keys += sorted(key for key in blank if key and key.zone and key not in keys)
    return [Page(*key, blank=key in blank) for key in keys]


def see_own(own: Own, sections: Mapping[str, int], house: House) -> None:
    """Raises the faults of pages in the edition's own lists that it doesn't have."""
    for text in own.blank or ():
        key = page_key(sections, text)
        if key is None or key.zone not in ("", *house.zones()):
            own.keys.faults.add(("blank",), f"{text!r} isn't a page of this edition")
    for zone, texts in (own.zones or {}).items():
        for text in texts:
            key = page_key(sections, text)
            if key is None or key.zone:
                own.keys.faults.add(("zones", zone), f"{text!r} isn't a page of this edition")
    own.keys.faults.end()


def page_key(sections: Mapping[str, int], text: str) -> PageKey | None:
    """Returns the place that `A01` or `west/A01` names, or None."""
    zone, _, rest = text.rpartition("/")
    for section in sorted(sections, key=len, reverse=True):
        found = re.fullmatch(re.escape(section) + r"0*([1-9][0-9]{0,2})", rest)
        if found and int(found[1]) <= sections[section]:
            return PageKey(zone, section, int(found[1]))
    return None


def pair_pages(
    keys: set[PageKey], zone: str, section: str, count: int, number: int
) -> tuple[PageKey, PageKey]:
    """Returns the left and the right page of a pair at a site of a zone: pages j and n + 1 - j, the even one
    on the left; the zone's own page where it is planned."""
    numbers = (number, count + 1 - number)
    left, right = numbers if numbers[0] % 2 == 0 else numbers[::-1]
    own = [PageKey(zone, section, page) for page in (left, right)]
    common = [PageKey("", section, page) for page in (left, right)]
    first, second = (mine if mine in keys else its for mine, its in zip(own, common))
    return first, second


def named(house: NightHouse, edition: Planned, name: bytes) -> tuple[PageKey | None, int]:
    """Returns the page and the version in a file's name, by its path below the edition's folder: None and 0 for a
    stray, 0 where the house's pattern has no version."""
    try:
        text = name.decode("utf-8")
    except UnicodeDecodeError:
        return None, 0
    zone, _, rest = text.rpartition("/")
    if kind_of(name) is None:
        return None, 0
    names = Names(replace(house.house, sections=edition.sections))
    found, version = names.read(os.path.splitext(rest)[0], zone or None)
    if found is None:
        return None, 0
    return PageKey(zone, found.section, found.page), version


def place_of(house: NightHouse, edition: Planned, name: bytes) -> PageKey | None:
    """Returns the planned page that a file is for, by its path below the edition's folder; None for a stray.

    A page that is planned blank takes no file.
    """
    key, _ = named(house, edition, name)
    return key if any(page.key == key and not page.blank for page in edition.pages) else None


def version_of(house: NightHouse, edition: Planned, name: bytes) -> int:
    """Returns the version in a file's name, by its path below the edition's folder; 0 if it has none."""
    return named(house, edition, name)[1]


def method(house: NightHouse, site: str) -> dict[str, Any] | None:
    """Returns what a job needs to reach a site; None for a site that isn't delivered to."""
    found = house.targets.get(site)
    return dict(found) if found else None


# ---- plans


def pair_plan(
    house: NightHouse, edition: Planned, pair: Pair, left: Render | None, right: Render | None
) -> tuple[Plan, Plan]:
    """Returns the blank plan and the plan of a pair; a page without a render is blank."""
    return pair_plans.pair_plan(
        dated_house(house, edition.date, edition.sections), edition, pair, left, right
    )


def whole_plan(house: NightHouse, edition: Planned, site: str, renders: Mapping[PageKey, Render]) -> Plan:
    """Returns the plan of all pairs of a site; `renders` has each page that isn't planned blank."""
    return pair_plans.whole_plan(dated_house(house, edition.date, edition.sections), edition, site, renders)


# ---- identities


def dated_house(house: NightHouse, date: str | None, sections: Mapping[str, int]) -> House:
    """Returns the house of one edition: with its date in the plans' edition, and its sections."""
    if "{date}" in house.house.edition and date is None:
        raise Fault("house.toml: edition: it has {date}, and the edition has no date")
    edition = house.house.edition.replace("{date}", (date or "").replace("-", ""))
    return replace(house.house, edition=edition, sections=dict(sections))


def making(house: House, press: str, section: str, number: int, program: str) -> str:
    """Returns the sum of all that a pair's plates depend on besides its pages."""
    plan = pair_plans.frame(house, press)
    return sum_of([plan, section, house.sections[section], number, program, __version__])


def settings(house: House) -> str:
    """Returns the sum of all that a render depends on besides its page. What the second opinion found is kept with the
    render, so its program counts where the house asks for it."""
    is_asked = house.check.second != "off" and shutil.which(SECOND)
    found: str = state.settings(house, versions() + (version(SECOND) if is_asked else ""))
    return found


def versions() -> str:
    """Returns what the programs that render pages say of their versions; raises OSError if one is missing."""
    return "\n".join(map(version, RENDERERS))


@functools.cache
def version(program: str) -> str:
    """Returns what a program says of its version; raises OSError if it is missing."""
    words = [program, "--version"] if program in ("gs", "qpdf") else [program, "-v"]
    answer = subprocess.run(words, stdin=subprocess.DEVNULL, capture_output=True, check=False)
    return (answer.stdout or answer.stderr).decode("utf-8", "replace")


def program_sum() -> str:
    """Returns the SHA-256 of plateroom itself; raises OSError if it is missing."""
    program = shutil.which(os.environ.get("PLATEROOM") or "plateroom")
    if program is None:
        raise FileNotFoundError(2, "isn't installed", "plateroom")
    with open(program, "rb") as file:
        return hashlib.file_digest(file, "sha256").hexdigest()


def sum_of(value: Any) -> str:
    """Returns the SHA-256 of a value's JSON."""
    return hashlib.sha256(json.dumps(value, sort_keys=True).encode()).hexdigest()
