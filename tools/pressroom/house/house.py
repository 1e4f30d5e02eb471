"""Reads the house file, a TOML file with what a newspaper's editions have in common, and tests every key.

`read_house(path)` returns a House; `house_of` that of keys that were read before. What belongs to proofs alone is read
by `read_proof`. Faults are raised as HouseFault, whose lines each name the file, the line and the key. This is the only
reader of TOML: `read_text` gives the keys of any file of TOML.
"""
import dataclasses
import datetime
import os
import re
import tomllib
from typing import Any

from pressroom.base.files import Unreadable, read_file
from pressroom.house import tile
from pressroom.house.forms import NAME, Form, Wrong, cmyk_profile, one_of, wrong
from pressroom.house.house_keys import REQUIRED, Faults, HouseFault, Key, Keys, Path, keys_of
from pressroom.house.records import (
    INKS,
    LARGEST_TILE,
    LIMIT,
    MOST_MARKS,
    MOST_SECTIONS,
    MOST_SITES,
    OTHERS,
    ZONE,
    Check,
    Colour,
    Deadline,
    Delivery,
    House,
    InkKeys,
    Mark,
    Night,
    Place,
    Press,
    Screen,
    Sheet,
    Site,
    Spot,
)
from pressroom.house.toml_lines import KeyLines

__all__ = ["INKS", "LARGEST_TILE", "House", "HouseFault", "Place", "read_house", "read_proof"]
# The press of sites that name none, if the file describes no press.
ONE_PRESS = "plan"
MOST_BYTES = 1 << 18
# A key of so many parts has no use, and tomllib takes time by the square of their number.
MANY_PARTS = re.compile(r"""(?<![\w-])(?:(?:[\w-]+|"[^"\n]*"|'[^'\n]*')[ \t]*\.[ \t]*){32}""")


def read_keys(path: str, kind: str = "a house file") -> Keys:
    """Returns the keys of a TOML file. Raises HouseFault if it can't be read or isn't TOML."""
    try:
        return read_text(read_file(path, MOST_BYTES).decode("utf-8"), path, kind)
    except Unreadable as error:
        raise HouseFault([str(error)]) from None
    except UnicodeDecodeError as error:
        line = error.object.count(b"\n", 0, error.start) + 1
        raise HouseFault([f"{path} line {line}: not UTF-8"]) from None


def read_text(text: str, path: str, kind: str = "a house file") -> Keys:
    """Returns the keys of a text in TOML; `path` and `kind` are the file in faults. Raises HouseFault."""
    if len(text) > MOST_BYTES:
        raise HouseFault([f"{path}: more than {MOST_BYTES} characters"])
    if MANY_PARTS.search(text):
        raise HouseFault([f"{path}: not TOML: a key of more than 32 parts"])
    try:
        tables = tomllib.loads(text)
        lines = KeyLines(text.replace("\r\n", "\n"))
    except RecursionError:
        raise HouseFault([f"{path}: not TOML: too many levels"]) from None
    except tomllib.TOMLDecodeError as error:
        raise HouseFault([f"{path}: not TOML: {error}"]) from None
    except ValueError:
        raise HouseFault([f"{path}: not TOML: a number of too many digits"]) from None
    return Keys(tables, (), Faults(path, lines, kind))


def read_house(path: str) -> House:
    """Reads the house file at this path."""
    house = house_of(read_keys(path))
    today = datetime.date.today().strftime("%Y%m%d")
    return dataclasses.replace(house, edition=house.edition.replace("{date}", today))


def house_of(keys: Keys, profile: str | None = None) -> House:
    """Returns the house of these keys, whose edition has {date} as the file has it. `profile`, if given, is where the
    file is that colour.profile names. Raises HouseFault."""
    house = Reading(keys, profile).house()
    keys.faults.end()
    assert house is not None
    return house


def read_proof(path: str) -> tuple[str | None, tuple[int, int, int] | None, InkKeys | None]:
    """Returns what a proof takes: the spot's name and its colour, each None if absent, and the ink keys."""
    keys = read_keys(path)
    spot = keys.inside("spot")
    own = {
        name: spot.take(name, dataclasses.replace(declared, default=None))
        for name, declared in keys_of(Spot).items()
    }
    ink_keys = keys.inside("keys").whole(InkKeys) if keys.table.get("keys", {}) != {} else None
    keys.faults.end()
    first = own["names"][0] if own["names"] else None
    return own["separation"] or first, own["colour"], ink_keys


class Reading:
    """Reads the tables of a house file. `profile`, if given, is where its profile is."""

    def __init__(self, keys: Keys, profile: str | None = None) -> None:
        self.path, self.keys, self.faults, self.profile = keys.faults.path, keys, keys.faults, profile

    def house(self) -> House | None:
        """Returns the house, or None if there are faults."""
        keys = self.keys
        sheet = keys.fill(Sheet)
        sections = self.sections()
        colour = self.colour()
        checked = keys.inside("check").whole(Check)
        spot = self.spot() if "spot" in keys.table else None
        presses = self.presses(sheet["dpi"])
        sites = self.sites(presses)
        if keys.inside("keys").table:
            keys.inside("keys").whole(InkKeys)
        night, zones = keys.inside("night").whole(Night), self.zones(sites)
        delivery, targets = self.delivery(sites)
        house = None
        if not self.faults.found:
            assert checked and night
            house = self.with_blanks(
                House(
                    **sheet,
                    **colour,
                    check=checked,
                    night=night,
                    delivery=delivery,
                    zone_pages=zones,
                    targets=targets,
                    path=self.path,
                    sections=sections,
                    spot=spot,
                    sites=sites,
                    presses=presses,
                )
            )
            self.see_sizes(house)
        keys.see("blank")
        keys.end()
        return house

    def sections(self) -> dict[str, int]:
        """Reads the page counts of the sections, by name, in the file's order."""
        keys = self.keys.inside("sections")
        if not 1 <= len(keys.table) <= MOST_SECTIONS:
            self.faults.add(keys.path, "a house has 1 to 8 sections, each `NAME = PAGES`")
        return {self.name(keys, name): keys.take(name, OTHERS["sections.NAME"]) for name in keys.table}

    def name(self, keys: Keys, name: str) -> str:
        """Tests a name that the house gives to a table or key, and returns it."""
        try:
            return NAME.read(name)
        except Wrong as error:
            self.faults.add(keys.path + (name,), str(error))
            return name

    def colour(self) -> dict[str, Any]:
        """Reads how RGB and separations other than the house's spot are treated."""
        keys = self.keys.inside("colour")
        found, folder = keys.fill(Colour), os.path.dirname(os.path.abspath(self.path))
        if found["profile"] is not None:
            try:
                found["profile"] = cmyk_profile(self.profile or os.path.join(folder, found["profile"]))
            except Wrong as error:
                self.faults.add(keys.path + ("profile",), str(error))
        elif found["rgb"] == "convert" and "profile" not in keys.table:
            self.faults.add(keys.path, "is missing", "profile")
        keys.end()
        return found

    def spot(self) -> Spot | None:
        """Reads the house's spot. Its first name is its separation, where the file has no other."""
        keys, declared = self.keys.inside("spot"), keys_of(Spot)
        names = keys.take("names", declared["names"])
        first = names[0] if names else None if "names" in keys.table else REQUIRED
        separation = keys.take("separation", dataclasses.replace(declared["separation"], default=first))
        colour, aliases = keys.take("colour", declared["colour"]), keys.take("aliases", declared["aliases"])
        keys.end()
        if not (separation and colour) or aliases is None:
            return None
        return Spot(separation=separation, colour=colour, names=(separation, *(names or ())), aliases=aliases)

    def tone(self, keys: Keys, dpi: int | None, base: dict[str, Any]) -> dict[str, Any]:
        """Reads the limit, screens, curves and marks of a table. The base provides what the table lacks."""
        limit = keys.take("limit", Key(LIMIT.form, LIMIT.text, base["limit"]))
        screens, curves = keys.inside("screens"), keys.inside("curves")
        found = {
            "limit": limit,
            "screens": base["screens"]
            | {ink: self.screen(screens, ink, dpi) for ink in INKS if ink in screens.table},
            "curves": base["curves"]
            | {ink: curves.take(ink, OTHERS["curves.INK"]) for ink in INKS if ink in curves.table},
            "marks": base["marks"],
        }
        screens.end()
        curves.end()
        if "marks" in keys.table:
            found["marks"] = tuple(mark.whole(Mark) for mark in keys.each("marks"))
            if len(found["marks"]) > MOST_MARKS:
                self.faults.add(keys.path + ("marks",), "a press has at most 64 marks")
        return found

    def screen(self, keys: Keys, ink: str, dpi: int | None) -> Screen | None:
        """Reads a screen: a name, or an angle and a ruling for which a tile is near enough."""
        if not isinstance(keys.table[ink], dict):
            return Screen(name=keys.take(ink, OTHERS["screens.INK"]) or "", angle=0, ruling=0)
        inner = keys.inside(ink)
        screen = inner.whole(Screen)
        if screen is None or dpi is None:
            return None
        grid = tile.nearest(screen.angle, screen.ruling, dpi, LARGEST_TILE)[0]
        if not tile.is_near(grid, screen.angle, screen.ruling, dpi):
            near = f"no tile is near enough at {dpi} dpi; the nearest has {grid.line(dpi)}"
            self.faults.add(inner.path, near)
        return screen

    def presses(self, dpi: int | None) -> dict[str, Press]:
        """Reads the presses. Each inherits the house's settings that it doesn't override."""
        base = {"limit": LIMIT.default, "screens": {}, "curves": {}, "marks": ()}
        common = self.tone(self.keys, dpi, base)
        tables = self.keys.inside("press")
        if not tables.table:
            return {ONE_PRESS: Press(ONE_PRESS, **common)}
        presses = {}
        for name in tables.table:
            keys = tables.inside(name)
            presses[name] = Press(self.name(tables, name), **self.tone(keys, dpi, common))
            keys.end()
        return presses

    def sites(self, presses: dict[str, Press]) -> tuple[Site, ...]:
        """Reads the sites in the file's order."""
        tables, sites = self.keys.inside("sites"), []
        if not 1 <= len(tables.table) <= MOST_SITES:
            self.faults.add(tables.path, "a house has 1 to 16 sites, each a table `[sites.NAME]`")
        known: Form[str] = one_of(*presses)
        press = Key(known, "", next(iter(presses)) if len(presses) == 1 else REQUIRED)
        for name in tables.table:
            keys = tables.inside(name)
            own, zone, deadline = keys.take("press", press), keys.take("zone", ZONE), keys.fill(Deadline)
            sites.append(Site(self.name(tables, name), own, zone, Deadline(**deadline)))
            keys.end()
        for unused in set(presses) - {site.press for site in sites}:
            if self.keys.table.get("press"):
                self.faults.add(("press", unused), "no site uses this press")
        return tuple(sites)

    def zones(self, sites: tuple[Site, ...]) -> dict[str, tuple[str, ...]]:
        """Reads the pages that zones have of their own. Each zone is that of a site."""
        return read_zones(self.keys, list(dict.fromkeys(site.zone for site in sites if site.zone)))

    def delivery(self, sites: tuple[Site, ...]) -> tuple[Delivery, dict[str, str]]:
        """Reads what ways to sites have in common, and the target of each site that has one."""
        keys, known = self.keys.inside("delivery"), [site.name for site in sites]
        common, inner = Delivery(**keys.fill(Delivery)), keys.inside("sites")
        for name in inner.table:
            if name not in known:
                self.faults.add(
                    inner.path + (name,), f"isn't a site of this house; they are {', '.join(known)}"
                )
        targets = {name: inner.take(name, OTHERS["delivery.sites.NAME"]) for name in inner.table}
        keys.end()
        return common, targets

    def with_blanks(self, house: House) -> House:
        """Returns the house with the places of its list `blank`."""
        items, places = self.keys.take("blank", OTHERS["blank"]) or (), set()
        for item in items:
            place = house.place_of(item)
            if place is None or place.zone not in [None, *house.zones()]:
                self.faults.add(("blank",), str(wrong(item, "a page of this house")))
            else:
                places.add(place)
        return dataclasses.replace(house, blank=frozenset(places))

    def see_sizes(self, house: House) -> None:
        """Tests that a plan accepts the sizes of pages, plates and marks."""
        width, height = house.plate_pixels()
        if min(house.page_pixels()) < 1 or max(width, height) > 65535:
            words = f"a plate would be {width} by {height} pixels; each side is limited to 65535"
            self.faults.add(("trim",), words)
        for press in house.presses.values():
            own = "marks" in self.keys.table.get("press", {}).get(press.name, {})
            for number, mark in enumerate(press.marks):
                (x, y), (wide, high) = mark.at, mark.size
                if house.pixels(x + wide) > width or house.pixels(y + high) > height:
                    at: Path = ("press", press.name) if own else ()
                    words = f"leaves the plate, which is {width * 25.4 / house.dpi:.1f} mm wide and "
                    self.faults.add(
                        at + ("marks", number), words + f"{height * 25.4 / house.dpi:.1f} mm high"
                    )


def read_zones(keys: Keys, zones: list[str]) -> dict[str, tuple[str, ...]]:
    """Reads the table `zones`: the pages that each of these zones has of its own."""
    inner = keys.inside("zones")
    for zone in inner.table:
        if zone not in zones:
            inner.faults.add(
                inner.path + (zone,), f"no site has this zone; they are {', '.join(zones) or 'none'}"
            )
    return {zone: inner.take(zone, OTHERS["zones.NAME"]) for zone in inner.table}
