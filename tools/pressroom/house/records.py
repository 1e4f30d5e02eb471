"""The keys of a house file, as the dataclasses that hold them: type, what is accepted, meaning and default.

Lengths are millimetres, limits and curves percent. `rows` lists all keys of the house file, for documents.
`EditionKeys` are those of an edition's own file.
"""
import re
from collections.abc import Iterator
from dataclasses import dataclass, field

from pressroom.house import tile
from pressroom.house.forms import (
    ALIASES,
    NAMES,
    COLOUR,
    CURVE,
    DAY,
    EDITION,
    INK_LETTERS,
    LENGTH,
    NAME,
    PATTERN,
    PERCENT,
    SEPARATION,
    TARGET,
    TIME,
    TRUTH,
    listed,
    matching,
    number,
    numbers,
    one_of,
    whole,
)
from pressroom.house.house_keys import REQUIRED, Key, key, key as own_key, keys_of

INKS = "CMYKS"
NAMED_SCREENS = ("bayer2", "bayer4", "bayer8", "bayer16", "diffuse")
LARGEST_TILE = 64
SECONDS = number(0, 86400, "a number of seconds, 0 to 86400")
ABSOLUTE = matching(r"/[^\x00-\x1f]*", "an absolute path")
PLACES_WORDS = 'a list of pages such as "A10" or "west/A10"'
PLACES = listed(matching(".*", PLACES_WORDS), PLACES_WORDS, range(4096))
MOST_MARKS, MOST_SECTIONS, MOST_SITES = 64, 8, 16


@dataclass(frozen=True)
class Place:
    """A page's place: a zone or None, a section, and a number from 1."""

    zone: str | None
    section: str
    page: int

    def __str__(self) -> str:
        return (f"{self.zone}/" if self.zone else "") + f"{self.section}{self.page:02}"


@dataclass(frozen=True, kw_only=True)
class Screen:
    """A screen that plateroom has by name, or a tile of clustered dots by angle, ruling and dot."""

    name: str = ""
    angle: float = key(number(0, 89.999, "an angle of 0 to below 90 degrees"), "degrees, clockwise")
    ruling: float = key(number(1, 4000, "a ruling of 1 to 4000 lines an inch"), "lines an inch")
    dot: str = key(one_of(*sorted(tile.DOTS)), "the form of the dots", "round")


@dataclass(frozen=True, kw_only=True)
class Mark:
    """A solid rectangle of the plate, from its upper left corner."""

    inks: str = key(INK_LETTERS, "the inks that print it")
    at: tuple[float, float] = key(numbers(2, 0, 5000, "two lengths of 0 to 5000 mm"), "[x, y] on the plate")
    size: tuple[float, float] = key(
        numbers(2, 0.001, 5000, "a width and a height above 0, up to 5000 mm"), "[width, height]"
    )


@dataclass(frozen=True)
class Press:
    """The settings of one press: limit, screens by ink, curves by ink, and marks."""

    name: str
    limit: float
    screens: dict[str, Screen]
    curves: dict[str, tuple[tuple[float, ...], ...]]
    marks: tuple[Mark, ...]


@dataclass(frozen=True, kw_only=True)
class Deadline:
    """When a site's press starts, and what the night takes into account before that."""

    press_start: str | None = key(TIME, "when the site's press starts", None)
    lead: float = key(
        number(0, 1440, "a number of minutes, 0 to 1440"), "minutes from the last plate to that", 0.0
    )
    plate_seconds: float = key(
        number(0, 3600, "a number of seconds, 0 to 3600"), "seconds for a plate at the site", 0.0
    )


@dataclass(frozen=True)
class Site:
    """A print site, its press, its zone or None, and its deadline."""

    name: str
    press: str
    zone: str | None
    deadline: Deadline


@dataclass(frozen=True, kw_only=True)
class Spot:
    """The separation that is printed as S, its colour on paper as red, green and blue of 0 to 255, the names that it
    has in PDFs, and pairs of a separation's name in PDFs and the separation that it means."""

    separation: str = key(
        SEPARATION, "the separation that is printed as S; the first of its names if it has some"
    )
    colour: tuple[int, int, int] = key(COLOUR, "its colour on paper")
    names: tuple[str, ...] = key(NAMES, "the names that it has in PDFs", ())
    aliases: tuple[tuple[str, str], ...] = key(ALIASES, "what the names of other separations mean", ())


@dataclass(frozen=True, kw_only=True)
class Sheet:
    """The edition, the resolution, the sizes and the pattern of file names."""

    edition: str = key(
        EDITION, "the plans' edition; {date} is the day of the call, of the night's edition, such as 20261203"
    )
    dpi: int = key(
        whole(1, 10000, "a whole number of 1 to 10000 pixels an inch"), "pixels an inch of the plates"
    )
    trim: tuple[float, float] = key(
        numbers(2, 1, 5000, "a width and a height of 1 to 5000 mm"), "width and height of a page"
    )
    margins: tuple[float, float, float, float] = key(
        numbers(4, 0, 5000, "four lengths of 0 to 5000 mm: left, top, right, bottom"),
        "left, top, right, bottom of a plate",
        (0, 0, 0, 0),
    )
    gutter: float = key(LENGTH, "between the pages of a plate", 0)
    tolerance: float = key(number(0, 50, "a length of 0 to 50 mm"), "how much a page's trim may differ", 0.5)
    names: str = key(PATTERN, "pattern of file names without their ending", "{section}{page}")


@dataclass(frozen=True, kw_only=True)
class Colour:
    """How RGB and separations other than the house's spot are treated."""

    rgb: str = key(one_of("refuse", "convert"), "what becomes of RGB", "refuse")
    profile: str | None = key(
        matching(r"[^\x00-\x1f]+", "the path of an ICC profile"),
        "path of a CMYK ICC profile, from the house file's folder; required to convert RGB",
        None,
    )
    spots: str = key(one_of("refuse", "mix"), "separations other than the house's", "refuse")
    overprint_black: bool = key(TRUTH, "whether black text and strokes overprint", False)


@dataclass(frozen=True, kw_only=True)
class Check:
    """What intake tests of a page besides what it refuses, `[check]`."""

    second: str = key(
        one_of("note", "fault", "off"), "what becomes of a difference from a second rendering", "note"
    )
    ppi: float = key(
        number(0, 5000, "a resolution of 0 to 5000 pixels an inch"),
        "the least pixels an inch of a picture as it is placed; 0 for any",
        0,
    )


@dataclass(frozen=True, kw_only=True)
class InkKeys:
    """The ink keys of the presses, `[keys]`."""

    width: float = key(number(0.1, 5000, "a length of 0.1 to 5000 mm"), "the width of an ink key")
    offset: float = key(
        number(-5000, 5000, "a length of -5000 to 5000 mm"), "where the first begins, from the left edge", 0
    )


@dataclass(frozen=True, kw_only=True)
class Night:
    """How the night's service treats an edition, `[night]`."""

    approve: bool = key(TRUTH, "whether each page waits for a person's approval", False)
    date: str | None = key(DAY, "the date of editions that have none", None)
    deliver: str = key(one_of("pair", "edition"), "what leaves together", "pair")
    alert: float = key(SECONDS, "seconds of waiting after which the service reports", 300.0)
    settle: float = key(
        number(0.1, 3600, "a number of seconds, 0.1 to 3600"), "seconds in which a file is unchanged", 2.0
    )
    least_free: float = key(
        number(0, 10**9, "a number of megabytes"),
        "megabytes of the spool's disk below which it warns",
        2000.0,
    )
    keep: int = key(whole(1, 1000), "how many closed editions are kept", 14)
    metrics: str | None = key(ABSOLUTE, "the absolute path of a file of gauges", None)


@dataclass(frozen=True, kw_only=True)
class Delivery:
    """What ways to sites have in common, `[delivery]`."""

    port: int | None = own_key(whole(1, 65535, "a port, 1 to 65535"), "ssh's port", None)
    key: str | None = own_key(
        matching(r"/[^\x00-\x1f]*", "the absolute path of a private key of ssh"), "ssh's private key", None
    )
    bandwidth: int | None = own_key(whole(1, 10**7, "a whole number of KB a second"), "KB a second", None)
    timeout: float = own_key(
        number(1, 3000, "a number of seconds, 1 to 3000"), "seconds after which a call is given up", 900.0
    )


@dataclass(frozen=True, kw_only=True)
class House(Sheet, Colour):
    """A house file that passed all tests. `zone_pages` has the pages of each zone as the file lists them, `targets`
    the target of each site that is delivered to."""

    path: str
    sections: dict[str, int]
    check: Check
    night: Night
    delivery: Delivery
    zone_pages: dict[str, tuple[str, ...]]
    targets: dict[str, str]
    blank: frozenset[Place] = field(default_factory=frozenset)
    spot: Spot | None
    sites: tuple[Site, ...]
    presses: dict[str, Press]

    def pixels(self, length: float) -> int:
        """Returns a length in millimetres as whole pixels of a plate."""
        return round(length * self.dpi / 25.4)

    def page_pixels(self) -> tuple[int, int]:
        """Returns the width and height of a page in pixels."""
        return self.pixels(self.trim[0]), self.pixels(self.trim[1])

    def plate_pixels(self) -> tuple[int, int]:
        """Returns the width and height of a plate in pixels."""
        (width, height), (left, top, right, bottom) = self.page_pixels(), map(self.pixels, self.margins)
        return left + 2 * width + self.pixels(self.gutter) + right, top + height + bottom

    def zones(self) -> list[str]:
        """Returns the zones of all sites, each once."""
        return list(dict.fromkeys(site.zone for site in self.sites if site.zone))

    def place_of(self, text: str) -> Place | None:
        """Returns the place that `A01` or `west/A01` names, or None."""
        zone, _, rest = text.rpartition("/")
        for section in sorted(self.sections, key=len, reverse=True):
            number = re.fullmatch(re.escape(section) + r"0*([1-9][0-9]{0,2})", rest)
            if number and int(number[1]) <= self.sections[section]:
                return Place(zone or None, section, int(number[1]))
        return None


@dataclass(frozen=True, kw_only=True)
class EditionKeys:
    """The keys of an edition's own file, edition.toml, besides its tables of sections and zones. A key that is absent
    is the house's."""

    date: str | None = key(DAY, "the edition's date", None)
    blank: tuple[str, ...] | None = key(PLACES, "pages that have no file", None)


PAGES = whole(2, 128, "an even number of pages, 2 to 128", step=2)
SCREEN = matching(
    "|".join(NAMED_SCREENS), "one of " + ", ".join(NAMED_SCREENS) + " or { angle = A, ruling = R }"
)
LIMIT = Key(PERCENT, "ink limit", 400)
ZONE = Key(NAME, "the site's zone", None)
# The keys whose names a house chooses, and those that need others to be read.
OTHERS = {
    "blank": Key(PLACES, "pages that have no file", ()),
    "limit": LIMIT,
    "sections.NAME": Key(PAGES, "pages of a section"),
    "screens.INK": Key(SCREEN, "the screen of an ink, by name", "bayer8"),
    "curves.INK": Key(CURVE, "the curve of an ink: points [percent, percent]", None),
    "sites.NAME.press": Key(NAME, "the site's press, if there are several", None),
    "sites.NAME.zone": ZONE,
    "zones.NAME": Key(PLACES, "the pages that a zone has of its own"),
    "delivery.sites.NAME": Key(TARGET, "the way to a site"),
}
TABLES: dict[str, type] = {
    "": Sheet,
    "colour": Colour,
    "check": Check,
    "spot": Spot,
    "screens.INK": Screen,
    "marks": Mark,
    "keys": InkKeys,
    "night": Night,
    "delivery": Delivery,
    "sites.NAME": Deadline,
}
# What one press has of its own, in a table [press.NAME].
OF_A_PRESS = ("limit", "screens.INK", "curves.INK", "marks")


def rows() -> Iterator[tuple[str, str, str, str]]:
    """Yields each key: its name with its table, what it accepts, its default as TOML has it, and its meaning."""
    for name, declared in sorted(OTHERS.items() | every_key()):
        yield name, declared.form.words, shown(declared.default), declared.text


def every_key() -> set[tuple[str, Key]]:
    """Returns the keys that the dataclasses declare, with the names of their tables."""
    return {
        (f"{table}.{name}" if table else name, declared)
        for table, keys in TABLES.items()
        for name, declared in keys_of(keys).items()
    }


def shown(default: object) -> str:
    """Returns a default as a house file has it."""
    if default is REQUIRED:
        return "required"
    if default is None or default == ():
        return "none"
    if isinstance(default, bool):
        return "true" if default else "false"
    if isinstance(default, tuple):
        return str(list(default))
    return f'"{default}"' if isinstance(default, str) else str(default)
