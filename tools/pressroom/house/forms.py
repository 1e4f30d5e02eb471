"""What the keys of a house file accept. A form reads a value of TOML and returns it as the house keeps it, or
raises Wrong, whose text has the value and says what the key accepts."""
import datetime
import re
from collections.abc import Callable
from dataclasses import dataclass
from typing import Generic, TypeVar

from pressroom.base.files import Unreadable, read_file

T = TypeVar("T")


class Wrong(Exception):
    """A value that its key doesn't accept."""


def wrong(value: object, words: str) -> Wrong:
    """Returns the fault of this value, which is shown shortened."""
    shown = repr(value)
    return Wrong(f"{shown if len(shown) <= 60 else shown[:57] + '...'} isn't {words}")


@dataclass(frozen=True)
class Form(Generic[T]):
    """What a key accepts, in words, and the function that reads it."""

    words: str
    read: Callable[[object], T]


def number(least: float, most: float, words: str = "") -> Form[float]:
    """Returns the form of numbers in this range."""
    words = words or f"a number of {least} to {most}"

    def read(value: object) -> float:
        if isinstance(value, bool) or not isinstance(value, (int, float)) or not least <= value <= most:
            raise wrong(value, words)
        return value

    return Form(words, read)


def whole(least: int, most: int, words: str = "", step: int = 1) -> Form[int]:
    """Returns the form of whole numbers in this range that `step` divides."""
    words = words or f"a whole number of {least} to {most}"

    def read(value: object) -> int:
        if (
            isinstance(value, bool)
            or not isinstance(value, int)
            or not least <= value <= most
            or value % step
        ):
            raise wrong(value, words)
        return value

    return Form(words, read)


def matching(pattern: str, words: str) -> Form[str]:
    """Returns the form of texts that this pattern matches whole."""

    def read(value: object) -> str:
        if not isinstance(value, str) or not re.fullmatch(pattern, value):
            raise wrong(value, words)
        return value

    return Form(words, read)


def one_of(*names: str) -> Form[str]:
    """Returns the form of these texts."""
    return matching("|".join(map(re.escape, names)), " or ".join(map(repr, names)))


def listed(each: Form[T], words: str, counts: range) -> Form[tuple[T, ...]]:
    """Returns the form of lists with so many items of one form."""

    def read(value: object) -> tuple[T, ...]:
        if not isinstance(value, list) or len(value) not in counts:
            raise wrong(value, words)
        return tuple(each.read(item) for item in value)

    return Form(words, read)


def numbers(count: int, least: float, most: float, words: str) -> Form[tuple[float, ...]]:
    """Returns the form of lists with so many numbers in this range."""
    return listed(number(least, most, words), words, range(count, count + 1))


def read_truth(value: object) -> bool:
    """Reads true or false."""
    if not isinstance(value, bool):
        raise wrong(value, TRUTH.words)
    return value


def read_day(value: object) -> str:
    """Reads a date of the calendar, as TOML's own or as text, and returns it as 2026-12-03."""
    if isinstance(value, datetime.date) and not isinstance(value, datetime.datetime):
        return value.isoformat()
    try:
        return datetime.date.fromisoformat(DAY_TEXT.read(value)).isoformat()
    except ValueError:
        raise wrong(value, DAY_TEXT.words) from None


def read_colour(value: object) -> tuple[int, int, int]:
    """Reads a colour such as #d4002a as its red, green and blue of 0 to 255."""
    red, green, blue = bytes.fromhex(COLOUR_TEXT.read(value)[1:])
    return red, green, blue


def read_pattern(value: object) -> str:
    """Reads a pattern of file names: {section}, {page}, at most one {version}, * for anything, and text."""
    if not isinstance(value, str) or value.count("{version}") > 1:
        raise wrong(value, PATTERN.words)
    rest = value.replace("{version}", "")
    if any(rest.count(part) != 1 for part in ("{section}", "{page}")):
        raise wrong(value, PATTERN.words)
    if re.search(r"[{}/\x00-\x1f]", rest.replace("{section}", "").replace("{page}", "")):
        raise wrong(value, PATTERN.words)
    return value


def read_aliases(value: object) -> tuple[tuple[str, str], ...]:
    """Reads a table of names of separations, each with the name of the separation that it means."""
    if not isinstance(value, dict) or len(value) > 256:
        raise wrong(value, ALIASES.words)
    return tuple((SEPARATION.read(name), SEPARATION.read(meant)) for name, meant in value.items())


def read_curve(value: object) -> tuple[tuple[float, ...], ...]:
    """Reads a curve: points of percent and percent, each to the right of the one before, also in 255ths."""
    points = CURVE_POINTS.read(value)
    levels = [round(point[0] * 255 / 100) for point in points]
    if levels[0] != 0 or levels[-1] != 255 or any(a >= b for a, b in zip(levels, levels[1:])):
        raise wrong(value, CURVE_POINTS.words)
    return points


def cmyk_profile(path: str) -> str:
    """Tests that a path leads to a CMYK ICC profile (ICC.1, header), and returns it."""
    try:
        head = read_file(path, 1 << 26)[:40]
    except Unreadable as error:
        raise Wrong(f"{path} can't be read: {error.why}") from None
    if head[36:40] != b"acsp" or head[16:20] != b"CMYK":
        raise wrong(path, "an ICC profile of CMYK")
    return path


NAME = matching(r"[A-Za-z0-9_]{1,16}", "a name of 1 to 16 letters A to Z and a to z, digits and _")
EDITION = matching(
    r"[A-Za-z0-9_]{1,16}|(?=.{6,14}$)[A-Za-z0-9_]*\{date\}[A-Za-z0-9_]*",
    "a name of 1 to 16 letters A to Z and a to z, digits and _, in which {date} stands for eight digits",
)
DAY_TEXT = matching(r"\d{4}-\d\d-\d\d", "a date, such as 2026-12-03")
DAY = Form(DAY_TEXT.words, read_day)
TIME = matching(r"([01]\d|2[0-3]):[0-5]\d", 'a time, such as "23:30"')
TARGET = matching(
    r"[^-\x00-\x1f\x7f][^\x00-\x1f\x7f]{0,999}", 'a target, such as "oslo.example:plates" or "/mnt/oslo"'
)
LENGTH = number(0, 5000, "a length of 0 to 5000 mm")
PERCENT = number(0, 400, "a limit of 0 to 400 percent")
TRUTH = Form("true or false", read_truth)
COLOUR_TEXT = matching(r"#[0-9A-Fa-f]{6}", 'a colour such as "#d4002a"')
COLOUR = Form(COLOUR_TEXT.words, read_colour)
SEPARATION = matching(r"[^\x00-\x1f]{1,60}", "the name of a separation, of 1 to 60 characters")
INK_LETTERS = matching("(?=.)C?M?Y?K?S?", "some of the letters CMYKS, in this order")
PATTERN = Form('a pattern of file names with {section} and {page}, such as "{section}{page}"', read_pattern)
NAMES = listed(SEPARATION, "a list of 1 to 32 names of separations", range(1, 33))
ALIASES = Form("a table of at most 256 names of separations", read_aliases)
CURVE_POINTS = listed(
    numbers(2, 0, 100, "a point of two numbers of 0 to 100 percent"),
    "a list of 2 to 32 points [percent, percent] from 0 to 100, each to the right of the one before",
    range(2, 33),
)
CURVE = Form(CURVE_POINTS.words, read_curve)
