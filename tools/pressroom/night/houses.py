"""House files by their rows, and editions as the journal has them planned."""
import errno
import json
import os
from collections.abc import Callable
from typing import Any, Protocol

from pressroom.night.book import Book
from pressroom.night.records import PageKey, Page, Pair, Plan, Planned, Render, Site


class Unreadable(OSError):
    """A house file was good and isn't any more, such as one whose profile is gone: this machine's fault."""


class Editions(Protocol):
    """What edition.py says of houses and editions: the tests have one of their own."""

    house_of: Callable[..., Any]
    planned: Callable[..., Planned]
    place_of: Callable[..., PageKey | None]
    version_of: Callable[..., int]
    pair_plan: Callable[..., tuple[Plan, Plan]]
    whole_plan: Callable[..., Plan]
    method: Callable[..., dict[str, Any] | None]

    @property
    def Fault(self) -> type[Exception]:
        ...


class Houses:
    """House files, parsed once each. `file` is the path of the house file, for faults and a relative profile."""

    def __init__(self, book: Book, editions: Editions, file: str):
        self.book, self.editions, self.file = book, editions, file
        self.parsed: dict[int, Any] = {}

    def text(self, house: int) -> str:
        """Returns the text of a house file."""
        return str(self.book.journal.value("SELECT text FROM house WHERE id = ?", house))

    def get(self, house: int) -> Any:
        """Returns a house file that was in force, parsed; raises Unreadable where what it names is gone."""
        if house not in self.parsed:
            try:
                self.parsed[house] = self.editions.house_of(self.text(house), self.file)
            except self.editions.Fault as error:
                raise Unreadable(
                    errno.EINVAL, f"the house file in force can't be read any more: {error}"
                ) from None
        return self.parsed[house]

    def of(self, edition: int) -> Any:
        """Returns the house by which an edition is made."""
        return self.get(self.row_of(edition))

    def row_of(self, edition: int) -> int:
        return int(self.book.journal.value("SELECT house FROM edition WHERE id = ?", edition))

    def now(self) -> "tuple[int, Any] | None":
        """Returns the house for new editions, its row first, or None where none was good yet, or is any more."""
        row = self.book.journal.value("SELECT house FROM spool")
        try:
            return None if row is None else (row, self.get(row))
        except Unreadable:
            return None


def planned_of(book: Book, edition: int) -> Planned:
    """Returns an edition as it was planned when it began, from its rows."""
    row = book.journal.row("SELECT * FROM edition WHERE id = ?", edition)
    assert row is not None
    keys, pages = {}, []
    for place in book.journal.rows("SELECT * FROM place WHERE edition = ? ORDER BY id", edition):
        keys[place["id"]] = PageKey(place["zone"], place["section"], place["number"])
        pages.append(Page(place["zone"], place["section"], place["number"], bool(place["blank"])))
    sites, pairs = [], []
    sections: dict[str, int] = {}
    for site in book.journal.rows("SELECT * FROM site WHERE edition = ? ORDER BY id", edition):
        sites.append(Site(site["name"], site["press"], site["zone"]))
        for pair in book.journal.rows("SELECT * FROM pair WHERE site = ? ORDER BY id", site["id"]):
            sides = keys[pair["left"]], keys[pair["right"]]
            pairs.append(Pair(site["name"], pair["section"], pair["number"], *sides, pair["making"]))
            sections[pair["section"]] = max(sections.get(pair["section"], 0), *(key.number for key in sides))
    return Planned(
        row["name"], row["day"], sections, tuple(pages), tuple(sites), tuple(pairs), row["settings"], bool(row["ask"]),
        row["deliver"],
    )  # fmt: skip


def render_of(book: Book, key: int) -> Render | None:
    """Returns a render by its key; None for 0, a page that is planned blank."""
    if key == 0:
        return None
    row = book.journal.row("SELECT * FROM render WHERE key = ? AND state = 'accepted'", key)
    assert row is not None
    return Render(row["key"], row["sha"], row["folder"], row["inks"], tuple(json.loads(row["layers"])))


def read_house(file: str, most: int = 1_000_000) -> str:
    """Returns the text of the house file; raises OSError, or ValueError for what isn't text of at most `most` bytes."""
    handle = os.open(file, os.O_RDONLY | os.O_CLOEXEC | os.O_NONBLOCK)
    with open(handle, "rb") as source:
        data = source.read(most)
    if len(data) >= most:
        raise ValueError(f"more than {most} bytes")
    return data.decode("utf-8")
