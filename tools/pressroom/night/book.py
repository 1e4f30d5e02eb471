"""The journal with what its writers share: clocks, READY's texts, and events."""
import json
import time
from collections.abc import Callable
from dataclasses import dataclass, field
from typing import Any, Protocol

from pressroom.night.journal import Journal, boot_id, since_boot
from pressroom.night.records import Complete, PageKey, Ready


class Texts(Protocol):
    """Makes the bytes of READY."""

    def ready_text(self, ready: Ready) -> str:
        ...

    def complete_text(self, complete: Complete) -> str:
        ...


class Refused(Exception):
    """A command isn't done; the text says why."""


@dataclass
class Book:
    """`now` is the wall clock, for people alone; `uptime` counts the seconds since the boot, for pauses."""

    journal: Journal
    texts: Texts
    now: Callable[[], float] = time.time
    uptime: Callable[[], float] = since_boot
    boot: str = field(default_factory=boot_id)

    def tell(self, name: str, **fields: Any) -> None:
        """Enters an event within the present transaction. Fields that aren't columns go to `more`."""
        columns = {
            key: fields.pop(key, None) for key in ("edition", "site", "page", "pair", "version", "who")
        }
        values = [self.now(), name, *columns.values(), json.dumps(fields, ensure_ascii=False)]
        self.journal.db.execute(
            "INSERT INTO event (at, name, edition, site, page, pair, version, who, more)"
            " VALUES (?, ?, ?, ?, ?, ?, ?, ?, ?)",
            values,
        )

    def edition(self, name: str) -> int:
        """Returns the row of an edition by its name, unless it is closed; raises Refused."""
        found = self.journal.value("SELECT id FROM edition WHERE name = ? AND state <> 'closed'", name)
        if found is None:
            raise Refused(f"no edition {name}")
        return int(found)

    def edition_name(self, edition: int) -> str:
        return str(self.journal.value("SELECT name FROM edition WHERE id = ?", edition))

    def place(self, edition: int, page: str) -> int:
        """Returns the row of a planned page, as A07 or west/A02; raises Refused."""
        for row in self.journal.rows(
            "SELECT id, zone, section, number FROM place WHERE edition = ?", edition
        ):
            if str(PageKey(row["zone"], row["section"], row["number"])) == page:
                return int(row["id"])
        raise Refused(f"{self.edition_name(edition)} has no page {page}")

    def page_name(self, place: int) -> str:
        """Returns a place's name, as A07 or west/A02."""
        row = self.journal.row("SELECT zone, section, number FROM place WHERE id = ?", place)
        assert row is not None
        return str(PageKey(row["zone"], row["section"], row["number"]))


def pair_name(section: str, number: int) -> str:
    """Returns a pair's name, as A-002."""
    return f"{section}-{number:03}"
