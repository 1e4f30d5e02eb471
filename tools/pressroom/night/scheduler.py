"""What is to be done now, by the journal's views: nothing is queued elsewhere, so nothing can be forgotten.

Work that belongs to a pair comes in the order of the time by which that pair must leave, then in the order in which it
became possible. A site has one job at a time. A page that exceeds its limits again is tried alone.
"""
from collections.abc import Collection, Iterable
from dataclasses import dataclass, field

from pressroom.night import pauses, versions
from pressroom.night.book import Book

# Seconds between looks at all that a site has of an edition, and before its COMPLETE.
HOURLY, BEFORE_COMPLETE = 3600.0, 600.0
# Seconds between looks for what is unknown.
BETWEEN = 30.0
# The most folders of one look.
MOST_FOLDERS = 60
LAST = 9e18


@dataclass(frozen=True)
class PageWork:
    """A page that intake is to judge, under its edition's settings."""

    sha: str
    settings: str
    edition: int
    place: int

    @property
    def key(self) -> str:
        return f"{self.sha} {self.settings}"


@dataclass(frozen=True)
class PlatesWork:
    """Plates of two renders (0: a blank page), for the pair `pair` and all others that want the same."""

    left: int
    right: int
    making: str
    edition: int
    pair: int

    @property
    def key(self) -> str:
        return f"{self.left} {self.right} {self.making}"


@dataclass(frozen=True)
class WholeWork:
    """A site whose plates are to be verified together."""

    site: int
    edition: int
    list: str

    @property
    def key(self) -> str:
        return str(self.site)


@dataclass(frozen=True)
class SendWork:
    """A version that is to be sent to a site."""

    version: int
    site: str
    edition: int

    @property
    def key(self) -> str:
        return self.site


@dataclass(frozen=True)
class LookWork:
    """Versions of an edition whose READY is to be looked for at a site."""

    site: str
    edition: int
    versions: tuple[int, ...]

    @property
    def key(self) -> str:
        return self.site


@dataclass
class Looks:
    """When each version was last looked for at a site, in seconds since the boot: known to this service alone."""

    at: dict[tuple[str, int], float] = field(default_factory=dict)

    def saw(self, site: str, some: Iterable[int], began: float) -> None:
        """Notes a look that began then."""
        self.at.update({(site, version): began for version in some})

    def forget(self, site: str) -> None:
        """After an outage of a site all that it has is looked at again."""
        self.at = {key: at for key, at in self.at.items() if key[0] != site}

    def older(self, site: str, some: Iterable[int], before: float) -> tuple[int, ...]:
        """Returns the versions that weren't looked for since then, at most as many as one look takes."""
        found = [version for version in some if self.at.get((site, version), -1.0) < before]
        return tuple(found[:MOST_FOLDERS])


def page_work(book: Book, busy: Collection[str], slots: int) -> list[PageWork]:
    """Returns the pages to be judged now. `busy` are the keys of those that are under way."""
    rows = book.journal.rows(
        "SELECT d.sha, d.settings, d.edition, d.place, min(ifnull(p.leave_by, ?)) AS by, min(d.arrival) AS first"
        " FROM due_render d LEFT JOIN pair p ON p.left = d.place OR p.right = d.place"
        " GROUP BY d.sha, d.settings ORDER BY by, first",
        LAST,
    )
    found: list[PageWork] = []
    for row in rows:
        work = PageWork(row["sha"], row["settings"], row["edition"], row["place"])
        if work.key in busy or len(busy) + len(found) >= slots or not pauses.is_over(book, "page", work.key):
            continue
        if limited(book, work.key):
            if busy or found:
                continue
            return [work]
        found.append(work)
    return [] if any(limited(book, key) for key in busy) else found


def limited(book: Book, key: str) -> bool:
    """Returns whether a page exceeded its limits when it was last tried."""
    return bool(book.journal.value("SELECT fault = 'limit' FROM pause WHERE kind = 'page' AND key = ?", key))


def plates_work(book: Book, busy: Collection[str], slots: int) -> list[PlatesWork]:
    """Returns the plates to be made now."""
    rows = book.journal.rows(
        "SELECT left, right, making, edition, min(pair) AS pair, min(ifnull(leave_by, ?)) AS by FROM pair_now"
        " WHERE may_make AND plates IS NULL GROUP BY left, right, making ORDER BY by, pair",
        LAST,
    )
    found: list[PlatesWork] = []
    for row in rows:
        work = PlatesWork(row["left"], row["right"], row["making"], row["edition"], row["pair"])
        free = work.key not in busy and len(busy) + len(found) < slots
        if free and pauses.is_over(book, "plates", work.key):
            found.append(work)
    return found


def whole_work(book: Book, busy: Collection[str], slots: int) -> list[WholeWork]:
    """Returns the sites whose plates are to be verified together now."""
    found: list[WholeWork] = []
    for row in book.journal.rows("SELECT * FROM due_whole ORDER BY site"):
        work = WholeWork(row["site"], row["edition"], row["list"])
        free = work.key not in busy and len(busy) + len(found) < slots
        if free and is_open(book, work.edition) and pauses.is_over(book, "whole", work.key):
            found.append(work)
    return found


def is_open(book: Book, edition: int) -> bool:
    """Returns whether an edition is under way."""
    return bool(book.journal.value("SELECT state = 'open' FROM edition WHERE id = ?", edition))


def site_work(book: Book, busy: Collection[str], looks: Looks, timeout: float) -> list[SendWork | LookWork]:
    """Returns one thing to be done at each site that is free: what was asked for again, a pair, COMPLETE, or a look."""
    sites = [row[0] for row in book.journal.rows("SELECT DISTINCT name FROM site ORDER BY name")]
    found: list[SendWork | LookWork] = []
    for site in sites:
        if site in busy or not pauses.is_over(book, "site", site):
            continue
        work = (
            send_work(book, site, looks)
            or look_work(book, site, looks, timeout)
            or between(book, site, looks)
        )
        if work is not None:
            found.append(work)
    return found


def send_work(book: Book, site: str, looks: Looks) -> "SendWork | LookWork | None":
    """Returns the version that leaves for a site next. Before COMPLETE all that it has is looked at once more."""
    row = book.journal.row(
        "SELECT v.id, v.kind, s.edition FROM version v JOIN site s ON s.id = v.site LEFT JOIN pair p ON p.id = v.pair"
        " JOIN may_leave m ON m.version = v.id WHERE v.state = 'queued' AND s.name = ?"
        " ORDER BY v.kind = 'complete', v.kind <> 'resend', ifnull(p.leave_by, ?), v.id LIMIT 1",
        site,
        LAST,
    )
    if row is None:
        return None
    if row["kind"] == "complete":
        some = looks.older(site, all_there(book, site, row["edition"]), book.uptime() - BEFORE_COMPLETE)
        if some:
            return LookWork(site, row["edition"], some)
    return SendWork(row["id"], site, row["edition"])


def all_there(book: Book, site: str, edition: int) -> tuple[int, ...]:
    """Returns the versions that a site is believed to have, or may have."""
    rows = book.journal.rows(
        "SELECT v.id FROM version v JOIN site s ON s.id = v.site WHERE s.name = ? AND s.edition = ?"
        " AND (v.state IN ('sent', 'unknown') OR v.state = 'kept' AND v.kind <> 'resend') ORDER BY v.id",
        site,
        edition,
    )
    return tuple(row[0] for row in rows)


def look_work(book: Book, site: str, looks: Looks, timeout: float) -> LookWork | None:
    """Returns what is to be looked for at a site now: what is unknown, what was sent, and each hour all."""
    now = book.uptime()
    rows = book.journal.rows(
        "SELECT v.id, v.state, v.seen, s.edition FROM version v JOIN site s ON s.id = v.site"
        " WHERE s.name = ? AND v.state IN ('sent', 'unknown') ORDER BY s.edition, v.id",
        site,
    )
    due = [row for row in rows if now >= due_at(row["state"], row["seen"], timeout)]
    if due:
        edition = due[0]["edition"]
        some = tuple(row["id"] for row in due if row["edition"] == edition)
        return LookWork(site, edition, some[:MOST_FOLDERS])
    for row in book.journal.rows(
        "SELECT DISTINCT e.id FROM edition e JOIN site s ON s.edition = e.id WHERE e.state = 'open' AND s.name = ?",
        site,
    ):
        some = looks.older(site, all_there(book, site, row["id"]), now - HOURLY)
        if some:
            return LookWork(site, row["id"], some)
    return None


def due_at(state: str, seen: float | None, timeout: float) -> float:
    """Returns when a version is looked for, in seconds since the boot."""
    if seen is None:
        return 0.0
    return seen + (versions.SETTLED if state == "sent" else timeout + versions.GHOSTS + 0.1)


def between(book: Book, site: str, looks: Looks) -> "LookWork | None":
    """Returns a look for what is unknown, between its two looks: a site that hangs meanwhile must be noticed."""
    rows = book.journal.rows(
        "SELECT v.id, s.edition FROM version v JOIN site s ON s.id = v.site"
        " WHERE s.name = ? AND v.state = 'unknown' AND v.seen IS NOT NULL ORDER BY v.id",
        site,
    )
    some = looks.older(site, [row["id"] for row in rows], book.uptime() - BETWEEN)
    return LookWork(site, rows[0]["edition"], some) if some else None


def next_look(book: Book, timeout: float) -> float | None:
    """Returns in how many seconds the next look is due, or None."""
    rows = book.journal.rows("SELECT state, seen FROM version WHERE state IN ('sent', 'unknown')")
    times = [due_at(row["state"], row["seen"], timeout) - book.uptime() for row in rows]
    return max(0.0, min(times)) if times else None
