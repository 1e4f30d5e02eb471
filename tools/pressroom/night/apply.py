"""Applies the house in force to an edition that is under way: what is new is planned, what differs is made again.

Before anything changes the answer says what that will be, site by site. A site or a page that the new house lacks is
never removed: that is refused.
"""
from dataclasses import dataclass, field

from pressroom.night import due
from pressroom.night.begin import leave_by, press_at
from pressroom.night.book import Book, Refused
from pressroom.night.desk import Answer
from pressroom.night.houses import Houses, planned_of
from pressroom.night.records import PageKey, Pair, Planned, Site


@dataclass
class Change:
    """What another house changes: pages and sites that are new, and for each site its pairs that are made again."""

    settings: bool
    pages: list[str] = field(default_factory=list)
    sites: list[str] = field(default_factory=list)
    pairs: dict[str, tuple[int, int]] = field(default_factory=dict)  # changed, of all

    def told(self) -> str:
        """Returns what will be made, in words."""
        words = [f"{', '.join(self.pages)} to come"] if self.pages else []
        for site, (some, whole) in self.pairs.items():
            if site in self.sites:
                words.append(f"{site}: {whole} pairs")
            elif some:
                words.append(f"{site}: {some} of {whole} pairs change")
        words += ["all pages are converted again"] if self.settings else []
        return "; ".join(words) or "nothing changes"


def apply(book: Book, all_houses: Houses, edition: str, dry: bool, who: str) -> Answer:
    """Applies the house in force to an edition, or says only what it would do (`dry`)."""
    row = book.edition(edition)
    if book.journal.value("SELECT state FROM edition WHERE id = ?", row) != "open":
        raise Refused(f"{edition} is cancelled")
    now = all_houses.now()
    if now is None:
        raise Refused("no house file is in force")
    toml = book.journal.value("SELECT toml FROM edition WHERE id = ?", row)
    try:
        new = all_houses.editions.planned(now[1], toml, edition)
    except (all_houses.editions.Fault, OSError) as error:
        raise Refused(str(error)) from None
    old = planned_of(book, row)
    change = difference(old, new)
    if not dry:
        with book.journal.transaction():
            enter(book, row, now[0], old, new)
            total = book.journal.value("SELECT sum FROM house WHERE id = ?", now[0])
            book.tell("applied", edition=edition, who=who, house=total[:4], told=change.told())
            due.settle(book, row)
    return Answer(change.told(), {"pairs": change.pairs, "sites": change.sites, "pages": change.pages})


def difference(old: Planned, new: Planned) -> Change:
    """Returns what changes; raises Refused for what would be taken away."""
    gone = {site.name for site in old.sites} - {site.name for site in new.sites}
    if gone:
        raise Refused(f"the house in force lacks {', '.join(sorted(gone))}, to which this edition goes")
    if dict(old.sections) != dict(new.sections):
        raise Refused("the page counts of an edition under way can't change")
    was = {(pair.site, pair.name): pair for pair in old.pairs}
    change = Change(settings=old.settings != new.settings)
    before = {page.key for page in old.pages}
    change.pages = [str(page.key) for page in new.pages if page.key not in before and not page.blank]
    change.sites = [site.name for site in new.sites if site.name not in {one.name for one in old.sites}]
    for site in new.sites:
        pairs = [pair for pair in new.pairs if pair.site == site.name]
        some = sum(differs(was.get((site.name, pair.name)), pair) or change.settings for pair in pairs)
        change.pairs[site.name] = (some, len(pairs))
    return change


def differs(old: Pair | None, new: Pair) -> bool:
    """Returns whether a pair's plates are other ones."""
    return old is None or (old.making, old.left, old.right) != (new.making, new.left, new.right)


def enter(book: Book, edition: int, house: int, old: Planned, new: Planned) -> None:
    """Enters what is new and what differs, within a transaction. Pages that no pair prints any more stay as rows."""
    db = book.journal.db
    db.execute(
        "UPDATE edition SET house = ?, settings = ?, ask = ?, deliver = ? WHERE id = ?",
        [house, new.settings, int(new.ask), new.deliver, edition],
    )
    places = {}
    for page in new.pages:
        db.execute(
            "INSERT INTO place (edition, zone, section, number, blank) VALUES (?, ?, ?, ?, ?)"
            " ON CONFLICT (edition, zone, section, number) DO UPDATE SET blank = excluded.blank",
            [edition, page.zone, page.section, page.number, int(page.blank)],
        )
        places[page.key] = book.journal.value(
            "SELECT id FROM place WHERE edition = ? AND zone = ? AND section = ? AND number = ?",
            edition,
            *page.key,
        )
    for site in new.sites:
        enter_site(book, edition, site, new, places)


def enter_site(book: Book, edition: int, site: Site, new: Planned, places: dict[PageKey, int]) -> None:
    """Enters a site and its pairs, or what differs of them."""
    db, at = book.journal.db, press_at(book.now(), site.press_start)
    db.execute(
        "INSERT INTO site (edition, name, press, zone, press_at, lead, plate_seconds) VALUES (?, ?, ?, ?, ?, ?, ?)"
        " ON CONFLICT (edition, name) DO UPDATE SET press = excluded.press, zone = excluded.zone, lead = excluded.lead,"
        " press_at = excluded.press_at, plate_seconds = excluded.plate_seconds",
        [edition, site.name, site.press, site.zone, at, site.lead, site.plate_seconds],
    )
    row = book.journal.value("SELECT id FROM site WHERE edition = ? AND name = ?", edition, site.name)
    pairs = [pair for pair in new.pairs if pair.site == site.name]
    for number, pair in enumerate(pairs):
        by = leave_by(site, at, len(pairs) - 1 - number)
        db.execute(
            "INSERT INTO pair (site, section, number, left, right, making, leave_by) VALUES (?, ?, ?, ?, ?, ?, ?)"
            " ON CONFLICT (site, section, number) DO UPDATE SET left = excluded.left, right = excluded.right,"
            " making = excluded.making, leave_by = excluded.leave_by",
            [row, pair.section, pair.number, places[pair.left], places[pair.right], pair.making, by],
        )
