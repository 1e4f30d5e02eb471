"""What the pages of the board say of a status: words, shapes, order and times. Nothing here asks or stores anything.

A page has a rectangle, plates a circle, an arrow or ticks, a fault an octagon or a triangle; a word is always beside it.
"""
import datetime
import itertools
from collections.abc import Iterable, Sequence
from typing import Any

from pressroom.base.console import one_line
from pressroom.night import status_text

State = dict[str, Any]
# The word of each state on the screen; a cell has room for some eight letters.
WORDS = {
    "absent": "absent",
    "arrived": "arrived",
    "refused": "refused",
    "rejected": "rejected",
    "intake": "in intake",
    "held": "held",
    "approval": "approve",
    "making": "making",
    "made": "made",
    "waits": "waits",
    "ready": "ready",
    "verified": "verified",
    "queued": "queued",
    "sent": "sent",
    "acknowledged": "ack",
    "failed": "failed",
}
PAGE_MEANINGS = {
    "absent": "no file yet",
    "arrived": "in intake, or waits for the other page of its pair",
    "refused": "needs another file",
    "held": "stopped by a person",
    "approval": "waits for approval",
    "making": "plates are being made",
    "made": "on verified plates for all its sites",
}
PAIR_MEANINGS = {
    "waits": "for the page shown",
    "ready": "starts at the next free worker",
    "making": "plates are being made",
    "verified": "plates are right, not yet queued",
    "queued": "not sent yet",
    "sent": "at the site, not yet acknowledged",
    "acknowledged": "acknowledged by the site",
    "failed": "not sent; it is tried again",
}
# Why a page stops a pair, as the end of a sentence that begins with its name.
CAUSES = {
    "absent": "is absent",
    "refused": "is refused",
    "rejected": "is rejected",
    "held": "is held",
    "approval": "waits for approval",
    "intake": "is in intake",
}
# The shape of a cause, and of an event, that has none of its own name.
CAUSE_SHAPES = {"intake": "arrived", "rejected": "refused"}
EVENT_SHAPES = {
    "rejected": "refused",
    "accepted": "arrived",
    "approved": "arrived",
    "released": "arrived",
    "same": "arrived",
    "acked": "acknowledged",
    "kept": "sent",
    "complete": "made",
    "leaving": "sent",
    "resend": "queued",
    "waits": "failed",
    "late": "failed",
    "lost": "failed",
    "withheld": "failed",
    "unknown": "failed",
    "unfit": "refused",
    "stray": "refused",
    "alert": "failed",
    "house_refused": "refused",
    "edition_refused": "refused",
    "made": "made",
    "cancelled": "held",
}
STATES = frozenset(WORDS)
PROCESS = ["C", "M", "Y", "K"]
# Editions that are under way and shown in full; the others have a line each.
IN_FULL = 4


def shape(name: str) -> str:
    """Returns the name of a state's or a cause's shape."""
    return CAUSE_SHAPES.get(name, name)


def event_shape(kind: str) -> str:
    """Returns the name of an event's shape."""
    named = EVENT_SHAPES.get(kind, kind)
    return named if named in STATES else "arrived"


def parsed(time: str) -> datetime.datetime:
    return datetime.datetime.fromisoformat(time)


def clock(time: str | None, seconds: bool = False) -> str:
    """Returns the hour and minute of an ISO time, and the second."""
    return "--:--" if time is None else time[11:19] if seconds else time[11:16]


def day(date: str | None) -> str:
    """Returns a day of the week and of the month, or nothing."""
    if not date:
        return ""
    when = datetime.date.fromisoformat(date)
    return f"{when:%a} {when.day} {when:%b}"


def until(time: str, now: str) -> str:
    """Returns how long it is until a time, in whole minutes that are left, or by how much it is late."""
    left = int((parsed(time) - parsed(now)).total_seconds())
    return f"in {lasted(left // 60)}" if left >= 0 else f"{late_by(time, now)} late"


def late_by(time: str, now: str) -> str:
    """Returns how long a time is past."""
    return lasted(int((parsed(now) - parsed(time)).total_seconds()) // 60)


def lasted(minutes: int) -> str:
    return f"{minutes} min" if minutes < 90 else f"{minutes // 60} h {minutes % 60} min"


def is_late(time: str | None, now: str) -> bool:
    """Returns whether a time is past."""
    return time is not None and parsed(time) < parsed(now)


def places(edition: State, section: str) -> list[list[State]]:
    """Returns the pages of a section by place: the common page first, then those of zones."""
    mine = [page for page in edition["pages"] if page["section"] == section]
    mine.sort(key=lambda page: (page["number"], page["zone"] or ""))
    return [list(group) for _, group in itertools.groupby(mine, key=lambda page: str(page["place"]))]


def here(edition: State, section: str) -> int:
    """Returns how many pages of a section have a file that isn't refused, or need none."""
    mine = (page for page in edition["pages"] if page["section"] == section)
    return sum(page["blank"] or page["state"] not in ("absent", "refused") for page in mine)


def planned(edition: State, section: str) -> int:
    return sum(page["section"] == section for page in edition["pages"])


def pairs_of(edition: State, section: str) -> list[State]:
    return [pair for pair in edition["pairs"] if pair["section"] == section]


def at_site(pair: State, site: str) -> State | None:
    """Returns a pair's state at a site; None where the site doesn't print it."""
    return next((one for one in pair["sites"] if one["site"] == site), None)


def sent(edition: State) -> int:
    """Returns how many pairs are at their sites: only an acknowledgement counts."""
    return int(edition["counts"]["pairs"]["acknowledged"])


def total(edition: State) -> int:
    return sum(edition["counts"]["pairs"].values())


def numbers(pages: Sequence[str]) -> str:
    """Returns the numbers of a pair's pages, left and right, as they are on the sheet."""
    return " | ".join(
        page.rpartition("/")[2].lstrip("ABCDEFGHIJKLMNOPQRSTUVWXYZ_").lstrip("0") for page in pages
    )


def place(page: str) -> str:
    """Returns a page's name without its zone."""
    return page.rpartition("/")[2]


def few(inks: Sequence[str]) -> str:
    """Returns what is unusual about the inks of a pair: nothing for CMYK."""
    if not inks or list(inks) == PROCESS:
        return ""
    return "+" + "".join(inks[4:]) if list(inks[:4]) == PROCESS else "".join(inks)


def each(names: Sequence[str]) -> str:
    """Returns names with commas, and `and` before the last one."""
    return "".join(names) if len(names) < 2 else ", ".join(names[:-1]) + " and " + names[-1]


def page_words(page: State) -> str:
    """Returns a page's state in a sentence, for its title."""
    if page["blank"]:
        return f"{page['page']} is blank"
    text = f"{page['page']} {WORDS[page['state']]}"
    if page["held"]:
        text += f", held by {page['held']['by']}" + (
            f" ({page['held']['reason']})" if page["held"]["reason"] else ""
        )
    if page["version"]:
        text += f", file {page['version']}"
    return text + (f", since {clock(page['since'])}" if page["since"] else "")


def cell_words(pair: State, cell: State) -> str:
    """Returns a pair's state at a site in words: those of `pressroom status`."""
    return f"{pair['pair']} {cell['site']}: {status_text.at_site(cell)}"


def order(editions: Iterable[State]) -> list[State]:
    """Returns editions by what must leave first; then what is finished, then what is cancelled."""
    ranks: dict[str, int] = {"under-way": 0, "finished": 1, "cancelled": 2}

    def key(edition: State) -> tuple[int, str, str]:
        leave_by = (edition["next"] or {}).get("leave_by") or "9999"
        return ranks[edition["state"]], leave_by, edition["name"]

    return sorted(editions, key=key)


def urgent(items: Iterable[State]) -> list[State]:
    """Returns faults or asks of all editions by the time at which they must leave."""
    return sorted(items, key=lambda item: (item["leave_by"] or "9999", item["since"] or "9999"))


def soonest(editions: Iterable[State]) -> tuple[State, State] | None:
    """Returns the edition whose pair must leave first and can't, and that pair."""
    found = [(one, one["next"]) for one in editions if one["next"]]
    found.sort(key=lambda item: str(item[1]["leave_by"] or "9999"))
    return found[0] if found else None


def find(state: State, edition: str, pair: str) -> tuple[State, State] | None:
    """Returns an edition and one of its pairs by their names."""
    for one in state["editions"]:
        if one["name"] == edition:
            found = [mine for mine in one["pairs"] if mine["pair"] == pair]
            return (one, found[0]) if found else None
    return None


def variants(pair: State) -> list[list[State]]:
    """Returns the sites of a pair in groups that print the same two pages."""
    groups: dict[tuple[str, ...], list[State]] = {}
    for site in pair["sites"]:
        groups.setdefault(tuple(site["pages"]), []).append(site)
    return list(groups.values())


def pages_of(edition: State, pair: State) -> list[State]:
    """Returns all pages that print in a pair at some site: those that wait for a person first, the common ones before
    those of zones."""
    names = {name for site in pair["sites"] for name in site["pages"]}
    mine = [page for page in edition["pages"] if page["page"] in names and not page["blank"]]
    return sorted(mine, key=lambda page: (not waits_for_person(page), page["zone"] or "", page["number"]))


def waits_for_person(page: State) -> bool:
    """Returns whether somebody must approve or release a page."""
    return page["state"] == "approval" or page["held"] is not None


def plain(value: Any) -> Any:
    """Returns what a page shows of a value: a text without what isn't printable, such as marks of direction."""
    return one_line(value) if type(value) is str else value


def asks(state: State) -> list[State]:
    """Returns what waits for a person in all editions, each with its edition, by the time to leave."""
    return urgent(ask | {"edition": one["name"]} for one in state["editions"] for ask in one["asks"])


def faults(state: State, editions: Sequence[State]) -> list[State]:
    """Returns what is wrong in some editions and, first, what is wrong with the machine."""
    machine: list[State] = state["faults"]
    return machine + urgent(fault for one in editions for fault in one["faults"])


def that_asks(edition: State, groups: list[list[State]]) -> list[State]:
    """Returns the sites of a pair whose pages wait for approval, else the first ones."""
    waiting = {page["page"] for page in edition["pages"] if page["state"] == "approval"}
    return next((group for group in groups if waiting & set(group[0]["pages"])), groups[0])


def thumb(edition: State, page: State) -> tuple[str, str] | None:
    """Returns the plates that have a page, and its side there; None where no plates of its present content are made."""
    for pair in edition["pairs"]:
        if pair["pair"] == page["pair"]:
            for site in pair["sites"]:
                if page["page"] in site["pages"] and site["plates"]:
                    return site["plates"], "left" if site["pages"][0] == page["page"] else "right"
    return None


def all_sums(state: State) -> list[str]:
    """Returns the sets of plates that the board shows, those first that wait for approval, then what leaves first."""
    found: list[tuple[int, str, str]] = []
    for one in state["editions"]:
        waiting = {page["page"] for page in one["pages"] if page["state"] == "approval"}
        for pair in one["pairs"]:
            for site in pair["sites"]:
                if site["plates"]:
                    rank = 0 if waiting & set(site["pages"]) else 1
                    found.append((rank, site["leave_by"] or "9999", site["plates"]))
    return [sums for _, _, sums in sorted(found)]


VERSION_STATES = {
    "queued": ("queued", "queued"),
    "sending": ("queued", "is being sent"),
    "leaving": ("queued", "leaves now"),
    "unknown": ("failed", "may be there"),
    "sent": ("sent", "sent"),
    "kept": ("sent", "sent"),
    "acknowledged": ("acknowledged", "acknowledged"),
    "old": ("made", "replaced"),
    "dropped": ("absent", "not sent"),
}


def version_state(state: str) -> str:
    """Returns the state, of those with a shape, in which a version is."""
    return VERSION_STATES.get(state, ("arrived", state))[0]


def version_word(state: str) -> str:
    return VERSION_STATES.get(state, ("arrived", state))[1]


def done_pairs(edition: State) -> list[str]:
    """Returns the pairs that all their sites have acknowledged."""
    return [
        pair["pair"]
        for pair in edition["pairs"]
        if all(site["state"] == "acknowledged" for site in pair["sites"])
    ]
