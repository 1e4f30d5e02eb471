"""The events of the night: rows of the journal's table, and their text and JSON.

An event is written by the transaction that made it true, and its text is made when it is read. `text` begins with what
the event is about: the edition, then the site, the page or the pair. Names from files were escaped when they came in.
"""
import json
import sqlite3
import time
from collections.abc import Callable, Mapping, Sequence
from typing import Any

More = Mapping[str, Any]

# What each event says after what it is about; `{}` are its fields.
PLAIN = {
    "start": "the service begins, epoch {epoch}",
    "unprotected": "jobs run without {what}",
    "begin": "begins, house {house}",
    "closed": "closed",
    "removed": "removed: {why}",
    "arrived": "arrived, {file}",
    "same": "{file} has the bytes of the last arrival",
    "stray": "{file} isn't a page of this edition",
    "unfit": "{file}: {why}",
    "changed": "edition.toml has changed; `pressroom house SPOOL --apply {edition}` applies it",
    "kept": "version {number} is kept",
    "acked": "version {number} is acknowledged",
    "unknown": "version {number} may be there: {why}",
    "withheld": "version {number} isn't there, and is held: {why}",
    "lost": "version {number} isn't there as it was sent; it is sent again",
    "dropped": "version {number} isn't sent: {why}",
    "leaving": "version {number} leaves",
    "complete": "complete, {count} pairs",
    "house": "house file {house} is in force",
    "house_refused": "{fault}; the one of {clock} stays",
    "edition_refused": "{fault}",
    "verified": "all plates were verified together",
    "applied": "house {house}; {told}",
    "spare": "the disk is full; the journal's reserve was given back",
    "alert": "{why}",
}


def listed(values: Sequence[str]) -> str:
    """Returns words with commas."""
    return ", ".join(values)


def counted(number: int, word: str) -> str:
    """Returns a number and its word, with an s where it isn't one."""
    return f"{number} {word}" + ("" if number == 1 else "s")


def told_accepted(more: More) -> str:
    notes = "".join(f"; {note}" for note in more["notes"])
    return f"accepted in {more['seconds']:.1f} s{notes}"


def told_refused(more: More) -> str:
    still = f"; the page of {clock(more['still'])} stays in force" if more.get("still") else ""
    return f"refused: {more['fault']}{told_place(more.get('at_mm'))}{still}"


def told_place(at: Sequence[float] | None) -> str:
    """Returns a place on a page, left, top, width and height in mm, or nothing."""
    if at is None or len(at) != 4:
        return ""
    left, top, width, height = at
    return f", {width:g} x {height:g} mm at {left:g}, {top:g}"


def told_hold(verb: str) -> Callable[[More], str]:
    """Returns the text of a command on a page: who, why, and which sites have the page or may have it."""

    def told(more: More) -> str:
        parts = [f"{verb} by {more['by']}" + (f": {more['word']}" if more.get("word") else "")]
        parts += [f"{listed(more['had_it'])} had it"] if more.get("had_it") else []
        parts += [f"{listed(more['older'])} had an older one"] if more.get("older") else []
        parts += [f"{listed(more['in_time'])} in time"] if more.get("in_time") else []
        parts += [f"{listed(more['may_be_out'])} may be out"] if more.get("may_be_out") else []
        return "; ".join(parts)

    return told


def told_cancelled(more: More) -> str:
    parts = [f"cancelled by {more['by']}"]
    parts += [f"{site} has {counted(count, 'pair')}" for site, count in more["had"].items() if count]
    parts += [f"{more['may_be_out']} may be out"] if more["may_be_out"] else []
    return "; ".join(parts)


def told_made(more: More) -> str:
    plates = counted(more["plates"], "plate")
    return f"{plates} made in {more['seconds']:.1f} s, for {listed(more['shared'])}"


def told_sent(more: More) -> str:
    expose = f"; expose {listed(more['expose'])}" if more["expose"] else "; expose nothing"
    empty = f"; {listed(more['empty'])} print nothing" if more["empty"] else ""
    return f"version {more['number']} is there" + ("" if more.get("whole") else expose + empty)


def told_resend(more: More) -> str:
    plate = more["plate"] or "all plates"
    return f"{plate} again ({more['count']}), {more['reason']}"


def told_waits(more: More) -> str:
    file = f"{more['file']} " if more.get("file") else ""
    again = f"{file}waits {more['next']:.0f} s: {more['why']} (try {more['tries']})"
    return again + ("; it needs a person" if more.get("needs") else "")


def told_goes_on(more: More) -> str:
    return f"goes on after {lasted(more['seconds'])}"


def told_late(more: More) -> str:
    return f"must leave by {clock(more['leave_by'])} and waits for {listed(more['waits_for'])}"


TOLD: dict[str, Callable[[More], str]] = {
    "accepted": told_accepted,
    "refused": told_refused,
    "held": told_hold("held"),
    "released": told_hold("released"),
    "approved": told_hold("approved"),
    "rejected": told_hold("rejected"),
    "cancelled": told_cancelled,
    "made": told_made,
    "sent": told_sent,
    "resend": told_resend,
    "waits": told_waits,
    "goes_on": told_goes_on,
    "late": told_late,
}
NAMES = frozenset(PLAIN) | frozenset(TOLD)


def clock(at: float) -> str:
    """Returns the hour and minute of a time."""
    return time.strftime("%H:%M", time.localtime(at))


def lasted(seconds: float) -> str:
    """Returns a duration in its largest unit."""
    return f"{seconds:.0f} s" if seconds < 120 else f"{seconds / 60:.0f} min"


def iso(at: float | None) -> str | None:
    """Returns a time by ISO 8601 with its zone."""
    if at is None:
        return None
    zone = time.strftime("%z", time.localtime(at))
    return time.strftime("%Y-%m-%dT%H:%M:%S", time.localtime(at)) + f"{zone[:3]}:{zone[3:]}"


def about(row: sqlite3.Row) -> str:
    """Returns what an event is about: edition, site, page, pair, as far as it has them."""
    more = json.loads(row["more"])
    names = [row[key] for key in ("edition", "site", "page", "pair")]
    return " ".join(
        name for name in [*names, more.get("what") if row["name"] in ("waits", "goes_on") else None] if name
    )


def words(row: sqlite3.Row) -> str:
    """Returns what an event says, without what it is about."""
    more: dict[str, Any] = json.loads(row["more"])
    name: str = row["name"]
    if name in TOLD:
        return TOLD[name](more)
    fields = more | {"edition": row["edition"]}
    if name == "house_refused":
        fields["clock"] = clock(more["since"])
    return PLAIN[name].format_map(fields) if name in PLAIN else name


def text(row: sqlite3.Row) -> str:
    """Returns an event as a line for people."""
    subject = about(row)
    return f"{subject}: {words(row)}" if subject else words(row)


def record(row: sqlite3.Row) -> dict[str, Any]:
    """Returns an event as an object: `seq`, `time`, `event`, what it is about, its fields, and its text."""
    fixed = {key: row[key] for key in ("edition", "site", "page", "pair", "version", "who")}
    start = {"seq": row["seq"], "time": iso(row["at"]), "event": row["name"]}
    return {**json.loads(row["more"]), **start, **fixed, "text": words(row)}
