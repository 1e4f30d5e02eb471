"""The text file of metrics that the textfile collector of node_exporter reads: counts of events, gauges of the views."""
import os

from pressroom.night.book import Book

HELP = {
    "pressroom_events_total": ("counter", "Events by name since the journal was made."),
    "pressroom_last_event_timestamp_seconds": ("gauge", "When the last event of a name came."),
    "pressroom_editions": ("gauge", "Editions by state."),
    "pressroom_pages": ("gauge", "Pages of open editions by state."),
    "pressroom_pairs_waiting": (
        "gauge",
        "Pairs at a site that their site doesn't have as they are wanted now.",
    ),
    "pressroom_undelivered_versions": (
        "gauge",
        "Versions by site that were begun and aren't known to be there.",
    ),
    "pressroom_waits": ("gauge", "What waits to be tried again, by kind."),
    "pressroom_disk_free_bytes": ("gauge", "Free bytes of the spool's disk."),
    "pressroom_round_timestamp_seconds": ("gauge", "When the service last looked at in/."),
}
QUERIES = {
    "pressroom_events_total": ("event", "SELECT name, count(*) FROM event GROUP BY name"),
    "pressroom_last_event_timestamp_seconds": ("event", "SELECT name, max(at) FROM event GROUP BY name"),
    "pressroom_editions": ("state", "SELECT state, count(*) FROM edition GROUP BY state"),
    "pressroom_pages": (
        "state",
        "SELECT g.state, count(*) FROM page g JOIN edition e ON e.id = g.edition WHERE e.state = 'open' GROUP BY g.state",
    ),
    "pressroom_pairs_waiting": (
        "site",
        "SELECT s.name, count(*) FROM pair_now n JOIN site s ON s.id = n.site LEFT JOIN there t ON t.pair = n.pair"
        " WHERE n.edition_state = 'open' AND (n.sums IS NULL OR t.sums IS NOT n.sums) GROUP BY s.name",
    ),
    "pressroom_undelivered_versions": (
        "site",
        "SELECT s.name, count(*) FROM version v JOIN site s ON s.id = v.site"
        " WHERE v.state IN ('queued', 'sending', 'leaving', 'unknown') GROUP BY s.name",
    ),
    "pressroom_waits": ("kind", "SELECT kind, count(*) FROM pause GROUP BY kind"),
}


def escaped(value: str) -> str:
    """Returns a label's value as the text format has it."""
    return value.replace("\\", "\\\\").replace('"', '\\"').replace("\n", "\\n")


def text(book: Book, spool: str, scanned: float) -> str:
    """Returns the lines of all metrics."""
    room = os.statvfs(spool)
    plain = {
        "pressroom_disk_free_bytes": room.f_bavail * room.f_frsize,
        "pressroom_round_timestamp_seconds": round(scanned, 3),
    }
    lines = []
    for name, (kind, words) in HELP.items():
        lines += [f"# HELP {name} {words}", f"# TYPE {name} {kind}"]
        if name in plain:
            lines.append(f"{name} {plain[name]}")
            continue
        label, sql = QUERIES[name]
        for value, number in book.journal.rows(sql):
            lines.append(f'{name}{{{label}="{escaped(str(value))}"}} {number}')
    return "".join(f"{line}\n" for line in lines)


def write(path: str, data: str) -> None:
    """Writes the file: at any moment it has its old text or the new one."""
    part = f"{path}.{os.getpid()}.part"
    with open(part, "w", encoding="utf-8") as file:
        file.write(data)
    os.chmod(part, 0o644)
    os.rename(part, path)
