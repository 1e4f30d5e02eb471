"""Reports pairs that can't leave in time, before they are late."""
from typing import Any

from pressroom.night import making
from pressroom.night.book import Book, pair_name

# A pair that must leave within this many seconds and can't is told as late.
WARNING = 900.0


def tell_late(book: Book) -> None:
    """Tells each pair once that must leave soon, and waits for its pages, for plates that can't be made, or for a site
    that can't be reached; or for anything else, once its time is over."""
    rows = book.journal.rows(
        "SELECT n.pair, n.left, n.right, n.making, n.plates, n.may_leave, n.leave_by, e.name, s.name AS site, p.section,"
        " p.number, p.left AS left_place, p.right AS right_place, n.left_state, n.right_state"
        " FROM pair_now n JOIN pair p ON p.id = n.pair JOIN site s ON s.id = n.site JOIN edition e ON e.id = n.edition"
        " LEFT JOIN there t ON t.pair = n.pair"
        " WHERE e.state = 'open' AND n.leave_by < ? AND NOT p.warned"
        " AND (NOT n.may_leave OR n.sums IS NULL OR t.sums IS NOT n.sums)",
        book.now() + WARNING,
    )
    late = [(row, reasons(book, row)) for row in rows]
    if not any(why for _, why in late):
        return
    with book.journal.transaction() as db:
        for row, why in late:
            if why:
                db.execute("UPDATE pair SET warned = 1 WHERE id = ?", [row["pair"]])
                pair = pair_name(row["section"], row["number"])
                about = {"edition": row["name"], "site": row["site"], "pair": pair}
                book.tell("late", **about, leave_by=row["leave_by"], waits_for=why)


def reasons(book: Book, row: Any) -> list[str]:
    """Returns what a pair waits for that may make it late."""
    pages = [
        f"{book.page_name(row[f'{side}_place'])} ({row[f'{side}_state']})"
        for side in ("left", "right")
        if row[f"{side}_state"] != "ready"
    ]
    if pages:
        return pages
    if row["plates"] is None:
        kind, key, name = "plates", making.key_of(row["left"], row["right"], row["making"]), "its plates"
    else:
        kind, key, name = "site", row["site"], row["site"]
    why = book.journal.value("SELECT why FROM pause WHERE kind = ? AND key = ?", kind, key)
    if why is not None:
        return [f"{name} ({why})"]
    return [name] if row["leave_by"] < book.now() else []
