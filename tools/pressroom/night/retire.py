"""Retention: of the editions that are finished or cancelled, the newest `keep` stay; older ones are closed and removed.

Rows go first, in one transaction an edition; files that no row names any more go after it, or at the next start.
"""
import os

from pressroom.night.book import Book
from pressroom.night.folders import Folders, remove

# The rows of an edition, in an order that foreign keys allow.
ROWS = (
    "DELETE FROM request WHERE pair IN (SELECT p.id FROM pair p JOIN site s ON s.id = p.site WHERE s.edition = :e)",
    "DELETE FROM version WHERE kind = 'resend' AND site IN (SELECT id FROM site WHERE edition = :e)",
    "DELETE FROM whole WHERE site IN (SELECT id FROM site WHERE edition = :e)",
    "DELETE FROM pair WHERE site IN (SELECT id FROM site WHERE edition = :e)",
    "DELETE FROM site WHERE edition = :e",
    "DELETE FROM verdict WHERE arrival IN (SELECT a.id FROM arrival a JOIN place p ON p.id = a.place WHERE p.edition = :e)",
    "DELETE FROM arrival WHERE place IN (SELECT id FROM place WHERE edition = :e)",
    "DELETE FROM place WHERE edition = :e",
    "DELETE FROM look_in WHERE edition = :e",
)
UNUSED = (
    "DELETE FROM plates WHERE NOT EXISTS (SELECT 1 FROM version v WHERE v.plates = plates.id)"
    " AND NOT EXISTS (SELECT 1 FROM pair_now n WHERE n.plates = plates.id)",
    "DELETE FROM render WHERE NOT EXISTS (SELECT 1 FROM arrival a WHERE a.sha = render.sha)"
    " AND NOT EXISTS (SELECT 1 FROM plates f WHERE render.key IN (f.left, f.right))",
    "DELETE FROM blob WHERE NOT EXISTS (SELECT 1 FROM arrival a WHERE a.sha = blob.sha)"
    " AND NOT EXISTS (SELECT 1 FROM render r WHERE r.sha = blob.sha)",
)


def ended(book: Book) -> list[int]:
    """Returns the editions that are finished or cancelled with nothing under way, newest first."""
    rows = book.journal.rows(
        "SELECT e.id, e.state, (SELECT count(*) FROM site s WHERE s.edition = e.id) AS sites,"
        " (SELECT count(*) FROM site s JOIN version v ON v.site = s.id WHERE s.edition = e.id"
        "  AND v.state IN ('queued', 'sending', 'leaving', 'unknown')) AS open,"
        " (SELECT count(*) FROM site_now w WHERE w.edition = e.id AND EXISTS (SELECT 1 FROM version v WHERE v.site = w.site"
        "  AND v.kind = 'complete' AND v.state = 'kept' AND v.list = w.list)) AS complete"
        " FROM edition e WHERE e.state <> 'closed' ORDER BY e.id DESC"
    )
    return [
        row["id"]
        for row in rows
        if not row["open"] and (row["state"] == "cancelled" or row["complete"] == row["sites"])
    ]


def retire(book: Book, folders: Folders, keep: int) -> list[str]:
    """Closes and removes the editions beyond the newest `keep` that have ended. Returns their names."""
    names = []
    for edition in ended(book)[keep:]:
        name = book.edition_name(edition)
        with book.journal.transaction():
            close(book, edition, name)
        names.append(name)
    if names:
        remove_unused(book, folders)
    return names


def close(book: Book, edition: int, name: str) -> None:
    """Removes the rows of an edition, within a transaction. The row of its name, and its events, stay."""
    db = book.journal.db
    db.execute("UPDATE edition SET state = 'closed' WHERE id = ?", [edition])
    db.execute(ROWS[0], {"e": edition})
    db.execute(ROWS[1], {"e": edition})
    # A version names the one before it, so the newest go first.
    sql = "SELECT v.id FROM version v JOIN site s ON s.id = v.site WHERE s.edition = ? ORDER BY v.id DESC"
    for row in book.journal.rows(sql, edition):
        db.execute("DELETE FROM version WHERE id = ?", [row["id"]])
    for statement in ROWS[2:]:
        db.execute(statement, {"e": edition})
    for statement in UNUSED:
        db.execute(statement)
    book.tell("closed", edition=name)


def remove_unused(book: Book, folders: Folders) -> None:
    """Removes the files of renders, plates and pages that no row names."""
    tables = {
        "renders": "SELECT folder FROM render WHERE folder IS NOT NULL",
        "plates": "SELECT folder FROM plates",
        "store": "SELECT sha FROM blob",
    }
    for folder, sql in tables.items():
        known = {row[0] for row in book.journal.rows(sql)}
        for name in set(os.listdir(folders.path(folder))) - known:
            remove(folders.path(folder, name))
