"""A version by its number, its moves from state to state, and the events about it."""
import sqlite3
from collections.abc import Mapping

from pressroom.night.book import Book, pair_name


def label(row: Mapping[str, object] | sqlite3.Row) -> str:
    """Returns a version's number as its folder shows it: 000412, or 000412.r2 for a resend."""
    return f"{row['of']:06}.r{row['nth']}" if row["of"] else f"{row['id']:06}"


def about_pair(book: Book, pair: int) -> sqlite3.Row:
    """Returns the names of a pair: its edition, day, section, number, and pages."""
    row = book.journal.row(
        "SELECT e.name AS edition, e.day, p.section, p.number, l.zone AS lz, l.section AS ls, l.number AS ln,"
        " r.zone AS rz, r.section AS rs, r.number AS rn, l.blank AS lb, r.blank AS rb FROM pair p JOIN site s ON s.id = p.site"
        " JOIN edition e ON e.id = s.edition JOIN place l ON l.id = p.left JOIN place r ON r.id = p.right WHERE p.id = ?",
        pair,
    )
    assert row is not None
    return row


def get(book: Book, number: int) -> sqlite3.Row:
    """Returns a version with the names of its site and edition."""
    row = book.journal.row(
        "SELECT v.*, s.name AS site_name, s.edition, e.name AS edition_name FROM version v"
        " JOIN site s ON s.id = v.site JOIN edition e ON e.id = s.edition WHERE v.id = ?",
        number,
    )
    assert row is not None
    return row


def tell(book: Book, name: str, row: sqlite3.Row, **more: object) -> None:
    """Enters an event about a version."""
    full = get(book, row["id"])
    pair = None
    if full["pair"] is not None:
        names = about_pair(book, full["pair"])
        pair = pair_name(names["section"], names["number"])
    about = {"edition": full["edition_name"], "site": full["site_name"], "pair": pair, "version": full["id"]}
    book.tell(name, **about, number=label(full), **more)


def move(book: Book, row: sqlite3.Row, state: str, seen: float | None = None) -> None:
    """Moves a version to a state, within a transaction; the database refuses what isn't a move."""
    now = book.now()
    book.journal.db.execute(
        "UPDATE version SET state = ?, seen = ?, moved = ?, went = CASE WHEN ? = 'leaving' THEN ifnull(went, ?) ELSE went END"
        " WHERE id = ?",
        [state, seen, now, state, now, row["id"]],
    )
