"""Enters the plates of pairs, and attempts at them that failed."""
from collections.abc import Mapping, Sequence

from pressroom.night import due, pauses
from pressroom.night.book import Book, pair_name


def key_of(left: int, right: int, making: str) -> str:
    """Returns the key of a pause for plates."""
    return f"{left} {right} {making}"


def wanting(book: Book, left: int, right: int, making: str) -> list[tuple[int, str, str, str]]:
    """Returns the pairs at sites that want plates of these renders: edition's row and name, pair, site."""
    rows = book.journal.rows(
        "SELECT n.edition, e.name, p.section, p.number, s.name AS site FROM pair_now n JOIN pair p ON p.id = n.pair"
        " JOIN site s ON s.id = n.site JOIN edition e ON e.id = n.edition"
        " WHERE n.left = ? AND n.right = ? AND n.making = ? AND n.edition_state = 'open' ORDER BY p.id",
        left,
        right,
        making,
    )
    return [
        (row["edition"], row["name"], pair_name(row["section"], row["number"]), row["site"]) for row in rows
    ]


def made(
    book: Book,
    left: int,
    right: int,
    making: str,
    folder: str,
    sums: str,
    plates: Mapping[str, str],
    empty: Sequence[str],
    seconds: float,
    verify: float = 0.0,
) -> None:
    """Enters plates that were verified and are synced in plates/`folder`: within `seconds`, of which their
    verification took `verify`."""
    with book.journal.transaction() as db:
        row = db.execute(
            "INSERT INTO plates (left, right, making, folder, sums, seconds, at) VALUES (?, ?, ?, ?, ?, ?, ?)",
            [left, right, making, folder, sums, seconds, book.now()],
        ).lastrowid
        for name, digest in sorted(plates.items()):
            db.execute("INSERT INTO plate VALUES (?, ?, ?, ?)", [row, name, digest, int(name in empty)])
        db.execute("DELETE FROM pause WHERE kind = 'plates' AND key = ?", [key_of(left, right, making)])
        some = wanting(book, left, right, making)
        for edition, pair in dict.fromkeys((name, pair) for _, name, pair, _ in some):
            sites = [site for _, name, p, site in some if (name, p) == (edition, pair)]
            book.tell(
                "made",
                edition=edition,
                pair=pair,
                sums=sums,
                plates=len(plates),
                seconds=seconds,
                verify=verify,
                shared=sites,
            )
        for number in dict.fromkeys(number for number, *_ in some):
            due.settle(book, number)


def failed(book: Book, left: int, right: int, making: str, why: str) -> None:
    """Enters that plates couldn't be made, which is this machine's fault."""
    some = wanting(book, left, right, making)
    about = {"edition": some[0][1], "pair": some[0][2]} if some else {}
    with book.journal.transaction():
        pauses.enter(book, "plates", key_of(left, right, making), "machine", why, **about)


def not_whole(book: Book, site: int, why: str) -> None:
    """Enters that a site's plates couldn't be verified together."""
    row = book.journal.row(
        "SELECT s.name, e.name AS edition FROM site s JOIN edition e ON e.id = s.edition WHERE s.id = ?", site
    )
    assert row is not None
    with book.journal.transaction():
        pauses.enter(book, "whole", str(site), "machine", why, edition=row["edition"], site=row["name"])
