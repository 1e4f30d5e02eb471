"""The house file as a value: read whole, tested whole, and in force only if editions under way lose nothing by it."""
from typing import Any

from pressroom.night import begin, houses
from pressroom.night.book import Book


def see(book: Book, all_houses: houses.Houses) -> str | None:
    """Reads the house file and puts it in force if it changed. Returns why it can't be used: then the last good one
    stays, which an event says once."""
    try:
        text = houses.read_house(all_houses.file)
        if not text.strip():
            raise ValueError("it is empty")
        now = all_houses.now()
        if now is not None and all_houses.text(now[0]) == text:
            begin.enter_house(book, text)
            return None
        house = all_houses.editions.house_of(text, all_houses.file)
        need_sites(book, all_houses, house)
    except (OSError, ValueError, all_houses.editions.Fault) as error:
        is_fault = isinstance(error, all_houses.editions.Fault)
        fault = str(error) if is_fault else f"{all_houses.file}: {error}"
        begin.refuse_house(book, fault)
        return fault
    begin.enter_house(book, text)
    return None


def need_sites(book: Book, all_houses: houses.Houses, house: Any) -> None:
    """Raises ValueError if a house lacks a site, or its delivery, of an edition that is under way."""
    rows = book.journal.rows(
        "SELECT DISTINCT s.name, e.id FROM site s JOIN edition e ON e.id = s.edition WHERE e.state = 'open' ORDER BY s.name"
    )
    has = {site.name for site in house.house.sites}
    for row in rows:
        if row["name"] not in has:
            raise ValueError(f"sites.{row['name']} is missing, and an edition under way has it")
        was = all_houses.editions.method(all_houses.of(row["id"]), row["name"])
        if was is not None and all_houses.editions.method(house, row["name"]) is None:
            raise ValueError(f"delivery.sites.{row['name']} is missing, and an edition under way has it")
