"""Reads the tables of a house file key by key, and collects the faults with their lines.

A key is declared once, as a field of a frozen dataclass: `dpi: int = key(WHOLE, "pixels an inch")`. The
declaration has its type, what it accepts, a line of text and its default. `Keys.fill` reads all keys of such a
class.
"""
import dataclasses
from collections.abc import Iterator, Mapping
from dataclasses import dataclass
from typing import Any, NoReturn, TypeVar

from pressroom.base.faults import Fault
from pressroom.house.forms import Form, Wrong, wrong
from pressroom.house.toml_lines import KeyLines

T = TypeVar("T")
Path = tuple[str | int, ...]
# A fault lists the keys of a table that has fewer.
MANY = 12
# The default of a key that a file must have.
REQUIRED: Any = object()


class HouseFault(Fault):
    """The faults of a house file. `lines` has each fault with its file, line and key."""

    def __init__(self, lines: list[str]) -> None:
        super().__init__("\n".join(lines))
        self.lines = lines


@dataclass(frozen=True)
class Key:
    """The declaration of a key: what it accepts, what it means, and its default."""

    form: Form[Any]
    text: str
    default: Any = REQUIRED


def key(form: Form[T], text: str, default: Any = REQUIRED) -> Any:
    """Declares a field of a dataclass as a key of the house file."""
    declared = {"key": Key(form, text, default)}
    if default is REQUIRED:
        return dataclasses.field(metadata=declared)
    return dataclasses.field(default=default, metadata=declared)


def keys_of(table: type) -> dict[str, Key]:
    """Returns the keys that a dataclass declares, by name."""
    return {item.name: item.metadata["key"] for item in dataclasses.fields(table) if "key" in item.metadata}


class Faults:
    """The faults of one file, sorted by line. `kind` is what the file is, in words."""

    def __init__(self, path: str, lines: KeyLines, kind: str = "a house file") -> None:
        self.path, self.lines, self.kind = path, lines, kind
        self.found: list[tuple[int, str]] = []

    def add(self, path: Path, words: str, missing: str = "") -> None:
        """Adds a fault at this path. `missing`, if given, is a key that is missing there."""
        line = self.lines.line(path)
        full = ".".join(map(str, path + ((missing,) if missing else ())))
        self.found.append((line, f"{self.path} line {line}: {full}: {words}"))

    def stop(self, path: Path, words: str) -> NoReturn:
        """Raises HouseFault with a fault at this path and all that were found before."""
        self.add(path, words)
        self.end()
        raise AssertionError

    def end(self) -> None:
        """Raises HouseFault if there are faults."""
        if self.found:
            raise HouseFault([text for _, text in sorted(self.found, key=lambda pair: pair[0])])


class Keys:
    """The keys of one table while they are read."""

    def __init__(self, table: Mapping[str, Any], path: Path, faults: Faults) -> None:
        self.table, self.path, self.faults = table, path, faults
        self.left = set(table)
        self.known: list[str] = []

    def take(self, name: str, declared: Key) -> Any:
        """Returns the value of a key, its default if absent, or None if it's wrong."""
        self.see(name)
        if name not in self.table:
            if declared.default is REQUIRED:
                self.faults.add(self.path, "is missing", name)
                return None
            return declared.default
        try:
            return declared.form.read(self.table[name])
        except Wrong as error:
            self.faults.add(self.path + (name,), str(error))
            return None

    def fill(self, table: type) -> dict[str, Any]:
        """Returns the values of all keys that a dataclass declares."""
        return {name: self.take(name, declared) for name, declared in keys_of(table).items()}

    def whole(self, table: type[T]) -> T | None:
        """Reads a table that has the keys of a dataclass and no others. Returns None if one is wrong."""
        before = len(self.faults.found)
        values = self.fill(table)
        self.end()
        return table(**values) if len(self.faults.found) == before else None

    def named(self, form: Form[T], default: T) -> dict[str, T]:
        """Reads a table of names, each with a value of this form."""
        return {name: self.take(name, Key(form, "", default)) for name in self.table}

    def inside(self, name: str) -> "Keys":
        """Returns the keys of a table within this one. An absent table is empty."""
        self.see(name)
        table = self.table.get(name, {})
        if not isinstance(table, dict):
            self.faults.add(self.path + (name,), str(wrong(table, "a table")))
            table = {}
        return Keys(table, self.path + (name,), self.faults)

    def each(self, name: str) -> Iterator["Keys"]:
        """Yields the keys of each table in a list of tables."""
        self.see(name)
        items = self.table.get(name, [])
        if not isinstance(items, list) or not all(isinstance(item, dict) for item in items):
            self.faults.add(self.path + (name,), str(wrong(items, "a list of tables")))
            items = []
        for place, item in enumerate(items):
            yield Keys(item, self.path + (name, place), self.faults)

    def see(self, name: str) -> None:
        """Records that this table may have a key."""
        self.left.discard(name)
        if name not in self.known:
            self.known.append(name)

    def end(self) -> None:
        """Reports each key that wasn't read."""
        for name in self.table:
            if name in self.left:
                here = f"; the keys here are {', '.join(self.known)}" if 0 < len(self.known) < MANY else ""
                self.faults.add(self.path + (name,), f"isn't a key of {self.faults.kind}{here}")
