"""Finds the line of each key of a TOML text, which tomllib doesn't report.

tomllib has already accepted the text, so this only follows its tables, keys, strings and brackets.
"""
import bisect
import tomllib
from collections.abc import Iterator

Path = tuple[str | int, ...]
# The depth up to which keys are recorded: those below have the line of the one above.
DEEPEST = 8


class KeyLines:
    """Finds the line of a key by its path: a tuple of keys, with a number for each place in a list."""

    def __init__(self, text: str) -> None:
        self.text, self.at = text, 0
        self.lines: dict[Path, int] = {(): 1}
        self.lists: dict[Path, int] = {}
        self.ends = [place for place, sign in enumerate(text) if sign == "\n"]
        table: Path = ()
        while self.skip_blank():
            table = self.header() if self.text[self.at] == "[" else self.pair(table)

    def line(self, path: Path) -> int:
        """Returns the line of this path, or of the nearest enclosing one that the text has."""
        while path not in self.lines:
            path = path[:-1]
        return self.lines[path]

    def skip_blank(self) -> bool:
        """Skips blanks, line ends and comments. Returns False at the end of the text."""
        while self.at < len(self.text) and self.text[self.at] in " \t\r\n#":
            if self.text[self.at] == "#":
                self.at = (self.text + "\n").index("\n", self.at)
            else:
                self.at += 1
        return self.at < len(self.text)

    def record(self, path: Path) -> None:
        """Records that a key, and the tables around it that aren't recorded yet, are on the current line."""
        line = bisect.bisect_left(self.ends, self.at) + 1
        for length in range(1, min(len(path), DEEPEST) + 1):
            self.lines.setdefault(path[:length], line)

    def header(self) -> Path:
        """Reads `[table]` or `[[list]]` and returns the path of what follows."""
        start, double = self.at, self.text.startswith("[[", self.at)
        self.at += 2 if double else 1
        *outer, last = self.keys("]")
        path: Path = ()
        for key in outer:
            path += (key,)
            path += (self.lists[path],) if path in self.lists else ()
        path += (last,)
        end, self.at = self.at + (2 if double else 1), start
        if double:
            self.lists[path] = self.lists.get(path, -1) + 1
            path += (self.lists[path],)
        self.record(path)
        self.at = end
        return path

    def pair(self, table: Path) -> Path:
        """Reads `key = value` and returns the table's path unchanged."""
        start = self.at
        path = table + tuple(self.keys("="))
        end, self.at = self.at + 1, start
        self.record(path)
        self.at = end
        self.value(path)
        return table

    def keys(self, end: str) -> Iterator[str]:
        """Yields the parts of a dotted key, up to this character."""
        while self.text[self.at] != end:
            sign = self.text[self.at]
            if sign in " \t.":
                self.at += 1
            elif sign in "\"'":
                start = self.at
                self.string()
                yield self.unquoted(self.text[start : self.at])
            else:
                start = self.at
                while self.text[self.at] not in " \t." + end:
                    self.at += 1
                yield self.text[start : self.at]

    @staticmethod
    def unquoted(text: str) -> str:
        """Returns the key that a quoted part stands for."""
        return next(iter(tomllib.loads(f"{text} = 0")))

    def string(self) -> None:
        """Skips a string of one or several lines."""
        quote = self.text[self.at]
        long = self.text.startswith(quote * 3, self.at)
        mark = quote * 3 if long else quote
        self.at += len(mark)
        while not self.text.startswith(mark, self.at):
            self.at += 2 if quote == '"' and self.text[self.at] == "\\" else 1
        self.at += len(mark)
        while long and self.text.startswith(quote, self.at):
            self.at += 1

    def value(self, path: Path) -> None:
        """Skips a value, and records the contents of a list or an inline table."""
        self.skip_blank()
        sign = self.text[self.at]
        if sign in "\"'":
            self.string()
        elif sign in "[{":
            self.at += 1
            self.held(path, "]" if sign == "[" else "}")
        else:
            while self.at < len(self.text) and self.text[self.at] not in ",]}#\n":
                self.at += 1

    def held(self, path: Path, end: str) -> None:
        """Skips and records the contents of a list or an inline table, up to its closing bracket."""
        number = 0
        while self.skip_blank() and self.text[self.at] != end:
            if self.text[self.at] == ",":
                self.at += 1
            elif end == "}":
                self.pair(path)
            else:
                self.record(path + (number,))
                self.value(path + (number,))
                number += 1
        self.at += 1
