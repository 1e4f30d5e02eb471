"""Shows bytes and text of strangers on one line: names of files, and what a program said on standard
error."""
import unicodedata

# The most characters of a program's message that an event keeps.
MOST_TEXT = 300


def shown(name: bytes | str, most: int = MOST_TEXT) -> str:
    """Returns a name or a message as one line of printable characters, at most `most` of them.

    A byte that isn't UTF-8 and a control character are shown as `\\xNN`; every other character without a
    glyph of its own (line separators, marks that turn the direction of text) as `\\u{NNNN}`; a backslash is
    doubled, so that no name can be written as the escape of another one.
    """
    text = name.decode("utf-8", "surrogateescape") if isinstance(name, bytes) else name
    line = ""
    for sign in text:
        line += escaped(sign)
        if len(line) > most:
            return line[: max(0, most - 3)] + "..."
    return line


def escaped(sign: str) -> str:
    """Returns one character as `shown` shows it."""
    code = ord(sign)
    if sign == "\\":
        return "\\\\"
    if 0xDC80 <= code <= 0xDCFF:  # A byte that UTF-8 doesn't have here, as `surrogateescape` keeps it.
        return f"\\x{code - 0xDC00:02x}"
    if code < 32 or 127 <= code < 160:
        return f"\\x{code:02x}"
    if sign != " " and unicodedata.category(sign)[0] in "CZ":
        return f"\\u{{{code:04x}}}"
    return sign
