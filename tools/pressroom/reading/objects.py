"""Access to a PDF's objects through pikepdf. Names are bytes with their slash, such as b"/Font": a PDF's names have
no encoding, and pikepdf's own strings can't hold those that aren't UTF-8.
"""
from collections.abc import Iterator
from decimal import Decimal
from typing import TypeGuard

import pikepdf

from pressroom.reading.tokens import names_of

# What stands for a missing value, and for values that aren't of the kind that is asked for.
Numbers = tuple[float, ...]


class Unreadable(Exception):
    """A fault of the page: a word for scripts, and the text."""

    def __init__(self, kind: str, text: str) -> None:
        super().__init__(text)
        self.kind = kind


def is_dictionary(value: object) -> TypeGuard[pikepdf.Object]:
    """Returns whether a value is a dictionary or a stream."""
    return isinstance(value, (pikepdf.Dictionary, pikepdf.Stream))


def is_stream(value: object) -> TypeGuard[pikepdf.Stream]:
    return isinstance(value, pikepdf.Stream)


def is_array(value: object) -> TypeGuard[pikepdf.Array]:
    return isinstance(value, pikepdf.Array)


def is_true(value: object) -> bool:
    return value is True


def get(holder: object, key: bytes) -> pikepdf.Object | None:
    """Returns a dictionary's value, or None if it has none or the holder isn't a dictionary."""
    return holder.get(key) if isinstance(holder, (pikepdf.Dictionary, pikepdf.Stream)) else None


def keys(holder: pikepdf.Object) -> list[bytes]:
    """Returns a dictionary's keys."""
    try:
        return [key.encode() for key in holder.keys()]
    except UnicodeDecodeError:
        part = holder.stream_dict if is_stream(holder) else holder
        text = part.unparse(True) if part.is_indirect else part.unparse()
        return names_of(text)


def items(holder: object) -> Iterator[tuple[bytes, pikepdf.Object]]:
    """Yields a dictionary's keys and values; nothing if the holder isn't a dictionary."""
    if is_dictionary(holder):
        for key in keys(holder):
            value = get(holder, key)
            if value is not None:
                yield key, value


def name(value: object) -> bytes:
    """Returns a name, or nothing if the value isn't one."""
    return bytes(value) if isinstance(value, pikepdf.Name) else b""


def number(value: object) -> float | None:
    """Returns a number, or None."""
    if isinstance(value, bool) or not isinstance(value, (int, float, Decimal)):
        return None
    return float(value)


def numbers(value: object) -> Numbers:
    """Returns the numbers of an array; nothing if the value is anything else."""
    if not isinstance(value, pikepdf.Array):
        return ()
    found = [number(item) for item in value]
    return tuple(item for item in found if item is not None) if None not in found else ()


def pairs(holder: object, key: bytes) -> list[tuple[float, float]]:
    """Returns the pairs of an array of numbers; nothing if their count is odd."""
    found = numbers(get(holder, key))
    return list(zip(found[::2], found[1::2])) if len(found) % 2 == 0 else []


def identity(value: object) -> tuple[int, int] | None:
    """Returns the object number and generation of an indirect object, or None."""
    if isinstance(value, pikepdf.Object) and value.is_indirect:
        number, generation = value.objgen
        return int(number), int(generation)
    return None


def shown(word: bytes) -> str:
    """Returns a name fit for a message, without its slash."""
    text = word.removeprefix(b"/").decode("utf-8", "replace")
    text = "".join(letter if letter.isprintable() else "?" for letter in text)
    return text if len(text) <= 60 else text[:57] + "..."


def copied(holder: pikepdf.Object) -> pikepdf.Object:
    """Returns a direct copy of a dictionary, with the same values."""
    made = pikepdf.Dictionary()
    for key, value in items(holder):
        made[key] = value
    return made


def without(holder: pikepdf.Object, *keys_: bytes) -> pikepdf.Object:
    """Returns a direct copy of a dictionary without these keys."""
    made = copied(holder)
    for key in keys_:
        if key in made:
            del made[key]
    return made


def readable(stream: pikepdf.Object, where: str) -> bytes:
    """Returns a stream's decoded bytes."""
    try:
        return bytes(stream.read_bytes())
    except pikepdf.PdfError as error:
        raise Unreadable("damaged", f"damaged: {where} can't be decoded: {error}") from None
