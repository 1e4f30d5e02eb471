"""Finds the operators of a content stream with their operands and places: ISO 32000-1, 7.2 and 7.8.2.

The scan is linear in the stream's length. One regular expression passes over runs of operators that only build paths
or move text, so that a page of a million lines takes less than a second.
"""
import re
import zlib
from collections.abc import Iterator
from typing import NamedTuple

SPACE = rb"\0\t\n\f\r "
REGULAR = rb"[^\0\t\n\f\r ()<>\[\]{}/%]"
# Operators that neither paint nor set what matters here, with their numbers.
QUIET = rb"[mlcvyhwWnjJiM]|re|cm|W\*|Td|TD|Tm|T\*|Tc|Tw|Tz|TL|Ts|BT|ET"
PAINTING = rb"|[fFSsBb]|[fBb]\*"
RUN = rb"(?:[" + SPACE + rb"\d.+\-]*+(?:%s)(?=[" + SPACE + rb"])){1,10000}"
PLAIN, UNPAINTED = re.compile(RUN % (QUIET + PAINTING)), re.compile(RUN % QUIET)
# A string without others inside. Possessive quantifiers stand on single characters alone: Python 3.11 has them wrong
# on groups.
TEXT = rb"\([^()\\]*+(?:\\.[^()\\]*+)*\)"
TOKEN = re.compile(
    rb"[" + SPACE + rb"]*+(?:(?P<number>[+\-.\d][\d.\-]*+)|(?P<name>/" + REGULAR + rb"*+)"
    rb"|(?P<word>[A-Za-z'\"]" + rb"[A-Za-z0-9*'\"_]*+)|(?P<text>" + TEXT + rb")"
    rb"|(?P<hex><[0-9A-Fa-f" + SPACE + rb"]*+>)|(?P<comment>%[^\r\n]*+)|(?P<other>[^" + SPACE + rb"]))",
    re.DOTALL,
)
# An array of numbers and plain strings, as text has.
ARRAY = re.compile(rb"\[(?:[^()\[\]<>%\\]++|" + TEXT + rb"|<[0-9A-Fa-f" + SPACE + rb"]*+>)*\]", re.DOTALL)
PAREN = re.compile(rb"[()\\]")
ESCAPE = re.compile(rb"#([0-9A-Fa-f]{2})")
END_OF_IMAGE = re.compile(rb"[" + SPACE + rb"]EI(?=[" + SPACE + rb"]|$)")
OPERATORS = frozenset(
    b"b B b* B* BDC BI BMC BT BX c cm CS cs d d0 d1 Do DP EI EMC ET EX f F f* G g gs h i ID j J K k l m M MP n q Q re"
    b" RG rg ri s S SC sc SCN scn sh T* Tc Td TD Tf Tj TJ TL Tm Tr Ts Tw Tz v w W W* y ' \"".split()
)
# The most operators without a space between them. Ghostscript splits two.
MOST_JOINED = 8
Operand = float | bytes | dict[bytes, bytes]


class Scrambled(Exception):
    """A content stream that can't be read. The text says why."""


class Instruction(NamedTuple):
    """An operator, its operands, and the bytes from its first operand to its end.

    An operand is a number, or the bytes of a name, a string, an array or a dictionary. `BI` has the keys of the
    image and, under b"data", the image's data.
    """

    operator: bytes
    operands: tuple[Operand, ...]
    start: int
    end: int


def unescaped(word: bytes) -> bytes:
    """Returns a name with its escapes resolved."""
    return ESCAPE.sub(lambda found: bytes([int(found[1], 16)]), word) if b"#" in word else word


def escaped(word: bytes) -> bytes:
    """Returns a name, with its slash, as it is written in a content stream."""
    return b"/" + re.sub(
        rb"[^!\"$&'*+,\-.0-9:;=?@A-Z\\^_`a-z|~]", lambda found: b"#%02x" % found[0][0], word[1:]
    )


def text_end(data: bytes, start: int) -> int:
    """Returns where the string ends that begins here."""
    depth, at = 0, start
    while found := PAREN.search(data, at):
        at = found.end()
        if found[0] == b"\\":
            at += 1
        else:
            depth += 1 if found[0] == b"(" else -1
            if not depth:
                return at
    return len(data)


def composite_end(data: bytes, start: int) -> int:
    """Returns where the array or dictionary ends that begins here."""
    depth, at = 0, start
    while found := TOKEN.match(data, at):
        at = found.end()
        if found.lastgroup != "other":
            continue
        place, sign = found.start("other"), found["other"]
        if sign == b"(":
            at = text_end(data, place)
        elif data.startswith((b"<<", b">>"), place):
            depth, at = depth + (1 if sign == b"<" else -1), place + 2
        elif sign in (b"[", b"]"):
            depth += 1 if sign == b"[" else -1
        if depth <= 0 and sign != b"(":
            return at
    return len(data)


def number_of(text: bytes) -> float:
    """Returns a number; 0 if it's malformed, as Ghostscript reads it."""
    try:
        return float(text)
    except ValueError:
        return 0.0


class Watch:
    """What a reader of instructions wants to see: with `painting`, also the operators that paint paths."""

    painting = False


def instructions(data: bytes, watch: Watch) -> Iterator[Instruction]:
    """Yields the instructions of a content stream, without runs of those that QUIET and PAINTING name."""
    at, start = 0, -1
    operands: list[Operand] = []
    while True:
        if not operands and (run := (UNPAINTED if watch.painting else PLAIN).match(data, at)):
            at = run.end()
        found = TOKEN.match(data, at)
        if found is None:
            return
        kind, place, at = found.lastgroup, found.start(found.lastgroup or 0), found.end()
        if kind == "comment":
            continue
        if start < 0:
            start = place
        if kind == "word":
            if found["word"] == b"BI":
                instruction = inline_image(data, start, at)
                yield instruction
                at = instruction.end
            else:
                yield from operators_of(found["word"], tuple(operands), start, place)
            operands, start = [], -1
        else:
            operand, at = operand_of(data, found, place)
            operands.append(operand)


def operand_of(data: bytes, found: re.Match[bytes], place: int) -> tuple[Operand, int]:
    """Returns the operand that begins here, and where it ends."""
    kind = found.lastgroup
    if kind == "number":
        return number_of(found["number"]), found.end()
    if kind == "name":
        return unescaped(found["name"]), found.end()
    if kind in ("text", "hex"):
        return data[place : found.end()], found.end()
    if found["other"] == b"(":
        end = text_end(data, place)
    elif found["other"] == b"[" and (array := ARRAY.match(data, place)):
        end = array.end()
    elif found["other"] == b"[" or data.startswith(b"<<", place):
        end = composite_end(data, place)
    else:
        end = place + 1
    return data[place:end], end


def operators_of(word: bytes, operands: tuple[Operand, ...], start: int, place: int) -> Iterator[Instruction]:
    """Yields the instruction of an operator, or those of operators that stand without a space between them."""
    if word in OPERATORS or word in (b"true", b"false", b"null"):
        yield Instruction(word, operands, start, place + len(word))
        return
    for _ in range(MOST_JOINED):
        if not word:
            return
        length = next((n for n in (3, 2, 1) if word[:n] in OPERATORS), 0)
        if not length:
            yield Instruction(b"", operands, start, place + len(word))
            return
        yield Instruction(word[:length], operands, start, place + length)
        word, place, operands = word[length:], place + length, ()
        start = place


def inline_image(data: bytes, start: int, at: int) -> Instruction:
    """Returns the inline image whose keys begin here."""
    found: dict[bytes, bytes] = {}
    key: bytes | None = None
    while token := TOKEN.match(data, at):
        at, place = token.end(), token.start(token.lastgroup or 0)
        if token.lastgroup == "word" and token["word"] == b"ID":
            break
        if token.lastgroup == "comment":
            continue
        if token.lastgroup == "other":
            _, at = operand_of(data, token, place)
        if key is None:
            key = unescaped(data[place:at])
        else:
            found[key], key = data[place:at], None
    else:
        raise Scrambled("an inline image has no data")
    first = at + 1
    end = image_end(data, first, found)
    if end is None:
        raise Scrambled("an inline image has no end")
    return Instruction(b"BI", (found | {b"data": data[first : end[0]]},), start, end[1])


def image_end(data: bytes, first: int, keys: dict[bytes, bytes]) -> tuple[int, int] | None:
    """Returns where an inline image's data end, and where its EI ends, or None."""
    filters = re.findall(rb"/[A-Za-z0-9]+", keys.get(b"/F", keys.get(b"/Filter", b"")))
    least = first
    if filters[:1] in ([b"/Fl"], [b"/FlateDecode"]):
        reader = zlib.decompressobj()
        try:
            reader.decompress(data[first:], 1 << 26)
            if reader.eof:
                least = len(data) - len(reader.unused_data)
        except zlib.error:
            pass
    elif not filters:
        least = first + plain_length(keys)
    # EI may follow the data without a space.
    for found in END_OF_IMAGE.finditer(data, max(0, least - 1)):
        rest = data[found.end() : found.end() + 24]
        if all(byte in b"\0\t\n\f\r" or 32 <= byte < 127 for byte in rest):
            return max(found.start(), least), found.end()
    return None


def plain_length(keys: dict[bytes, bytes]) -> int:
    """Returns the bytes of an inline image without a filter, 0 if its colour space is named elsewhere."""

    def whole(*names: bytes) -> int:
        text = next((keys[name] for name in names if name in keys), b"0")
        return int(text) if text.isdigit() else 0

    space = keys.get(b"/CS", keys.get(b"/ColorSpace", b""))
    counts = {b"/G": 1, b"/DeviceGray": 1, b"/RGB": 3, b"/DeviceRGB": 3, b"/CMYK": 4, b"/DeviceCMYK": 4}
    mask = b"true" in (keys.get(b"/IM"), keys.get(b"/ImageMask"))
    count = 1 if mask or space.startswith(b"[") else counts.get(space, 0)
    bits = 1 if mask else whole(b"/BPC", b"/BitsPerComponent")
    return (whole(b"/W", b"/Width") * count * bits + 7) // 8 * whole(b"/H", b"/Height")


def names_of(text: bytes) -> list[bytes]:
    """Returns the keys of a dictionary that is written out."""
    at, found, is_key = text.find(b"<<") + 2, [], True
    while token := TOKEN.match(text, at):
        at, place = token.end(), token.start(token.lastgroup or 0)
        if text.startswith(b">>", place):
            break
        if token.lastgroup == "other":
            _, at = operand_of(text, token, place)
        if is_key:
            if token.lastgroup != "name":
                break
            found.append(unescaped(token["name"]))
            is_key = False
        elif reference := re.compile(rb"\s\d+ R(?=[\s>/])").match(text, at):
            at, is_key = reference.end(), True
        else:
            is_key = True
    return found
