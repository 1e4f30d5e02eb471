"""Reads one content stream, instruction by instruction, and finds what changes in it: ISO 32000-1, 7.8.2."""
from dataclasses import dataclass, replace
from typing import TYPE_CHECKING

import pikepdf

from pressroom.reading.colours import DIRECT, State
from pressroom.reading.fonts import is_embedded, shown_name
from pressroom.reading.inline import outlined, space_of_inline
from pressroom.reading.objects import Unreadable, get, is_array, is_dictionary, is_stream, name, shown
from pressroom.reading.pictures import grey, see_jpeg
from pressroom.reading.resources import Resources
from pressroom.reading.tokens import Instruction, Watch, escaped, instructions

if TYPE_CHECKING:
    from pressroom.reading.walk import Walk

PAINTING = {b"f", b"F", b"f*", b"S", b"s", b"B", b"B*", b"b", b"b*"}
TEXT = {b"Tj", b"TJ", b"'", b'"'}
COLOURS = {*DIRECT, b"cs", b"CS", b"sc", b"SC", b"scn", b"SCN"}
INVISIBLE = 3


@dataclass
class Edit:
    """Bytes of a stream, and what takes their place."""

    start: int
    end: int
    text: bytes


class Reader:
    """Reads one content stream, instruction by instruction."""

    def __init__(self, walk: "Walk", resources: Resources, state: State, mask: bool) -> None:
        self.walk, self.resources, self.state, self.mask = walk, resources, state, mask
        self.saved: list[State] = []
        self.marks: list[bool] = []
        self.watch, self.hidden, self.data = Watch(), 0, b""
        # Where the first operator of a glyph ends, and whether a soft mask is set.
        self.begun, self.masked = 0, False

    def edits(self, data: bytes) -> list[Edit]:
        """Returns what changes in the stream."""
        found: list[Edit] = []
        self.data = data
        for instruction in instructions(data, self.watch):
            text = self.text(instruction)
            if text is not None:
                found.append(Edit(instruction.start, instruction.end, text))
        return found

    def text(self, instruction: Instruction) -> bytes | None:
        """Follows an instruction. Returns what takes its place, or None."""
        operator = instruction.operator
        if operator == b"q":
            self.saved.append(self.state)
        elif operator == b"Q":
            if self.saved:
                self.state = self.saved.pop()
        elif operator in COLOURS:
            return self.colour(instruction)
        elif operator in TEXT:
            return self.shown_text(instruction)
        elif operator in (b"BDC", b"BMC", b"EMC"):
            return self.mark(instruction)
        elif operator in (b"Do", b"sh", b"BI") or (operator in PAINTING and self.hidden):
            if self.hidden:
                return b"n" if operator in PAINTING else b""
            return self.painted(instruction)
        elif operator in (b"gs", b"Tf", b"Tr"):
            self.set(instruction)
        elif operator in (b"d0", b"d1"):
            self.begun = instruction.end
        return None

    def colour(self, instruction: Instruction) -> bytes | None:
        operator, operands = instruction.operator, instruction.operands
        if operator in (b"scn", b"SCN", b"sc", b"SC") and operands and isinstance(operands[-1], bytes):
            word = operands[-1]
            old = self.resources.needed(b"/Pattern", word, "pattern")
            self.resources.change(
                b"/Pattern", word, old, self.walk.pattern(old, self.resources, word, self.mask)
            )
        self.state, text = self.walk.colours.set(instruction, self.state, self.resources, self.mask)
        return text

    def mark(self, instruction: Instruction) -> bytes | None:
        """Follows a mark of content, which may be optional. What shows is marked as such no longer."""
        text = None
        if instruction.operator == b"EMC":
            if self.marks and self.marks.pop():
                self.hidden -= 1
        else:
            hides = False
            if instruction.operator == b"BDC" and instruction.operands[:1] == (b"/OC",):
                word = instruction.operands[-1]
                group = self.resources.find(b"/Properties", word) if isinstance(word, bytes) else None
                hides, text = not self.walk.optional.shows(group), b"/OC BMC"
            self.marks.append(hides)
            self.hidden += hides
        self.watch.painting = self.hidden > 0
        return text

    def shown_text(self, instruction: Instruction) -> bytes | None:
        """Follows an operator that shows text."""
        if self.hidden:
            mode = 7 if self.state.mode >= 4 else INVISIBLE
            source = self.data[instruction.start : instruction.end]
            return b"%d Tr %s %d Tr" % (mode, source, self.state.mode)
        if self.state.mode == INVISIBLE:
            return None
        font = self.state.font
        if font is None and self.state.named:
            font = self.resources.needed(b"/Font", self.state.named, "font")
        if is_dictionary(font):
            self.see_font(font)
        return None

    def see_font(self, font: pikepdf.Object) -> None:
        if name(get(font, b"/Subtype")) == b"/Type3":
            new = self.walk.glyphs(font, self.resources, self.state, self.mask)
            if self.state.named:
                self.resources.change(b"/Font", self.state.named, font, new)
        elif not is_embedded(font):
            self.walk.fonts.add(shown_name(font))

    def set(self, instruction: Instruction) -> None:
        """Follows an operator that sets the graphics state, a font or the way that text is shown."""
        operands = instruction.operands
        if instruction.operator == b"Tr":
            if operands and isinstance(operands[-1], float):
                self.state = replace(self.state, mode=int(operands[-1]))
            return
        place = -2 if instruction.operator == b"Tf" else -1
        word = operands[place] if len(operands) >= -place else b""
        word = word if isinstance(word, bytes) else b""
        if instruction.operator == b"Tf":
            self.state = replace(self.state, named=word, font=self.resources.find(b"/Font", word))
            return
        old = self.resources.needed(b"/ExtGState", word, "graphics state")
        self.masked |= is_dictionary(get(old, b"/SMask"))
        new = self.walk.state_of(old, self.resources, self.state, self.mask)
        self.resources.change(b"/ExtGState", word, old, new)
        font = get(old, b"/Font")
        if is_array(font) and len(font):
            self.state = replace(self.state, font=font[0], named=b"")

    def painted(self, instruction: Instruction) -> bytes | None:
        """Follows an operator that paints a form, a picture or a shading."""
        if instruction.operator == b"BI":
            return self.inline(instruction)
        word = instruction.operands[-1] if instruction.operands else b""
        word = word if isinstance(word, bytes) else b""
        if instruction.operator == b"sh":
            old = self.resources.needed(b"/Shading", word, "shading")
            where = f"the shading {shown(word)} of {self.resources.where}"
            self.resources.change(b"/Shading", word, old, self.walk.shadings.changed(old, where, self.mask))
            return None
        old = self.resources.needed(b"/XObject", word, "object")
        if (group := get(old, b"/OC")) is not None:
            if not self.walk.optional.shows(group):
                return b""
            del old[b"/OC"]
        kind = name(get(old, b"/Subtype"))
        if not is_stream(old):
            raise Unreadable(
                "damaged", f"damaged: object {shown(word)} of {self.resources.where} isn't a stream"
            )
        if kind == b"/Form":
            new = self.walk.content(old, self.resources, f"the form {shown(word)}", self.state, self.mask)
        elif kind == b"/Image":
            new = self.walk.picture(old, self.resources, word, self.mask)
        else:
            return None
        self.resources.change(b"/XObject", word, old, new)
        return None

    def inline(self, instruction: Instruction) -> bytes | None:
        """Follows an inline image. Within a luminosity mask one in RGB becomes a picture in grey."""
        keys = instruction.operands[0]
        if not isinstance(keys, dict):
            return None
        pdf, where = self.walk.pdf, f"an inline picture of {self.resources.where}"
        if b"DCT" in keys.get(b"/F", keys.get(b"/Filter", b"")):
            see_jpeg(pdf, outlined(pdf, keys, self.resources), where)
        if b"true" in (keys.get(b"/IM"), keys.get(b"/ImageMask")):
            return None
        space = space_of_inline(keys, self.resources)
        self.walk.colours.lab |= space.has("lab")
        if space.has("rgb") and self.mask:
            picture = grey(pdf, outlined(pdf, keys, self.resources), space, where)
            word = self.resources.added(b"/XObject", picture)
            return escaped(word) + b" Do"
        self.walk.rgb |= space.has("rgb")
        return None


def enclosed(data: bytes, edits: list[Edit], start: int) -> list[Edit]:
    """Returns the edits and two more, by which the state from `start` on is restored at the end."""
    first, last = Edit(start, start, b" q "), Edit(len(data), len(data), b"\nQ")
    return sorted([first, *edits, last], key=lambda edit: edit.start)


def spliced(data: bytes, edits: list[Edit]) -> bytes:
    """Returns the bytes with all edits made."""
    parts, at = [], 0
    for edit in edits:
        parts += [data[at : edit.start], edit.text]
        at = edit.end
    return b"".join([*parts, data[at:]])
