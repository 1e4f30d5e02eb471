"""Follows what a page shows through its content streams: forms, patterns, masks, glyphs and annotations.

Each stream is rewritten as little as possible: a stream without a change keeps its bytes. ISO 32000-1, 7.8, 8 and 9.
"""
import functools
from dataclasses import replace
from typing import TYPE_CHECKING

import pikepdf

from pressroom.reading.colours import Colours, State

from pressroom.reading.objects import (
    Unreadable, copied, get, identity, is_dictionary, is_stream, is_true, items, name, readable, shown, without,
)  # fmt: skip
from pressroom.reading.optional import Optional
from pressroom.reading.pictures import JPEG, JPEG_2000, alternate, filters, grey, see_jpeg, untagged_2000
from pressroom.reading.reader import Reader, enclosed, spliced
from pressroom.reading.resources import Resources
from pressroom.reading.spaces import DEVICE, Blacks, Space, space_of
from pressroom.reading.tokens import Scrambled

if TYPE_CHECKING:
    from pressroom.reading.shadings import Shadings

# The most streams within one another. Ghostscript's own stack is less deep.
MOST_DEPTH = 60


class Walk:
    """Follows one page. The attributes tell what it shows: whether pictures are in RGB, and the names of fonts that
    aren't embedded.
    """

    def __init__(self, pdf: pikepdf.Pdf, optional: Optional, blacks: Blacks, prune: bool) -> None:
        self.pdf, self.optional, self.prune = pdf, optional, prune
        self.colours, self.blacks = Colours(blacks), blacks
        self.rgb, self.luminous, self.fonts = False, False, set[str]()
        self.stack: list[tuple[int, int] | None] = []
        self.made: dict[object, pikepdf.Object] = {}

    @functools.cached_property
    def shadings(self) -> "Shadings":
        """Returns the page's shadings. numpy is loaded for a page that has one."""
        from pressroom.reading.shadings import Shadings

        return Shadings(self.pdf, self.blacks)

    def colourful(self) -> tuple[bool, bool]:
        """Returns whether the page shows RGB, and whether it shows Lab."""
        rgb, lab = self.rgb or self.colours.rgb, self.colours.lab
        if "shadings" in self.__dict__:
            rgb, lab = rgb or self.shadings.rgb, lab or self.shadings.lab
        return rgb, lab

    def has(self, what: str) -> bool:
        """Returns whether a shading of the page is of a kind: `areas` or `tints`."""
        return "shadings" in self.__dict__ and bool(getattr(self.shadings, what))

    def stream(
        self, data: bytes, resources: Resources, state: State, mask: bool
    ) -> tuple[bytes | None, pikepdf.Object | None]:
        """Follows a content stream. Returns its new bytes and its new resources, None where they're unchanged."""
        if len(self.stack) > MOST_DEPTH:
            raise Unreadable("damaged", f"damaged: {resources.where} is within too many others")
        reader = Reader(self, resources, state, mask)
        try:
            edits = reader.edits(data)
        except Scrambled as error:
            raise Unreadable("damaged", f"damaged: {resources.where}: {error}") from None
        return (spliced(data, edits) if edits else None), resources.made(self.prune)

    def content(
        self,
        holder: pikepdf.Object,
        parent: Resources | None,
        where: str,
        state: State,
        mask: bool,
        root: bool = False,
    ) -> pikepdf.Object:
        """Follows a form, a pattern or a glyph. Returns the stream that takes its place. `root` is whether it's the
        group of a mask, which keeps its colour space.
        """
        mark = identity(holder)
        if mark in self.stack:
            raise Unreadable("damaged", f"damaged: {where} paints itself")
        own = get(holder, b"/Resources")
        shared = own if is_dictionary(own) else parent.value if parent else None
        key = mark, mask, root, state.fill, state.stroke, state.mode, None if is_dictionary(own) else parent
        if key in self.made:
            return self.made[key]
        self.stack.append(mark)
        data = readable(holder, where)
        text, resources = self.stream(data, Resources(shared, where), state, mask)
        self.stack.pop()
        group = get(holder, b"/Group")
        plain = not root and get(group, b"/CS") is not None
        made: pikepdf.Object = holder
        if text is not None or resources is not None or plain:
            made = pikepdf.Stream(self.pdf, data if text is None else text)
            made.stream_dict = without(holder.stream_dict, b"/Length", b"/Filter", b"/DecodeParms")
            if resources is not None:
                made[b"/Resources"] = resources
            if plain and is_dictionary(group):
                made[b"/Group"] = without(group, b"/CS")
            made = self.pdf.make_indirect(made)
        self.made[key] = made
        return made

    def state_of(
        self, value: pikepdf.Object, resources: Resources, state: State, mask: bool
    ) -> pikepdf.Object:
        """Follows the soft mask of a graphics state. Returns the graphics state that takes its place."""
        soft = get(value, b"/SMask")
        group = get(soft, b"/G")
        if not is_stream(group) or not is_dictionary(soft):
            return value
        luminous = name(get(soft, b"/S")) == b"/Luminosity"
        self.luminous |= luminous
        where = f"a soft mask of {resources.where}"
        new = self.content(group, resources, where, State(), mask or luminous, root=True)
        if new is group:
            return value
        made, inner = copied(value), copied(soft)
        inner[b"/G"] = new
        made[b"/SMask"] = inner
        return made

    def pattern(self, value: pikepdf.Object, resources: Resources, word: bytes, mask: bool) -> pikepdf.Object:
        """Follows a pattern. Returns the pattern that takes its place."""
        where = f"the pattern {shown(word)}"
        if is_stream(value):
            return self.content(value, resources, where, State(), mask)
        shading = get(value, b"/Shading")
        if shading is None:
            raise Unreadable("damaged", f"damaged: {where} of {resources.where} has no shading")
        new = self.shadings.changed(shading, f"{where} of {resources.where}", mask)
        if new is shading:
            return value
        made = copied(value)
        made[b"/Shading"] = new
        return made

    def picture(self, value: pikepdf.Object, resources: Resources, word: bytes, mask: bool) -> pikepdf.Object:
        """Tests a picture and its masks. Returns the picture that takes its place."""
        where = f"the picture {shown(word)} of {resources.where}"
        key = "picture", identity(value), mask
        if key in self.made:
            return self.made[key]
        if (other := alternate(value)) is not None and get(other, b"/Alternates") is None:
            self.made[key] = self.picture(other, resources, word, mask)
            return self.made[key]
        made = value
        if filters(value)[-1:] == [JPEG]:
            see_jpeg(self.pdf, value, where)
        elif filters(value)[-1:] == [JPEG_2000]:
            made = untagged_2000(self.pdf, value, where)
        for part in (b"/SMask", b"/Mask"):
            inner = get(value, part)
            if is_stream(inner) and filters(inner)[-1:] == [JPEG]:
                see_jpeg(self.pdf, inner, f"the mask of {where}")
        space = self.space_of_picture(made, resources)
        if space.has("rgb") and mask and space.kind in ("rgb", "indexed"):
            made = grey(self.pdf, made, space, where)
        else:
            self.rgb |= space.has("rgb")
            self.colours.lab |= space.has("lab")
        self.made[key] = made
        return made

    def space_of_picture(self, value: pikepdf.Object, resources: Resources) -> Space:
        """Returns the colour space of a picture. JPEG 2000 without one counts as RGB if it has no other."""
        if is_true(get(value, b"/ImageMask")):
            return Space("gray")
        found = get(value, b"/ColorSpace")
        if found is None:
            return Space("rgb" if filters(value)[-1:] == [JPEG_2000] else "gray")
        word = name(found)
        own = resources.find(b"/ColorSpace", word) if word and word not in DEVICE else None
        return space_of(found if own is None else own)

    def glyphs(self, font: pikepdf.Object, resources: Resources, state: State, mask: bool) -> pikepdf.Object:
        """Follows the glyphs of a Type 3 font. Returns the font that takes its place."""
        key, procs = ("font", identity(font), mask, state.fill, state.stroke), get(font, b"/CharProcs")
        if key in self.made:
            return self.made[key]
        if not is_dictionary(procs):
            return font
        # A glyph that shows text in its own font ends here.
        if identity(font):
            self.made[key] = font
        own = get(font, b"/Resources")
        inner = Resources(own if is_dictionary(own) else resources.value, f"the font {shown(state.named)}")
        changes: dict[bytes, pikepdf.Object] = {}
        texts: dict[bytes, bytes] = {}
        for word, glyph in items(procs):
            if not is_stream(glyph) or identity(glyph) in self.stack:
                continue
            self.stack.append(identity(glyph))
            reader = Reader(self, inner, replace(state, mode=0), mask)
            data = readable(glyph, f"the glyph {shown(word)}")
            edits = reader.edits(data)
            if reader.masked and reader.begun:
                # Ghostscript 10.00 keeps a soft mask of a glyph for the groups of later glyphs.
                edits = enclosed(data, edits, reader.begun)
            self.stack.pop()
            if edits:
                texts[word] = spliced(data, edits)
        made = font
        new = inner.made(self.prune)
        if texts or new is not None:
            for word, text in texts.items():
                changes[word] = self.pdf.make_indirect(pikepdf.Stream(self.pdf, text))
            made = copied(font)
            procs = copied(procs)
            for word, stream in changes.items():
                procs[word] = stream
            made[b"/CharProcs"] = procs
            if new is not None:
                made[b"/Resources"] = new
            made = self.pdf.make_indirect(made)
        if identity(font):
            self.made[key] = made
        return made
