"""Walks the contents of a page with its forms, and observes what prints badly: pictures of a low resolution, thin
lines, and black text that knocks out. See ISO 32000-1, 8 and 9.

Not followed: tiling patterns, soft masks, the glyphs of Type 3 fonts, and annotations. A clip counts as the box
around its path.
"""
from __future__ import annotations

import math
from collections.abc import Callable
from dataclasses import dataclass
from typing import TYPE_CHECKING, Any

from pressroom.intake.content_state import (
    BARE,
    BLACK,
    IDENTITY,
    UNKNOWN,
    Box,
    Font,
    Matrix,
    Point,
    State,
    around,
    box_of,
    common,
    ink_of,
    moved,
    scale_of,
    times,
)

if TYPE_CHECKING:
    import pikepdf

# Lines below this width in points are thin: a tenth of a millimetre. A filled rectangle is a line if it is
# longer than LONG points.
THIN, LONG = 72 / 254, 3.0
# How deep forms may be within one another, and the most operators that are read.
DEEPEST, MOST = 20, 2_000_000
PICTURE, LINE, TEXT = "picture", "line", "text"


class TooLong(Exception):
    """The content has more operators than are read."""


@dataclass(frozen=True)
class Observation:
    """What was observed: PICTURE with its pixels across and down and its resolution in pixels an inch, LINE with its
    width in points, or TEXT, black that knocks out; and its box in the page's user space.
    """

    kind: str
    box: Box
    values: tuple[float, ...] = ()


class Walk:
    """The walk through a page, whose observations are collected."""

    def __init__(self, page: pikepdf.Page, box: Box) -> None:
        """`box` is the part of the page that prints."""
        self.page, self.box = page, box
        self.found: list[Observation] = []
        self.lab, self.count, self.fonts = False, 0, Fonts()

    def begin(self) -> None:
        """Reads the page's contents."""
        Content(self, self.page.resources, State(IDENTITY, self.box), 0).read(self.page.obj)

    def see_space(self, space: Any) -> None:
        """Records whether a colour space is Lab, or indexes Lab."""
        import pikepdf

        if isinstance(space, pikepdf.Array) and len(space) > 1:
            inner = space[1] if str(space[0]) in ("/Indexed", "/Pattern") else space
            self.lab = self.lab or (isinstance(inner, pikepdf.Array) and str(inner[0]) == "/Lab")

    def see(self, kind: str, box: Box, clip: Box, *values: float) -> None:
        """Adds an observation if it is within the clip."""
        shown = common(box, clip)
        if shown:
            self.found.append(Observation(kind, shown, values))


class Content:
    """One content stream that is read: its resources, its state, and the path and the text under way."""

    def __init__(self, walk: Walk, resources: Any, state: State, depth: int) -> None:
        self.walk, self.resources, self.state, self.depth = walk, resources, state, depth
        self.stack: list[State] = []
        self.points: list[Point] = []
        self.rectangles: list[tuple[float, float, float, float]] = []
        self.clips = False
        self.line = self.text = IDENTITY

    def read(self, stream: Any) -> None:
        """Reads all operators of a stream. Those that are malformed are passed over."""
        import pikepdf

        for operands, operator in pikepdf.parse_content_stream(stream):
            self.step(str(operator), list(operands))

    def step(self, operator: str, operands: list[Any]) -> None:
        """Follows one operator."""
        self.walk.count += 1
        if self.walk.count > MOST:
            raise TooLong
        call = OPERATORS.get(operator)
        if call:
            try:
                call(self, operands)
            except (ArithmeticError, AttributeError, LookupError, TypeError, ValueError):
                pass

    def resource(self, kind: str, name: Any) -> Any:
        """Returns a resource, or None."""
        table = self.resources.get(kind) if self.resources is not None else None
        return table.get(str(name)) if table is not None else None

    def set(self, **values: object) -> None:
        self.state = self.state.changed(**values)

    # ---- state

    def save(self, _: list[Any]) -> None:
        self.stack.append(self.state)

    def restore(self, _: list[Any]) -> None:
        self.state = self.stack.pop()

    def concat(self, values: list[Any]) -> None:
        self.set(matrix=times(matrix_of(values), self.state.matrix))

    def use_state(self, values: list[Any]) -> None:
        """Applies a graphics state. OP sets both kinds of overprint unless op is given."""
        keys = self.resource("/ExtGState", values[0])
        if "/LW" in keys:
            self.set(width=float(keys["/LW"]))
        if "/OP" in keys:
            self.set(over_stroke=bool(keys["/OP"]), over_fill=bool(keys["/OP"]))
        if "/op" in keys:
            self.set(over_fill=bool(keys["/op"]))
        if "/OPM" in keys:
            self.set(mode=int(keys["/OPM"]))
        if "/Font" in keys:
            self.set(font=self.walk.fonts.of(keys["/Font"][0]), size=float(keys["/Font"][1]))

    # ---- colours

    def colour(self, target: str, space: str | None, values: list[Any]) -> None:
        """Sets the colour of fills or strokes. Without a space it is that of the state."""
        space = space or getattr(self.state, f"{target}_space")
        try:
            ink = ink_of(space, [float(value) for value in values])
        except (TypeError, ValueError):
            ink = UNKNOWN
        self.set(**{target: ink, f"{target}_space": space})

    def use_space(self, target: str, name: Any) -> None:
        """Sets a colour space and its first colour."""
        space = self.resource("/ColorSpace", name)
        self.walk.see_space(space)
        simple = simple_space(str(name) if space is None else space)
        first = {"/DeviceCMYK": [0, 0, 0, 1], "/Black": [1], "/DeviceGray": [0], "/DeviceRGB": [0, 0, 0]}
        self.colour(target, simple, first.get(simple, []))

    # ---- paths

    def start(self, values: list[Any]) -> None:
        self.points.append(self.point(values))

    def point(self, values: list[Any]) -> Point:
        return moved(self.state.matrix, float(values[-2]), float(values[-1]))

    def curve(self, values: list[Any]) -> None:
        for at in range(0, len(values), 2):
            self.points.append(self.point(values[at : at + 2]))

    def rectangle(self, values: list[Any]) -> None:
        x, y, width, height = map(float, values)
        self.rectangles.append((x, y, width, height))
        for right, upper in ((x, y), (x + width, y), (x + width, y + height), (x, y + height)):
            self.points.append(moved(self.state.matrix, right, upper))

    def clip(self, _: list[Any]) -> None:
        self.clips = True

    def paint(self, fills: bool, strokes: bool) -> None:
        """Paints the path, and clips to it if that was asked."""
        if self.points:
            box, state = around(self.points), self.state
            if strokes and state.stroke != BARE:
                width = state.width * scale_of(state.matrix)
                if width < THIN:
                    self.walk.see(LINE, box, state.clip, width)
            if fills and state.fill != BARE:
                self.see_rectangles()
            if self.clips:
                none = (box[0], box[1], box[0], box[1])
                self.set(clip=common(box, state.clip) or none)
        self.points, self.rectangles, self.clips = [], [], False

    def see_rectangles(self) -> None:
        """Observes filled rectangles that are thin lines."""
        a, b, c, d = self.state.matrix[:4]
        for x, y, width, height in self.rectangles:
            sides = sorted((abs(width) * math.hypot(a, b), abs(height) * math.hypot(c, d)))
            if 0 < sides[0] < THIN and sides[1] > LONG:
                box = box_of(self.state.matrix, x, y, x + width, y + height)
                self.walk.see(LINE, box, self.state.clip, sides[0])

    # ---- pictures and forms

    def paint_object(self, values: list[Any]) -> None:
        """Paints a picture or a form."""
        item = self.resource("/XObject", values[0])
        if item.get("/Subtype") == "/Image":
            self.walk.see_space(item.get("/ColorSpace"))
            self.see_picture(int(item["/Width"]), int(item["/Height"]))
        elif item.get("/Subtype") == "/Form" and self.depth < DEEPEST:
            state = self.state
            if "/Matrix" in item:
                state = state.changed(matrix=times(matrix_of(list(item["/Matrix"])), state.matrix))
            if "/BBox" in item:
                sides = [float(side) for side in item["/BBox"]]
                box = common(box_of(state.matrix, *sides[:4]), state.clip)
                if box is None:
                    return
                state = state.changed(clip=box)
            Content(self.walk, item.get("/Resources", self.resources), state, self.depth + 1).read(item)

    def paint_shading(self, values: list[Any]) -> None:
        self.walk.see_space(self.resource("/Shading", values[0]).get("/ColorSpace"))

    def paint_inline(self, values: list[Any]) -> None:
        self.see_picture(int(values[0].width), int(values[0].height))

    def see_picture(self, width: int, height: int) -> None:
        """Observes a picture. A single pixel, or a row of them, is a tint or a gradient."""
        a, b, c, d = self.state.matrix[:4]
        across, down = math.hypot(a, b) / 72, math.hypot(c, d) / 72
        if min(width, height) > 1 and across > 0 and down > 0:
            box = box_of(self.state.matrix, 0, 0, 1, 1)
            self.walk.see(PICTURE, box, self.state.clip, width, height, min(width / across, height / down))

    # ---- text

    def begin_text(self, _: list[Any]) -> None:
        self.line = self.text = IDENTITY

    def use_font(self, values: list[Any]) -> None:
        self.set(font=self.walk.fonts.of(self.resource("/Font", values[0])), size=float(values[1]))

    def move(self, values: list[Any]) -> None:
        self.line = self.text = times((1, 0, 0, 1, float(values[0]), float(values[1])), self.line)

    def move_leading(self, values: list[Any]) -> None:
        self.set(leading=-float(values[1]))
        self.move(values)

    def next_line(self, _: list[Any]) -> None:
        self.move([0, -self.state.leading])

    def place(self, values: list[Any]) -> None:
        self.line = self.text = matrix_of(values)

    def show(self, values: list[Any]) -> None:
        self.show_parts([values[-1]])

    def show_line(self, values: list[Any]) -> None:
        self.next_line([])
        self.show(values)

    def show_spaced(self, values: list[Any]) -> None:
        self.set(words=float(values[0]), spacing=float(values[1]))
        self.show_line(values[2:])

    def show_array(self, values: list[Any]) -> None:
        self.show_parts(list(values[0]))

    def show_parts(self, parts: list[Any]) -> None:
        """Shows texts and moves between them, and observes black that knocks out."""
        import pikepdf

        state, advance = self.state, 0.0
        for part in parts:
            if isinstance(part, pikepdf.String):
                text = bytes(part)
                count = len(text) // state.font.each
                own = state.font.advance(text) * state.size + count * state.spacing
                advance += (
                    own + (text.count(b" ") if state.font.each == 1 else 0) * state.words
                ) * state.wide
            else:
                advance -= float(part) / 1000 * state.size * state.wide
        matrix = times(self.text, state.matrix)
        box = box_of(matrix, 0, state.rise - 0.2 * state.size, advance, state.rise + 0.8 * state.size)
        self.text = times((1, 0, 0, 1, advance, 0), self.text)
        is_black = state.shows in (0, 2, 4, 6) and state.fill == BLACK and not state.font.drawn
        if is_black and not is_over(state) and advance:
            self.walk.see(TEXT, box, state.clip)


def is_over(state: State) -> bool:
    """Returns whether a fill in black ink alone leaves the other inks: in DeviceCMYK only in mode 1, and in
    DeviceGray and DeviceRGB never.
    """
    return state.over_fill and (
        state.fill_space == "/Black" or (state.fill_space == "/DeviceCMYK" and state.mode == 1)
    )


def matrix_of(values: list[Any]) -> Matrix:
    a, b, c, d, e, f = (float(value) for value in values[:6])
    return a, b, c, d, e, f


def simple_space(space: Any) -> str:
    """Returns the name of a space whose black is known: a device's, or /Black for that separation."""
    import pikepdf

    if not isinstance(space, pikepdf.Array):
        name = str(space)
        return {"/G": "/DeviceGray", "/RGB": "/DeviceRGB", "/CMYK": "/DeviceCMYK"}.get(name, name)
    kind = str(space[0])
    if kind == "/Separation":
        return str(space[1])
    if kind == "/ICCBased":
        names = {1: "/DeviceGray", 3: "/DeviceRGB", 4: "/DeviceCMYK"}
        return names.get(int(space[1].get("/N", 0)), kind)
    return {"/CalGray": "/DeviceGray", "/CalRGB": "/DeviceRGB"}.get(kind, kind)


class Fonts:
    """The fonts that were read, by their objects."""

    def __init__(self) -> None:
        self.kept: dict[Any, Font] = {}

    def of(self, font: Any) -> Font:
        """Returns the advances of a font."""
        key = font.objgen
        if key not in self.kept or key == (0, 0):
            self.kept[key] = font_of(font)
        return self.kept[key]


def font_of(font: Any) -> Font:
    """Returns the advances of a font. Those of composite fonts count as half its size."""
    if font.get("/Subtype") == "/Type0":
        return Font(each=2)
    if "/Widths" not in font:
        return Font()
    factor = 1000 * abs(float(font["/FontMatrix"][0])) if "/FontMatrix" in font else 1.0
    first = int(font.get("/FirstChar", 0))
    widths = {first + at: float(width) * factor for at, width in enumerate(font["/Widths"])}
    return Font(widths, 0.0, drawn=font.get("/Subtype") == "/Type3")


Call = Callable[[Content, "list[Any]"], None]


def setting(name: str, factor: float = 1) -> Call:
    """Returns the operator that sets a number of the state."""
    return lambda content, values: content.set(**{name: float(values[0]) * factor})


def colouring(target: str, space: str | None) -> Call:
    return lambda content, values: content.colour(target, space, values)


def painting(fills: bool, strokes: bool) -> Call:
    return lambda content, values: content.paint(fills, strokes)


OPERATORS: dict[str, Call] = {
    "q": Content.save, "Q": Content.restore, "cm": Content.concat, "gs": Content.use_state, "w": setting("width"),
    "g": colouring("fill", "/DeviceGray"), "G": colouring("stroke", "/DeviceGray"),
    "rg": colouring("fill", "/DeviceRGB"), "RG": colouring("stroke", "/DeviceRGB"),
    "k": colouring("fill", "/DeviceCMYK"), "K": colouring("stroke", "/DeviceCMYK"),
    "sc": colouring("fill", None), "SC": colouring("stroke", None),
    "scn": colouring("fill", None), "SCN": colouring("stroke", None),
    "cs": lambda content, values: content.use_space("fill", values[0]),
    "CS": lambda content, values: content.use_space("stroke", values[0]),
    "m": Content.start, "l": Content.start, "c": Content.curve, "v": Content.curve, "y": Content.curve,
    "re": Content.rectangle, "W": Content.clip, "W*": Content.clip, "n": painting(False, False),
    "f": painting(True, False), "F": painting(True, False), "f*": painting(True, False),
    "S": painting(False, True), "s": painting(False, True), "B": painting(True, True), "B*": painting(True, True),
    "b": painting(True, True), "b*": painting(True, True),
    "Do": lambda content, values: content.paint_object(values), "sh": Content.paint_shading, "INLINE IMAGE": Content.paint_inline,
    "BT": Content.begin_text, "Tf": Content.use_font, "Td": Content.move, "TD": Content.move_leading,
    "T*": Content.next_line, "Tm": Content.place, "Tj": Content.show, "TJ": Content.show_array,
    "'": Content.show_line, '"': Content.show_spaced, "Tc": setting("spacing"), "Tw": setting("words"),
    "Tz": setting("wide", 0.01), "TL": setting("leading"), "Ts": setting("rise"),
    "Tr": lambda content, values: content.set(shows=int(values[0])),
}  # fmt: skip
