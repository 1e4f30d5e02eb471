"""Makes black text and black strokes overprint, in the contents of a page and of its forms.

Black is full black ink alone: 0 0 0 1 in DeviceCMYK, 0 in DeviceGray, 0 0 0 in DeviceRGB, which intake prints in black
ink alone, or 1 in the separation Black. Overprint mode 1 applies to DeviceCMYK only, so the colours of the other
two device spaces are replaced while such an object is painted. Everything else is unchanged: fills, pictures,
stencils, and text in patterns, in soft masks and in the glyphs of Type 3 fonts. See ISO 32000-1, 8.6.7.
"""
from __future__ import annotations

from typing import TYPE_CHECKING, Any

from pressroom.intake.content_state import BLACK, IDENTITY, Box, State
from pressroom.intake.walk import DEEPEST, Content, Walk

if TYPE_CHECKING:
    import pikepdf

TEXTS = {"Tj", "TJ", "'", '"'}
STROKES = {"S", "s", "B", "B*", "b", "b*"}
FILLED, STROKED = {0, 2, 4, 6}, {1, 2, 5, 6}
# The operator that sets the colour of fills or strokes in DeviceCMYK, and those of the other device spaces.
INKS = {"fill": "k", "stroke": "K"}
DEVICES = {
    ("fill", "/DeviceGray"): ([0], "g"), ("fill", "/DeviceRGB"): ([0, 0, 0], "rg"),
    ("stroke", "/DeviceGray"): ([0], "G"), ("stroke", "/DeviceRGB"): ([0, 0, 0], "RG"),
}  # fmt: skip
# What a form takes from the state in which it is painted, as far as black needs it.
INHERITED = "fill", "stroke", "fill_space", "stroke_space", "over_fill", "over_stroke", "mode", "shows"


def overprint(pdf: pikepdf.Pdf, box: Box) -> bool:
    """Edits the first page of a PDF, of which a box prints. Returns whether it changed."""
    import pikepdf

    page = pdf.pages[0]
    content = Black(Edit(pdf, page, box), page.resources, State(IDENTITY, box), 0)
    content.read(page.obj)
    if not content.changed:
        return False
    page.obj["/Resources"] = content.resources_of(page.resources)
    page.obj["/Contents"] = pdf.make_stream(pikepdf.unparse_content_stream(content.out))
    return True


class Edit(Walk):
    """A walk that edits, with the forms that were edited for the state in which each is painted."""

    def __init__(self, pdf: pikepdf.Pdf, page: pikepdf.Page, box: Box) -> None:
        super().__init__(page, box)
        self.pdf = pdf
        self.forms: dict[Any, Any] = {}


class Black(Content):
    """A content stream that is edited while it's read: `out` has its operators."""

    def __init__(self, walk: Edit, resources: Any, state: State, depth: int) -> None:
        super().__init__(walk, resources, state, depth)
        self.edit, self.changed = walk, False
        self.out: list[Any] = []
        self.states: dict[str, dict[str, Any]] = {}
        self.forms: dict[str, Any] = {}
        # Whether a colour was set in this stream by an operator that names its space.
        self.direct = {"fill": depth == 0, "stroke": depth == 0}

    def read(self, stream: Any) -> None:
        """Reads all operators, and writes them to `out` with those that they need around them."""
        import pikepdf

        for item in pikepdf.parse_content_stream(stream):
            operator, operands = str(item.operator), list(item.operands)
            self.watch(operator)
            before, after = self.around(operator)
            form = self.edited(operands) if operator == "Do" else None
            if form:
                item = pikepdf.ContentStreamInstruction([pikepdf.Name(form)], item.operator)
            self.out += [*before, item, *after]
            self.step(operator, operands)

    def watch(self, operator: str) -> None:
        """Records which colours are set by operators that name their space."""
        for target, direct, named in (("fill", "g rg k", "cs"), ("stroke", "G RG K", "CS")):
            if operator in direct.split():
                self.direct[target] = True
            elif operator == named:
                self.direct[target] = False

    def around(self, operator: str) -> tuple[list[Any], list[Any]]:
        """Returns the operators before and after one, so that black overprints."""
        state, targets = self.state, []
        if operator in TEXTS:
            targets += ["fill"] if state.shows in FILLED and state.fill == BLACK else []
            targets += ["stroke"] if state.shows in STROKED and state.stroke == BLACK else []
        elif operator in STROKES and state.stroke == BLACK:
            targets.append("stroke")
        spaces = {target: getattr(state, f"{target}_space") for target in targets}
        targets = [target for target in targets if self.may_change(target, spaces[target])]
        if not targets:
            return [], []
        self.changed = True
        over_fill, over_stroke = (
            state.over_fill or "fill" in targets,
            state.over_stroke or "stroke" in targets,
        )
        before = [self.use(over_stroke, over_fill, 1)]
        after = [self.use(state.over_stroke, state.over_fill, state.mode)]
        for target in targets:
            usual = DEVICES.get((target, spaces[target]))
            if usual:
                before.append(instruction([0, 0, 0, 1], INKS[target]))
                after.append(instruction(*usual))
        return before, after

    def may_change(self, target: str, space: str) -> bool:
        """Returns whether a black colour may be set for an object and be restored after it."""
        return space in ("/DeviceCMYK", "/Black") or ((target, space) in DEVICES and self.direct[target])

    def use(self, stroke: bool, fill: bool, mode: int) -> Any:
        """Returns the operator that sets overprint."""
        import pikepdf

        name = f"/PressroomOver{stroke:d}{fill:d}{mode}"
        self.states[name] = {"/OP": stroke, "/op": fill, "/OPM": mode}
        return pikepdf.ContentStreamInstruction([pikepdf.Name(name)], pikepdf.Operator("gs"))

    def edited(self, operands: list[Any]) -> str | None:
        """Returns the name of a copy of a form that was edited, or None if the form isn't changed."""
        item = self.resource("/XObject", operands[0]) if operands else None
        if item is None or item.get("/Subtype") != "/Form" or self.depth >= DEEPEST:
            return None
        inherited = {name: getattr(self.state, name) for name in INHERITED}
        inner = State(IDENTITY, self.edit.box).changed(**inherited)
        key = item.objgen, *inherited.values()
        if key not in self.edit.forms:
            # A form within itself ends here.
            self.edit.forms[key] = None
            self.edit.forms[key] = self.copy(item, inner)
        form = self.edit.forms[key]
        if form is None:
            return None
        name = f"/PressroomForm{len(self.forms)}"
        self.forms[name] = form
        self.changed = True
        return name

    def copy(self, item: Any, state: State) -> Any:
        """Returns an edited copy of a form, or None if nothing in it changes."""
        import pikepdf

        resources = item.get("/Resources", self.resources)
        content = Black(self.edit, resources, state, self.depth + 1)
        content.read(item)
        if not content.changed:
            return None
        form = self.edit.pdf.make_stream(pikepdf.unparse_content_stream(content.out))
        for key, value in item.items():
            if key not in ("/Length", "/Filter", "/DecodeParms", "/Resources"):
                form[key] = value
        form["/Resources"] = content.resources_of(resources)
        return form

    def resources_of(self, resources: Any) -> Any:
        """Returns the resources with the states and the forms that were added."""
        import pikepdf

        new = pikepdf.Dictionary(dict(resources.items()) if resources is not None else {})
        for kind, added in (("/ExtGState", self.states), ("/XObject", self.forms)):
            if added:
                old = dict(new[kind].items()) if kind in new else {}
                more = {
                    name: pikepdf.Dictionary(item) if isinstance(item, dict) else item
                    for name, item in added.items()
                }
                new[kind] = pikepdf.Dictionary(old | more)
        return new

    def paint_object(self, values: list[Any]) -> None:
        """Forms are edited before they are painted."""

    def see_picture(self, width: int, height: int) -> None:
        """Pictures aren't changed."""


def instruction(values: list[int], operator: str) -> Any:
    import pikepdf

    return pikepdf.ContentStreamInstruction(values, pikepdf.Operator(operator))
