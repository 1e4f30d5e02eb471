"""Makes pages of cells of known ink by hand, and counts the ink that `pressroom intake` makes of them.

A page has 100 by 100 mm and four by four cells. A cell's content paints the square from 0 to 20, in millimetres from
the cell's own corner. Its ink is that of the square's middle, in percent.
"""
import io
import os
import sys
from collections.abc import Iterable
from dataclasses import dataclass, field

from intake_pages import PROFILE, Pages, fields, intake
from newspaper import NEWSPAPER, TOP

sys.path[:0] = [NEWSPAPER, os.path.join(TOP, "tools")]
from pdf import Pdf
from pressroom.tiff.tiff import Tiff

# Below the size from which intake paints a page in strips, twice, and above it.
RESOLUTIONS = (127, 254, 800)
MILLIMETRE = 72 / 25.4
SIZE, SIDE = 100, 100 * MILLIMETRE
# How much an ink may differ, in percent: tints have 256 steps, and masks and blending round once more.
CLOSE = 1.5
Ink = tuple[float, ...]


@dataclass
class Sheet:
    """A page of cells: its objects, which may name each other as {name}, its resources and its cells with their ink.

    `objects` has the text of a dictionary, or that of a stream and its data. `first` and `extra` are bytes before and
    after the file, and `unit` is the page's.
    """

    cells: dict[str, tuple[str, Ink]] = field(default_factory=dict)
    objects: dict[str, str | tuple[str, bytes]] = field(default_factory=dict)
    resources: str = ""
    keys: str = ""
    root: str = ""
    notes: tuple[str, ...] = ()
    before: str = ""
    extra: bytes = b""
    unit: float = 1
    first: bytes = b""

    def write(self, path: str) -> None:
        """Writes the page as a PDF."""
        pdf = Pdf()
        numbers = {name: f"{number} 0 R" for number, name in enumerate(self.objects, 1)}
        for item in self.objects.values():
            text, data = item if isinstance(item, tuple) else (item, None)
            if data is not None and "/Filter" in text:
                pdf.objects.append((f"<< {named(text, numbers)} /Length {len(data)} >>", data))
            else:
                pdf.add(named(text, numbers), data)
        stream, count = pdf.add("", self.content().encode()), len(pdf.objects)
        box = f"[0 0 {SIDE / self.unit:.4f} {SIDE / self.unit:.4f}]"
        head = f"/Type /Page /Parent {count + 2} 0 R /MediaBox {box} /TrimBox {box} /Contents {stream} 0 R"
        pdf.add(f"<< {head} /Resources << {named(self.resources, numbers)} >> {named(self.keys, numbers)} >>")
        pdf.add(f"<< /Type /Pages /Kids [{count + 1} 0 R] /Count 1 >>")
        pdf.write(path, pdf.add(f"<< /Type /Catalog /Pages {count + 2} 0 R {named(self.root, numbers)} >>"))
        with open(path, "rb") as file:
            data = file.read()
        with open(path, "wb") as file:
            file.write(self.first + data + self.extra)

    def content(self) -> str:
        """Returns the page's content stream."""
        one = f"{MILLIMETRE / self.unit:.6f}"
        text = f"q {one} 0 0 {one} 0 0 cm {self.before}\n"
        for number, (content, _) in enumerate(self.cells.values()):
            x, y = place(number)
            text += f"q 1 0 0 1 {x} {y} cm {content} Q\n"
        return text + "Q\n"


def named(text: str, numbers: dict[str, str]) -> str:
    """Puts the numbers of objects into a text."""
    for name, number in numbers.items():
        text = text.replace("{" + name + "}", number)
    return text


def place(number: int) -> tuple[float, float]:
    """Returns the lower left corner of a cell's square in millimetres."""
    return 2.5 + 25 * (number % 4), 77.5 - 25 * (number // 4)


def planes(work: str, page: dict[str, object], dpi: int) -> object:
    """Returns the ink of a page that was made: five planes, from 0 to 255."""
    import numpy as np

    side = round(SIZE * dpi / 25.4)
    made = np.zeros((5, side, side), np.uint8)
    for layer in page["layers"]:  # type: ignore[attr-defined]
        image = Tiff(os.path.join(work, "files", layer["file"]))
        if image.planar == 2:
            for plane in range(4):
                rows = [np.frombuffer(bytes(row), np.uint8) for row in image.rows(plane=plane)]
                made[plane] = np.stack(rows)[:, :side]
        else:
            rows = [np.unpackbits(np.frombuffer(bytes(row), np.uint8))[:side] for row in image.rows()]
            made[4] = np.maximum(made[4], np.stack(rows) * np.uint8(layer["ink"][4]))
        image.close()
    return made


def middle(made: object, number: int, dpi: int) -> Ink:
    """Returns the ink in the middle of a cell, in percent."""
    x, y = place(number)
    left, top = ((side * dpi / 25.4) for side in (x + 7, SIZE - y - 13))
    step = 6 * dpi / 25.4
    part = made[:, int(top) : int(top + step), int(left) : int(left + step)]  # type: ignore[index]
    return tuple(round(float(plane.mean()) / 2.55, 1) for plane in part)


def house(count: int, dpi: int, rgb: str = "convert") -> str:
    """Returns the text of a house file for pages of cells."""
    lines = [
        'edition = "E1"',
        f"dpi = {dpi}",
        f"trim = [{SIZE}, {SIZE}]",
        "[sections]",
        f"A = {count}",
        "[spot]",
    ]
    lines += ['separation = "HOUSE"', 'colour = "#ff8800"', "[colour]", f'rgb = "{rgb}"', 'spots = "mix"']
    return "\n".join([*lines, f'profile = "{PROFILE}"', "[sites.OSLO]"]) + "\n"


def see_sheets(
    results: object, folder: str, name: str, sheets: dict[str, Sheet], dpis: Iterable[int]
) -> None:
    """Makes pages of cells at each resolution, and compares the ink of each cell and the notes of each page."""
    pages = Pages(folder, name, count=len(sheets) + len(sheets) % 2)
    for number, sheet in enumerate(sheets.values(), 1):
        sheet.write(pages.path(f"A{number}"))
    for dpi in dpis:
        found, _ = intake(pages, house(pages.count, dpi), "--partial")
        plan = fields(os.path.join(pages.work, "plan.json"))
        layers = {page["name"]: page for page in plan["pages"]} if plan else {}
        for number, (kind, sheet) in enumerate(sheets.items(), 1):
            said = [
                item for item in found if item.get("file") == f"A{number}.pdf" and item["event"] != "page"
            ]
            kinds = tuple(sorted({item["kind"] for item in said}))
            results.see(kinds == sheet.notes, f"{kind} at {dpi}: {said}")  # type: ignore[attr-defined]
            if f"A{number:02}" in layers:
                see_cells(
                    results, f"{kind} at {dpi}", sheet, planes(pages.work, layers[f"A{number:02}"], dpi), dpi
                )
            elif "damaged" not in kinds:
                results.see(False, f"{kind} at {dpi}: not made: {said}")  # type: ignore[attr-defined]


def see_cells(results: object, kind: str, sheet: Sheet, made: object, dpi: int) -> None:
    """Compares the ink of each cell."""
    for number, (name, (_, wanted)) in enumerate(sheet.cells.items()):
        got, wanted = middle(made, number, dpi), (*wanted, 0.0)[:5]
        close = all(abs(one - other) <= CLOSE for one, other in zip(got, wanted))
        results.see(close, f"{kind}: {name}: {got}, not {wanted}")  # type: ignore[attr-defined]


def form(content: str, keys: str = "", resources: str = "") -> tuple[str, bytes]:
    """Returns a form of the size of a cell."""
    head = f"/Type /XObject /Subtype /Form /BBox [0 0 20 20] /Resources << {resources} >> {keys}"
    return head, content.encode()


def mask(group: str) -> str:
    """Returns a graphics state with a luminosity mask."""
    return f"<< /SMask << /S /Luminosity /G {{{group}}} >> >>"


def image(samples: bytes, space: str, side: int = 4, bits: int = 8, keys: str = "") -> tuple[str, bytes]:
    """Returns a square picture."""
    head = f"/Type /XObject /Subtype /Image /Width {side} /Height {side} /BitsPerComponent {bits}"
    return f"{head} {f'/ColorSpace {space}' if space else ''} {keys}", samples


def coded(kind: str, samples: bytes, mode: str, side: int, **how: object) -> bytes:
    """Returns a square picture as a JPEG or JPEG 2000 file."""
    from PIL import Image

    file = io.BytesIO()
    Image.frombytes(mode, (side, side), samples).save(file, kind, **how)
    return file.getvalue()
