"""Reads the first page of a PDF, and writes an edited copy that Ghostscript paints right.

intake runs this file as a process of its own, under limits, in the page's folder. Its arguments are the name of the PDF
and a folder for compiled modules. It writes `edited.pdf`, if something has to change, and `read.json`: a fault as its
kind and text, or what the page is and shows. The file `neutral.bin` has the black ink of 65536 neutral colours.
"""
import json
import os
import sys
from typing import TypedDict

# By default OpenBLAS starts a thread for each processor, and their memory counts against the limit.
os.environ["OPENBLAS_NUM_THREADS"] = "1"
sys.path.insert(0, os.path.dirname(os.path.dirname(os.path.dirname(os.path.abspath(__file__)))))
sys.pycache_prefix = sys.argv[2] if len(sys.argv) > 2 else None
from pressroom.reading.kit import load

load()
import pikepdf

from pressroom.reading.boxes import inherited, page_boxes, rotation, unit
from pressroom.reading.colours import State
from pressroom.reading.facts import facts_of
from pressroom.reading.objects import (
    Unreadable,
    copied,
    get,
    is_array,
    is_dictionary,
    is_stream,
    items,
    name,
    number,
    readable,
)
from pressroom.reading.optional import Optional
from pressroom.reading.resources import Resources
from pressroom.reading.spaces import Blacks
from pressroom.reading.walk import Walk

sys.pycache_prefix = None

# Flags of annotations: ISO 32000-1, 12.5.3.
HIDDEN, PRINT = 2, 4
FORM = pikepdf.Name("/Form")


class Read(TypedDict):
    """What is read of a page: boxes in units of the page, the unit in points, and what the page shows. `otherwise` is
    whether a viewer shows the PDF otherwise than it prints, `unlike` what mutool can't show, and `tints` whether a shading
    or a table is in tints of colorants.
    """

    trim: tuple[float, float, float, float]
    crop: tuple[float, float, float, float]
    trimmed: bool
    turn: int
    unit: float
    count: int
    rgb: bool
    lab: bool
    white: bool
    blending: bool
    blends: bool
    overprints: bool
    spots: list[str]
    transfers: bool
    otherwise: bool
    unlike: list[str]
    tints: bool
    fonts: list[str]
    edited: bool


class Page:
    """The first page of a PDF that is being read and edited."""

    def __init__(self, pdf: pikepdf.Pdf, blacks: Blacks) -> None:
        self.pdf, self.page = pdf, first_page(pdf)
        self.optional = Optional(pdf.Root)
        self.facts = facts_of(self.page)
        self.walk = Walk(pdf, self.optional, blacks, self.facts.circular)
        self.changed = self.facts.changed or self.optional.exists

    def read(self) -> Read:
        """Follows the page, changes it, and returns what it shows."""
        trim, crop = page_boxes(self.page)
        self.edit_contents()
        self.edit_annotations()
        self.edit_group()
        if self.optional.exists:
            del self.pdf.Root["/OCProperties"]
        facts, (rgb, lab) = self.facts, self.walk.colourful()
        return {
            "trim": trim,
            "crop": crop,
            "trimmed": get(self.page, b"/TrimBox") is not None,
            "turn": rotation(self.page),
            "unit": unit(self.page),
            "count": len(self.pdf.pages),
            "rgb": rgb,
            "lab": lab,
            "white": self.walk.colours.white,
            "blending": facts.rgb_groups,
            "blends": facts.blends,
            "overprints": facts.overprints,
            "spots": sorted(word[1:].decode("latin-1") for word in facts.spots),
            "transfers": facts.transfers,
            "otherwise": self.optional.exists
            or facts.other_groups
            or facts.alternates
            or self.walk.has("areas"),
            "unlike": sorted(facts.unlike),
            "tints": self.walk.has("tints") or facts.indexed,
            "fonts": sorted(self.walk.fonts),
            "edited": self.changed,
        }

    def edit_contents(self) -> None:
        """Follows the page's own content streams, which count as one."""
        contents = get(self.page, b"/Contents")
        parts: list[object] = [*contents] if is_array(contents) else [contents]
        data = b"\n".join(readable(part, "the page") for part in parts if is_stream(part))
        own = Resources(inherited(self.page, b"/Resources"), "the page")
        text, resources = self.walk.stream(data, own, State(), False)
        if text is not None:
            self.page[b"/Contents"] = self.pdf.make_indirect(pikepdf.Stream(self.pdf, text))
        if resources is not None:
            self.page[b"/Resources"] = resources
        self.changed |= text is not None or resources is not None

    def edit_annotations(self) -> None:
        """Follows the appearances of annotations, and removes those that don't print."""
        annotations = get(self.page, b"/Annots")
        if not is_array(annotations):
            return
        kept = [item for item in annotations if self.optional.shows(get(item, b"/OC"))]
        if len(kept) != len(annotations):
            self.page[b"/Annots"] = pikepdf.Array(kept)
            self.changed = True
        for item in kept:
            if get(item, b"/OC") is not None:
                del item[b"/OC"]
            flags = int(number(get(item, b"/F")) or 0)
            if flags & PRINT and not flags & HIDDEN:
                self.edit_appearance(item)

    def edit_appearance(self, annotation: pikepdf.Object) -> None:
        """Follows what an annotation shows. Ghostscript draws some that have no appearance, perhaps in RGB."""
        look = get(get(annotation, b"/AP"), b"/N")
        if look is None:
            self.walk.rgb |= name(get(annotation, b"/Subtype")) not in (b"/Link", b"/Popup")
            return
        where = f"the annotation {name(get(annotation, b'/Subtype')).decode('latin-1')[1:]}"
        states: list[tuple[bytes, pikepdf.Object]] = [(b"", look)] if is_stream(look) else list(items(look))
        for word, stream in states:
            if not is_stream(stream):
                continue
            if self.optional.shows(get(stream, b"/OC")):
                new = self.walk.content(stream, None, where, State(), False)
            else:
                new = self.pdf.make_indirect(pikepdf.Stream(self.pdf, b"", Subtype=FORM, BBox=[0, 0, 1, 1]))
            if new is stream:
                continue
            self.changed = True
            if word:
                look[word] = new
            else:
                annotation[b"/AP"][b"/N"] = new

    def edit_group(self) -> None:
        """Makes the page blend in CMYK. Without a group of the page Ghostscript 10.00 takes a grey mask for linear."""
        group = get(self.page, b"/Group")
        space = get(group, b"/CS")
        if name(space) == b"/DeviceCMYK" or (space is None and not self.walk.luminous):
            return
        made = copied(group) if is_dictionary(group) else pikepdf.Dictionary(S=pikepdf.Name("/Transparency"))
        made[b"/CS"] = pikepdf.Name("/DeviceCMYK")
        self.page[b"/Group"] = made
        self.changed = True


def first_page(pdf: pikepdf.Pdf) -> pikepdf.Object:
    """Returns the first page."""
    if not len(pdf.pages):
        raise Unreadable("damaged", "damaged: it has no page")
    return pdf.pages[0].obj


def read(path: str, blacks: Blacks) -> Read:
    """Reads a PDF. Writes the edited copy."""
    with pikepdf.open(path, suppress_warnings=True) as pdf:
        first_page(pdf)
        if any("deeply nested" in str(warning) for warning in pdf.get_warnings()):
            raise Unreadable("damaged", "damaged: its objects are nested too deeply")
        page = Page(pdf, blacks)
        found = page.read()
        if found["edited"]:
            if found["count"] > 1:
                del pdf.pages[1:]
            plain = pikepdf.StreamDecodeLevel.none
            # The part of pikepdf that changes metadata isn't loaded.
            pdf.save(
                "edited.pdf", compress_streams=False, fix_metadata_version=False, stream_decode_level=plain
            )
    return found


def answer(path: str) -> Read | list[str]:
    """Returns what a PDF's first page is, or a fault as its kind and text."""
    with open("neutral.bin", "rb") as file:
        blacks = Blacks(file.read())
    try:
        return read(path, blacks)
    except Unreadable as error:
        return [error.kind, str(error)]
    except pikepdf.PasswordError:
        return ["locked", "it needs a password"]
    except pikepdf.PdfError as error:
        return ["damaged", f"damaged: {str(error).removeprefix(path).lstrip(': ')}"]
    except (ArithmeticError, AttributeError, LookupError, RecursionError, TypeError, ValueError) as error:
        return ["damaged", f"damaged: its objects are malformed: {error}"]


def main() -> int:
    found = answer(sys.argv[1])
    with open("read.json", "w", encoding="utf-8", errors="surrogateescape") as file:
        json.dump(found, file)
    return 0


if __name__ == "__main__":
    sys.exit(main())
