"""Observes a page's contents in a process of its own, and makes notes of what was observed.

intake runs this file under limits, in the page's folder, with the PDF's name, the box in points that prints and, if
black is made to overprint, the name of an edited copy. The process writes its observations to standard output as
JSON.
"""
from __future__ import annotations

import json
import os
import sys
from collections.abc import Sequence
from dataclasses import astuple, dataclass
from typing import TYPE_CHECKING, Any

if __name__ == "__main__":
    sys.path.insert(0, os.path.dirname(os.path.dirname(os.path.dirname(os.path.abspath(__file__)))))
from pressroom.base.limits import Limits, Passed
from pressroom.intake.content_state import Box, joined
from pressroom.intake.walk import LINE, PICTURE, TEXT, Observation

if TYPE_CHECKING:
    from pressroom.intake.pdf import Inspected

MILLIMETRE = 72 / 25.4
# The side of a pixel of the low resolution in millimetres, and from which value of 255 an ink counts as present.
ONE, INKED = 25.4 / 72, 26
# The most notes of one kind on a page, and the most observations that are returned.
MOST, MOST_FOUND = 4, 20_000
# A note: its kind, its text, and its place in millimetres or None.
Note = tuple[str, str, "tuple[float, ...] | None"]
FAILED = "unread"
# The name of the copy in which black overprints.
EDITED = "black.pdf"


@dataclass(frozen=True)
class Contents:
    """What was observed, or why nothing could be; the edited copy of the PDF, if black was made to overprint in it;
    and whether something is in Lab.
    """

    found: tuple[Observation, ...] = ()
    why: str = ""
    edited: str = ""
    lab: bool = False


def observe(limits: Limits, folder: str, pdf: str, box: Sequence[float], black: bool) -> Contents:
    """Returns what is observed on the first page of a PDF in the folder. `box` is the part in points that prints,
    and `black` is whether black is made to overprint before.
    """
    words = [sys.executable, "-B", os.path.abspath(__file__), pdf, json.dumps([float(side) for side in box])]
    words += [EDITED] if black else []
    try:
        status, out, note = limits.run(words, folder, "the walk through its contents")
    except Passed as error:
        return Contents(why=str(error))
    if status:
        lines = note.decode("utf-8", "replace").strip().splitlines()
        return Contents(why=lines[-1][:200] if lines else f"exit status {status}")
    answer = json.loads(out)
    found = tuple(
        Observation(kind, (place[0], place[1], place[2], place[3]), tuple(values))
        for kind, place, values in answer["found"]
    )
    return Contents(found, answer["why"], answer["edited"], answer["lab"])


def placed(box: Box, inspected: Inspected) -> tuple[float, ...]:
    """Returns a box in points of the unrotated page as left, top, width and height in millimetres from the upper
    left corner of the trim, on the page as it is shown.
    """
    left, lower, right, upper = (float(side) for side in inspected.trim)
    sides = [box[0] - left, box[1] - lower, right - box[2], upper - box[3]]
    turns = inspected.turn // 90
    beside, above = sides[turns], sides[(turns + 3) % 4]
    wide, high = box[2] - box[0], box[3] - box[1]
    if turns % 2:
        wide, high = high, wide
    return tuple(round(side / MILLIMETRE, 1) for side in (beside, above, wide, high))


def notes(contents: Contents, inspected: Inspected, ppi: float) -> list[Note]:
    """Returns notes of pictures below a resolution and of thin lines."""
    found: list[Note] = []
    if contents.why:
        found.append((FAILED, f"its contents can't be looked through: {contents.why}", None))
    low = [one for one in contents.found if one.kind == PICTURE and one.values[2] < ppi - 0.5]
    low.sort(key=lambda one: one.values[2])
    for one in low[:MOST]:
        wide, high, got = one.values
        text = f"a picture of {wide:.0f} x {high:.0f} pixels has {got:.0f} an inch, fewer than {ppi:g}"
        found.append(("ppi", text, placed(one.box, inspected)))
    if len(low) > MOST:
        found.append(("ppi", f"{len(low) - MOST} more pictures have fewer than {ppi:g} pixels an inch", None))
    thin = [one for one in contents.found if one.kind == LINE]
    if thin:
        least = min(one.values[0] for one in thin) / MILLIMETRE
        count = f"{len(thin)} lines are" if len(thin) > 1 else "a line is"
        text = f"{count} thinner than 0.1 mm, down to {least:.2f} mm"
        found.append(("thin", text, placed(joined(one.box for one in thin), inspected)))
    return found


def knocked_out(contents: Contents, inspected: Inspected, seen: Any) -> list[Note]:
    """Returns a note of black text that knocks out colour. `seen` is the page's ink at the low resolution: an array of
    rows, columns and inks.
    """
    places = [placed(one.box, inspected) for one in contents.found if one.kind == TEXT]
    over = [place for place in places if is_on_colour(place, seen)]
    if not over:
        return []
    count = f"in {len(over)} places" if len(over) > 1 else "in a place"
    around = joined((x, y, x + wide, y + high) for x, y, wide, high in over)
    place = around[0], around[1], around[2] - around[0], around[3] - around[1]
    text = f"black text {count} knocks out the inks below"
    return [("knockout", text, tuple(round(side, 1) for side in place))]


def is_on_colour(place: tuple[float, ...], seen: Any) -> bool:
    """Returns whether at least half of the pixels in this place have cyan, magenta or yellow."""
    x, y, wide, high = (round(side / ONE) for side in place)
    part = seen[max(0, y) : y + max(1, high), max(0, x) : x + max(1, wide), :3]
    return bool(part.size) and float((part.max(axis=-1) >= INKED).mean()) >= 0.5


def main() -> int:
    import pikepdf

    from pressroom.intake.black import overprint
    from pressroom.intake.walk import TooLong, Walk

    name, sides = sys.argv[1], json.loads(sys.argv[2])
    answer: dict[str, Any] = {"why": "", "edited": ""}
    box = sides[0], sides[1], sides[2], sides[3]
    with pikepdf.open(name) as pdf:
        walk = Walk(pdf.pages[0], box)
        try:
            if sys.argv[3:] and overprint(pdf, box):
                answer["edited"] = sys.argv[3]
                pdf.save(sys.argv[3])
            walk.begin()
        except TooLong:
            answer["why"] = "it has too many operators"
        answer |= {"found": [astuple(one) for one in walk.found[:MOST_FOUND]], "lab": walk.lab}
        print(json.dumps(answer))
    return 0


if __name__ == "__main__":
    sys.exit(main())
