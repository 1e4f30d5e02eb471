"""Reads and changes the separations and transfer functions of a PDF's first page (ISO 32000-1, 8.6.6 and
10.5).

intake runs this file as a separate process, under limits, in the page's folder. Its one argument is a JSON
object, and it prints another:

- `pdf`: the file. A copy with the changes, if there are any, is `copy` and `changed` is true.
- `names`: pairs of a name as `name_key` returns it and the name that replaces it. The answer's `spaces` has the
  colorants of each colour space that can paint, names as hexadecimal bytes, and `alternates` the kinds of their
  alternate spaces, such as "rgb" and "lab".
- `house`: the key of the house's spot, or null.
- `tints`: the file to write whose only page has a square for each of the answer's `samples`, pairs of a space
  and its tints; or null.
- `renames`: triples of a space, a colorant in it and its new name.
- The answer's `transfers` names the transfer functions that change tints. The copy has none of them, and
  `transfers.pdf` has them where Ghostscript applies them.
"""
import json
import os
import random
import sys
from collections.abc import Iterator
from typing import Any

import pikepdf
from pikepdf import Array, Dictionary, Name, Object, Stream  # type: ignore[attr-defined]

sys.path.insert(0, os.path.dirname(os.path.dirname(os.path.dirname(os.path.abspath(__file__)))))
from pressroom.intake.colorant_names import COLUMNS, NONE, SIDE, TINTS, is_spot, name_key, text_of
from pressroom.reading.objects import items
from pressroom.reading.spaces import space_of

# The keys that lead from a page, and from each of its annotations, to what it paints.
FOLLOWED = {"page": {b"/Resources", b"/Annots"}, "page/Annots": {b"/AP"}}
# The most objects of a page, and the most colour spaces with a separation.
MOST_OBJECTS, MOST_SPACES = 500_000, 200
# Mixtures of the colorants of a space that are sampled, besides none and all of each.
MIXTURES = 48
SAME = ("/Identity", "/Default")


def bytes_of(name: Object) -> bytes:
    """Returns the bytes of a name object."""
    text, out, at = name.unparse(resolved=True)[1:], bytearray(), 0
    while at < len(text):
        escaped = text[at : at + 1] == b"#"
        out += bytes([int(text[at + 1 : at + 3], 16)]) if escaped else text[at : at + 1]
        at += 3 if escaped else 1
    return bytes(out)


def name_of(name: bytes) -> Object:
    """Returns a name object of these bytes."""
    text = b"".join(bytes([n]) if chr(n).isalnum() and n < 128 else b"#%02x" % n for n in name)
    return Object.parse(b"/" + text)


class Page:
    """The first page of a PDF: its separations' colour spaces, and the dictionaries with transfer functions."""

    def __init__(self, pdf: Any) -> None:
        self.pdf = pdf
        self.arrays: list[Any] = []
        self.attributes: list[Any] = []
        self.states: list[tuple[str, Any]] = []
        self.resources = self.own_resources()
        for key, value in self.reached():
            self.take(key, value)
        self.spaces: dict[bytes, list[Any]] = {}
        for array in self.arrays:
            self.spaces.setdefault(array.unparse(resolved=True), []).append(array)
        if len(self.spaces) > MOST_SPACES:
            raise ValueError(f"it has {len(self.spaces)} colour spaces with separations")

    def own_resources(self) -> Any:
        """Returns the page's resources, which it may inherit."""
        page = self.pdf.pages[0]
        node = top = page.obj if hasattr(page, "obj") else page
        for _ in range(64):
            if "/Resources" in node or "/Parent" not in node:
                break
            node = node["/Parent"]
        if not isinstance(node.get("/Resources"), Dictionary):
            top["/Resources"] = Dictionary()
            return top["/Resources"]
        return node["/Resources"]

    def declare(self) -> None:
        """Names all colour spaces with separations in the page's resources. Ghostscript looks for spots there,
        and not in masks: a plane that it doesn't expect is filled with anything.
        """
        if not isinstance(self.resources.get("/ColorSpace"), Dictionary):
            self.resources["/ColorSpace"] = Dictionary()
        for number, arrays in enumerate(self.spaces.values()):
            self.resources["/ColorSpace"][f"/pressroom.{number}"] = arrays[0]

    def reached(self) -> Iterator[tuple[str, Any]]:
        """Yields all dictionaries and arrays that the page leads to, each once, with the names that lead there."""
        page = self.pdf.pages[0]
        waiting: list[tuple[str, Any]] = [("page", page.obj if hasattr(page, "obj") else page)]
        waiting.append(("page/Resources", self.resources))
        seen = set()
        for _ in range(MOST_OBJECTS):
            if not waiting:
                return
            way, value = waiting.pop()
            if value.is_indirect:
                if value.objgen in seen:
                    continue
                seen.add(value.objgen)
            yield way, value
            if isinstance(value, Array):
                inner = [(way, item) for item in value]
            else:
                found = {key: item for key, item in items(value) if key in FOLLOWED.get(way, {key})}
                inner = [(f"{way}{key.decode('latin-1')}", found[key]) for key in sorted(found)]
            kinds = (Array, Dictionary, Stream)
            waiting += [pair for pair in reversed(inner) if isinstance(pair[1], kinds)]
        raise ValueError(f"it has more than {MOST_OBJECTS} objects")

    def take(self, way: str, value: Any) -> None:
        """Records a value if it's a colour space with separations, or a state with a transfer function."""
        if isinstance(value, Array):
            if len(value) > 3 and isinstance(value[0], Name):
                kind = bytes_of(value[0])
                if kind in (b"Separation", b"DeviceN"):
                    (self.attributes if "/Colorants/" in way else self.arrays).append(value)
        elif any(key in value for key in ("/TR", "/TR2", "/HT")) and "/G" not in value:
            self.states.append((way.rpartition("/")[2], value))

    @staticmethod
    def names(array: Any) -> list[bytes]:
        """Returns the colorants of a space."""
        found = list(array[1]) if isinstance(array[1], Array) else [array[1]]
        return [bytes_of(name) for name in found if isinstance(name, Name)]

    @staticmethod
    def put(array: Any, names: list[bytes]) -> None:
        """Stores the colorants of a space, and of what its attributes say of each."""
        old = Page.names(array)
        many = isinstance(array[1], Array)
        array[1] = Array([name_of(name) for name in names]) if many else name_of(names[0])
        said = array[4].get("/Colorants") if len(array) > 4 and isinstance(array[4], Dictionary) else None
        if isinstance(said, Dictionary):
            kept = Dictionary()
            for key, item in items(said):
                kept[key] = item
            for before, after in zip(old, names):
                place = name_of(before).unparse().decode("latin-1")
                if before != after and place in kept:
                    kept[name_of(after).unparse().decode("latin-1")] = kept[place]
            array[4]["/Colorants"] = kept

    def rename(self, names: dict[str, bytes]) -> bool:
        """Replaces names by their keys. Returns whether any changed."""
        changed = False
        for array in self.arrays + self.attributes:
            before, after = self.names(array), []
            for name in before:
                after.append(names.get(name_key(name), name) if is_spot(name) else name)
            if before != after:
                spots = [name for name in after if name != NONE]
                if len(set(spots)) < len(spots):
                    said = ", ".join(map(text_of, before))
                    raise ValueError(f"one ink has two names in the colour space of {said}")
                self.put(array, after)
                changed = True
        return changed


def is_same(function: Any) -> bool:
    """Returns whether a transfer function changes no tint: a name, or a function that is the identity."""
    if isinstance(function, Name):
        return str(function) in SAME
    if isinstance(function, Array):
        return all(is_same(item) for item in function)
    if isinstance(function, Stream):
        return function.get("/FunctionType") == 4 and function.read_bytes().split() in ([b"{", b"}"], [b"{}"])
    if not isinstance(function, Dictionary) or function.get("/FunctionType") != 2:
        return False
    first, last = function.get("/C0", [0]), function.get("/C1", [1])
    return (
        [float(n) for n in first] == [0]
        and [float(n) for n in last] == [1]
        and float(function.get("/N", 0)) == 1
    )


def halftones(value: Any) -> Iterator[Any]:
    """Yields a halftone, and those of its colorants, that has a transfer function."""
    if isinstance(value, (Dictionary, Stream)):
        if "/TransferFunction" in value:
            yield value
        for key in sorted(value.keys()):
            if isinstance(value[key], (Dictionary, Stream)) and key != "/TransferFunction":
                yield from (inner for inner in [value[key]] if "/TransferFunction" in inner)


def transfers(page: Page, remove: bool) -> list[str]:
    """Returns the names of the transfer functions that change tints. Removes all of them, or else moves those
    of halftones, which Ghostscript passes over, to where it applies them.
    """
    found = []
    for name, state in page.states:
        for key in ("/TR", "/TR2"):
            if key in state and not is_same(state[key]):
                found.append(f"{key[1:]} of {name}")
        for halftone in halftones(state.get("/HT")):
            if not is_same(halftone["/TransferFunction"]):
                found.append(f"the halftone of {name}")
                if not remove:
                    state["/TR2"] = halftone["/TransferFunction"]
        if remove:
            for key in ("/TR", "/TR2"):
                if key in state and not is_same(state[key]):
                    del state[key]
    return found


def samples_of(names: list[bytes], house: str | None) -> list[list[float]]:
    """Returns the tints that are sampled of a space: each spot alone, and mixtures of all colorants. The
    house's spot and None are 0.
    """
    free = [
        n for n, name in enumerate(names) if name != NONE and not (is_spot(name) and name_key(name) == house)
    ]
    spots = [n for n in free if is_spot(names[n])]
    bare = [0.0] * len(names)
    found = [bare[:n] + [tint / 255] + bare[n + 1 :] for n in spots for tint in range(TINTS)]
    if spots and len(free) > 1:
        seeded = random.Random(1)
        corners = [
            [float(number >> n & 1) for n in range(len(free))] for number in range(2 ** min(len(free), 5))
        ]
        for mixture in corners + [[seeded.randrange(256) / 255 for _ in free] for _ in range(MIXTURES)]:
            found.append(bare[:])
            for n, tint in zip(free, mixture):
                found[-1][n] = tint
    return found


def write_tints(page: Page, house: str | None, path: str) -> list[tuple[int, list[float]]]:
    """Writes a PDF whose page has a square for each sample of each space. Returns the samples."""
    samples: list[tuple[int, list[float]]] = []
    made, spaces = pikepdf.Pdf.new(), Dictionary()  # type: ignore[attr-defined]
    for number, arrays in enumerate(page.spaces.values()):
        tints = samples_of(page.names(arrays[0]), house)
        if tints:
            samples += [(number, each) for each in tints]
            spaces[f"/S{number}"] = made.copy_foreign(page.pdf.make_indirect(arrays[0]))
    lines, height = [], SIDE * -(-len(samples) // COLUMNS)
    for place, (number, tint) in enumerate(samples):
        x, y = SIDE * (place % COLUMNS), height - SIDE * (place // COLUMNS + 1)
        said = " ".join(f"{share:.6f}" for share in tint)
        lines.append(f"/S{number} cs {said} scn {x} {y} {SIDE} {SIDE} re f")
    made.add_blank_page(page_size=(SIDE * COLUMNS, max(SIDE, height)))
    made.pages[0].Resources = Dictionary(ColorSpace=spaces)
    made.pages[0].Contents = made.make_stream("\n".join(lines).encode())
    made.save(path)
    return samples


def answer_of(asked: dict[str, Any]) -> dict[str, Any]:
    """Does what is asked. Returns the answer."""
    with pikepdf.open(asked["pdf"]) as pdf:
        page = Page(pdf)
        changed = page.rename({key: bytes.fromhex(name) for key, name in asked["names"]})
        spaces = list(page.spaces.values())
        answer: dict[str, Any] = {
            "spaces": [[name.hex() for name in page.names(arrays[0])] for arrays in spaces]
        }
        answer["alternates"] = [space_of(arrays[0][2]).kind for arrays in spaces]
        answer["samples"] = write_tints(page, asked["house"], asked["tints"]) if asked["tints"] else []
        for number, colorant, name in asked["renames"]:
            for array in spaces[number]:
                names = page.names(array)
                names[colorant] = bytes.fromhex(name)
                page.put(array, names)
        if spaces:
            page.declare()
            changed = True
        answer["transfers"] = transfers(page, False)
        if answer["transfers"]:
            pdf.save("transfers.pdf")
            transfers(page, True)
            changed = True
        answer["changed"] = changed
        if changed:
            pdf.save(asked["copy"])
    return answer


def main() -> int:
    try:
        print(json.dumps(answer_of(json.loads(sys.argv[1]))))
    except Exception as error:  # The parent names the page's fault.
        print(
            f"{type(error).__name__}: {error}" if not isinstance(error, ValueError) else error,
            file=sys.stderr,
        )
        return 1
    return 0


if __name__ == "__main__":
    sys.exit(main())
