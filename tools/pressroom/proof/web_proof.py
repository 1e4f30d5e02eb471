"""Builds the blocks, the pictures and the manifest of a proof in the browser from plates."""
import argparse
import json
import os
import zlib
from concurrent.futures import Executor, ThreadPoolExecutor
from typing import TypedDict

from pressroom.base.console import Console
from pressroom.house.house import read_proof
from pressroom.plans import sheets
from pressroom.proof.blocks import SIDE, Cut, Writer, see_blocks
from pressroom.proof.counts import bands
from pressroom.proof.names import COLOURS, INK_NAMES
from pressroom.proof.plates import Site, content_of, open_plate, sites_of
from pressroom.proof.web_changes import Changes
from pressroom.proof.web_view import View
from pressroom.tiff.tiff import Broken

# The side in pixels of the squares that the page measures by, and the width of the index's pictures at most.
CELL = 64
THUMB = 420


class Plate:
    """A plate by its content: its key in the proof, its size, counts and blocks."""

    def __init__(self, key: str, path: str, folder: str, keys: list[int]) -> None:
        self.key, self.path = key, path
        plate = open_plate(path)
        try:
            self.width, self.length, self.dpi = plate.width, plate.length, plate.dpi
            see_blocks(plate)
            self.writer = Writer(folder, key)
            cut = Cut((plate.width, plate.length), bands(plate, SIDE), self.writer, keys)
        finally:
            plate.close()
        self.total = cut.total
        cells = cut.larger(CELL // 8)
        head = {"rows": cells.shape[0], "columns": cells.shape[1], "keys": cut.keys}
        self.writer.counts(head, cells)
        times = max(1, -(-self.width // (8 * THUMB)))
        self.shares = cut.larger(times) / cut.areas(times)

    def summary(self) -> dict[str, object]:
        """What the page has of it when it opens."""
        return {"width": self.width, "length": self.length, "total": self.total, "sums": self.writer.sums}


def write_manifest(path: str, data: object) -> None:
    """Writes what the page has when it opens as a text with its sum, in a script."""
    text = json.dumps(data, separators=(",", ":"))
    with open(path, "w", encoding="ascii") as file:
        file.write(f'proofManifest("{zlib.crc32(text.encode()):08x}",{json.dumps(text)})\n')


class Ink(TypedDict):
    """The name of an ink and its colour on paper."""

    name: str
    colour: tuple[int, int, int]


# A pair as some sites print it: the pair, the sites, and the contents by ink now and before.
Seen = tuple[str, list[str], dict[str, str], dict[str, str]]


class Proof:
    """All plates of a proof, and the views of them: a pair as some sites print it."""

    def __init__(self, words: argparse.Namespace, console: Console, folder: str) -> None:
        self.words, self.console, self.folder = words, console, folder
        self.sites, self.old = self.found(words.plates), self.found(words.old) if words.old else []
        self.sheets = sheets.sheets_of(words.plan)
        # The content of each path; plates and faults by content.
        self.contents: dict[str, str] = {}
        self.plates: dict[str, Plate] = {}
        self.faults: dict[str, str] = {}
        self.damaged: list[dict[str, str]] = []
        self.views: list[View] = []
        self.inks: dict[str, Ink] = {ink: {"name": INK_NAMES[ink], "colour": COLOURS[ink]} for ink in COLOURS}
        self.set_spot()

    def found(self, folder: str) -> list[Site]:
        """The sites of a folder of plates."""
        try:
            sites = sites_of(folder)
        except OSError as error:
            raise Broken(f"{folder}: {error.strerror}") from None
        if not sites:
            raise Broken(f"{folder}: no plates")
        return sites

    def set_spot(self) -> None:
        """Gives the spot the house's name and colour; --spot overrides the house file."""
        name, colour, _ = read_proof(self.words.house) if self.words.house else (None, None, None)
        spot = self.inks["S"]
        spot["name"] = name or spot["name"]
        spot["colour"] = self.words.spot or colour or spot["colour"]

    def make(self) -> None:
        """Makes everything below the folder, several plates at a time."""
        for name in ("plates", "thumbs"):
            os.mkdir(os.path.join(self.folder, name))
        with ThreadPoolExecutor(self.words.jobs) as pool:
            try:
                self.read_contents(pool)
                self.make_plates(pool)
                self.changes = Changes(self)
                self.make_views()
                self.changes.make(pool)
            except BaseException:
                pool.shutdown(cancel_futures=True)
                raise
        self.write()

    def read_contents(self, pool: Executor) -> None:
        """Finds which files have the same content."""
        paths = [path for site in self.sites + self.old for path in site.paths()]

        def read(path: str) -> str | Broken:
            try:
                return content_of(path)
            except Broken as error:
                return error

        for path, content in zip(paths, self.console.bar(pool.map(read, paths), "contents", len(paths))):
            if isinstance(content, Broken):
                self.faults[path] = str(content)
                content = path
            self.contents[path] = content

    def make_plates(self, pool: Executor) -> None:
        """Counts each content once, and cuts it into blocks."""
        first: dict[str, tuple[str, str]] = {}
        keys = self.words.keys or [32]
        for site in self.sites:
            for pair, paths in site.pairs.items():
                for ink, path in paths.items():
                    content = self.contents[path]
                    first.setdefault(content, (f"{pair}-{ink}-{content[:12]}", path))

        def plate(item: tuple[str, tuple[str, str]]) -> tuple[str, Plate | Broken]:
            content, (key, path) = item
            try:
                if path in self.faults:
                    raise Broken(self.faults[path])
                return content, Plate(key, path, self.folder, keys)
            except Broken as error:
                return content, error

        for content, made in self.console.bar(pool.map(plate, first.items()), "plates", len(first)):
            if isinstance(made, Broken):
                self.faults[content] = str(made).removeprefix(f"{first[content][1]}: ")
            else:
                self.plates[content] = made

    def make_views(self) -> None:
        """A view for each pair and the sites that print it from the same plates, and had the same before."""
        old = {site.name: site.pairs for site in self.old}
        found: dict[object, Seen] = {}
        for site in self.sites:
            before = old.get(site.name, {})
            for pair, paths in site.pairs.items():
                new = {ink: self.contents[path] for ink, path in paths.items()}
                was = {ink: self.contents[path] for ink, path in before.get(pair, {}).items()}
                form = pair, tuple(new.items()), tuple(was.items())
                if form not in found:
                    found[form] = pair, [], new, was
                found[form][1].append(site.name)
                for path in paths.values():
                    if self.contents[path] in self.faults:
                        self.tell_damage(path, self.faults[self.contents[path]])
        views = sorted(found.values(), key=lambda view: view[0])
        self.views = [View(self, number, *view) for number, view in enumerate(views)]

    def tell_damage(self, path: str, reason: str) -> None:
        """Reports a damaged plate."""
        self.console.tell("fault", f"{path}: {reason}", path=path, reason=reason)
        self.damaged.append({"path": path, "reason": reason})

    def write(self) -> None:
        """Writes the data that the page has when it opens."""
        data = {
            "edition": self.sites[0].edition,
            "inks": self.inks,
            "cell": CELL,
            "keys": sorted(set(self.words.keys or [32])),
            "sites": {site.name: self.zone(site.name) for site in self.sites},
            "plates": {plate.key: plate.summary() for plate in self.plates.values()},
            "views": [view.data() for view in self.views],
            "damaged": self.damaged,
            "compared": bool(self.old),
            "changes": self.changes.sums,
            "gone": self.gone(),
        }
        write_manifest(os.path.join(self.folder, "proof.js"), data)

    def zone(self, site: str) -> str | None:
        """The zone of a site, None if no plan names one."""
        return self.sheets[site].zone if site in self.sheets else None

    def gone(self) -> list[dict[str, str]]:
        """Pairs of the old edition that a site no longer has."""
        now = {site.name: site.pairs for site in self.sites}
        return [
            {"pair": pair, "site": site.name}
            for site in self.old
            for pair in site.pairs
            if pair not in now.get(site.name, {})
        ]

    def summary(self) -> str:
        """A line on what was made."""
        pairs = {view.pair for view in self.views}
        files = sum(len(site.paths()) for site in self.sites)
        line = (
            f"{files} plates, {len(self.plates)} distinct, of {len(pairs)} pairs for {len(self.sites)} sites"
        )
        if self.old:
            line += (
                f"; {sum(view.state() != 'same' for view in self.views)} of {len(self.views)} views changed"
            )
        return line + (f"; {len(self.damaged)} damaged" if self.damaged else "")
