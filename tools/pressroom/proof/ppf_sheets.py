"""The sheets of an edition's plates: counts each plate once, and writes a PPF file for each pair and its
sites."""
import argparse
import os
from collections.abc import Iterator
from concurrent.futures import ThreadPoolExecutor

import numpy

from pressroom.base.console import Console
from pressroom.house.house import read_proof
from pressroom.proof import key_table, ppf_file
from pressroom.proof.counts import Counts
from pressroom.proof.names import INK_NAMES
from pressroom.proof.plates import content_of, open_plate, sites_of
from pressroom.tiff.arrays import Bytes
from pressroom.tiff.tiff import Broken


class Plate:
    """A plate's size and counts, in blocks that become the preview's pixels."""

    def __init__(self, path: str) -> None:
        plate = open_plate(path)
        try:
            self.path, self.width, self.length, self.dpi = path, plate.width, plate.length, plate.dpi
            self.counts = Counts(plate, ppf_file.factor_of(plate.dpi))
        finally:
            plate.close()

    def samples(self) -> Bytes:
        """The preview, in PostScript's grey: a block beyond the plate's edge is paper."""
        area = self.counts.side**2
        samples: Bytes = numpy.rint(255 * (1 - self.counts.blocks / area)).astype(numpy.uint8)
        return samples


# A pair, its edition, its paths by ink, and the sites that print it from plates of the same content.
Sheet = tuple[str, str | None, dict[str, str], list[str]]


class Sheets:
    """Everything that one call writes."""

    def __init__(self, words: argparse.Namespace, console: Console) -> None:
        self.words, self.console, self.edition = words, console, ""
        try:
            self.sites = sites_of(words.plates)
        except OSError as error:
            raise Broken(f"{words.plates}: {error.strerror}") from None
        if not self.sites:
            raise Broken(f"{words.plates}: no plates")
        spot, _, keys = read_proof(words.house) if words.house else (None, None, None)
        self.press = (keys.width, keys.offset) if keys else None
        self.names = INK_NAMES | ({"S": spot} if spot else {})
        self.rows: dict[int, list[key_table.Row]] = {count: [] for count in words.keys}

    def make(self) -> int:
        """Writes all files and tables and returns how many plates are damaged."""
        os.makedirs(self.words.out, exist_ok=True)
        damaged: set[str] = set()
        written, sheets = 0, self.sheets()
        for pair, sites, plates in self.console.bar(self.counted(sheets), "pairs", len(sheets)):
            faults = [str(plate) for plate in plates.values() if isinstance(plate, Broken)]
            right = {ink: plate for ink, plate in plates.items() if isinstance(plate, Plate)}
            faults = faults or list(self.sizes(right))
            for fault in faults:
                self.console.tell("fault", fault, pair=pair, sites=sites)
            damaged.update(faults)
            if not faults:
                self.write_sheet(pair, sites, right)
                written += 1
        for count, rows in self.rows.items():
            self.put(f"keys-{count}.csv", key_table.as_csv(rows, self.press))
            self.put(f"keys-{count}.json", key_table.as_json(rows, count, self.press))
        tables = f", tables of {' and '.join(map(str, self.rows))} keys" if self.rows else ""
        line = f"{self.words.out}: {written} files{tables}" + (f"; {len(damaged)} damaged" if damaged else "")
        self.console.tell("done", line, files=written, damaged=len(damaged))
        return len(damaged)

    def sheets(self) -> list[Sheet]:
        """Each pair with the sites that print it from the same plates, and its paths by ink."""
        found: dict[tuple[str, tuple[tuple[str, str], ...]], Sheet] = {}
        with ThreadPoolExecutor(self.words.jobs) as pool:
            paths = [path for site in self.sites for path in site.paths()]
            contents = dict(zip(paths, pool.map(self.content, paths)))
        for site in self.sites:
            for pair, inks in site.pairs.items():
                form = pair, tuple((ink, contents[path]) for ink, path in inks.items())
                found.setdefault(form, (pair, site.edition, inks, []))[3].append(site.name)
        return sorted(found.values(), key=lambda sheet: sheet[0])

    def content(self, path: str) -> str:
        """An identity of a plate's bytes; a file that can't be read equals no other."""
        try:
            return content_of(path)
        except Broken:
            return path

    def counted(self, sheets: list[Sheet]) -> Iterator[tuple[str, list[str], dict[str, Plate | Broken]]]:
        """Each pair with its sites and counted plates, sheet by sheet; a damaged plate is its fault."""

        def count(path: str) -> Plate | Broken:
            try:
                return Plate(path)
            except Broken as error:
                return error

        with ThreadPoolExecutor(self.words.jobs) as pool:
            for pair, edition, inks, sites in sheets:
                self.edition = edition or ""
                yield pair, sites, dict(zip(inks, pool.map(count, inks.values())))

    def sizes(self, plates: dict[str, Plate]) -> Iterator[str]:
        """What is wrong where plates of a pair differ in size or resolution."""
        first, *others = plates.values()
        for plate in others:
            if (plate.width, plate.length, plate.dpi) != (first.width, first.length, first.dpi):
                yield f"{plate.path}: has another size or resolution than {first.path}"

    def write_sheet(self, pair: str, sites: list[str], plates: dict[str, Plate]) -> None:
        """Writes one PPF file, and adds its plates to the tables."""
        dpi = next(iter(plates.values())).dpi
        separations = [(self.names[ink], plate.samples()) for ink, plate in plates.items()]
        name = f"{self.edition}-{pair}-{sites[0]}.ppf"
        self.put(name, ppf_file.text_of(self.edition, pair, sites, dpi, separations))
        for count, rows in self.rows.items():
            rows += [
                key_table.Row(pair, sites, ink, self.names[ink], plate, count, self.press)
                for ink, plate in plates.items()
            ]
        dots = {ink: plate.counts.total() for ink, plate in plates.items()}
        self.console.tell(
            "file",
            f"{name}: {' '.join(plates)} for {' '.join(sites)}",
            name=name,
            pair=pair,
            sites=sites,
            dots=dots,
        )

    def put(self, name: str, text: str) -> None:
        """Writes a file under another name first, so that none is ever present in part."""
        path = os.path.join(self.words.out, name)
        try:
            with open(path + ".part", "w", encoding="ascii" if name.endswith(".ppf") else "utf-8") as file:
                file.write(text)
            os.replace(path + ".part", path)
        finally:
            if os.path.exists(path + ".part"):
                os.remove(path + ".part")
