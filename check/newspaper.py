#!/usr/bin/env python3
"""Makes the newspaper of examples/newspaper, runs the program on it, and checks what its plates print.

    python3 check/newspaper.py PROGRAM

The ink of each step of the wedges is within one percent of what the curve, the limit and the screen give,
each plate has its own name, the spot is under its mask, and sites that share a pair have the same bytes. This
file has its own reader of plates. It needs only Python; the proof is checked if Pillow and numpy are
installed. The last line is `N passed, M failed`, and the status is 1 if one failed.
"""
import importlib.util
import json
import os
import struct
import subprocess
import sys
import tempfile

from trial import Count

TOP = os.path.join(os.path.dirname(os.path.abspath(__file__)), "..")
NEWSPAPER = os.path.join(TOP, "examples", "newspaper")
INKS = "CMYKS"


def missing(*libraries):
    """The first of these that isn't installed."""
    return next((name for name in libraries if importlib.util.find_spec(name) is None), None)


class Plate:
    """A plate's rows as whole numbers, whose highest bit is the left pixel."""

    def __init__(self, path):
        with open(path, "rb") as file:
            self.data = file.read()
        place, fields = struct.unpack_from("<I", self.data, 4)[0], {}
        for i in range(struct.unpack_from("<H", self.data, place)[0]):
            tag, kind, count = struct.unpack_from("<HHI", self.data, place + 2 + 12 * i)
            at = place + 10 + 12 * i
            if count > 1:
                at = struct.unpack_from("<I", self.data, at)[0]
            if kind != 5:
                fields[tag] = struct.unpack_from(f"<{count}{'H' if kind == 3 else 'I'}", self.data, at)
        self.width, self.length, self.each = fields[256][0], fields[257][0], fields[278][0]
        self.offsets, self.counts = fields[273], fields[279]
        self.strips = {}

    def strip(self, number):
        if number not in self.strips:
            at, end, out = self.offsets[number], self.offsets[number] + self.counts[number], bytearray()
            while at < end:
                head = self.data[at]
                if head < 128:
                    out += self.data[at + 1 : at + 2 + head]
                    at += 2 + head
                else:
                    out += self.data[at + 1 : at + 2] * (257 - head)
                    at += 2
            self.strips[number] = bytes(out)
        return self.strips[number]

    def share(self, x, y, width, height):
        """The share of a part's pixels that print."""
        size, dots = (self.width + 7) // 8, 0
        for row in range(y, y + height):
            data = self.strip(row // self.each)[row % self.each * size :][:size]
            bits = int.from_bytes(data, "big") >> (8 * size - x - width)
            dots += (bits & ((1 << width) - 1)).bit_count()
        return dots / (width * height)


def toned(points, value):
    """The value of a curve at a value."""
    for (x0, y0), (x1, y1) in zip(points, points[1:]):
        if x0 <= value <= x1:
            return (y0 * (x1 - value) + y1 * (value - x0)) // (x1 - x0)
    raise ValueError(value)


def printed(plan, inks):
    """The four values after curves and limit."""
    c, m, y, k = (toned(plan["curves"][ink], value) for ink, value in zip(INKS, inks))
    colours = c + m + y
    if colours + k > plan["limit"]:
        k = min(k, plan["limit"])
        c, m, y = (value * (plan["limit"] - k) // colours if colours else 0 for value in (c, m, y))
    return c, m, y, k


def share_of(plan, ink, value):
    """The share of pixels that a screen prints of a value."""
    screen = plan["screens"][ink]
    if screen == "diffuse":
        return value / 255
    at = next(tile["at"] for tile in plan["tiles"] if "tile:" + tile["name"] == screen)
    return sum(value > threshold for threshold in at) / len(at)


class Edition:
    """The plan, the plates, and the positions of pages on them."""

    def __init__(self, plan, plates, make):
        self.plan, self.plates, self.make, self.read = plan, plates, make, {}
        left, top, _, _ = plan["margins"]
        width, _ = plan["page"]
        self.left, self.right = (left, top), (left + width + plan["gutter"], top)

    def plate(self, site, pair, ink):
        path = os.path.join(self.plates, site, f"MORNING-{pair}-{ink}.tif")
        if path not in self.read:
            self.read[path] = Plate(path)
        return self.read[path]

    def bytes(self, site, pair):
        return [self.plate(site, pair, ink).data for ink in self.inks(pair)]

    def inks(self, pair):
        """The plates of a pair."""
        section, number = pair[0], int(pair[2:])
        pages = self.make.SECTIONS[section]
        both = self.make.PRINTS[pages[number - 1]] + self.make.PRINTS[pages[len(pages) - number]]
        return [ink for ink in INKS if ink in both]


def see_report(results, edition, report):
    """The lines of the run, and that no plate is missing or superfluous."""
    plan, pairs = edition.plan, ("A-001", "A-002", "B-001", "B-002")
    names = sorted(f"MORNING-{pair}-{ink}.tif" for pair in pairs for ink in edition.inks(pair))
    height = plan["margins"][1] + plan["page"][1] + plan["margins"][3]
    lines = report.splitlines()
    for site, line in zip(plan["sites"], lines):
        wanted = f"site {site['name']} finished plates {len(names)} rows {len(names) * height}"
        results.see(line == wanted, f"the report says {line!r}, not {wanted!r}")
        found = sorted(os.listdir(os.path.join(edition.plates, site["name"])))
        results.see(found == names, f"{site['name']} has the plates {found}")
    # Two pairs stand in two forms, one for the sites of a zone: and B-001.
    rows = height * sum(len(edition.inks(pair)) * (1 if pair == "B-002" else 2) for pair in pairs)
    results.see(lines[-1] == f"total rows {rows} sites 3", f"the report ends with {lines[-1]!r}")


def see_tone(results, edition):
    """The wedges and patches of the front page, and of its other form."""
    make, plan = edition.make, edition.plan
    width, height = (side * make.SCALE for side in make.FIELD)
    x0, y0 = edition.right[0] + make.WEDGE_AT[0], edition.right[1] + make.WEDGE_AT[1]
    rows = [[tuple(step if i == ink else 0 for i in range(4)) for step in make.STEPS] for ink in range(4)]
    worst = 0.0
    for site in ("OSLO", "TROMSO"):
        for line, fields in enumerate(rows + [make.PATCHES]):
            for number, inks in enumerate(fields):
                for ink, value in zip(INKS, printed(plan, inks)):
                    place = x0 + number * width, y0 + line * height, width, height
                    off = abs(edition.plate(site, "A-001", ink).share(*place) - share_of(plan, ink, value))
                    worst = max(worst, off)
                    results.see(off <= 0.01, f"{site}: {ink} of {inks} is off by {100 * off:.2f} percent")
    print(f"tone: at most {100 * worst:.2f} percent off")
    x, y = edition.left[0] + make.EDGE, edition.left[1] + 4100
    share = edition.plate("OSLO", "A-001", "S").share(x, y, 1200, 600)
    wanted = share_of(plan, "S", toned(plan["curves"]["S"], make.SPOT_TINT))
    results.see(abs(share - wanted) <= 0.01, f"the tint of the spot has {share:.4f}, not {wanted:.4f}")


def see_spot(results, edition):
    """The star of page A4: under its mask the spot is solid and alone, outside it the picture prints."""
    x, y, size = edition.left[0] + 2240, edition.left[1] + 1860, 1500
    inside, corner = (x + size // 2 - 20, y + size * 12 // 100, 40, 40), (x, y, 100, 100)
    shares = {ink: edition.plate("OSLO", "A-001", ink).share(*inside) for ink in INKS}
    results.see(shares == {"C": 0, "M": 0, "Y": 0, "K": 0, "S": 1}, f"under the mask there is {shares}")
    results.see(edition.plate("OSLO", "A-001", "S").share(*corner) == 0, "the spot prints outside its mask")
    results.see(
        edition.plate("OSLO", "A-001", "Y").share(*corner) > 0.05, "the picture is gone outside the mask"
    )
    whole = edition.plate("OSLO", "A-001", "S").share(x, y, size, size)
    results.see(0.4 < whole < 0.75, f"the star has {whole:.2f} of its square")


def see_names(results, edition):
    """Each plate has its own name and no other ink's, and the patch of its ink."""
    make, width = edition.make, edition.plan["page"][0]
    for site in make.SITES:
        for pair in ("A-001", "A-002", "B-001", "B-002"):
            for ink in edition.inks(pair):
                plate = edition.plate(site, pair, ink)
                for number, other in enumerate(INKS):
                    x, y = make.SLUG_AT[0] + number * make.SLUG_STEP, make.SLUG_AT[1]
                    there = [
                        plate.share(page[0] + x, page[1] + y, make.SLUG_STEP - 40, 72)
                        for page in (edition.left, edition.right)
                    ]
                    right = (max(there) > 0.1 and min(there) == 0) if other == ink else not any(there)
                    results.see(right, f"{site} {pair}: the plate {ink} has {there} where {other} is named")
                    patch = plate.share(400 + 160 * number, 40, 120, 120)
                    results.see(
                        patch == (1 if other == ink else 0),
                        f"{site} {pair}: {ink} has {patch} on {other}'s patch",
                    )
                results.see(
                    plate.share(edition.left[0] + width, 300, edition.plan["gutter"], 4000) < 0.001,
                    f"{site} {pair}: {ink} prints in the gutter",
                )


def see_sites(results, edition):
    """Which sites have the same plates."""
    for pair, same, other in (
        ("A-001", ("OSLO", "BERGEN"), "TROMSO"),
        ("A-002", ("OSLO", "TROMSO"), "BERGEN"),
        ("B-001", ("OSLO", "TROMSO"), "BERGEN"),
        ("B-002", ("OSLO", "BERGEN", "TROMSO"), None),
    ):
        first = edition.bytes(same[0], pair)
        results.see(
            all(edition.bytes(site, pair) == first for site in same), f"{pair}: {same} don't share it"
        )
        if other:
            results.see(edition.bytes(other, pair) != first, f"{pair}: {other} has the others' plates")


def see_tools(results, program, edition, folder):
    """The tools on this edition."""
    words = [sys.executable, "-B", os.path.join(TOP, "tools", "check.py"), "--strict", "--program", program]
    answer = subprocess.run(
        words + [os.path.join(folder, "plan.json"), os.path.join(folder, "art")],
        capture_output=True,
        text=True,
    )
    results.see(
        answer.returncode == 0 and answer.stdout.endswith(" 0 faults, 0 notes\n"),
        f"check.py ends with {answer.returncode}: {answer.stdout}{answer.stderr}",
    )
    if missing("PIL", "numpy"):
        print(f"skipped: the proof ({missing('PIL', 'numpy')} isn't installed)")
        return
    from PIL import Image

    proof = os.path.join(folder, "proof.png")
    words = [
        sys.executable,
        "-B",
        os.path.join(TOP, "tools", "proof.py"),
        os.path.join(edition.plates, "OSLO"),
        proof,
    ]
    answer = subprocess.run(words + ["--factor", "20", "--columns", "2"], capture_output=True, text=True)
    results.see(answer.returncode == 0, f"proof.py ends with {answer.returncode}: {answer.stderr}")
    if answer.returncode == 0:
        with Image.open(proof) as picture:
            results.see(picture.width == 2 * 404 + 3 * 12, f"the proof is {picture.width} pixels wide")
            # Each pair has its own frame, and the sky of page A1 is more blue than red.
            red, _, blue = picture.convert("RGB").getpixel(
                (12 + (edition.right[0] + 300) // 20, 12 + 1700 // 20)
            )
            results.see(blue > red, f"the sky of page A1 has red {red} and blue {blue}")


def main():
    if len(sys.argv) != 2:
        sys.exit(__doc__.splitlines()[2].strip())
    program, results = sys.argv[1], Count()
    spec = importlib.util.spec_from_file_location("make", os.path.join(NEWSPAPER, "make.py"))
    sys.path.insert(0, NEWSPAPER)
    sys.dont_write_bytecode = True
    make = importlib.util.module_from_spec(spec)
    spec.loader.exec_module(make)
    with tempfile.TemporaryDirectory(prefix="plateroom-newspaper-") as folder:
        art, text, plates = (os.path.join(folder, name) for name in ("art", "plan.json", "plates"))
        subprocess.run(
            [sys.executable, "-B", os.path.join(NEWSPAPER, "make.py"), "--art", art, "--plan", text],
            check=True,
        )
        with open(text, encoding="utf-8") as made, open(
            os.path.join(NEWSPAPER, "plan.json"), encoding="utf-8"
        ) as kept:
            made, kept = made.read(), kept.read()
        results.see(made == kept, "make.py writes another plan than plan.json")
        answer = subprocess.run([program, "run", text, art, plates], capture_output=True, text=True)
        results.see(answer.returncode == 0, f"the run ends with {answer.returncode}: {answer.stderr}")
        if answer.returncode == 0:
            edition = Edition(json.loads(made), plates, make)
            see_report(results, edition, answer.stdout)
            see_tone(results, edition)
            see_spot(results, edition)
            see_names(results, edition)
            see_sites(results, edition)
            see_tools(results, program, edition, folder)
    sys.exit(results.end())


if __name__ == "__main__":
    main()
