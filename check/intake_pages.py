"""Makes the pages and house files of check/intake.py, and runs `pressroom intake`."""
import json
import os
import shutil
import subprocess
import sys
from dataclasses import dataclass

from newspaper import TOP, Plate

PROFILE = "/usr/share/color/icc/ghostscript/default_cmyk.icc"
MILLIMETRE = 72 / 25.4
BLEED = 9


@dataclass(frozen=True)
class Sheet:
    """The house's sizes in pixels: pages of 60.96 by 81.28 mm at 300 dpi, margins and a gutter of 2 mm."""

    width: int = 720
    height: int = 960
    left: int = 24
    right: int = 24 + 720 + 24
    top: int = 24


HOUSE = Sheet()


def missing_program(*names):
    """Returns the first of these programs that isn't installed, or None."""
    return next((name for name in names if shutil.which(name) is None), None)


def fields(path):
    """Returns the contents of a JSON file, or None if it doesn't exist."""
    if not os.path.exists(path):
        return None
    with open(path, encoding="utf-8") as file:
        return json.load(file)


def events(found, event):
    """Returns the events of this name as sorted pairs of file and kind."""
    return sorted((item["file"], item["kind"]) for item in found if item["event"] == event)


class Pages:
    """A folder of pages, and the folders of its WORK and its plates."""

    def __init__(self, folder, name, count=2, blank=()):
        self.count, self.blank, self.said = count, blank, ""
        parts = (os.path.join(folder, name, part) for part in ("in", "work", "plates"))
        self.folder, self.work, self.plates = parts
        os.makedirs(self.folder)

    def path(self, name, ending="pdf"):
        return os.path.join(self.folder, f"{name}.{ending}")

    def house(self, spot=None, colour="refuse", limit=400, sites=None):
        """Returns the text of a house file. `colour` is how it treats RGB and spots: `refuse` or `convert`."""
        lines = ['edition = "E1"', "dpi = 300", "trim = [60.96, 81.28]", "margins = [2, 2, 2, 2]"]
        lines += ["gutter = 2", f"limit = {limit}"] + ([f"blank = {json.dumps(self.blank)}"] if self.blank else [])
        lines += ["[sections]", f"A = {self.count}", "[colour]"]
        if colour == "refuse":
            lines += ['rgb = "refuse"', 'spots = "refuse"']
        else:
            lines += ['rgb = "convert"', f'profile = "{PROFILE}"', 'spots = "mix"']
        lines += ["[spot]", f'separation = "{spot}"', 'colour = "#ff8800"'] if spot else []
        for site, zone in (sites or {"OSLO": None}).items():
            lines += [f"[sites.{site}]"] + ([f'zone = "{zone}"'] if zone else [])
        return "\n".join(lines) + "\n"

    def write(self, name, body, size=(60.96, 81.28), trim=True, embed=True, **how):
        """Writes a page with pdfwrite, then changes it as `how` says: turn, password, owner, cut or broken."""
        width, height = (side * MILLIMETRE for side in size)
        edge = BLEED if trim else 0
        box = f"[{edge} {edge} {width + edge:.4f} {height + edge:.4f}]"
        text = f"%!PS\n<< /PageSize [{width + 2 * edge:.4f} {height + 2 * edge:.4f}] >> setpagedevice\n"
        text += f"[ /TrimBox {box} /PAGE pdfmark\n" if trim else ""
        text += f"{edge} {edge} translate\n{body}\nshowpage\n"
        path, options = self.path(name), "<< /NeverEmbed [] >> setdistillerparams" if embed else ""
        words = ["gs", "-q", "-dNOPAUSE", "-dBATCH", "-dSAFER", "-sDEVICE=pdfwrite"]
        words += ["-dAutoRotatePages=/None", "-dAutoFilterColorImages=false", "-sColorImageFilter=FlateEncode"]
        words += [f"-dEmbedAllFonts={'true' if embed else 'false'}"]
        words += [f"-sOutputFile={path}", "-c", options, "-f", "-"]
        subprocess.run(words, input=text.encode(), check=True)
        if "turn" in how:
            subprocess.run(["qpdf", path, "--replace-input", f"--rotate={how['turn']}"], check=True)
        if "password" in how or "owner" in how:
            user, owner = how.get("password", ""), how.get("password") or how["owner"]
            words = ["qpdf", path, "--replace-input", "--encrypt", user, owner, "256", "--"]
            subprocess.run(words, check=True)
        if "cut" in how:
            os.truncate(path, int(os.path.getsize(path) * how["cut"]))
        if "broken" in how:
            with open(path, "rb") as file:
                data = file.read()
            with open(path, "wb") as file:
                file.write(data[:20] + b"broken " + data[20:])


def intake(pages, house, *more, quiet=False):
    """Runs `pressroom intake`. Returns its events and its status, and keeps its standard error in `pages.said`.
    """
    path = os.path.join(os.path.dirname(pages.folder), "house.toml")
    with open(path, "w", encoding="utf-8") as file:
        file.write(house)
    words = [sys.executable, "-B", os.path.join(TOP, "tools", "pressroom.py"), "intake", path]
    words += [pages.folder, pages.work, "--json"]
    answer = subprocess.run([*words, *more], capture_output=True, text=True)
    pages.said = answer.stderr
    if answer.stderr and not quiet:
        print(answer.stderr)
    return [json.loads(line) for line in answer.stdout.splitlines()], answer.returncode


def plates_of(results, program, pages):
    """Runs and verifies the plan of these pages. Returns a function from an ink to its plate of the first pair."""
    plan, files = os.path.join(pages.work, "plan.json"), os.path.join(pages.work, "files")
    answer = subprocess.run([program, "run", plan, files, pages.plates], capture_output=True, text=True)
    results.see(answer.returncode == 0, f"the run exits with {answer.returncode}: {answer.stderr}")
    answer = subprocess.run([program, "verify", plan, files, pages.plates], capture_output=True, text=True)
    results.see(answer.stdout.startswith("same plates"), f"verify says {answer.stdout!r}")
    read = {}

    def plate(ink):
        if ink not in read:
            path = os.path.join(pages.plates, "OSLO", f"E1-A-001-{ink}.tif")
            read[ink] = Plate(path) if os.path.exists(path) else Blank()
        return read[ink]

    return plate


class Blank:
    """Replaces a plate that the pair doesn't have."""

    @staticmethod
    def share(x, y, width, height):
        return 0
