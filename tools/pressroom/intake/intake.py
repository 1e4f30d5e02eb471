"""Converts an edition's pages, single-page PDFs or TIFF files, into plans and files for plateroom.

HOUSE is the house file; tools/README.md lists its keys. IN holds the pages, named by section and page, such
as A01.pdf, or ZONE/A01.pdf for a zone's own page. The files that it makes are in WORK/files. If no page has a
fault, it writes a plan WORK/PRESS.json for each press. A second call makes only the pages that changed.

A fault stops one page: the other pages are made, but no plan is written without --partial. A note reports
what changed on the way, or what may print badly. Faults and notes name the file and, where there is one, the
place in millimetres from the page's upper left corner.

example: pressroom intake house.toml in work

status: 0 the plans are written; 1 a page has a fault; 2 the arguments or the house file are wrong, a program
or library isn't installed, WORK can't be written, or another intake is using WORK
"""
import argparse
import dataclasses
import importlib.util
import os
import shutil
import sys
import tempfile
import time
from concurrent.futures import ThreadPoolExecutor
from dataclasses import dataclass

from pressroom.base.command_line import Parser
from pressroom.base.console import Console, Missing, need
from pressroom.base.limits import Limits, Passed
from pressroom.house.folders import with_folders
from pressroom.house.house import HouseFault, read_house
from pressroom.intake import bands, bitmaps, observed, pages, profiles, state
from pressroom.intake.ghostscript import Ghostscript
from pressroom.intake.layers import Made, Rendering
from pressroom.intake.mixing import INKED, RENAMED, Mixing, mixing_of
from pressroom.intake.opinion import Opinion, Page
from pressroom.intake.pdf import Inspected, Refused, inspect
from pressroom.intake.separations import Spot
from pressroom.intake.survey import above, rgb_of, thin_white
from pressroom.plans import plans

PROGRAMS = ("gs", "qpdf", "pdftohtml", "tiffcp", "tiffinfo", "prlimit")


@dataclass(frozen=True)
class Outcome:
    """The result for one page's file: its inks and layers in the plan's form, or a fault."""

    source: pages.PageFile
    page: dict | None = None
    notes: tuple = ()
    fault: Refused | None = None
    key: str = ""
    kept: bool = False
    seconds: float = 0.0


class Intake:
    """One call: the house, the folder WORK, and the limits."""

    def __init__(self, house, work, limits, patience):
        self.house, self.work, self.limits, self.patience = house, work, limits, patience
        self.profiles = tempfile.TemporaryDirectory(prefix="pressroom-")
        profiles.write_profiles(self.profiles.name, house.profile)
        _, version, _ = limits.run(["gs", "--version"], self.profiles.name)
        self.version = version.decode().strip()
        press = os.path.join(self.profiles.name, "press.icc")
        self.opinion = Opinion(house.check.second, press, is_house_of(house), limits)
        self.settings = state.settings(house, version.decode() + self.opinion.version(self.profiles.name))

    def outcome(self, source):
        """Makes the page of a file, unless it was made before."""
        try:
            return self.page(source)
        except Passed as error:
            return Outcome(source, fault=Refused("limit", str(error)))
        except Refused as error:
            return Outcome(source, fault=error)
        except OSError as error:
            text = f"{os.path.basename(error.filename or source.path)}: {error.strerror}"
            return Outcome(source, fault=Refused("file", text))
        except Exception as error:  # A failure of one page doesn't stop the others.
            return Outcome(source, fault=Refused("error", f"can't be made: {type(error).__name__}: {error}"))

    def page(self, source):
        """Returns the outcome of a file that has no fault."""
        begun = time.monotonic()
        if not source.name.isprintable():
            raise Refused("file", "its name has control characters, or bytes that aren't UTF-8")
        if not pages.is_quiet(source.path, self.patience):
            raise Refused("written", f"still being written after {self.patience:g} s")
        with tempfile.TemporaryDirectory(prefix=".page-", dir=self.work.path) as folder:
            copy = f"page.{source.kind}"
            shutil.copyfile(source.path, os.path.join(folder, copy))
            key = f"{state.sum_of(os.path.join(folder, copy))} {self.settings}"
            before = self.work.pages.get(str(source.place))
            if before and before["key"] == key:
                return Outcome(source, before["page"], before["notes"], key=key, kept=True)
            if source.kind == "tiff":
                made = bitmaps.made_of(self.house, self.limits, copy, folder)
            else:
                made = self.rendered(copy, folder)
            made = dataclasses.replace(made, layers=bands.cut(folder, made.layers))
            page = self.stored(source.place, key, made, folder)
            return Outcome(source, page, made.notes, key=key, seconds=time.monotonic() - begun)

    def rendered(self, copy, folder):
        """Returns the inks, layers and notes of a PDF."""
        for profile in os.listdir(self.profiles.name):
            shutil.copyfile(os.path.join(self.profiles.name, profile), os.path.join(folder, profile))
        name, inspected = inspect(self.limits, copy, folder)
        self.see_size(inspected)
        contents = observed.observe(self.limits, folder, name, inspected.trim, self.house.overprint_black)
        name = contents.edited or name
        gs = Ghostscript(self.version, self.limits, name, inspected.box, folder)
        notes = [(kind, text, None) for kind, text in inspected.notes]
        notes += observed.notes(contents, inspected, self.house.check.ppi)
        mixing = mixing_of(self.house, self.limits, inspected, gs)
        gs = dataclasses.replace(gs, pdf=mixing.pdf, planes=mixing.planes)
        lab = inspected.lab or "lab" in mixing.alternates
        if lab and self.house.rgb == "refuse":
            raise Refused("rgb", "it has Lab colours, which the house file refuses as it does RGB")
        if lab:
            notes.append(("rgb", "Lab colours are converted", None))
        rgb = self.rgb_of(gs, inspected, mixing)
        if rgb and self.house.rgb == "refuse":
            raise Refused("rgb", "it has RGB, which the house file refuses", rgb)
        if rgb:
            notes.append(("rgb", "RGB is converted", rgb))
        rendering = Rendering(self.house, gs, mixing)
        page = self.compared(copy, gs, inspected, rgb, contents, mixing)
        asked = self.opinion.asked(page, rendering.size[1])
        planes = len(inspected.spots - {"All"} if mixing.planes is None else mixing.planes)
        strips = inspected.may_be_painted(planes) and not contents.edited
        made, seen = rendering.made(strips, asked), rendering.seen
        notes += made.notes
        notes += self.opinion.notes(page, asked) + observed.knocked_out(contents, inspected, seen)
        for press in self.house.presses.values():
            heavy = above(seen, press.limit)
            if heavy:
                words = f"ink above {press.limit:g} percent ({press.name}) on {heavy[0] / 100:.0f}"
                notes.append(("limit", f"{words} square centimetres", heavy[1]))
        for place in thin_white(self.limits, name, inspected, seen, folder) if inspected.white else ():
            notes.append(("white", "thin white text over four inks", place))
        return Made(made.inks, made.layers, tuple(notes))

    def rgb_of(self, gs: Ghostscript, inspected: Inspected, mixing: Mixing) -> tuple[float, ...] | None:
        """Returns where RGB shows, or None. In planes, RGB through which a spot is mixed doesn't show."""
        spot = self.house.spot.separation if self.house.spot else None
        calls = [gs] if inspected.rgb else []
        if "rgb" in mixing.alternates:
            own = tuple(name for name in mixing.planes or () if spot and name == spot.encode())
            calls.append(dataclasses.replace(gs, planes=own))
        places = (rgb_of(call, inspected.millimetres(), spot) for call in calls)
        return next((place for place in places if place), None)

    def compared(
        self,
        came: str,
        gs: Ghostscript,
        inspected: Inspected,
        rgb: tuple[float, ...] | None,
        contents: observed.Contents,
        mixing: Mixing,
    ) -> Page:
        """Returns the page for its comparison with a second rendering. That is of the PDF that came, or of the file that
        Ghostscript renders, if a viewer shows the PDF otherwise than it prints, if black was made to overprint, or if
        spots were renamed.
        """
        as_printed = inspected.otherwise or contents.edited or mixing.pdf in (INKED, RENAMED)
        converted = contents.lab or bool(mixing.alternates & {"lab", "rgb"})
        return Page(gs.folder, gs.pdf if as_printed else came, inspected, rgb, converted, self.house.dpi)

    def see_size(self, inspected):
        """Refuses a page whose trim differs from the house's by more than the tolerance."""
        size, wanted, tolerance = inspected.millimetres(), self.house.trim, self.house.tolerance
        if any(abs(side - right) > tolerance for side, right in zip(size, wanted)):
            over = ", ".join(
                f"{abs(side - right):.1f} mm too {more if side > right else less}"
                for side, right, more, less in zip(size, wanted, ("wide", "high"), ("narrow", "low"))
                if abs(side - right) > tolerance
            )
            text = f"{size[0]:.1f} x {size[1]:.1f} mm, not {wanted[0]:g} x {wanted[1]:g}: {over}"
            boxless = any(kind == "trim" for kind, _ in inspected.notes)
            raise Refused("size", ("no trim box, and the whole page is " if boxless else "trim ") + text)

    def stored(self, place, key, made, folder):
        """Moves a page's files into WORK under unique names. Returns the page in the plan's form."""
        stem = str(place).replace("/", "_") + "-" + key[:8] + key[-8:]
        layers = []
        for layer in made.layers:
            name = f"{stem}-{layer.ending}.tif"
            os.replace(os.path.join(folder, layer.file), os.path.join(self.work.files, name))
            layers.append({"kind": layer.keys["kind"], "file": name} | layer.keys)
        return {"inks": made.inks, "layers": layers}


def is_house_of(house):
    """Returns a function that returns whether a name, as bytes, is that of the house's spot."""
    return lambda name: bool(house.spot) and Spot(name, 0, ()).is_named(house.spot.separation)


class Told:
    """Reports outcomes, and counts them. It keeps the notes, because later steps pass them on."""

    def __init__(self, console):
        self.console, self.made, self.kept, self.notes = console, 0, 0, []

    def fault(self, name, place, kind, text, box=None):
        self.problem("fault", name, place, kind, text, box)

    def problem(self, event, name, place, kind, text, box):
        """Reports a fault or a note with its file, page and place."""
        fields = {"file": name, "kind": kind}
        if place:
            fields |= {"zone": place.zone, "section": place.section, "page": place.page}
        if box:
            left, top, width, height = box
            fields["at"] = list(box)
            text += f", {width:g} x {height:g} mm at {left:g}, {top:g}"
        if event == "note":
            self.note(f"{name}: {text}", **fields)
        else:
            self.console.tell(event, f"{name}: {text}", **fields)

    def note(self, text, **fields):
        """Reports a note."""
        self.notes.append({"text": text, **fields})
        self.console.tell("note", text, **fields)

    def outcome(self, outcome):
        name, place = outcome.source.name, outcome.source.place
        if outcome.fault:
            self.fault(name, place, outcome.fault.kind, str(outcome.fault), outcome.fault.place)
            return
        for kind, text, box in outcome.notes:
            self.problem("note", name, place, kind, text, box)
        self.made, self.kept = self.made + (not outcome.kept), self.kept + outcome.kept
        said = "kept" if outcome.kept else f"made in {outcome.seconds:.1f} s"
        inks = outcome.page["inks"]
        self.console.tell(
            "page", f"{name}: {inks}, {said}", file=name, zone=place.zone, section=place.section,
            page=place.page, inks=inks, kept=outcome.kept, seconds=round(outcome.seconds, 2),
        )  # fmt: skip


def see_places(house, found, strays, told):
    """Reports files that are stray, missing or too many. Returns the file of each place without a fault."""
    for name in strays:
        told.problem("note", name, None, "stray", "not a page of this edition; not used", None)
    single = {}
    for place, every in found.items():
        sources, older = pages.newest(every)
        for source in older:
            text = f"not used: {sources[0].name} has a higher version"
            told.problem("note", source.name, place, "version", text, None)
        if place in house.blank:
            told.fault(sources[0].name, place, "blank", f"{place} is listed as blank")
        elif len(sources) > 1:
            others = ", ".join(source.name for source in sources[1:])
            told.fault(sources[0].name, place, "second", f"a second file for {place}: {others}")
        else:
            single[place] = sources[0]
    for place in pages.needed(house, set(found) | house.blank):
        told.fault(str(place), place, "missing", "no file for this page")
    return single


def parser():
    parser = Parser("intake", __doc__)
    whole = positive(int, "a whole number above 0")
    parser.add_argument("house", metavar="HOUSE", nargs="?", help="the house file, house.toml")
    parser.add_argument("folder", metavar="IN", nargs="?", help="the folder that holds the pages")
    parser.add_argument("work", metavar="WORK", nargs="?", help="the folder for the plans and their files")
    count = len(os.sched_getaffinity(0))
    for option, metavar, kind, default, text in (
        ("--jobs", "N", whole, count, f"pages made at once ({count} here)"),
        (
            "--wait", "S", positive(float, "a number above 0"), 20.0,
            "seconds to wait for a file that is still being written (20)",
        ),
        ("--seconds", "S", whole, 120, "time limit of each program in seconds (120)"),
        ("--memory", "MB", whole, 2000, "memory limit of each program (2000)"),
        ("--output", "MB", whole, 4000, "size limit of each file that a program writes (4000)"),
    ):
        parser.add_argument(option, metavar=metavar, type=kind, default=default, help=text)
    partial = "write the plans despite faults; pages with a fault are blank"
    parser.add_argument("--partial", action="store_true", help=partial)
    return parser


def positive(kind, words):
    def read(text):
        try:
            value = kind(text)
        except ValueError:
            value = 0
        if not value > 0:
            raise argparse.ArgumentTypeError(f"{text!r} isn't {words}")
        return value

    return read


def write_plans(house, work, ready, told):
    """Writes the plan of each press. Returns the names of the plans."""
    names = []
    for press in house.presses.values():
        plan = plans.plan_of(house, press, ready)
        name = f"{press.name}.json"
        sizes = {file: os.path.getsize(os.path.join(work.files, file)) for file in plans.files_of(plan)}
        total = sum(sizes.values())
        if total > plans.MOST_BYTES:
            section, site, most = plans.largest_part(plan, sizes)
            words = f"{name}: its files have {total} bytes; the limit is {plans.MOST_BYTES}: "
            words += "split it with pressroom parts" if most <= plans.MOST_BYTES else (
                f"pressroom parts can't split it, because section {section} for {site} alone has {most}"
            )
            told.note(words, file=name, kind="bytes")
        changed = plans.write(os.path.join(work.path, name), plan)
        said = "written" if changed else "unchanged"
        told.console.tell("plan", f"{name}: {said}", file=name, changed=changed, bytes=total)
        names.append(name)
    return names


def see_libraries():
    """Raises Missing for a library or profile that isn't installed."""
    for library, package in (("numpy", "python3-numpy"), ("PIL", "python3-pil"), ("pikepdf", "python3-pikepdf")):
        if importlib.util.find_spec(library) is None:
            raise Missing(f"Python's {library} is not installed: apt-get install {package}")
    if not os.path.isfile(profiles.PLAIN):
        raise Missing(f"{profiles.PLAIN} is not installed: apt-get install libgs-common")


def main():
    words = with_folders(parser(), "house", "folder", "work")
    console = Console("pressroom intake", words.json)
    try:
        need(*PROGRAMS)
        see_libraries()
        house = read_house(words.house)
        if house.check.second == "fault":
            need("mutool")
        found, strays = pages.find(house, words.folder)
        work = state.Work(words.work)
    except HouseFault as error:
        for line in error.lines:
            print(f"{console.name}: {line}", file=sys.stderr)
        return 2
    except Missing as error:
        console.leave(2, str(error))
    except BlockingIOError:
        console.leave(2, f"{words.work}: another intake is using it")
    except OSError as error:
        console.leave(2, f"{error.filename}: {error.strerror}")
    return run(words, console, house, found, strays, work)


def run(words, console, house, found, strays, work):
    """Makes the pages, writes the plans, and returns the status."""
    told = Told(console)
    single = see_places(house, found, strays, told)
    order = sorted(single, key=str)
    intake = Intake(house, work, Limits(words.seconds, words.memory, words.output), words.wait)
    if intake.opinion.missing:
        text = "mutool is not installed, so no page is compared with what it shows: apt-get install mupdf-tools"
        told.note(text, kind="mutool")
    ready = {}
    with ThreadPoolExecutor(words.jobs) as pool:
        outcomes = pool.map(intake.outcome, [single[place] for place in order])
        for outcome in console.bar(outcomes, "pages", total=len(order)):
            told.outcome(outcome)
            if outcome.page:
                ready[outcome.source.place] = outcome.page
                work.keep(outcome.source.place, outcome.key, outcome.page, outcome.notes)
    work.save(found)
    faults = console.counts.get("fault", 0)
    names = write_plans(house, work, ready, told) if not faults or words.partial else []
    work.note(told.notes)
    work.clean()
    notes = console.counts.get("note", 0)
    said = f"plans {', '.join(names)}" if names else "no plan is written"
    console.tell(
        "done", f"{told.made} pages made, {told.kept} kept, {faults} faults, {notes} notes; {said}",
        made=told.made, kept=told.kept, faults=faults, notes=notes, plans=names,
    )  # fmt: skip
    return 1 if faults else 0
