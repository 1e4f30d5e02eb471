"""The jobs of the night, as the service starts them: intake of one page, and the plates of one pair.

usage: check/night_jobs.py PROGRAM

Pages are compared with those of `pressroom intake`, plates with those that PROGRAM makes of a whole edition's
plan, byte for byte, and with what Pillow reads. Programs that are killed, missing, wrong, or without room on a
disk must never refuse a page and never give a plate.
"""
import hashlib
import importlib.util
import json
import os
import select
import shutil
import subprocess
import sys
import tempfile

from night_pdf import page, spot
from trial import Trial

TOP = os.path.join(os.path.dirname(os.path.abspath(__file__)), "..")
sys.path.insert(0, os.path.join(TOP, "tools"))
PROGRAMS = ("gs", "qpdf", "pdfinfo", "pdffonts", "tiffcp", "prlimit", "setpriv")
SIZE = (60, 80)
PROFILE = "/usr/share/color/icc/ghostscript/default_cmyk.icc"
HOUSE = f"""edition = "NIGHT"
dpi = 254
trim = [{SIZE[0]}, {SIZE[1]}]
margins = [2, 2, 2, 2]
gutter = 2
blank = ["A05", "A12", "B04"]
[sections]
A = 12
B = 4
[colour]
rgb = "convert"
profile = "{PROFILE}"
[spot]
separation = "HOUSE"
colour = "#ff8800"
[screens]
C = {{ angle = 15, ruling = 30 }}
K = "diffuse"
[sites.OSLO]
press = "GOSS"
[sites.BERGEN]
press = "GOSS"
zone = "west"
[sites.TROMSO]
press = "KBA"
[press.GOSS]
[press.KBA]
limit = 240
[zones]
west = ["A02"]
"""


class Night:
    """A spool of a night's jobs, and what they answered."""

    def __init__(self, tried, folder):
        from pressroom.night import edition
        from pressroom.night.runner import Runner

        self.tried, self.spool = tried, os.path.join(folder, "spool")
        for name in ("making", "renders", "plates", "run"):
            os.makedirs(os.path.join(self.spool, name))
        os.environ["PLATEROOM"] = tried.program
        self.runner = Runner(self.spool, os.path.join(self.spool, "run"), tried.program)
        self.edition, self.house = edition, edition.house_of(HOUSE, os.path.join(folder, "house.toml"))
        self.planned = edition.planned(self.house, None, "NIGHT")
        self.number = 0

    def asked(self, kind, request, handles=(), seconds=300):
        """Starts a job, asks it, and returns its answer, or how it ended."""
        job = self.runner.start(kind)
        try:
            job.ask(request, handles)
            if not select.select([job], [], [], seconds)[0]:
                return {"why": "no answer in time"}
            return job.answer() or {"why": job.why}
        finally:
            job.stop()

    def page(self, data, suffix="pdf", house=HOUSE):
        """Has a page made. Returns the answer and the bytes of the outputs that it names."""
        from pressroom.night.records import OUTPUTS

        self.number += 1
        folder = os.path.join(self.spool, "renders", f"J1-{self.number}")
        os.mkdir(folder)
        paths = [os.path.join(folder, f"{number:02}.tif") for number in range(OUTPUTS)]
        outputs = [os.open(path, os.O_WRONLY | os.O_CREAT) for path in paths]
        texts = [memory(data), memory(house.encode()), memory(read(PROFILE))]
        try:
            answer = self.asked("page", {"kind": "page", "suffix": suffix, "page": "A01"}, [*texts, *outputs])
        finally:
            for handle in (*texts, *outputs):
                os.close(handle)
        used = [layer["file"] for layer in answer.get("layers", ())]
        for number, path in enumerate(paths):
            if number not in used:
                self.tried.holds(
                    "an output that isn't used is empty", "" if not os.path.getsize(path) else path
                )
                os.unlink(path)
        return answer, [read(paths[number]) for number in used]

    def render(self, key, answer):
        """The record of a page that was accepted by the last call of `page`."""
        from pressroom.night.records import Render

        folder = f"J1-{self.number}"
        layers = tuple(layer | {"file": f"{folder}/{layer['file']:02}.tif"} for layer in answer["layers"])
        return Render(key, "0" * 64, folder, answer["inks"], layers)

    def plates(self, pair, left, right, name):
        """Has a pair's plates made below making/NAME. Returns the answer and the folder."""
        blank, plan = self.edition.pair_plan(self.house, self.planned, pair, left, right)
        out = os.path.join(self.spool, "making", name)
        files = os.path.join(self.spool, "renders")
        return (
            self.asked(
                "plates", {"kind": "plates", "blank": blank, "plan": plan, "files": files, "out": out}
            ),
            out,
        )


def memory(data):
    """The handle of a file in memory that has these bytes, for reading alone."""
    handle = os.memfd_create("page")
    with open(handle, "wb", closefd=False) as file:
        file.write(data)
    reading = os.open(f"/proc/self/fd/{handle}", os.O_RDONLY)
    os.close(handle)
    return reading


def read(path):
    with open(path, "rb") as file:
        return file.read()


# ---- pages

BLACK = b"0 0 0 1 k 20 20 60 60 re f"
COLOUR = b"1 0 0 0 k 20 20 60 60 re f 0 1 0 0 k 60 60 60 60 re f 0 0 0 1 k 10 200 100 3 re f"
SPOT = BLACK + b" /Spot cs 0.5 scn 50 100 40 40 re f"
RGB = b"1 0 0 rg 20 20 60 60 re f"


def page_trials(night, folder):
    """Pages that are accepted are those of `pressroom intake`; pages that are wrong are refused for that."""
    pages = {
        "A01": page(BLACK, SIZE),
        "A02": page(COLOUR, SIZE),
        "A03": page(SPOT, SIZE, spot(b"HOUSE")),
        "A04": page(RGB, SIZE),
    }
    theirs = by_intake(pages, folder)
    for name, data in pages.items():
        answer, files = night.page(data)
        wanted = theirs[name]
        got = [answer.get("inks"), [without_file(layer) for layer in answer.get("layers", [])]]
        night.tried.holds(f"page {name}", "" if got == wanted[:2] else f"{answer}, not {wanted[:2]}")
        night.tried.holds(f"files of page {name}", "" if files == wanted[2] else f"{len(files)} files differ")
    answer, _ = night.page(pages["A04"])
    # Its square has sides of 60 points, which are 21.2 mm.
    told = [note.rpartition(" at ")[0] for note in answer.get("notes", [])]
    night.tried.holds("a note has its place", "" if told == ["RGB is converted, 21.2 x 21.2 mm"] else answer)
    for what, data, kind in (
        ("another size", page(BLACK, (60, 90)), "size"),
        ("a page cut off", pages["A01"][:300], "damaged"),
        (
            "a program of PostScript",
            b"%!PS\n0 0 1 0 setcmykcolor 0 0 99 99 rectfill showpage\n" + pages["A01"],
            "damaged",
        ),
        ("no PDF", b"hello", "damaged"),
    ):
        answer, _ = night.page(data)
        fault = answer.get("fault", {})
        right = (
            answer.get("verdict") == "refused"
            and fault.get("kind") == kind
            and fault.get("text", "").isprintable()
        )
        night.tried.holds(f"{what} is refused", "" if right else answer)
    answer, _ = night.page(pages["A01"], house=HOUSE[:60])
    night.tried.holds("a house file that is cut off is no verdict", none_because(answer, "house.toml"))
    night.tried.part("pages")


def by_intake(pages, folder):
    """The inks, layers and files that `pressroom intake` makes of these pages."""
    given, work = os.path.join(folder, "given"), os.path.join(folder, "work")
    os.mkdir(given)
    for name, data in pages.items():
        path = os.path.join(given, f"{name}.pdf")
        with open(path, "wb") as file:
            file.write(data)
        os.utime(path, (0, 0))
    house = os.path.join(folder, "house.toml")
    with open(house, "w", encoding="utf-8") as file:
        file.write(HOUSE.partition("[zones]")[0])
    words = [sys.executable, "-B", os.path.join(TOP, "tools", "pressroom.py"), "intake", house, given, work]
    subprocess.run([*words, "--partial"], capture_output=True, check=False)
    with open(os.path.join(work, "GOSS.json"), encoding="utf-8") as file:
        plan = json.load(file)
    found = {}
    for one in plan["pages"]:
        files = [read(os.path.join(work, "files", layer["file"])) for layer in one["layers"]]
        found[one["name"]] = [one["inks"], [without_file(layer) for layer in one["layers"]], files]
    return found


def without_file(layer):
    return {key: value for key, value in layer.items() if key != "file"}


def none_because(answer, why):
    """A fault unless an answer is no verdict, for this reason."""
    return "" if answer.get("verdict") == "none" and why in answer.get("why", "") else answer


def machine_trials(night, folder):
    """A Ghostscript that is killed, missing or without room is the machine's fault, and the next one is right."""
    good, path = page(COLOUR, SIZE), os.environ["PATH"]
    stand_ins = os.path.join(folder, "stand-ins")
    os.mkdir(stand_ins)
    gs = os.path.join(stand_ins, "gs")
    # In a job's room only /usr and its own folders are to be seen.
    from pressroom.night import sandbox

    seen = sandbox.SEEN
    sandbox.SEEN = (*seen, stand_ins)
    os.environ["PATH"] = f"{stand_ins}:{path}"
    for what, script, why in (
        (
            "killed",
            "case $* in *--version*) exec /usr/bin/gs --version;; esac; kill -9 $$",
            "killed by SIGKILL",
        ),
        (
            "out of time",
            "case $* in *--version*) exec /usr/bin/gs --version;; esac; kill -XCPU $$",
            "limit: ",
        ),
    ):
        with open(gs, "w", encoding="utf-8") as file:
            file.write(f"#!/bin/sh\n{script}\n")
        os.chmod(gs, 0o755)
        answer, _ = night.page(good)
        night.tried.holds(f"Ghostscript is {what}", none_because(answer, why))
    os.environ["PATH"] = stand_ins
    os.unlink(gs)
    for name in ("setpriv", "prlimit", "bwrap", "unshare"):
        os.symlink(shutil.which(name, path=path), os.path.join(stand_ins, name))
    answer, _ = night.page(good)
    night.tried.holds("Ghostscript is missing", none_because(answer, "is not installed"))
    for name in ("gs", "qpdf", "pdftohtml", "tiffcp", "tiffinfo"):
        os.symlink(shutil.which(name, path=path), os.path.join(stand_ins, name))
    answer, _ = night.page(good)
    wanted = ["not compared: mutool is not installed"]
    night.tried.holds("mutool is missing", "" if answer.get("notes") == wanted else answer)
    answer, _ = night.page(good, house=HOUSE + '[check]\nsecond = "fault"\n')
    night.tried.holds("mutool is missing and asked for", none_because(answer, "mutool is not installed"))
    os.environ["PATH"], sandbox.SEEN = path, seen
    limits = sandbox.LIMITS["page"]
    sandbox.LIMITS["page"] = sandbox.Limits(limits.seconds, limits.cpu, limits.memory, 0)
    answer, _ = night.page(good)
    night.tried.holds(
        "a job that may write nothing", "" if answer.get("verdict", "none") == "none" else answer
    )
    sandbox.LIMITS["page"] = limits
    answer, _ = night.page(good)
    night.tried.holds("and then the page is accepted", "" if answer.get("verdict") == "accepted" else answer)
    full_disk(night, good)
    night.tried.part("machines")


def full_disk(night, data):
    """A disk without room for a page's files says nothing about the page."""
    making = os.path.join(night.spool, "making")
    if (
        os.geteuid()
        or subprocess.run(["mount", "-t", "tmpfs", "-o", "size=300k", "none", making], check=False).returncode
    ):
        print("skipped: a full disk (it needs root, and a mount)")
        return
    try:
        answer, _ = night.page(data)
        night.tried.holds(
            "a full disk refuses no page", "" if answer.get("verdict", "none") == "none" else answer
        )
    finally:
        subprocess.run(["umount", "-l", making], check=False)


# ---- plates


def plate_trials(night, folder):
    """Each pair's plates are those of the whole edition, and no plate comes of a program that is wrong."""
    renders = {}
    for number, one in enumerate(night.planned.pages):
        if not one.blank:
            content = (BLACK, COLOUR, SPOT, RGB)[number % 4] + b" 0 0 0 1 k %d 150 9 9 re f" % (9 * number)
            answer, _ = night.page(page(content, SIZE, spot(b"HOUSE")))
            renders[one.key] = night.render(number + 1, answer)
    made = {}
    for pair in night.planned.pairs:
        name = f"{pair.site}-{pair.name}"
        answer, out = night.plates(pair, renders.get(pair.left), renders.get(pair.right), name)
        made[pair.site, pair.name] = answer, out
        night.tried.holds(f"plates {name}", plates_fault(answer, out))
    for site in night.planned.sites:
        whole = night.edition.whole_plan(night.house, night.planned, site.name, renders)
        night.tried.holds(f"all plates of {site.name}", union_fault(night, folder, site.name, whole, made))
    alike = {tuple(sorted(made[site, "A-001"][0]["made"].items())) for site in ("OSLO", "BERGEN")}
    night.tried.holds("sites share a pair's plates", "" if len(alike) == 1 else alike)
    night.tried.part("plates")
    wrong_programs(night, folder, renders)


def plates_fault(answer, out):
    """A fault unless the folder has the plates that the answer names, with their sums, and no others."""
    if "made" not in answer:
        return answer
    sums = read(os.path.join(out, "SHA256SUMS"))
    lines = "".join(f"{digest}  {name}\n" for name, digest in sorted(answer["made"].items()))
    checked = subprocess.run(["sha256sum", "-c", "--quiet", "SHA256SUMS"], cwd=out, check=False).returncode
    if sums.decode() != lines or checked or hashlib.sha256(sums).hexdigest() != answer["sums"]:
        return "the sums aren't those of the plates"
    if sorted(os.listdir(out)) != sorted([*answer["made"], "SHA256SUMS"]):
        return f"the folder has {os.listdir(out)}"
    empty = sorted(name for name in answer["made"] if prints_nothing(os.path.join(out, name)))
    return "" if sorted(answer["empty"]) == empty else f"empty are {empty}, not {answer['empty']}"


def prints_nothing(path):
    """Whether a plate has no dot, by Pillow."""
    from PIL import Image

    Image.MAX_IMAGE_PIXELS = None
    with Image.open(path) as image:
        return image.convert("L").getextrema() == (255, 255)


def union_fault(night, folder, site, whole, made):
    """A fault unless a site's pairs together are what the program makes of its whole plan."""
    plan, out = os.path.join(folder, f"{site}.json"), os.path.join(folder, f"run-{site}")
    files = os.path.join(night.spool, "renders")
    with open(plan, "w", encoding="utf-8") as file:
        json.dump(whole, file)
    run = subprocess.run([night.tried.program, "run", plan, files, out], capture_output=True, check=False)
    if run.returncode:
        return run.stderr.decode()
    wanted = {name: read(os.path.join(out, site, name)) for name in os.listdir(os.path.join(out, site))}
    places = {
        name: os.path.join(at, name)
        for (to, _), (answer, at) in made.items()
        if to == site
        for name in answer["made"]
    }
    if {name: read(path) for name, path in places.items()} != wanted:
        return f"{sorted(places)} aren't {sorted(wanted)}, or differ"
    # The verification reads plates below plates/, where the service has them.
    kept = os.path.join(night.spool, "plates", site)
    os.mkdir(kept)
    for name, path in places.items():
        shutil.copy(path, os.path.join(kept, name))
    request = {"kind": "whole", "plan": whole, "files": files, "site": site}
    request["plates"] = {name: os.path.join(kept, name) for name in places}
    answer = night.asked("plates", request)
    if answer.get("same") is not True:
        return answer
    first = sorted(places)[0]
    with open(os.path.join(kept, first), "r+b") as file:
        file.seek(200)
        file.write(b"x")
    answer = night.asked("plates", request)
    if "differs" not in answer.get("why", "") and "verify" not in answer.get("why", ""):
        return f"a changed plate is verified: {answer}"
    del request["plates"][first]
    answer = night.asked("plates", request)
    return "" if "why" in answer else f"a missing plate is verified: {answer}"


STAND_IN = """#!/bin/sh
case "$1" in
{cases}
esac
exec '{program}' "$@"
"""


def wrong_programs(night, folder, renders):
    """A program that spoils, loses or doesn't verify a plate, is killed or missing, gives none."""
    pair = next(one for one in night.planned.pairs if (one.site, one.name) == ("OSLO", "A-002"))
    pages = renders[pair.left], renders[pair.right]
    right = night.runner.program
    program = os.path.join(folder, "wrong")
    for what, cases in (
        (
            "spoils a plate",
            'replate) \'{program}\' "$@"; for f in "$6"/*/*-K.tif; do printf x | dd of="$f" bs=1 seek=200 conv=notrunc status=none; done; exit 0;;',
        ),
        ("loses a plate", 'replate) \'{program}\' "$@"; rm "$6"/*/*-C.tif; exit 0;;'),
        ("is killed in replate", "replate) kill -9 $$;;"),
        ("is killed in verify", "verify) kill -9 $$;;"),
        ("is killed in run", "run) kill -9 $$;;"),
        ("says nothing", "verify) exit 0;;"),
        ("makes nothing", "replate) exit 0;;"),
    ):
        with open(program, "w", encoding="utf-8") as file:
            file.write(STAND_IN.format(cases=cases.replace("{program}", right), program=right))
        os.chmod(program, 0o755)
        from pressroom.night import sandbox

        seen, sandbox.SEEN = sandbox.SEEN, (*sandbox.SEEN, os.path.dirname(right))
        night.runner.program = program
        answer, out = night.plates(pair, *pages, f"wrong-{what.replace(' ', '-')}")
        sandbox.SEEN = seen
        fault = answer if "why" not in answer or "made" in answer else ""
        fault = fault or (f"{os.listdir(out)} is left" if os.path.isdir(out) and os.listdir(out) else "")
        night.tried.holds(f"a program that {what}", fault)
    night.runner.program = right
    answer, _ = night.plates(pair, *pages, "right")
    night.tried.holds("and then the plates are made", "" if "made" in answer else answer)
    left = [
        name
        for name in os.listdir(os.path.join(night.spool, "making"))
        if name.startswith(("scratch", "plates-"))
    ]
    night.tried.holds("nothing is left of a job", left)
    night.tried.part("wrong programs")


def main():
    tried = Trial(sys.argv[1])
    missing = [name for name in PROGRAMS if not shutil.which(name)]
    missing += [name for name in ("numpy", "PIL") if importlib.util.find_spec(name) is None]
    if missing:
        print(f"skipped: the jobs of the night ({missing[0]} isn't installed)")
        return 0
    with tempfile.TemporaryDirectory() as folder:
        night = Night(tried, folder)
        page_trials(night, folder)
        machine_trials(night, folder)
        plate_trials(night, folder)
    print(f"{tried.passed} passed, {tried.failed} failed")
    return 1 if tried.failed else 0


if __name__ == "__main__":
    sys.exit(main())
