#!/usr/bin/env python3
"""Tests the programs of tools/ and the schema of plans: what they make, and that they name what is wrong.

    python3 check/tools.py PROGRAM

The schema is compared with the program's verdicts on the plans here. It skips and reports what needs a
library that isn't installed (Pillow, numpy, jsonschema). The last line is `N passed, M failed`, and the
status is 1 if one failed.
"""
import copy
import cmath
import glob
import json
import math
import os
import re
import struct
import subprocess
import sys
import tempfile

sys.dont_write_bytecode = True
from newspaper import Plate, missing
from trial import Count

TOP = os.path.join(os.path.dirname(os.path.abspath(__file__)), "..")
EXAMPLES, TOOLS = os.path.join(TOP, "examples"), os.path.join(TOP, "tools")


def tool(name, *words):
    """Runs a tool and returns its status, its output and its messages."""
    answer = subprocess.run(
        [sys.executable, "-B", os.path.join(TOOLS, name), *map(str, words)], capture_output=True, text=True
    )
    return answer.returncode, answer.stdout, answer.stderr


# Plans.


def base():
    return {
        "plan": 2,
        "edition": "E1",
        "dpi": 1200,
        "page": [8, 2],
        "pages": [{"name": "p", "inks": "K", "layers": []}, {"name": "q", "inks": "CMYK", "layers": []}],
        "sections": [{"name": "A", "pages": ["p", "q"]}],
        "sites": [{"name": "OSLO"}],
    }


def changed(*edits):
    """The base with other values at some places; None takes a key away."""
    plan = base()
    for path, value in edits:
        *way, last = [int(step) if step.isdigit() else step for step in path.split("/")]
        inside = plan
        for step in way:
            inside = inside[step]
        if value is None:
            del inside[last]
        else:
            inside[last] = copy.deepcopy(value)
    return plan


TILE = {"name": "T", "width": 2, "height": 2, "at": [0, 64, 128, 192]}
MARK = {"inks": "CMYKS", "x": 0, "y": 0, "w": 1, "h": 1}
LAYER = {"kind": "line", "file": "a.tif"}
PUT = {"section": "A", "page": 1, "with": "q"}
FULL = {
    "kind": "contone",
    "file": "a/b c.tif",
    "x": 65535,
    "y": 65535,
    "scale": 64,
    "crop": [65535, 65535, 65535, 65535],
    "mask": "...",
    "paint": "overprint",
    "ink": [1, 2, 3, 4],
}


def layer(**keys):
    return changed(("pages/0/layers", [LAYER | keys]))


def named(count, **keys):
    return [{"name": f"n{i}"} | keys for i in range(count)]


RIGHT = [
    base(),
    changed(("plan", 1)),
    changed(("margins", [0, 0, 0, 0]), ("gutter", 65519)),
    changed(("page", [32767, 65535]), ("gutter", 1)),
    changed(("limit", 0), ("dpi", 10000), ("edition", "A_z09abcdefghijk")),
    changed(("tiles", []), ("marks", []), ("zones", []), ("screens", {}), ("curves", {})),
    changed(("tiles", named(16, width=1, height=1, at=[255]))),
    changed(
        ("tiles", [TILE]),
        ("screens", {"C": "tile:T", "M": "bayer2", "Y": "bayer16", "K": "diffuse", "S": "bayer4"}),
    ),
    changed(("curves", {"K": [[x, 255 - x] for x in range(31)] + [[255, 0]], "S": [[0, 9], [255, 9]]})),
    changed(("marks", [MARK] * 64)),
    changed(("marks", [MARK | {"inks": inks} for inks in ("C", "MY", "CS", "CMYK", "S")])),
    changed(("pages/0/layers", [LAYER] * 32)),
    changed(("pages/0/layers", [FULL])),
    changed(
        ("pages/0/inks", "KS"),
        ("pages/1/inks", "CMYKS"),
        ("pages/0/layers", [LAYER | {"ink": [0, 0, 0, 0, 255]}]),
    ),
    changed(("sections/0/pages", ["p", "q"] * 64)),
    changed(("sections", named(8, pages=["p", "q"]))),
    changed(
        ("zones", [{"name": "z", "replace": [PUT, PUT | {"page": 2}]}]),
        ("sites", [{"name": "X", "zone": "z"}]),
    ),
    changed(("zones", named(16, replace=[]))),
    changed(("sites", named(16))),
    layer(file="ä/..b/c..", mask=".hidden", crop=[0, 0, 1, 1]),
    layer(file="x" * 255),
]

# Each with what the program says, and whether a schema can say it.
WRONG = [
    (changed(("plan", 3)), "/plan: range", True),
    (changed(("plan", "2")), "/plan: kind", True),
    (changed(("dpi", None)), "/dpi: missing", True),
    (changed(("dpi", 0)), "/dpi: range", True),
    (changed(("dpi", 10001)), "/dpi: range", True),
    (changed(("edition", "seventeen_letters")), "/edition: range", True),
    (changed(("edition", "A-B")), "/edition: range", True),
    (changed(("page", [8])), "/page: range", True),
    (changed(("page", [0, 2])), "/page/0: range", True),
    (changed(("page", [8, 65536])), "/page/1: range", True),
    (changed(("margins", [1, 2, 3])), "/margins: range", True),
    (changed(("gutter", -1)), "/gutter: kind", True),
    (changed(("gutter", 1.5)), "/gutter: kind", True),
    (changed(("limit", 1021)), "/limit: range", True),
    (changed(("tiles", named(17, width=1, height=1, at=[0]))), "/tiles: range", True),
    (changed(("tiles", [TILE | {"width": 65}])), "/tiles/0/width: range", True),
    (changed(("tiles", [TILE | {"at": [0, 1, 2, 256]}])), "/tiles/0/at/3: range", True),
    (changed(("screens", {"C": "bayer3"})), "/screens/C: range", True),
    (changed(("screens", {"X": "bayer2"})), "/screens/X: unknown", True),
    (changed(("plan", 1), ("screens", {"S": "bayer2"})), "/screens/S: unknown", True),
    (changed(("plan", 1), ("curves", {"S": [[0, 0], [255, 255]]})), "/curves/S: unknown", True),
    (changed(("curves", {"C": [[0, 0]]})), "/curves/C: range", True),
    (changed(("curves", {"C": [[1, 0], [255, 255]]})), "/curves/C: range", True),
    (changed(("curves", {"C": [[0, 0], [254, 255]]})), "/curves/C: range", True),
    (changed(("curves", {"C": [[0, 0], [9, 9, 9], [255, 255]]})), "/curves/C/1: range", True),
    (changed(("marks", [MARK | {"inks": "KC"}])), "/marks/0/inks: range", True),
    (changed(("marks", [MARK | {"inks": ""}])), "/marks/0/inks: range", True),
    (changed(("plan", 1), ("marks", [MARK])), "/marks/0/inks: range", True),
    (changed(("marks", [MARK | {"w": 0}])), "/marks/0/w: range", True),
    (changed(("marks", [MARK] * 65)), "/marks: range", True),
    (changed(("pages", [])), "/pages: range", True),
    (changed(("pages/0/inks", "CMY")), "/pages/0/inks: range", True),
    (changed(("plan", 1), ("pages/1/inks", "KS")), "/pages/1/inks: range", True),
    (changed(("pages/0/layers", [LAYER] * 33)), "/pages/0/layers: range", True),
    (changed(("pages/0/layers", [{"kind": "line"}])), "/pages/0/layers/0/file: missing", True),
    (layer(kind="text"), "/pages/0/layers/0/kind: range", True),
    (layer(file="../a.tif"), "/pages/0/layers/0/file: range", True),
    (layer(file="/a.tif"), "/pages/0/layers/0/file: range", True),
    (layer(file="a//b.tif"), "/pages/0/layers/0/file: range", True),
    (layer(file="a/"), "/pages/0/layers/0/file: range", True),
    (layer(file="a\tb"), "/pages/0/layers/0/file: range", True),
    (layer(mask=""), "/pages/0/layers/0/mask: range", True),
    (layer(scale=65), "/pages/0/layers/0/scale: range", True),
    (layer(crop=[0, 0, 0, 1]), "/pages/0/layers/0/crop/2: range", True),
    (layer(paint="over"), "/pages/0/layers/0/paint: range", True),
    (layer(ink=[0, 0, 255]), "/pages/0/layers/0/ink: range", True),
    (
        changed(("plan", 1), ("pages/0/layers", [LAYER | {"ink": [0] * 5}])),
        "/pages/0/layers/0/ink: range",
        True,
    ),
    (changed(("sections/0/pages", ["p", "q", "p"])), "/sections/0/pages: range", True),
    (changed(("sections/0/pages", ["p"] * 130)), "/sections/0/pages: range", True),
    (changed(("sections", named(9, pages=["p", "q"]))), "/sections: range", True),
    (
        changed(("zones", [{"name": "z", "replace": [PUT | {"page": 0}]}])),
        "/zones/0/replace/0/page: range",
        True,
    ),
    (changed(("sites", [{}])), "/sites/0/name: missing", True),
    (changed(("sites", named(17))), "/sites: range", True),
    (changed(("colour", 1)), "/colour: unknown", True),
    (changed(("$schema", "plan.schema.json")), "/$schema: unknown", True),
    ([], ": kind", True),
    # What no schema can say: names that are repeated or not defined, sums, products, orders, bytes, and how a
    # number is written.
    (changed(("pages/1/name", "p")), "/pages/1/name: repeat", False),
    (changed(("tiles", [TILE, TILE])), "/tiles/1/name: repeat", False),
    (changed(("sections/0/pages", ["p", "r"])), "/sections/0/pages/1: unknown", False),
    (changed(("screens", {"K": "tile:T"})), "/screens/K: unknown", False),
    (changed(("sites/0/zone", "z")), "/sites/0/zone: unknown", False),
    (changed(("page", [32768, 2])), "/page: range", False),
    (changed(("marks", [MARK | {"x": 16}])), "/marks/0: range", False),
    (changed(("curves", {"K": [[0, 0], [9, 9], [9, 10], [255, 255]]})), "/curves/K: range", False),
    (changed(("tiles", [TILE | {"at": [0, 64, 128]}])), "/tiles/0/at: range", False),
    (changed(("zones", [{"name": "z", "replace": [PUT, PUT]}])), "/zones/0/replace/1/page: repeat", False),
    (
        changed(("zones", [{"name": "z", "replace": [PUT | {"page": 3}]}])),
        "/zones/0/replace/0/page: range",
        False,
    ),
    (layer(file="ä" * 128), "/pages/0/layers/0/file: range", False),
    (changed(("dpi", 1200.0)), "/dpi: kind", False),
]


def see_schema(results, program, folder):
    """The schema accepts and refuses what the program does."""
    with open(os.path.join(TOP, "docs", "plan.schema.json"), encoding="utf-8") as file:
        schema = json.load(file)
    taken = None
    if missing("jsonschema"):
        print("skipped: the schema's answers (jsonschema isn't installed)")
    else:
        import jsonschema

        jsonschema.Draft7Validator.check_schema(schema)
        taken = jsonschema.Draft7Validator(schema).is_valid

    def answer(plan):
        path = os.path.join(folder, "plan.json")
        with open(path, "w", encoding="utf-8") as file:
            json.dump(plan, file)
        run = subprocess.run(
            [program, "run", path, "/dev/null", "/dev/null/out"], capture_output=True, text=True
        )
        return run.returncode, run.stderr.strip()

    for plan in RIGHT:
        status, line = answer(plan)
        results.see(status != 3, f"a right plan is refused: {line}")
        if taken:
            results.see(taken(plan), f"the schema refuses {json.dumps(plan)[:300]}")
    for plan, fault, sayable in WRONG:
        status, line = answer(plan)
        results.see(
            (status, line) == (3, f"plateroom: plan {fault}"),
            f"{fault}: the program ends with {status}, {line!r}",
        )
        if taken:
            results.see(taken(plan) != sayable, f"{fault}: the schema takes it: {taken(plan)}")
    print(f"schema: {len(RIGHT)} right and {len(WRONG)} wrong plans")
    for path in glob.glob(os.path.join(EXAMPLES, "**", "*.json"), recursive=True):
        with open(path, encoding="utf-8") as file:
            plan = json.load(file)
        if taken and "plan" in plan:
            results.see(taken(plan), f"the schema refuses {path}")
    # An editor shows what each key means.
    for name, part in [("plan", schema), *schema["definitions"].items()]:
        for key, form in part.get("properties", {}).items():
            results.see("description" in form, f"the schema says nothing of {key} in {name}")


# Images.


def image(kind, width=8, length=4, rows=None, **fields):
    """A TIFF file of one strip. `t259=5` gives a field another value, `t262=None` leaves it out."""
    samples, bits, photometric = (4, 8, 5) if kind == "contone" else (1, 1, 0)
    size = (width * samples * bits + 7) // 8
    data = b"".join(rows) if rows is not None else bytes(size * length)
    values = {
        256: width,
        257: length,
        258: [bits] * samples,
        259: 1,
        262: photometric,
        273: 8,
        277: samples,
        278: length,
        279: len(data),
    } | {int(tag[1:]): value for tag, value in fields.items()}
    values = {
        tag: value if isinstance(value, list) else [value]
        for tag, value in values.items()
        if value is not None
    }
    place = 8 + len(data) + len(data) % 2
    directory, beside = struct.pack("<H", len(values)), b""
    for tag, of in sorted(values.items()):
        held = struct.pack(f"<{len(of)}I", *of)
        if len(held) > 4:
            held, beside = struct.pack("<I", place + 6 + 12 * len(values) + len(beside)), beside + held
        directory += struct.pack("<HHI", tag, 4, len(of)) + held
    return (
        struct.pack("<2sHI", b"II", 42, place) + data + bytes(len(data) % 2) + directory + bytes(4) + beside
    )


GOOD = image("contone")
# Each name with its bytes, the use that meets it, and the fault.
DAMAGED = {
    "jpeg.tif": (b"\xff\xd8\xff\xe0" + bytes(60), "contone", "tag 0: header"),
    "cut.tif": (GOOD[:100], "contone", "tag 0: directory"),
    "narrow.tif": (image("contone", t256=0), "contone", "tag 256: width"),
    "alpha.tif": (image("contone", t277=5, t258=[8] * 5), "contone", "tag 277: samples"),
    "lzw.tif": (image("contone", t259=5), "contone", "tag 259: compression"),
    "deep.tif": (image("contone", t258=[16] * 4), "contone", "tag 258: bits"),
    "rgb.tif": (image("line", t262=2), "line", "tag 262: photometric"),
    "turned.tif": (image("contone", t274=6), "contone", "tag 274: orientation"),
    "tiled.tif": (image("contone", t322=16), "contone", "tag 322: tiled"),
    "far.tif": (image("contone", t273=9999), "contone", "tag 273: strip place"),
    "short.tif": (image("line", t259=32773, rows=[b"\x01\xaa\xaa"]), "line", "tag 273: short"),
    "nothing.tif": (image("line", t262=None), "line", "tag 262: missing"),
    "mirror.tif": (image("line", t266=2), "line", "tag 266: fill order"),
}


STUB = """#!/bin/sh
case "$3" in /dev/null) echo "plateroom: shelf: /dev/null/a.tif" >&2; exit 5;; esac
if grep -q '"edition": "check"' "$2"; then exit 1; fi
echo "plateroom: file b.tif: tag 0: too long" >&2
exit 4
"""


def see_check(results, program, folder):
    """Every fault of files at once, what is lost without a fault, and the lines of the program itself."""

    def checked(plan, *words, files=folder):
        path = os.path.join(folder, "plan.json")
        with open(path, "w", encoding="utf-8", errors="surrogateescape") as file:
            file.write(plan if isinstance(plan, str) else json.dumps(plan))
        return tool("check.py", path, files, "--program", program, *words)

    status, out, error = tool(
        "check.py", os.path.join(EXAMPLES, "edition.json"), EXAMPLES, "--program", program
    )
    results.see(
        (status, error) == (0, "") and out.endswith("3 files in 3 uses: 0 faults, 0 notes\n"),
        f"examples: {out}{error}",
    )

    # Each file is taken by itself, and all together are refused: this program says so, as one does of 4 GB.
    stub = os.path.join(folder, "stub")
    with open(stub, "w", encoding="utf-8") as file:
        file.write(STUB)
    os.chmod(stub, 0o755)
    status, out, _ = tool("check.py", os.path.join(EXAMPLES, "edition.json"), EXAMPLES, "--program", stub)
    line = "fault: file b.tif: tag 0: too long, with all files together\n"
    results.see(status == 4 and out.startswith(line), f"all files together: {status}, {out}")

    layers = []
    for name, (data, kind, _) in DAMAGED.items():
        with open(os.path.join(folder, name), "wb") as file:
            file.write(data)
        layers.append({"kind": kind, "file": name})
    for name, data in (("good.tif", GOOD), ("line.tif", image("line")), ("wide.tif", image("line", width=9))):
        with open(os.path.join(folder, name), "wb") as file:
            file.write(data)
    good = {"kind": "contone", "file": "good.tif"}
    more = [
        good | {"crop": [4, 0, 5, 1]},
        good | {"mask": "wide.tif"},
        good | {"mask": "good.tif"},
        {"kind": "line", "file": "away.tif", "mask": "line.tif"},
        good | {"file": "away.tif"},
    ]
    plan = changed(("page", [8, 4]), ("pages/1/layers", layers + more))
    status, out, error = checked(plan)
    wanted = [
        f"fault: {name} ({kind}): {fault}; page q layer {number}"
        for number, (name, (_, kind, fault)) in enumerate(DAMAGED.items())
    ]
    number = len(DAMAGED)
    wanted += [
        f"fault: good.tif (contone cropped to [4, 0, 5, 1]): tag 256: crop; page q layer {number}",
        f"fault: wide.tif (mask of good.tif): tag 256: mask size; page q layer {number + 1}",
        f"fault: good.tif (mask): tag 277: samples; page q layer {number + 2}",
        f"fault: away.tif (line): is missing or can't be read; page q layer {number + 3}",
        f"fault: away.tif (contone): is missing or can't be read; page q layer {number + 4}",
    ]
    lines = [line for line in out.splitlines() if line.startswith("fault: ")]
    results.see(status == 4, f"damaged files: status {status}, {error}")
    for line in wanted:
        results.see(line in lines, f"check.py doesn't say {line!r}")
    results.see(sorted(lines) == sorted(wanted), f"check.py says {set(lines) - set(wanted)} besides")

    status, out, _ = checked(changed(("sites/0/zone", "z")))
    results.see(
        status == 3 and out.startswith('plateroom: plan /sites/0/zone: unknown\n  in OSLO: "z"\n'),
        f"a zone: {out}",
    )
    status, out, _ = checked(changed(("pages/0/inks", None)))
    results.see(
        status == 3 and out.startswith("plateroom: plan /pages/0/inks: missing\n  in p\n"), f"a page: {out}"
    )
    status, out, _ = checked('{"plan": 2,\n "edition": }')
    results.see(status == 3 and "not JSON\n" in out and "line 2 column 13" in out, f"not JSON: {out}")
    for text, said in (("\ufeff{}", "BOM"), ('{"plan": NaN}', "NaN"), ('{"edition": "\udce4"}', "utf-8")):
        status, out, _ = checked(text)
        results.see(
            status == 3 and out.startswith("plateroom: plan: not JSON\n  ") and said in out, f"{said}: {out}"
        )
    for text, said in (("\ufeff{}", "BOM"), ('{"plan": NaN}', "NaN"), ('{"edition": "\udce4"}', "utf-8")):
        status, out, _ = checked(text)
        right = status == 3 and out.startswith("plateroom: plan: not JSON\n  ") and said in out
        results.see(right, f"{said}: {status}, {out}")
    for words, status, said in (
        (("away.json", folder), 2, "away.json: No such file"),
        ((), 2, "required: PLAN, FILES"),
        ((os.path.join(EXAMPLES, "edition.json"), "away"), 2, "away: not a folder"),
        ((os.path.join(EXAMPLES, "edition.json"), EXAMPLES, "--program", "/away"), 2, "/away"),
        ((os.path.join(EXAMPLES, "edition.json"), EXAMPLES, "--program", "/bin/ls"), 2, "ended with"),
    ):
        words = words if "--program" in words else (*words, "--program", program)
        found, out, error = tool("check.py", *words)
        results.see(found == status and said in error, f"{words}: {found}, {error}")
    see_notes(results, checked, folder)


def see_notes(results, checked, folder):
    """What is lost without a fault is a note, and counts only under --strict."""
    black, white = [b"\xff"] * 4, [b"\0"] * 4
    cyan, plain = [b"\x80\0\0\0" * 8] * 4, [b"\0\0\0\x80" * 8] * 4
    for name, data in (
        ("black.tif", image("line", rows=black)),
        ("white.tif", image("line", rows=white)),
        ("cyan.tif", image("contone", rows=cyan)),
        ("plain.tif", image("contone", rows=plain)),
    ):
        with open(os.path.join(folder, name), "wb") as file:
            file.write(data)
    black, cyan = {"kind": "line", "file": "black.tif"}, {"kind": "contone", "file": "cyan.tif"}
    spot = black | {"ink": [0, 0, 0, 0, 9]}
    page = ("page", [8, 4])
    cases = [
        (
            changed(page, ("pages/0/layers", [black | {"ink": [9, 0, 0, 9, 9]}])),
            "page p layer 0: the page prints K, so the layer's C, S is left out",
        ),
        (
            changed(page, ("pages/0/layers", [cyan])),
            "page p layer 0: the page prints K, so the C of cyan.tif is left out",
        ),
        (changed(page, ("pages/0/layers", [black | {"x": 8}])), "page p layer 0: is outside its page"),
        (
            changed(page, ("pages/0/layers", [black | {"x": 3}])),
            "page p layer 0: 3 pixels past the page's right edge aren't shown",
        ),
        (
            changed(("page", [320, 161]), ("pages/0/layers", [black | {"scale": 40}])),
            "page p layer 0: ends 1 pixels before the page's lower edge",
        ),
        (
            changed(page, ("pages", base()["pages"] + [{"name": "r", "inks": "K", "layers": []}])),
            "page r: no site prints it",
        ),
        (changed(page, ("zones", [{"name": "z", "replace": [PUT]}])), "zone z: no site uses it"),
        (
            changed(page, ("zones", [{"name": "z", "replace": [PUT]}]), ("sites/0/zone", "z")),
            "page p: no site prints it",
        ),
        (
            changed(page, ("curves", {"K": [[0, 3], [255, 255]]})),
            "curve K: maps 0 to 3, so it prints on bare paper",
        ),
        (
            changed(page, ("curves", {"K": [[0, 0], [255, 250]]})),
            "curve K: maps 255 to 250, so solids are screened",
        ),
        (changed(page, ("limit", 240)), "limit 240: this is 94 percent of ink; 240 percent is 612"),
        (
            changed(page, ("tiles", [TILE | {"at": [0, 64, 128, 255]}])),
            "tile T: 1 of its thresholds are 255, where even full ink does not print",
        ),
        (
            changed(page, ("marks", [MARK, MARK | {"inks": "S"}])),
            "mark 1: no page prints S, so no plate has it",
        ),
        (
            changed(page, ("pages/1/inks", "CMYKS"), ("pages/1/layers", [spot, cyan])),
            "page q layer 1: a contone image in knockout removes the spot of layer 0 below it",
        ),
        (
            changed(page, ("pages/1/layers", [cyan | {"mask": "white.tif"}])),
            "page q layer 0: its mask white.tif admits no pixel, so nothing is painted",
        ),
        (
            changed(page, ("pages/1/layers", [{"kind": "line", "file": "white.tif"}])),
            "page q layer 0: white.tif has no black pixel there, so nothing is painted",
        ),
        (
            changed(page, ("pages/1/layers", [black | {"ink": [0] * 4, "paint": "overprint"}])),
            "page q layer 0: overprint with no ink paints nothing",
        ),
        (
            json.dumps(base())[:-1] + ', "dpi": 600}',
            "the key 'dpi' occurs twice in an object; the last one counts",
        ),
    ]
    for plan, line in cases:
        status, out, error = checked(plan)
        notes = [line[6:] for line in out.splitlines() if line.startswith("note: ")]
        results.see((status, notes) == (0, [line]), f"{line!r}: {status} {notes} {error}")
        results.see(checked(plan, "--strict")[0] == 1, f"{line!r} doesn't count under --strict")
    quiet = [
        changed(page, ("pages/0/layers", [{"kind": "contone", "file": "plain.tif"}])),
        changed(page, ("pages/1/inks", "CMYKS"), ("pages/1/layers", [cyan, spot])),
        changed(page, ("pages/1/inks", "CMYKS"), ("pages/1/layers", [spot, cyan | {"paint": "overprint"}])),
        changed(("page", [9, 5]), ("pages/1/layers", [black])),
        changed(page, ("pages/1/layers", [cyan | {"mask": "black.tif", "crop": [1, 1, 2, 2]}])),
    ]
    for plan in quiet:
        status, out, error = checked(plan, "--strict")
        results.see(status == 0, f"a plan without notes: {out}{error}")


# Proofs.


def solid_plate(width, length, byte):
    """A plate of one byte again and again, each row a strip."""
    size, row = (width + 7) // 8, b""
    while size:
        row += bytes([257 - min(size, 128), byte]) if size > 1 else bytes([0, byte])
        size -= min(size, 128)
    at = 8 + len(row) * length
    at += at % 2
    entries = [
        (256, 4, 1, width),
        (257, 4, 1, length),
        (258, 3, 1, 1),
        (259, 3, 1, 32773),
        (262, 3, 1, 0),
        (273, 4, length, at + 166),
        (277, 3, 1, 1),
        (278, 4, 1, 1),
        (279, 4, length, at + 166 + 4 * length),
    ]
    data = struct.pack("<2sHI", b"II", 42, at) + row * length + bytes(at - 8 - len(row) * length)
    data += (
        struct.pack("<H", len(entries))
        + b"".join(struct.pack("<HHII", *entry) for entry in entries)
        + bytes(4)
    )
    data = data.ljust(at + 166, b"\0")
    return data + struct.pack(
        f"<{2 * length}I", *range(8, 8 + len(row) * length, len(row)), *[len(row)] * length
    )


def see_proof(results, program, folder):
    if missing("PIL", "numpy"):
        print(f"skipped: proof.py ({missing('PIL', 'numpy')} isn't installed)")
        status, _, said = tool("proof.py", "a", "b.png")
        results.see(status == 2 and "isn't installed" in said, f"proof.py by itself: {status} {said}")
        return
    from PIL import Image

    plates, out = os.path.join(folder, "plates"), os.path.join(folder, "out.png")
    subprocess.run(
        [program, "run", os.path.join(EXAMPLES, "edition.json"), EXAMPLES, plates],
        check=True,
        capture_output=True,
    )
    site = os.path.join(plates, "OSLO")
    read = {ink: Plate(os.path.join(site, f"MORNING-A-001-{ink}.tif")) for ink in "CMYK"}
    colours = {"C": (0, 255, 255), "M": (255, 0, 255), "Y": (255, 255, 0), "K": (0, 0, 0)}

    def colour(shares):
        # Process inks give all or nothing of a channel's light, and sRGB is a curve of light (IEC 61966-2-1).
        light = [
            math.prod(1 - share * (1 - colours[ink][i] // 255) for ink, share in shares.items())
            for i in range(3)
        ]
        return [
            255 * (12.92 * part if part <= 0.0031308 else 1.055 * part ** (1 / 2.4) - 0.055) for part in light
        ]

    def near(pixel, wanted):
        return all(abs(a - b) <= 0.51 for a, b in zip(pixel, wanted))

    # The plate has 832 by 280 pixels: blocks of 8 are all whole, and of 9 the last ones aren't.
    for factor, size in ((8, (104, 35)), (9, (93, 32))):
        status, _, error = tool("proof.py", site, out, "--pair", "A-001", "--factor", factor)
        results.see(status == 0, f"a pair: {error}")
        with Image.open(out) as picture:
            results.see(picture.size == size, f"a pair has {picture.size}, not {size}")
            wrong = 0
            for y in range(size[1]):
                for x in range(size[0]):
                    box = x * factor, y * factor, min(factor, 832 - x * factor), min(factor, 280 - y * factor)
                    wanted = colour({ink: plate.share(*box) for ink, plate in read.items()})
                    wrong += not near(picture.getpixel((x, y)), wanted)
            results.see(wrong == 0, f"{wrong} pixels of the pair by {factor} aren't what its plates say")
    status, _, error = tool(
        "proof.py", site, out, "--pair", "MORNING-A-001", "--dots", "500,100,20,10", "--zoom", "3"
    )
    results.see(status == 0, f"dots: {error}")
    with Image.open(out) as picture:
        wrong = sum(
            not near(
                picture.getpixel((x, y)),
                colour({ink: plate.share(500 + x // 3, 100 + y // 3, 1, 1) for ink, plate in read.items()}),
            )
            for x in range(60)
            for y in range(30)
        )
        results.see(
            picture.size == (60, 30) and wrong == 0, f"dots: {picture.size}, {wrong} pixels are wrong"
        )
    tool("proof.py", site, out, "--pair", "A-002", "--dots", "600,60,1,1", "--zoom", "1", "--spot", "1,2,3")
    with Image.open(out) as picture:
        spot = Plate(os.path.join(site, "MORNING-A-002-S.tif")).share(600, 60, 1, 1)
        results.see(
            spot == 1 and picture.getpixel((0, 0)) == (1, 2, 3),
            f"the spot's colour is {picture.getpixel((0, 0))}",
        )
    status, _, error = tool("proof.py", site, out, "--columns", "1", "--inks", "K")
    with Image.open(out) as picture:
        results.see(
            status == 0 and picture.width == 278 + 24 and picture.height > 2 * 94,
            f"a sheet: {picture.size} {error}",
        )
        results.see(picture.getpixel((12, 12)) == (160,) * 3, "a pair on the sheet has no frame")
    status, _, error = tool("proof.py", site, out, "--palette", "5")
    with Image.open(out) as picture:
        colours = len(picture.getcolors())
        results.see(status == 0 and picture.mode == "P" and colours <= 5, f"{colours} colours on a sheet")
    pdf = os.path.join(folder, "out.pdf")
    status, _, error = tool("proof.py", site, pdf)
    with open(pdf, "rb") as file:
        pages = int(re.findall(rb"/Count (\d+)", file.read())[-1])
    results.see((status, pages) == (0, 2), f"a PDF has {pages} pages: {error}")
    see_bad_proofs(results, folder, plates, site, read)
    see_memory(results, folder)


def see_bad_proofs(results, folder, plates, site, read):
    """Damaged plates are named, and no picture is left; and so are wrong words."""
    good, out = read["K"].data, os.path.join(folder, "bad.png")
    place = struct.unpack_from("<I", good, 4)[0]

    def entry(number, **keys):
        """The plate with another entry."""
        tag, kind, count, value = struct.unpack_from("<HHII", good, place + 2 + 12 * number)
        new = {"tag": tag, "kind": kind, "count": count, "value": value} | keys
        return (
            good[: place + 2 + 12 * number]
            + struct.pack("<HHII", *new.values())
            + good[place + 14 + 12 * number :]
        )

    counts = struct.unpack_from("<I", good, place + 2 + 12 * 8 + 8)[0]
    damaged = [
        (b"", "cut off"),
        (b"not a plate", "no TIFF file"),
        (good[:4] + bytes(4) + good[8:], "begun and not finished"),
        (good[:4] + struct.pack("<I", len(good)) + good[8:], "cut off"),
        (good[: place + 40], "cut off"),
        (entry(0, tag=255), "tag 256 isn't there"),
        (entry(6, value=4), "not a plate: it has 4 samples of 1 bits"),
        (entry(0, value=831), "831 by 280 pixels"),
        (entry(5, value=len(good)), "cut off"),
        (entry(5, count=1), "tag 273 has fewer values than there are strips"),
        (good[:counts] + struct.pack("<I", 3) + good[counts + 4 :], "strip 0 is too short"),
        (GOOD, "not a plate: it has 4 samples of 8 bits"),
    ]
    bad = os.path.join(folder, "SITE")
    os.makedirs(bad)
    for ink in "CMY":
        os.symlink(
            os.path.join(site, f"MORNING-A-001-{ink}.tif"), os.path.join(bad, f"MORNING-A-001-{ink}.tif")
        )
    for data, said in damaged:
        with open(os.path.join(bad, "MORNING-A-001-K.tif"), "wb") as file:
            file.write(data)
        status, _, error = tool("proof.py", bad, out)
        results.see(
            status == 1 and "MORNING-A-001-K.tif: " in error and said in error, f"{said}: {status}, {error}"
        )
        results.see(
            not os.path.exists(out) and not os.path.exists(out + ".part"), f"{said}: a picture is left"
        )
    for words, said in (
        ((folder, out), "no plates"),
        ((plates, out), "name one of its sites: BERGEN, OSLO"),
        (("/away", out), "/away: No such file"),
        ((site, "x.gif"), "neither in .png nor in .pdf"),
        ((site, out, "--pair", "A-003"), "0 pairs A-003 among"),
        ((site, out, "--dots", "1,1,1,1"), "needs --pair"),
        ((site, out, "--pair", "A-001", "--dots", "832,0,1,1"), "832 by 280 pixels"),
        ((site, out, "--pair", "A-001", "--dots", "1,1,1"), "isn't X,Y,W,H"),
        ((site, out, "--spot", "1,2,256"), "of 0 to 255"),
        ((site, out, "--inks", "CX"), "letters CMYKS"),
        ((site, out, "--factor", "0"), "of 1 or more"),
        ((site, "/away/x.png"), "/away/x.png"),
    ):
        status, _, error = tool("proof.py", *words)
        results.see(status == 2 and said in error, f"{words}: {status}, {error}")


def see_memory(results, folder):
    """A plate of 60,000 by 40,000 pixels takes less than 200 MB."""
    site, out = os.path.join(folder, "LARGE"), os.path.join(folder, "large.png")
    os.makedirs(site)
    with open(os.path.join(site, "E1-A-001-K.tif"), "wb") as file:
        file.write(solid_plate(60000, 40000, 0x55))
    words = [
        sys.executable,
        "-B",
        os.path.join(TOOLS, "proof.py"),
        site,
        out,
        "--pair",
        "A-001",
        "--factor",
        "40",
    ]
    process = subprocess.Popen(words)
    _, status, usage = os.wait4(process.pid, 0)
    process.returncode = status
    print(
        f"proof.py: 60,000 by 40,000 pixels in {usage.ru_utime:.0f} s of CPU time and "
        f"{usage.ru_maxrss // 1024} MB"
    )
    results.see(status == 0 and usage.ru_maxrss < 200 * 1024, f"status {status}, {usage.ru_maxrss} KiB")
    from PIL import Image

    with Image.open(out) as picture:
        results.see(
            picture.size == (1500, 1000) and set(picture.getcolors()) == {(1500000, (188, 188, 188))},
            f"the large plate is {picture.size} of {picture.getcolors()}",
        )


# Tiles.


def strongest(at, side):
    """The lowest frequency of the pattern of one half, in waves a tile: what its dots repeat by."""
    rows = [[1 if 128 > at[y * side + x] else 0 for x in range(side)] for y in range(side)]
    most, reach = {}, min(side // 2, 12)
    across = [
        [
            sum(bit * cmath.exp(-2j * math.pi * fx * x / side) for x, bit in enumerate(row) if bit)
            for row in rows
        ]
        for fx in range(reach)
    ]
    for fx in range(reach):
        for fy in range(-reach, reach):
            if (fx, fy) > (0, 0):
                most[fx, fy] = abs(
                    sum(
                        value * cmath.exp(-2j * math.pi * fy * y / side) for y, value in enumerate(across[fx])
                    )
                )
    return max(most, key=most.get)


def see_tiles(results, program, folder):
    """Tiles have the angle and ruling that is said, spread their thresholds, and are taken by the program."""
    tiles = []
    for name, angle, more in (
        ("C15", 15, ()),
        ("M75", 75, ()),
        ("Y0", 0, ()),
        ("K45", 45, ()),
        ("E20", 20, ("--ruling", 85, "--dot", "ellipse")),
        ("L65", 65, ("--ruling", 150, "--dpi", 2400)),
    ):
        status, out, said = tool("tile.py", name, "--angle", angle, "--ruling", 100, *more)
        results.see(status == 0, f"{name}: {said}")
        tile = json.loads(out)
        tiles.append(tile)
        side, at = tile["width"], tile["at"]
        results.see(
            tile["height"] == side and len(at) == side * side and max(at) <= 254, f"{name} has side {side}"
        )
        off = max(abs(sum(value > t for t in at) / len(at) - value / 255) for value in range(256))
        results.see(off <= 1 / len(at) + 1e-9, f"{name}: a tone is off by {off}")
        told = re.search(r"side (\d+), steps .*: ([\d.]+) degrees, ([\d.]+) lines an inch at (\d+) dpi", said)
        fx, fy = strongest(at, side)
        found = math.degrees(math.atan2(fy, fx)) % 90, math.hypot(fx, fy) * int(told[4]) / side
        results.see(
            int(told[1]) == side
            and abs(found[0] - float(told[2])) < 0.06
            and abs(found[1] - float(told[3])) < 0.06,
            f"{name}: {said.strip()}, and its dots have {found}",
        )
        results.see(abs(found[0] - angle) <= 3, f"{name}: {found[0]} degrees")
        kept = os.path.join(EXAMPLES, "tiles", f"{name}.json")
        if os.path.exists(kept):
            with open(kept, encoding="utf-8") as file:
                results.see(file.read() == out, f"{kept} isn't what tile.py writes")
    kept = sorted(os.listdir(os.path.join(EXAMPLES, "tiles")))
    results.see(
        [name for name in kept if name.endswith(".json")] == ["C15.json", "K45.json", "M75.json", "Y0.json"],
        f"tiles: {kept}",
    )
    plan, path = changed(("tiles", tiles), ("screens", {"K": "tile:K45"})), os.path.join(folder, "tiles.json")
    with open(path, "w", encoding="utf-8") as file:
        json.dump(plan, file)
    answer = subprocess.run(
        [program, "run", path, "/dev/null", "/dev/null/out"], capture_output=True, text=True
    )
    results.see(answer.returncode == 1, f"the program on tiles: {answer.stderr}")
    wedge = os.path.join(folder, "wedge.png")
    status, out, _ = tool("tile.py", "K45", "--angle", "45", "--ruling", "100", "--wedge", wedge)
    with open(wedge, "rb") as file:
        data = file.read(24)
    results.see(
        status == 0 and data[1:4] == b"PNG" and struct.unpack(">II", data[16:]) == (3168, 288),
        "the wedge's picture",
    )
    status, out, _ = tool("tile.py", "K45", "--angle", "45", "--ruling", "100", "--list")
    results.see(
        status == 0
        and len(out.splitlines()) == 10
        and out.startswith("side 17, steps 1,1: 45.0 degrees, 99.8"),
        f"list: {out}",
    )
    for words, wanted, said in (
        (("K45", "--angle", 90, "--ruling", 100), 2, "0 to below 90"),
        (("K45", "--angle", -1, "--ruling", 100), 2, "angle"),
        (("K45", "--angle", "x", "--ruling", 100), 2, "'x'"),
        (("K45", "--angle", 45), 2, "--ruling"),
        (("K45", "--angle", 45, "--ruling", 0), 2, "1 to 4000"),
        (("a-b", "--angle", 45, "--ruling", 100), 2, "'a-b'"),
        (("K45", "--angle", 45, "--ruling", 100, "--dpi", 0), 2, "1 to 10000"),
        (("K45", "--angle", 45, "--ruling", 100, "--largest", 65), 2, "4 to 64"),
        (("K45", "--angle", 45, "--ruling", 100, "--dot", "star"), 2, "star"),
        (
            ("K45", "--angle", 45, "--ruling", 600),
            1,
            "no tile of side up to 64 is near 45 degrees and 600",
        ),
        (("K45", "--angle", 45, "--ruling", 5), 1, "the nearest has"),
        (("K45", "--angle", 45, "--ruling", 100, "--wedge", "/away/x.png"), 2, "/away/x.png"),
    ):
        status, out, error = tool("tile.py", *words)
        results.see((status, out) == (wanted, "") and said in error, f"{words}: {status}, {error}")


def see_help(results):
    """Each tool explains its arguments, a line or two for each, and its statuses."""
    for name, first in (
        ("check.py", "PLAN FILES"),
        ("parts.py", "PLAN OUT"),
        ("proof.py", "PLATES OUT"),
        ("tile.py", "NAME"),
    ):
        status, out, _ = tool(name, "--help")
        usage, *parts = out.split("\n\n")
        results.see(
            status == 0 and any(part.startswith("status: 0 ") for part in parts), f"{name} --help: {out}"
        )
        results.see(usage.endswith(first), f"{name} --help: {usage}")
        for word in first.split() + re.findall(r"--[a-z]+", usage):
            told = re.search(rf"^  {word}( \S+)?\s+[a-z]", "\n\n".join(parts), re.MULTILINE)
            results.see(told, f"{name} --help says nothing of {word}")


def main():
    if len(sys.argv) != 2:
        sys.exit(__doc__.splitlines()[2].strip())
    program, results = os.path.abspath(sys.argv[1]), Count()
    for see in (see_schema, see_check, see_proof, see_tiles):
        with tempfile.TemporaryDirectory(prefix="plateroom-tools-") as folder:
            see(results, program, folder)
    see_help(results)
    sys.exit(results.end())


if __name__ == "__main__":
    main()
