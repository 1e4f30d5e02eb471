"""The answers of the program: each status with its line, and on which stream, from real files and folders."""
import json
import os
import re
import resource
import shutil

import editions
from plates import Edition, black_plate, compared
from trial import shown

FILES, MEMORY = resource.RLIMIT_FSIZE, resource.RLIMIT_AS
PAGES = [{"name": "w", "inks": "K", "layers": []},
         {"name": "p", "inks": "K", "layers": [{"kind": "contone", "file": "a.tif", "scale": 2}]}]
PLAN = {"plan": 1, "edition": "E1", "dpi": 1200, "page": [40, 30], "pages": PAGES,
        "sections": [{"name": "A", "pages": ["w", "p"]}], "sites": [{"name": "OSLO"}]}

# Bare paper of a hundred bytes a packed row, so that a plate is longer than what waits for the disk at a time.
LONG = dict(PLAN, page=[32000, 1000], pages=[{"name": name, "inks": "K", "layers": []} for name in "wp"])


def layer(**keys):
    """A plan whose one layer has these keys."""
    return layers(dict({"kind": "contone"}, **keys))


def layers(*parts):
    return dict(PLAN, pages=[PAGES[0], {"name": "p", "inks": "K", "layers": parts}])


def without(key):
    return {name: value for name, value in PLAN.items() if name != key}


def sparse(path, size):
    with open(path, "wb") as file:
        file.truncate(size)


# Texts of plans, and what is wrong with them.
PLANS = [
    (b"", ": not JSON"), (b"{", ": not JSON"), (b'{"plan": "\xff"}', ": not JSON"),
    (b"\xef\xbb\xbf{}", ": not JSON"),
    (b"[]", " : kind"), (b"{}", " /plan: missing"),
    (dict(PLAN, plan=3), " /plan: range"), (dict(PLAN, zzz=1, yyy=2), " /yyy: unknown"),
    (without("sites"), " /sites: missing"), (dict(PLAN, page=["8", 1]), " /page/0: kind"),
    (dict(PLAN, page=[40000, 1]), " /page: range"), (dict(PLAN, sites=[]), " /sites: range"),
    (dict(PLAN, pages=[PAGES[0], dict(PAGES[1], name="w")]), " /pages/1/name: repeat"),
    (dict(PLAN, sites=[{"name": "OSLO", "zone": "Z"}]), " /sites/0/zone: unknown"),
    (dict(PLAN, screens={"S": "bayer4"}), " /screens/S: unknown"),
    (dict(PLAN, curves={"K": [[0, 0], [0, 1], [255, 255]]}), " /curves/K: range"),
]

# What is asked of an image, its name, and what is wrong with it.
IMAGES = [
    (dict(file="lzw.tif"), "lzw.tif", "tag 259: compression"),
    (dict(file="empty.tif"), "empty.tif", "tag 0: header"),
    (dict(file="big.tif"), "big.tif", "tag 0: header"),
    (dict(file="front.tif"), "front.tif", "tag 0: directory"),
    (dict(file="cut.tif"), "cut.tif", "tag 273: strip place"),
    (dict(file="short.tif"), "short.tif", "tag 273: short"),
    (dict(file="bits.tif"), "bits.tif", "tag 277: samples"),
    (dict(file="rgb.tif"), "rgb.tif", "tag 262: photometric"),
    (dict(file="a.tif", kind="line"), "a.tif", "tag 277: samples"),
    (dict(file="bits.tif", kind="line", mask="a.tif"), "a.tif", "tag 277: samples"),
    (dict(file="a.tif", crop=[1, 0, 20, 1]), "a.tif", "tag 256: crop"),
    (dict(file="a.tif", crop=[0, 15, 1, 1]), "a.tif", "tag 257: crop"),
    (dict(file="a.tif", mask="bits.tif"), "bits.tif", "tag 256: mask size"),
]


def write_files(folder, examples):
    """The files that the commands name."""
    files = os.path.join(folder, "in")
    image = editions.contone(20, 15, 11)
    with open(os.path.join(examples, "lzw.tif"), "rb") as file:
        lzw = file.read()
    with open(os.path.join(examples, "ramp.tif"), "rb") as file:
        ramp = file.read()
    for name, data in (
        ("a.tif", image), ("lzw.tif", lzw), ("empty.tif", b""), ("big.tif", image[:2] + b"+\0" + image[4:]),
        ("front.tif", ramp[:100]), ("cut.tif", ramp[:20000]), ("bits.tif", editions.line(21, 15, 13, 0)),
        ("short.tif", editions.contone(20, 15, 14, packed=True, rows=4, extra=-1)),
        ("rgb.tif", editions.contone(20, 15, 15, photometric=2)),
    ):
        editions.write(files, name, data)
    os.makedirs(os.path.join(files, "folder.tif"))
    for name in (b"a.tif", b"a\xff.tif", "a\ufffd.tif".encode(), b"a.tif\xff", b"\xed\xa0\x80.tif"):
        with open(os.path.join(os.fsencode(folder), name), "wb") as file:
            file.write(image)
    for name in (b"plan.json", b"pl\xffan.json"):
        editions.write_plan(os.path.join(os.fsencode(folder), name), PLAN)


def refused(trial, folder, words, status, line, **how):
    """The words are refused by this line, nothing is printed and no folder of plates is made."""
    trial.answers(words, status, b"", line.encode(), folder=folder, **how)
    if os.path.lexists(os.path.join(folder, "OUT")):
        trial.holds(f"{words}", "the folder of plates was made")
        shutil.rmtree(os.path.join(folder, "OUT"))


def refused_by_both(trial, folder, words, status, line):
    """The words behind `run` or `verify` are refused by this line."""
    for command in ("run", "verify"):
        refused(trial, folder, [command, *words], status, line)


def refusals(trial, folder):
    """Status 3 to 5."""
    tried = ["try.json", "in", "OUT"]
    for plan, fault in PLANS:
        with open(os.path.join(folder, "try.json"), "wb") as file:
            file.write(plan if isinstance(plan, bytes) else json.dumps(plan).encode())
        refused_by_both(trial, folder, tried, 3, f"plateroom: plan{fault}\n")
    for size, fault in ((16777216, "not JSON"), (16777217, "too long")):
        sparse(os.path.join(folder, "long.json"), size)
        refused(trial, folder, ["run", "long.json", "in", "OUT"], 3, f"plateroom: plan: {fault}\n")
    trial.part("plans that are refused")
    for keys, name, fault in IMAGES:
        editions.write_plan(os.path.join(folder, "try.json"), layer(**keys))
        refused_by_both(trial, folder, tried, 4, f"plateroom: file {name}: {fault}\n")
        if list(keys) == ["file"]:
            refused(trial, folder, ["one", f"in/{name}"], 4, f"plateroom: file in/{name}: {fault}\n")
    trial.part("files that are refused")
    for words, path in (
        (["one", "none.tif"], "none.tif"), (["one", "in"], "in"), (["one", "in/folder.tif"], "in/folder.tif"),
        (["one", "a.tif/a.tif"], "a.tif/a.tif"), (["run", "none.json", "in", "OUT"], "none.json"),
        (["run", "in", "in", "OUT"], "in"), (["run", "plan.json", "none", "OUT"], "none/a.tif"),
        (["run", "plan.json", "a.tif", "OUT"], "a.tif/a.tif"),
        (["verify", "none.json", "in", "OUT"], "none.json"),
        (["verify", "plan.json", "none", "OUT"], "none/a.tif"),
        (["verify", "plan.json", "in", "OUT"], "OUT/OSLO/E1-A-001-K.tif"),
    ):
        refused(trial, folder, words, 5, f"plateroom: shelf: {path}\n")
    for name in ("folder.tif", "none.tif", "Æ.tif"):
        editions.write_plan(os.path.join(folder, "try.json"), layer(file=name))
        refused_by_both(trial, folder, tried, 5, f"plateroom: shelf: in/{name}\n")
    files = [{"kind": "contone", "file": name} for name in ("none.tif", "lzw.tif", "a.tif")]
    editions.write_plan(os.path.join(folder, "try.json"), layers(*files))
    refused_by_both(trial, folder, tried, 5, "plateroom: shelf: in/none.tif\n")
    editions.write_plan(os.path.join(folder, "try.json"), layers(*files[::-1]))
    refused_by_both(trial, folder, tried, 4, "plateroom: file lzw.tif: tag 259: compression\n")
    trial.part("files that aren't there")


def wants_of_memory(trial, folder):
    """Status 6: files that are longer than the memory that there is, and a ring that is larger."""
    sparse(os.path.join(folder, "in", "huge.tif"), 400_000_000)
    editions.write_plan(os.path.join(folder, "huge.json"), layer(file="huge.tif"))
    editions.write_plan(os.path.join(folder, "ring.json"), dict(
        PLAN, page=[32767, 1], sites=[{"name": f"S{number}"} for number in range(16)]))
    for words, most in ((["one", "in/huge.tif"], 1 << 28), (["run", "huge.json", "in", "OUT"], 1 << 28),
                        (["run", "ring.json", "in", "RINGS", "1024"], 1 << 26)):
        trial.answers(words, 6, b"", b"plateroom: memory\n", folder=folder, limits=[(MEMORY, most)])
    trial.answers(["one", "in/huge.tif"], 6, b"", None, folder=folder, limits=[(MEMORY, 1 << 28)],
                  streams=("", "/dev/full"))
    os.remove(os.path.join(folder, "in", "huge.tif"))
    trial.part("out of memory")


def streams_that_fail(trial, folder):
    """Status 7, and what was written by then."""
    words = ["run", "plan.json", "in", "OUT"]
    plates = dict(Edition(PLAN, os.path.join(folder, "in")).plates())
    for stream in ("/dev/full", "closed", "unread"):
        trial.answers(["one", "a.tif"], 7, b"", b"", folder=folder, streams=(stream, ""))
        trial.answers(["drill", "0"], 7, b"", b"", folder=folder, streams=(stream, ""))
        trial.answers(words, 7, b"", b"", folder=folder, streams=(stream, ""))
        trial.holds(f"plates of {' '.join(words)} > {stream}", compared(plates, os.path.join(folder, "OUT")))
        shutil.rmtree(os.path.join(folder, "OUT"), ignore_errors=True)
        for refused_words in (["one"], ["one", "none.tif"], ["one", "in/lzw.tif"], ["run", "in", "in", "OUT"]):
            trial.answers(refused_words, 7, b"", b"", folder=folder, streams=("", stream))
    kept, wanted = os.path.join(folder, "front"), black_plate(os.path.join(folder, "a.tif"))
    for most in (0, 1, 9, len(wanted) - 1):
        limits = [(FILES, most)]
        trial.answers(["one", "a.tif"], 7, b"", b"", folder=folder, streams=(kept, ""), limits=limits)
        with open(kept, "rb") as file:
            fault = "" if file.read() == wanted[:most] else "it is none of the plate"
        trial.holds(f"front of {most} bytes", fault)
        os.remove(kept)
    trial.answers(["one", "a.tif"], 0, wanted, b"", folder=folder)
    trial.part("streams that fail")


def racks_that_fail(trial, folder, edition):
    """Status 1: a site whose folder or plate can't be made leaves, and the others have their plates."""
    out, words = os.path.join(folder, "OUT"), ["run", "five.json", "images", "OUT"]
    editions.write_plan(os.path.join(folder, "five.json"), edition.plan)
    plates, spans = dict(edition.plates()), edition.spans()[0]
    for site, number in (("OSLO", None), ("BERGEN", 0), ("TOWN", 7), ("last", 14)):
        if number is None:
            broken, lying = [path for path, _, _ in spans[site]], {site: b"\0"}
            os.mkdir(out)
            sparse(os.path.join(out, site), 1)
        else:
            broken, lying = [spans[site][number][0]], {}
            os.makedirs(os.path.join(out, broken[0]))
        trial.answers(words, 1, edition.report("OUT", broken).encode(), b"", folder=folder)
        gone = {path for path, _, _ in spans[site]} - set(edition.end(site, broken)[0])
        wanted = dict({path: plate for path, plate in plates.items() if path not in gone}, **lying)
        begun = {path: plates[path] for path in gone}
        trial.holds(f"plates where {broken[0]} can't be made", compared(wanted, out, begun))
        shutil.rmtree(out)
    sparse(out, 1)
    every = [path for span in spans.values() for path, _, _ in span]
    for name in ("OUT", "/dev/null"):
        trial.answers([*words[:3], name], 1, edition.report(name, every).encode(), b"", folder=folder)
    os.remove(out)
    calls = [("five.json", "FIVE_5", list(spans), "finish"), ("long.json", "E1", ["OSLO"], "row")]
    editions.write_plan(os.path.join(folder, "long.json"), LONG)
    for plan, name, sites, call in calls:
        # A plate goes to its file by blocks: a short one as it is finished, a long one at some row.
        status, report, note = trial.run(["run", plan, "images", "OUT"], folder=folder, limits=[(FILES, 100)])
        line = rf"site {{0}} left plates 0 row \d+ call {call} file OUT/{{0}}/{name}-A-001-[CMYKS].tif\n"
        form = "".join(map(line.format, sites)) + rf"total rows \d+ sites {len(sites)}\n"
        is_told = status == 1 and note == b"" and re.fullmatch(form, report.decode())
        trial.holds(f"files of {plan} that can't grow", "" if is_told else f"{status}, {shown(report)}, {shown(note)}")
        shutil.rmtree(out)
    trial.part("racks that fail")
