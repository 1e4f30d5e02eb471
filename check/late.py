"""What `replate` makes of an edition that changed, and that all other plates are unchanged."""
import json
import os
import random
import re
import shutil

import editions
from answers import FILES, IMAGES, MEMORY, PLANS, layer, layers, refused, sparse
from picks import Change, plates_of, recipes
from plates import Edition, compared
from tiff import first_directory
from trial import shown

LONG_AGO = 10 ** 18
JOBS = ["replate", "plan.json", "in", "plan.json", "in", "OUT"]


class Late:
    """A folder with the plates of an old edition, as a run left them, and the words that make those of a new one."""

    def __init__(self, tried, folder, what, before, after):
        self.tried, self.folder, self.what = tried, folder, what
        self.change, self.out = Change(before, after), os.path.join(folder, "OUT")
        self.words = ["replate", "old.json", before.folder, "new.json", after.folder, "OUT"]
        shutil.rmtree(self.out, ignore_errors=True)
        editions.write_plan(os.path.join(folder, "old.json"), before.plan)
        editions.write_plan(os.path.join(folder, "new.json"), after.plan)
        report = before.report("OUT").encode()
        tried.answers(["run", *self.words[1:3], "OUT"], 0, report, b"", what, folder=folder)
        self.age()

    def full(self, path):
        return os.path.join(self.out, path)

    def stats(self):
        """Each file with its number on the disk and the times of its last changes."""
        every = [os.path.relpath(os.path.join(at, name), self.out)
                 for at, _, names in os.walk(self.out) for name in names]
        stats = {path: os.lstat(self.full(path)) for path in every}
        return {path: (stat.st_ino, stat.st_mtime_ns, stat.st_ctime_ns) for path, stat in stats.items()}

    def age(self):
        """All files were written long ago."""
        for path in self.stats():
            os.utime(self.full(path), ns=(LONG_AGO, LONG_AGO))
        self.stood = self.stats()

    def spoil(self, path):
        """Puts a folder in the place of a plate."""
        if os.path.lexists(self.full(path)):
            os.remove(self.full(path))
        os.makedirs(self.full(path))

    def answers(self, status, text, **how):
        self.tried.answers(self.words, status, text.encode(), b"", self.what, folder=self.folder, **how)

    def looked(self, broken=(), lying=None):
        """Exactly the plates that must be made were written, and all are those of the definitions."""
        made, stays, begun = self.change.files(broken)
        wanted = {**made, **stays, **(lying or {})}
        self.tried.holds(f"plates, {self.what}", compared(wanted, self.out, begun))
        now = self.stats()
        written = {path for path in now if now[path] != self.stood.get(path)}
        parts = {f"{path}.part" for path in begun}
        wrong = sorted(written ^ (set(now) & (set(made) | parts)))
        self.tried.holds(f"plates that are written, {self.what}", ", ".join(wrong[:3]))

    def done(self, text=None):
        """Everything that must be made is made, and after the dropped plates are removed, all is right."""
        self.answers(0, self.change.text() if text is None else text)
        self.looked()
        for path in filter(os.path.isfile, map(self.full, self.change.dropped)):
            os.remove(path)
        plates = plates_of(self.change.after)
        self.tried.holds(f"plates of the new edition, {self.what}", compared(plates, self.out))
        same = f"same plates {len(plates)} sites {len(self.change.after.plan['sites'])}\n"
        self.tried.answers(["verify", *self.words[3:]], 0, same.encode(), b"", self.what, folder=self.folder)

    def left(self, broken, lying=None):
        """Sites leave at these plates, and the others have theirs."""
        self.answers(1, self.change.text(broken))
        self.looked(broken, lying)


def copied(folder, name, files, changed):
    """Another folder of the same files, with another byte so far behind the beginning of a file's first strip."""
    copy = os.path.join(folder, name)
    shutil.copytree(files, copy)
    for image, place in changed.items():
        with open(os.path.join(copy, image), "r+b") as file:
            data = file.read()
            place += first_directory(data, "<" if data[:2] == b"II" else ">")[273][0]
            file.seek(place)
            file.write(bytes([data[place] ^ 255]))
    return copy


# ---- by hand

def single(**keys):
    """One pair of 8 by 2 pixels in black for one site."""
    return dict({
        "plan": 1, "edition": "E1", "dpi": 1200, "page": [8, 2], "screens": {"K": "bayer4"},
        "pages": [{"name": "w", "inks": "K", "layers": []},
                  {"name": "p", "inks": "K", "layers": [{"kind": "contone", "file": "a.tif", "scale": 2}]}],
        "sections": [{"name": "A", "pages": ["w", "p"]}], "sites": [{"name": "OSLO"}]}, **keys)


def double(**keys):
    """Two pairs for two sites."""
    return single(sections=[{"name": "A", "pages": ["w", "w", "p", "w"]}],
                  sites=[{"name": "OSLO"}, {"name": "BERGEN"}], **keys)


def by_hand(tried, folder):
    """What is printed is written down here."""
    first, samples = os.path.join(folder, "first"), bytearray(16)
    samples[3::4] = (1, 127, 31, 255)
    editions.write(first, "a.tif", editions.tiff(4, 1, [bytes(samples)]))
    other = copied(folder, "other", first, {"a.tif": 3})
    one, two, bayer8 = Edition(single(), first), Edition(double(), first), {"K": "bayer8"}
    negative = Edition(double(curves={"K": [[0, 255], [255, 0]]}), first)

    late = Late(tried, folder, "nothing changed", one, Edition(single(), first))
    with open(late.full("OSLO/E1-A-001-K.tif"), "rb") as file:
        plate = file.read()
    is_so = len(plate) == 180 and plate[8:14] == bytes.fromhex("01ab00011300")
    tried.holds("the plate by hand", "" if is_so else shown(plate))
    late.done("site OSLO made 0 kept 1\ntotal made 0\n")
    late = Late(tried, folder, "another screen", one, Edition(single(screens=bayer8), first))
    late.done("site OSLO made 1 kept 0\ntotal made 1\n")
    late = Late(tried, folder, "another byte of page 3", two, Edition(double(), other))
    late.done("site OSLO made 1 kept 1\nsite BERGEN made 1 kept 1\ntotal made 2\n")
    third = {"OSLO/E1-A-002-K.tif", "BERGEN/E1-A-002-K.tif"}
    tried.holds("the plates of page 3", "" if late.change.made == third else repr(late.change.made))
    sites = [{"name": "NEW"}, {"name": "OSLO"}]
    new = Edition(dict(double(), sites=sites), first)
    late = Late(tried, folder, "a site that is gone and one that is new", two, new)
    late.done("site NEW made 2 kept 0\nsite OSLO made 0 kept 2\ndropped OUT/BERGEN/E1-A-001-K.tif\n"
              "dropped OUT/BERGEN/E1-A-002-K.tif\ntotal made 2\n")
    late = Late(tried, folder, "another edition", one, Edition(single(edition="E2"), first))
    late.done("site OSLO made 1 kept 0\ndropped OUT/OSLO/E1-A-001-K.tif\ntotal made 1\n")

    shutil.rmtree(late.out)
    shutil.copy(os.path.join(folder, "in", "lzw.tif"), os.path.join(first, "b.tif"))
    faulty = single()
    faulty["pages"][1]["layers"].append({"kind": "contone", "file": "b.tif"})
    editions.write_plan(os.path.join(folder, "old.json"), faulty)
    refused(tried, folder, late.words, 4, "plateroom: old file b.tif: tag 259: compression\n")

    late = Late(tried, folder, "a plate that can't be begun", one, Edition(single(screens=bayer8), first))
    late.spoil("OSLO/E1-A-001-K.tif")
    late.answers(1, "site OSLO left made 0 file OUT/OSLO/E1-A-001-K.tif\ntotal made 0\n")
    late.looked(["OSLO/E1-A-001-K.tif"])
    late = Late(tried, folder, "dropped where a site left", one, Edition(single(edition="E2"), first))
    late.spoil("OSLO/E2-A-001-K.tif")
    late.answers(1, "site OSLO left made 0 file OUT/OSLO/E2-A-001-K.tif\n"
                    "dropped OUT/OSLO/E1-A-001-K.tif\ntotal made 0\n")
    late.looked(["OSLO/E2-A-001-K.tif"])
    late = Late(tried, folder, "a plate whose file can't be made", two, negative)
    stood = plates_of(two)["BERGEN/E1-A-002-K.tif"]
    os.mkdir(late.full("BERGEN/E1-A-002-K.tif.part"))
    late.answers(1, "site OSLO made 2 kept 0\nsite BERGEN left made 1 file OUT/BERGEN/E1-A-002-K.tif\n"
                    "total made 3\n")
    late.looked(["BERGEN/E1-A-002-K.tif"], {"BERGEN/E1-A-002-K.tif": stood})
    tried.part("plates made again, by hand")
    not_looked_at(tried, folder, two, Edition(double(), other))
    streams(tried, folder, two, negative)


def not_looked_at(tried, folder, before, after):
    """The file at the path of a plate that is kept makes no difference, and nothing is made for it."""
    kept = "BERGEN/E1-A-001-K.tif"
    late = Late(tried, folder, "a kept plate that is another", before, after)
    editions.write(late.out, kept, b"no plate\n")
    late.age()
    late.answers(0, "site OSLO made 1 kept 1\nsite BERGEN made 1 kept 1\ntotal made 2\n")
    late.looked(lying={kept: b"no plate\n"})
    late = Late(tried, folder, "a kept plate that is a folder", before, after)
    late.spoil(kept)
    late.answers(0, late.change.text())
    tried.holds("the folder in the place of a kept plate", "" if os.path.isdir(late.full(kept)) else "it is gone")
    late = Late(tried, folder, "a refusal", before, after)
    for words, status, line in (
        ([*late.words, ""], 2, "words"), ([*late.words[:3], "in", "in", "OUT"], 5, "shelf: in"),
        ([*late.words[:2], "none", *late.words[3:]], 5, "shelf: none/a.tif"),
    ):
        tried.answers(words, status, b"", f"plateroom: {line}\n".encode(), folder=folder)
        tried.holds("plates after a refusal", "" if late.stats() == late.stood else "they aren't as they were")
    shutil.rmtree(late.out)
    tried.answers(JOBS, 0, b"site OSLO made 0 kept 1\ntotal made 0\n", b"", folder=folder)
    tried.holds("no folder where nothing is made", "it was made" if os.path.lexists(late.out) else "")
    tried.part("plates that aren't loaded")


def streams(tried, folder, before, after):
    """Output and note that fail."""
    for stream in ("/dev/full", "closed", "unread"):
        late = Late(tried, folder, f"output {stream}", before, after)
        late.answers(7, "", streams=(stream, ""))
        late.looked()
        late = Late(tried, folder, f"output {stream} and a site that left", before, after)
        late.spoil("OSLO/E1-A-002-K.tif")
        late.answers(7, "", streams=(stream, ""))
        late.looked(["OSLO/E1-A-002-K.tif"])
        for words in (JOBS[:5], ["replate", "none.json", *JOBS[2:]], [*JOBS[:3], "none.json", *JOBS[4:]]):
            tried.answers(words, 7, b"", b"", folder=folder, streams=("", stream))
    tried.part("streams that fail where plates are made again")


# ---- refusals

def refusals(tried, folder):
    """Status 3 to 5: the old job first, whose lines say so, and then the new one."""
    shutil.rmtree(os.path.join(folder, "OUT"), ignore_errors=True)
    old = ["replate", "try.json", "in", "gone.json", "gone", "OUT"]
    new = [*JOBS[:3], "try.json", "in", "OUT"]
    both = ["replate", "try.json", "in", "try.json", "in", "OUT"]
    for plan, fault in PLANS:
        with open(os.path.join(folder, "try.json"), "wb") as file:
            file.write(plan if isinstance(plan, bytes) else json.dumps(plan).encode())
        refused(tried, folder, old, 3, f"plateroom: old plan{fault}\n")
        refused(tried, folder, new, 3, f"plateroom: plan{fault}\n")
    sparse(os.path.join(folder, "try.json"), 16777217)
    refused(tried, folder, both, 3, "plateroom: old plan: too long\n")
    refused(tried, folder, new, 3, "plateroom: plan: too long\n")
    for keys, name, fault in IMAGES:
        editions.write_plan(os.path.join(folder, "try.json"), layer(**keys))
        refused(tried, folder, old, 4, f"plateroom: old file {name}: {fault}\n")
        refused(tried, folder, both, 4, f"plateroom: old file {name}: {fault}\n")
        refused(tried, folder, new, 4, f"plateroom: file {name}: {fault}\n")
    lacking = layers(*({"kind": "contone", "file": name} for name in ("none.tif", "lzw.tif")))
    for name, plan in (("broken.json", {"plan": 1, "edition": "E1"}), ("lzw.json", layer(file="lzw.tif")),
                       ("lacks.json", lacking)):
        editions.write_plan(os.path.join(folder, name), plan)
    for status, line, words in (
        (5, "shelf: none.json", ["none.json", "in", "broken.json", "in"]),
        (5, "shelf: none.json", ["none.json", "in", "gone.json", "in"]),
        (3, "old plan /dpi: missing", ["broken.json", "in", "none.json", "in"]),
        (3, "old plan /dpi: missing", ["broken.json", "in", "broken.json", "in"]),
        (5, "shelf: none/a.tif", ["plan.json", "none", "broken.json", "gone"]),
        (5, "shelf: in/none.tif", ["lacks.json", "in", "lzw.json", "in"]),
        (4, "old file lzw.tif: tag 259: compression", ["lzw.json", "in", "none.json", "in"]),
        (4, "old file lzw.tif: tag 259: compression", ["lzw.json", "in", "broken.json", "in"]),
        (4, "old file lzw.tif: tag 259: compression", ["lzw.json", "in", "lzw.json", "in"]),
        (5, "shelf: none.json", ["plan.json", "in", "none.json", "none"]),
        (5, "shelf: in", ["plan.json", "in", "in", "in"]), (5, "shelf: in", ["in", "in", "plan.json", "in"]),
        (3, "plan /dpi: missing", ["plan.json", "in", "broken.json", "none"]),
        (5, "shelf: none/a.tif", ["plan.json", "in", "plan.json", "none"]),
        (5, "shelf: in/none.tif", ["plan.json", "in", "lacks.json", "in"]),
        (4, "file lzw.tif: tag 259: compression", ["plan.json", "in", "lzw.json", "in"]),
    ):
        refused(tried, folder, ["replate", *words, "OUT"], status, f"plateroom: {line}\n")
    sparse(os.path.join(folder, "in", "huge.tif"), 400_000_000)
    editions.write_plan(os.path.join(folder, "huge.json"), layer(file="huge.tif"))
    for words in (["huge.json", "in", "plan.json", "in"], ["plan.json", "in", "huge.json", "in"]):
        refused(tried, folder, ["replate", *words, "OUT"], 6, "plateroom: memory\n", limits=[(MEMORY, 1 << 28)])
    os.remove(os.path.join(folder, "in", "huge.tif"))
    tried.part("old and new jobs that are refused")


# ---- an edition in five inks

def small():
    """Five inks, 33 rows a plate, two sections, three zones, five sites with 15, 16, 19, 16 and 15 plates."""
    pages = [dict(page, layers=[dict(part, y=part.get("y", 0) // 13) for part in page["layers"]])
             for page in editions.five_pages()]
    five = editions.five()
    return dict(five, page=[43, 18], pages=pages, marks=[five["marks"][0], dict(five["marks"][1], h=31)])


def page_with(plan, name, **keys):
    pages = [dict(page, **keys) if page["name"] == name else page for page in plan["pages"]]
    return dict(plan, pages=pages)


def zone_with(plan, name, items):
    zones = [dict(zone, replace=items) if zone["name"] == name else zone for zone in plan["zones"]]
    return dict(plan, zones=zones)


def layers_with(plan, change):
    """The plan with another form of each layer."""
    return dict(plan, pages=[dict(page, layers=list(map(change, page["layers"]))) for page in plan["pages"]])


def in_full(part):
    """A layer with every key that it leaves out."""
    return dict({"x": 0, "y": 0, "scale": 1, "paint": "knockout", "ink": [0, 0, 0, 255]}, **part)


def cropped(part):
    """A layer of `chunky.tif` with a crop of the whole."""
    return dict(part, crop=[0, 0, 24, 98]) if part["file"] == "chunky.tif" else part


def renamed(plan):
    """The plan with other names of pages, tiles and zones."""
    def new(items, *keys):
        return [{key: value + "_2" if key in keys else value for key, value in item.items()} for item in items]
    screens = {ink: screen + "_2" * screen.startswith("tile:") for ink, screen in plan["screens"].items()}
    sections = [dict(section, pages=[name + "_2" for name in section["pages"]]) for section in plan["sections"]]
    zones = [dict(zone, replace=new(zone["replace"], "with")) for zone in new(plan["zones"], "name")]
    return dict(plan, pages=new(plan["pages"], "name"), tiles=new(plan["tiles"], "name"), screens=screens,
                sections=sections, zones=zones, sites=new(plan["sites"], "zone"))


def fewer(plan):
    """The plan with four pages in the place of six in a section, and no zone that names one that is gone."""
    first, late = plan["sections"]
    items = [item for item in plan["zones"][1]["replace"] if item["section"] == "Late"]
    return zone_with(dict(plan, sections=[dict(first, pages=first["pages"][:4]), late]), "east", items)


def changes(plan):
    """What changed, the new plan, how many plates are made at each site and dropped: counted by hand."""
    nothing, everything = (0, 0, 0, 0, 0), (15, 16, 19, 16, 15)
    bars, local = {"kind": "line", "file": "bars.tif"}, {"section": "A", "page": 6, "with": "local"}
    sites, tiles, zones = plan["sites"], plan["tiles"], plan["zones"]
    yield "a late page of one site", page_with(plan, "town", layers=[dict(bars, y=2)]), (0, 0, 4, 0, 0), 0
    yield "a page for a zone", zone_with(plan, "west", [*zones[0]["replace"], local]), (0, 5, 0, 5, 0), 0
    yield "one site in another zone", dict(
        plan, sites=[*sites[:3], dict(sites[3], zone="none"), sites[4]]), (0, 0, 0, 1, 0), 1
    gone = [{"name": "NEW", "zone": "west"}, sites[0], *sites[2:]]
    yield "a site that is gone and one that is new", dict(plan, sites=gone), (16, 0, 0, 0, 0), 16
    yield "sites in another order", dict(plan, sites=sites[::-1]), nothing, 0
    yield "fewer pages", fewer(plan), (9, 10, 9, 10, 9), 25
    yield "a section that is gone", zone_with(
        dict(plan, sections=plan["sections"][:1]), "east", zones[1]["replace"][:1]), nothing, 21
    yield "another edition", dict(plan, edition="FIVE_6"), everything, 81
    yield "another screen", dict(plan, screens=dict(plan["screens"], K="bayer8")), (4, 4, 4, 4, 4), 0
    other = dict(tiles[0], at=tiles[0]["at"][::-1])
    yield "another tile", dict(plan, tiles=[other, tiles[1]]), (3, 3, 4, 3, 3), 0
    yield "another curve", dict(plan, curves=dict(plan["curves"], S=[[0, 0], [255, 254]])), everything, 0
    yield "another mark", dict(
        plan, marks=[*plan["marks"], {"inks": "S", "x": 9, "y": 9, "w": 9, "h": 1}]), everything, 0
    yield "a page in another ink", page_with(plan, "blank", inks="KS"), (2, 0, 5, 0, 2), 0
    yield "a page in which nothing prints", page_with(plan, "unused", layers=[]), nothing, 0
    yield "a crop of the whole", layers_with(plan, cropped), (5, 5, 5, 5, 5), 0
    yield "layers in full", layers_with(plan, in_full), nothing, 0
    yield "other names", renamed(plan), nothing, 0


def in_five_inks(tried, folder, files):
    """Changes one thing after another."""
    plan = small()
    before = Edition(plan, files)
    for what, new, made, dropped in changes(plan):
        late = Late(tried, folder, what, before, Edition(new, files))
        counts = late.change.counts(), len(late.change.dropped)
        tried.holds(f"counts by hand, {what}", "" if counts == (made, dropped) else repr(counts))
        late.done()
    other = copied(folder, "turned", files, {"chunky.tif": 3})
    late = Late(tried, folder, "another byte of a picture", before, Edition(plan, other))
    tried.holds("counts by hand", "" if late.change.counts() == (5, 5, 5, 5, 5) else repr(late.change.counts()))
    late.done()
    os.replace(os.path.join(other, "chunky.tif"), os.path.join(other, "turned.tif"))
    shutil.copy(os.path.join(files, "chunky.tif"), os.path.join(other, "again.tif"))
    for name, made in (("again.tif", 0), ("turned.tif", 5)):
        def named(part):
            return dict(part, file=name) if part["file"] == "chunky.tif" else part
        late = Late(tried, folder, f"a picture as {name}", before, Edition(layers_with(plan, named), other))
        tried.holds("counts by hand", "" if late.change.counts() == (made,) * 5 else repr(late.change.counts()))
        late.done()
    tried.part("plates made again, in five inks")
    sites_that_leave(tried, folder, before, files)


def sites_that_leave(tried, folder, before, files):
    """A site whose folder or plate can't be made leaves, and the others have their plates."""
    plan = before.plan
    after = Edition(dict(plan, limit=400), files)
    for site, number, made in (("OSLO", 0, 0), ("TOWN", 1, 0), ("BERGEN", 6, 5), ("last", 14, 11)):
        path = after.spans()[0][site][number][0]
        late = Late(tried, folder, f"{path} can't be made", before, after)
        late.spoil(path)
        finished, _ = late.change.end(site, [path])
        tried.holds("counts by hand", "" if len(finished) == made else repr(finished))
        late.left([path])
    new = Edition(dict(plan, limit=400, sites=[*plan["sites"][:2], {"name": "NEW"}]), files)
    late = Late(tried, folder, "a site's folder can't be made", before, new)
    sparse(late.full("NEW"), 1)
    late.age()
    late.left([path for path, _, _ in new.spans()[0]["NEW"]], {"NEW": b"\0"})
    late = Late(tried, folder, "files that can't grow", before, after)
    status, text, note = tried.run(late.words, folder=folder, limits=[(FILES, 100)])
    line = r"site {0} left made 0 file OUT/{0}/FIVE_5-A-001-[CMYKS].tif\n"
    form = "".join(line.format(site["name"]) for site in plan["sites"]) + r"total made 0\n"
    is_told = status == 1 and note == b"" and re.fullmatch(form, text.decode())
    tried.holds(late.what, "" if is_told else f"{status}, {shown(text)}, {shown(note)}")
    tried.part("sites that leave where plates are made again")


# ---- random editions

def changed_by_chance(rng, plan):
    """A small edition with one to three changes."""
    plan = json.loads(json.dumps(plan))
    inks, names = "CMYKS"[:3 + plan["plan"]], [page["name"] for page in plan["pages"]]
    page, section, site = (rng.choice(plan[key]) for key in ("pages", "sections", "sites"))
    for change in rng.sample(range(11), rng.randint(1, 3)):
        if change == 0:
            page["layers"].append(editions.layer_by_chance(rng, len(inks)))
        elif change == 1:
            page["layers"] = page["layers"][1:]
        elif change == 2:
            page["inks"] = rng.choice(("K", "CMYK", "KS", "CMYKS")[:2 * plan["plan"]])
        elif change == 3:
            section["pages"][rng.randrange(len(section["pages"]))] = rng.choice(names)
        elif change == 4:
            section["pages"] += rng.sample(names, 2)
        elif change == 5:
            plan["screens"][rng.choice(inks)] = rng.choice(("bayer2", "bayer4", "diffuse"))
        elif change == 6 and plan["zones"]:
            site["zone"] = rng.choice(plan["zones"])["name"]
        elif change == 7:
            rng.shuffle(plan["sites"])
        elif change == 8:
            site["name"] = "NEW"
        elif change == 9 and len(plan["sites"]) > 1:
            plan["sites"].remove(rng.choice(plan["sites"]))
        elif change == 10:
            plan["limit"] = rng.choice((plan["limit"], 300))
    return plan


def by_chance(tried, folder, files, seeds):
    """Random small editions with random changes."""
    other, shares = copied(folder, "changed", files, {"bars.tif": 1, "white.tif": 5, "planar.tif": 9}), []
    for seed in seeds:
        plan = editions.by_chance(seed)
        rng = random.Random(1000 + seed)
        before = Edition(plan, files)
        after = Edition(changed_by_chance(rng, plan), rng.choice((files, files, other)))
        late = Late(tried, folder, f"random {seed}", before, after)
        late.done()
        shares.append(len(late.change.made) / len(recipes(after)))
    some = sum(0 < share < 1 for share in shares)
    tried.holds("changes of a part of the plates", "" if 3 * some > len(shares) else f"{some} of {len(shares)}")
    tried.part(f"{len(shares)} random changes")


def of_examples(tried, folder, before):
    """A byte of the picture on the first page."""
    changed = copied(folder, "examples", before.folder, {"packed.tif": 1})
    after = Edition(before.plan, changed)
    # The other pages print as they did.
    after.screens = {(name, ink): bits for (name, ink), bits in before.screens.items() if name != "front"}
    late = Late(tried, folder, "the picture of examples/", before, after)
    late.done("site OSLO made 4 kept 2\nsite BERGEN made 4 kept 2\ntotal made 8\n")
    first = {f"{site}/MORNING-A-001-{ink}.tif" for site in ("OSLO", "BERGEN") for ink in "CMYK"}
    tried.holds("the plates of the first page", "" if late.change.made == first else repr(late.change.made))
    tried.part("the plates of examples/ made again")


def trials(tried, folder, files, example):
    """`replate` over editions whose images are in `files`, and over that of examples/."""
    refusals(tried, folder)
    by_hand(tried, folder)
    in_five_inks(tried, folder, files)
    by_chance(tried, folder, files, range(1, 21))
    of_examples(tried, folder, example)
    shutil.rmtree(os.path.join(folder, "OUT"))
