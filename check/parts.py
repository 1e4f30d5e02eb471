#!/usr/bin/env python3
"""Tests tools/parts.py: how it cuts random editions, and that it refuses what the program refuses.

    check/parts.py PROGRAM [COUNT]

For each of COUNT editions (200) it checks that by the definitions each plate of the full edition is in
exactly one part and made from the same there; what the lines of the parts say; that the program accepts each
part, and that all of them leave what one run of the full edition does, byte for byte; and what `verify` and
`replate` report of it. The last line is `N passed, M failed`, and the status is 1 if one failed.
"""
import json
import os
import random
import shutil
import subprocess
import sys
import tempfile

sys.dont_write_bytecode = True

import answers
import editions
import trial
from picks import recipes
from plates import Edition

TOP = os.path.join(os.path.dirname(os.path.abspath(__file__)), "..")
PARTS, NEWSPAPER = os.path.join(TOP, "tools", "parts.py"), os.path.join(TOP, "examples", "newspaper", "plan.json")


def edition_by_chance(seed):
    """An edition of up to five sections for up to six sites, of which any may have a zone."""
    plan, rng = editions.by_chance(seed, 5, 4, 6), random.Random(seed)
    rng.shuffle(plan["sites"])
    if len(plan["sites"]) > 1 and rng.random() < 0.5:
        plan["sites"] = [site for site in plan["sites"] if "zone" in site] or plan["sites"]
    return plan


def names_of(plan):
    """The files that a plan names."""
    return {layer[key] for page in plan["pages"] for layer in page["layers"] for key in ("file", "mask") if key in layer}


def printed(edition):
    """The pages that some site prints."""
    return {page for _, left, right, _, _ in edition.groups() for page in (left, right)}


def alone(edition, section, site):
    """What one site prints of one section."""
    plan = edition.plan
    return Edition(plan | {"sections": [section], "sites": [site]}, edition.folder)


def size(edition):
    """The bytes of all files of the pages that are printed."""
    pages = [page for page in edition.plan["pages"] if page["name"] in printed(edition)]
    return sum(os.path.getsize(os.path.join(edition.folder, name)) for name in names_of({"pages": pages}))


def held(folder):
    """All files below a folder, by their paths there."""
    files = {}
    for at, _, names in os.walk(folder):
        for name in names:
            with open(os.path.join(at, name), "rb") as file:
                files[os.path.relpath(os.path.join(at, name), folder)] = file.read()
    return files


class Cut:
    """An edition and the parts into which the tool cuts it."""

    def __init__(self, tried, folder, what, plan, files, by, most=None):
        self.tried, self.folder, self.what, self.by, self.most = tried, folder, what, by, most
        self.words = (["--by", by] if by else []) + (["--most", str(most)] if most else [])
        self.whole = Edition(plan, files)
        self.text, self.cut = os.path.join(folder, "plan.json"), os.path.join(folder, "cut")
        shutil.rmtree(self.cut, ignore_errors=True)
        editions.write_plan(self.text, plan)
        self.answer = tool(tried, self.text, self.cut, "--files", files, *self.words)
        self.parts = {}
        for line in self.answer.stdout.splitlines():
            name = line.split()[1]
            with open(os.path.join(self.cut, name), encoding="utf-8") as file:
                self.parts[name] = Edition(json.load(file), files)

    def holds(self, what, fault):
        self.tried.holds(f"{self.what} {' '.join(self.words)}: {what}", fault)

    def too_large(self):
        """Whether the files of one section for one site are larger than they may be: then no part is made."""
        sizes = [size(alone(self.whole, section, site))
                 for section in self.whole.plan["sections"] for site in self.whole.plan["sites"]]
        if self.most is None or max(sizes) <= self.most:
            return False
        is_so = self.answer.returncode == 1 and not self.parts and not os.path.exists(self.cut)
        self.holds("refused", "" if is_so and "can't be cut" in self.answer.stderr else self.answer.stderr)
        return True

    def by_definitions(self):
        """Each plate is in one part, and made there of what it is in the whole; the lines say what a part is."""
        wanted, parts = recipes(self.whole), {name: recipes(part) for name, part in self.parts.items()}
        self.holds("status", self.answer.stderr if self.answer.returncode else "")
        self.holds("files", "" if sorted(os.listdir(self.cut)) == sorted(parts) else repr(os.listdir(self.cut)))
        count = sum(map(len, parts.values()))
        self.holds("each once", "" if count == len(wanted) else f"{count} plates, and {len(wanted)} in the whole")
        made = {path: recipe for part in parts.values() for path, recipe in part.items()}
        self.holds("recipes", "" if made == wanted else ", ".join(sorted(p for p in wanted if made.get(p) != wanted[p])[:3]))
        for line, (name, part) in zip(self.answer.stdout.splitlines(), self.parts.items()):
            sections, sites = ([item["name"] for item in part.plan[key]] for key in ("sections", "sites"))
            said = (f"plan {sections[0]}-{sites[0]}.json sections {','.join(sections)} sites {','.join(sites)} "
                    f"plates {len(parts[name])} rows {part.spans()[1]} bytes {size(part)}")
            self.holds("a line", "" if line == said else f"{line!r}, not {said!r}")
            needed = printed(part) == set(part.pages) and {
                zone["name"] for zone in part.plan["zones"]} == {
                site["zone"] for site in part.plan["sites"] if "zone" in site}
            self.holds(f"what {name} needs", "" if needed else "it has more")
            form = {None: len(sites) == len(self.whole.plan["sites"]) and len(sections) == 1, "both": len(sections) == 1,
                    "site": len(sections) == len(self.whole.plan["sections"])}
            is_so = size(part) <= self.most if self.most else form[None if self.by == "section" else self.by]
            self.holds(f"the form of {name}", "" if is_so else line)

    def by_program(self):
        """The program takes each part, and leaves together what a run of the whole does; its answers say so."""
        outs = [os.path.join(self.folder, name) for name in ("OUT", "PARTS")]
        for out in outs:
            shutil.rmtree(out, ignore_errors=True)
        files = self.whole.folder
        self.answers(["run", self.text, files, "OUT"], self.whole.report("OUT"))
        for name, part in self.parts.items():
            self.answers(["run", os.path.join(self.cut, name), files, "PARTS"], part.report("PARTS"))
        whole, parts = map(held, outs)
        self.holds("plates", "" if whole == parts and len(whole) == len(recipes(self.whole)) else "they differ")
        same = f"same plates {len(recipes(self.whole))} sites {len(self.whole.plan['sites'])}\n"
        self.answers(["verify", self.text, files, "PARTS"], same)
        for name, part in self.parts.items():
            kept = "".join(f"site {site} made 0 kept {len(spans)}\n" for site, spans in part.spans()[0].items())
            others = [path for spans in self.whole.spans()[0].values() for path, _, _ in spans
                      if path not in recipes(part)]
            lines = kept + "".join(f"dropped PARTS/{path}\n" for path in others) + "total made 0\n"
            self.answers(["replate", self.text, files, os.path.join(self.cut, name), files, "PARTS"], lines)

    def answers(self, words, out):
        self.tried.answers(words, 0, out.encode(), b"", " ".join([self.what, *self.words]), folder=self.folder)


def tool(tried, *words):
    return subprocess.run([sys.executable, "-B", PARTS, *words, "--program", tried.program], capture_output=True, text=True)


def by_chance(tried, folder, files, count):
    """Random editions, cut at random."""
    several, refused = 0, 0
    for seed in range(count):
        rng, what = random.Random(seed + 7_000), (tried, folder, f"edition {seed}", edition_by_chance(seed), files)
        by = rng.choice(("section", "site", "both", None))
        cut = Cut(*what, by, rng.choice((None, None, None, 9_000, 20_000, 40_000, 10 ** 9)))
        if cut.too_large():
            refused += 1
            cut = Cut(*what, by)
        cut.by_definitions()
        cut.by_program()
        several += len(cut.parts) > 1
    tried.holds("several parts", "" if 3 * several > count else f"{several} of {count}")
    tried.part(f"{count} random editions, {several} in several parts, {refused} too large for --most at first")


def hostile(tried, folder):
    """What the program refuses is refused by its line, and nothing is made."""
    path, out = os.path.join(folder, "hostile.json"), os.path.join(folder, "hostile")
    texts = [(plan if isinstance(plan, bytes) else json.dumps(plan).encode(), fault) for plan, fault in answers.PLANS]
    texts.append((b" " * 16_777_217, ": too long"))
    for text, fault in texts:
        editions.write(folder, "hostile.json", text)
        answer = tool(tried, path, out)
        is_so = (answer.returncode, answer.stdout, answer.stderr) == (3, "", f"plateroom: plan{fault}\n")
        tried.holds(f"a plan of {fault}", "" if is_so and not os.path.exists(out) else repr(answer))
    tried.part("plans that are refused")


def newspaper(tried, folder):
    """The parts of the newspaper of examples/, whose README says which plates its sites share: in section A BERGEN
    has 5 of OSLO's 6 and TROMSO 1, in B BERGEN 4 of 9 and TROMSO all."""
    whole, cut = "OSLO,BERGEN,TROMSO", os.path.join(folder, "newspaper")
    for by, parts in (
        ("section", [("A", whole, 18), ("B", whole, 27)]), ("site", [("A,B", whole, 45)]),
        ("both", [("A", "OSLO,BERGEN", 12), ("A", "TROMSO", 6), ("B", "OSLO,TROMSO", 18), ("B", "BERGEN", 9)]),
    ):
        answer = tool(tried, NEWSPAPER, cut, "--by", by)
        found = [tuple(line.split()[3:8:2]) for line in answer.stdout.splitlines()]
        wanted = [(sections, sites, str(plates)) for sections, sites, plates in parts]
        tried.holds(f"the newspaper by {by}", "" if found == wanted else repr(answer))
    tried.part("the parts of the newspaper")


def words(tried, folder, files):
    """Wrong arguments, missing files, and a part that is already present."""
    plan, path, cut = edition_by_chance(1), os.path.join(folder, "plan.json"), os.path.join(folder, "cut")
    shutil.rmtree(cut, ignore_errors=True)
    editions.write_plan(path, plan)
    blocked = os.path.join(folder, "file")
    editions.write(folder, "file", b"")
    for given, status, said in (
        ((path,), 2, "OUT"), ((path, cut, "--by", "page"), 2, "'page'"), ((path, cut, "--most", "x"), 2, "'x'"),
        ((os.path.join(folder, "none.json"), cut), 2, "none.json: No such file"),
        ((path, blocked), 2, "file: File exists"),
        ((path, cut, "--most", "10000000", "--files", "/dev/null"), 4, "/dev/null/"),
    ):
        answer = tool(tried, *given)
        is_so = answer.returncode == status and answer.stdout == "" and said in answer.stderr
        tried.holds(f"parts.py {' '.join(given)}", "" if is_so else repr(answer))
    answer = tool(tried, path, cut, "--files", "/dev/null")
    tried.holds("bytes of files that aren't there", "" if answer.stdout.endswith(" bytes unknown\n") else repr(answer))
    stood = {name: os.stat(os.path.join(cut, name)).st_mtime_ns for name in os.listdir(cut)}
    tool(tried, path, cut, "--files", files)
    kept = {name: os.stat(os.path.join(cut, name)).st_mtime_ns for name in os.listdir(cut)}
    tried.holds("parts that are the same stay", "" if kept == stood else f"{stood}, {kept}")
    plan["dpi"] = plan["dpi"] % 10_000 + 1
    editions.write_plan(path, plan)
    tool(tried, path, cut, "--files", files)
    now = {name: os.stat(os.path.join(cut, name)).st_mtime_ns for name in os.listdir(cut)}
    tried.holds("parts that changed are written", "" if all(now[name] > kept[name] for name in now) else repr(now))
    tried.part("arguments, files and parts that are present")


def main():
    if len(sys.argv) not in (2, 3):
        sys.exit(__doc__.splitlines()[2].strip())
    tried = trial.Trial(sys.argv[1])
    room = "/dev/shm" if os.access("/dev/shm", os.W_OK) else None
    with tempfile.TemporaryDirectory(prefix="check-", dir=room) as folder:
        files = os.path.join(folder, "images")
        editions.write_images(files)
        try:
            hostile(tried, folder)
            newspaper(tried, folder)
            words(tried, folder, files)
            by_chance(tried, folder, files, int(sys.argv[2]) if len(sys.argv) == 3 else 200)
        except trial.Hangs:
            tried.holds("the trials end", "too many runs weren't done in time")
    return tried.end()


if __name__ == "__main__":
    sys.exit(main())
