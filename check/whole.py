"""Plates are whole under their names: with another run, after a kill, on a full disk, among links."""
import contextlib
import fcntl
import os
import random
import re
import resource
import shutil
import signal
import subprocess
import time

import editions
from plates import Edition, compared

TIMES = 50
WORDS = ["run", "new.json", "images", "OUT"]
LEFT = r"site \w+ left plates 0 row \d+ call begin file OUT/(\w+)/"

# What `run` says of a site that finished.
FINISHED = r"^site (\w+) finished "


class Pair:
    """An older edition and a newer one of the same plates, none of which is the same in both."""

    def __init__(self, tried, folder, files):
        self.tried, self.folder, self.out = tried, folder, os.path.join(folder, "OUT")
        self.editions = {}
        for name, points in (("old", [[0, 255], [255, 0]]), ("new", [[0, 0], [255, 254]])):
            plan = editions.five()
            plan["curves"] = {ink: points for ink in "CMYKS"}
            editions.write_plan(os.path.join(folder, f"{name}.json"), plan)
            self.editions[name] = Edition(plan, files)
        self.plates = {name: dict(edition.plates()) for name, edition in self.editions.items()}
        self.sites = list(self.editions["new"].spans()[0])

    def lay(self):
        """Leaves only the older edition."""
        shutil.rmtree(self.out, ignore_errors=True)
        self.tried.answers(["run", "old.json", *WORDS[2:]], 0, None, b"", folder=self.folder)

    def begin(self, name):
        """Starts a run of an edition, which continues meanwhile."""
        return subprocess.Popen([self.tried.program, "run", f"{name}.json", *WORDS[2:]], cwd=self.folder,
                                stdin=subprocess.DEVNULL, stdout=subprocess.PIPE, stderr=subprocess.PIPE)

    def found(self):
        """The files below OUT: the editions that each plate is of, possibly none, and which files are begun."""
        plates, parts = {}, []
        for at, _, names in os.walk(self.out):
            for name in names:
                path = os.path.relpath(os.path.join(at, name), self.out)
                if path.endswith(".part"):
                    parts.append(path)
                    continue
                with open(os.path.join(at, name), "rb") as file:
                    plate = file.read()
                plates[path] = [name for name in self.plates if self.plates[name].get(path) == plate]
        return plates, parts

    def verified(self, name):
        """Whether `verify` finds the plates of an edition, all of them the same."""
        return self.tried.run(["verify", f"{name}.json", *WORDS[2:]], folder=self.folder)[0] == 0


def at_once(pair, rng):
    """Two runs into one folder, fifty times. Each site is delivered by one of them."""
    counts = {"none": 0, "one": 0, "both": 0}
    for _ in range(TIMES):
        shutil.rmtree(pair.out, ignore_errors=True)
        runs = {}
        for name in rng.sample(["old", "new"], 2):
            runs[name] = pair.begin(name)
            time.sleep(rng.choice((0, 0, 0.001, 0.003)))
        said = {name: [text.decode() for text in run.communicate(timeout=60)] for name, run in runs.items()}
        plates, parts = pair.found()
        faults = [f"{path} is of no edition" for path, names in plates.items() if not names] + parts
        refused = {name: set(re.findall(LEFT, text)) for name, (text, _) in said.items()}
        for name, other in (("old", "new"), ("new", "old")):
            text, note = said[name]
            done = set(re.findall(FINISHED, text, re.MULTILINE))
            if note or done | refused[name] != set(pair.sites) or done & refused[name]:
                faults.append(f"{name} says {text[:200]!r} and {note[:100]!r}")
            if runs[name].returncode != (1 if refused[name] else 0):
                faults.append(f"{name} ends with status {runs[name].returncode}")
            if refused[name] & refused[other]:
                faults.append("a site was refused to both")
            # What the other run held it has delivered, each plate whole.
            faults += [f"{path} is not of {other}" for path, names in plates.items()
                       if path.split("/")[0] in refused[name] and names != [other]]
        if set(plates) != set(pair.plates["new"]):
            faults.append("not all plates are there")
        for name in runs:
            is_same = all(names == [name] for names in plates.values())
            if pair.verified(name) != is_same:
                faults.append(f"verify of {name} says otherwise")
        pair.tried.holds("two runs at once", "; ".join(faults[:3]))
        counts[("none", "one", "both")[sum(map(bool, refused.values()))]] += 1
    pair.tried.holds("two runs at once meet", "" if counts["none"] < TIMES else "none was refused")
    pair.tried.part(f"two runs at once, {TIMES} times: a site was refused to one {counts['one']} times, "
                    f"to both {counts['both']}, to none {counts['none']}")


def killed(pair, rng):
    """A run is killed over an older edition, fifty times. The next run replaces what it began."""
    counts, runs = {"old": 0, "new": 0, "begun": 0, "ended": 0}, []
    for _ in range(3):
        pair.lay()
        begun = time.monotonic()
        pair.begin("new").communicate(timeout=60)
        runs.append(time.monotonic() - begun)
    took = min(runs)
    for _ in range(TIMES):
        pair.lay()
        run = pair.begin("new")
        time.sleep(rng.uniform(0, took))
        run.send_signal(signal.SIGKILL)
        run.communicate()
        plates, parts = pair.found()
        faults = [f"{path} is of no edition" for path, names in plates.items() if not names]
        names = {f"{path}.part" for path in pair.plates["new"]}
        faults += [f"{part} is no plate's" for part in parts if part not in names]
        if set(plates) != set(pair.plates["new"]):
            faults.append("not all plates are there")
        for names in plates.values():
            for name in names:
                counts[name] += 1
        counts["begun"] += len(parts)
        counts["ended"] += run.returncode == 0
        pair.tried.holds("plates after a kill", "; ".join(faults[:3]))
        pair.tried.answers(WORDS, 0, pair.editions["new"].report("OUT").encode(), b"", folder=pair.folder)
        pair.tried.holds("plates of the run after a kill", compared(pair.plates["new"], pair.out))
    pair.tried.part(f"a run that is killed, {TIMES} times: {counts['old']} plates were old, {counts['new']} "
                    f"new, {counts['begun']} files begun, {counts['ended']} runs ended before")


def says(pair, what, status, pattern, words=WORDS, limits=()):
    """A run ends with this status and says this."""
    got, text, note = pair.tried.run(words, folder=pair.folder, limits=limits)
    is_said = got == status and note == b"" and re.search(pattern, text.decode())
    pair.tried.holds(what, "" if is_said else f"{got}, {text[:200]}, {note}")


def stays(pair, what, status, pattern, limits=(), names=("old",), words=WORDS):
    """The same, and each plate below OUT then is whole, of one of these editions."""
    says(pair, what, status, pattern, words, limits)
    plates, _ = pair.found()
    wrong = [path for path, of in plates.items() if not set(of) & set(names)]
    lacking = sorted(set(pair.plates["new"]) - set(plates))
    pair.tried.holds(f"plates, {what}", ", ".join((wrong + lacking)[:3]))


@contextlib.contextmanager
def mounted(folder, size):
    """A small disk, where this user may mount one: whether there is one."""
    os.makedirs(folder, exist_ok=True)
    words = ["mount", "-t", "tmpfs", "-o", f"size={size}", "tmpfs", folder]
    can = shutil.which("mount") is not None
    is_there = can and subprocess.run(words, capture_output=True).returncode == 0
    try:
        yield is_there
    finally:
        if is_there:
            subprocess.run(["umount", folder], check=True)


def full_disk(pair):
    """A disk on which one edition has room and not a second one, and then one that may not be written."""
    left = r"site \w+ left plates \d+ row \d+ call (begin|row|finish) file OUT/"
    shutil.rmtree(pair.out, ignore_errors=True)
    pages = sum(-(-len(plate) // 4096) for plate in pair.plates["old"].values())
    with mounted(pair.out, 4096 * (pages + 24)) as is_there:
        if is_there:
            words = ["run", "old.json", *WORDS[2:]]
            pair.tried.answers(words, 0, None, b"", "a small disk", folder=pair.folder)
            stays(pair, "a disk that has room for some plates", 1, left, names=("old", "new"))
            filler = os.path.join(pair.out, "filler.part")
            with contextlib.suppress(OSError), open(filler, "wb", buffering=0) as file:
                while file.write(bytes(4096)):
                    pass
            stays(pair, "a full disk", 1, left, names=("old", "new"))
            subprocess.run(["mount", "-o", "remount,ro", pair.out], check=True)
            stays(pair, "a disk that can't be written", 1, LEFT, names=("old", "new"))
    if not is_there:
        print("skipped: a full disk, since this user may not mount one")
    pair.lay()
    stays(pair, "files that can't grow", 1, left, [(resource.RLIMIT_FSIZE, 100)])
    pair.tried.part("a full disk")


def in_the_way(pair):
    """Links, folders and a lock in the places of a plate, of its file and of its folder."""
    site = pair.sites[0]
    first = pair.editions["new"].spans()[0][site][0][0]
    plate, lying = os.path.join(pair.out, first), os.path.join(pair.folder, "lying")
    left = rf"site {site} left plates 0 row \d+ call begin file OUT/{first}\n"
    for place in (plate, plate + ".part"):
        pair.lay()
        with open(lying, "wb") as file:
            file.write(b"not ours\n")
        with contextlib.suppress(FileNotFoundError):
            os.remove(place)
        os.symlink(lying, place)
        pair.tried.answers(WORDS, 0, None, b"", folder=pair.folder)
        pair.tried.holds("plates where a link lay", compared(pair.plates["new"], pair.out))
        with open(lying, "rb") as file:
            pair.tried.holds("what the link led to", "" if file.read() == b"not ours\n" else "it was written")
        pair.tried.holds("no link is left", "it is one" if os.path.islink(plate) else "")
    pair.lay()
    os.mkdir(os.path.join(pair.out, first) + ".part")
    stays(pair, "a folder in the place of a plate's file", 1, left, names=("old", "new"))
    pair.lay()
    with contextlib.ExitStack() as stack:
        lock = os.open(os.path.join(pair.out, site), os.O_RDONLY)
        stack.callback(os.close, lock)
        fcntl.flock(lock, fcntl.LOCK_EX)
        before = os.stat(os.path.join(pair.out, first)).st_mtime_ns
        stays(pair, "a folder that another run has", 1, left, names=("old", "new"))
        stays(pair, "the same with keys", 1, left, names=("old", "new"), words=["keys", *WORDS[1:], "4"])
        stays(pair, "the same with replate", 1, rf"site {site} left made 0 file OUT/{first}\n",
              names=("old", "new"), words=["replate", "old.json", "images", *WORDS[1:]])
        same = os.stat(os.path.join(pair.out, first)).st_mtime_ns == before
        pair.tried.holds("the folder of the other run", "" if same else "it was written")
        lines = pair.tried.run(["verify", *WORDS[1:]], folder=pair.folder)
        pair.tried.holds("verify needs no lock", "" if lines[0] in (0, 8) else f"{lines}")
    pair.tried.answers(WORDS, 0, None, b"", folder=pair.folder)
    pair.tried.holds("plates once the other run ended", compared(pair.plates["new"], pair.out))
    shutil.rmtree(os.path.join(pair.out, site))
    os.symlink("/proc", os.path.join(pair.out, site))
    says(pair, "a link in a folder's place, to one that can't be written", 1, left)
    os.remove(os.path.join(pair.out, site))
    pair.tried.part("links, folders and locks in the places of plates")


def trials(tried, folder, files):
    pair, rng = Pair(tried, folder, files), random.Random(5)
    in_the_way(pair)
    full_disk(pair)
    at_once(pair, rng)
    killed(pair, rng)
    shutil.rmtree(pair.out, ignore_errors=True)
