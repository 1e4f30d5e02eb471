"""What `pressroom late` does: which plates it makes, that the version before is unchanged, and which pages it
refuses.
"""
import json
import os
import shutil

import press
from press import SITES, digest, faults_of_ready, faults_of_verify, pressroom

# Replaces `pressroom intake`: copies each page IN/NAME.pdf, which is a TIFF here, to WORK's file NAME.
INTAKE = """#!/bin/sh
[ "$1" = intake ] || exec '{entry}' "$@"
[ -f "$2" ] || exit 2
for page in "$3"/*.pdf; do
  name=$(basename "$page" .pdf)
  if [ "$(head -c 2 "$page")" = II ]; then
    cp "$page" "$4/files/.$name.part" && mv "$4/files/.$name.part" "$4/files/$name"
  else
    echo "fault: $page is damaged"
    exit 1
  fi
done
"""


class Late:
    """An edition that was made, and its late pages."""

    def __init__(self, tried, paper, folder):
        self.tried, self.paper, self.folder = tried, paper, os.path.join(folder, "late")
        os.mkdir(self.folder)
        self.program = press.stand_in(tried.program, self.folder)
        self.work = paper.work(os.path.join(self.folder, "work"))
        self.out = os.path.join(self.folder, "out")
        self.holds("make", pressroom(self.program, "make", self.work, self.out).returncode == 0, "status")
        self.wanted = paper.plates(tried.program, self.work)

    def holds(self, what, is_so, seen):
        self.tried.holds(f"late, {what}", "" if is_so else repr(seen))

    def current(self):
        return os.path.join(self.out, os.readlink(os.path.join(self.out, "current")))

    def page(self, name, other):
        """A late page: the bytes of another file of the edition, under this one's name."""
        path = os.path.join(self.folder, name)
        shutil.copyfile(os.path.join(self.paper.art, other), path)
        return path

    def tree(self, folder):
        """Each file below a folder with its number on the disk, its bytes and its times but for that of
        its links."""
        paths = [os.path.join(at, name) for at, _, names in os.walk(folder) for name in names]
        return {path: (os.stat(path).st_ino, os.stat(path).st_mtime_ns, digest(path)) for path in paths}

    def made(self, what, page, sites, *names):
        """A late page makes these plates of these sites: exactly they are new files, all plates are
        right, and the version before stays."""
        old, stood = self.current(), self.tree(self.current())
        before = self.wanted
        answer = pressroom(self.program, "late", self.work, page, self.out)
        self.holds(f"{what}, status", answer.returncode == 0, answer)
        new = self.current()
        self.wanted = self.paper.plates(self.tried.program, self.work)
        differ = {path for path in self.wanted if self.wanted[path] != before.get(path)}
        made = {f"{site}/{name}" for site in sites for name in names}
        self.holds(f"{what}, plates differ", set() < differ <= made, differ)
        self.holds(f"{what}, another version", new > old, new)
        self.tried.holds(f"late, {what}, READY", faults_of_ready(new, self.wanted, SITES))
        self.tried.holds(f"late, {what}, verify", faults_of_verify(self.tried.program, new))
        self.holds(f"{what}, the version before", self.tree(old) == stood, "it changed")
        linked = {
            path
            for path in self.wanted
            if os.path.exists(os.path.join(old, path))
            and os.path.samefile(os.path.join(new, path), os.path.join(old, path))
        }
        self.holds(f"{what}, links", linked == set(self.wanted) - made, sorted(linked ^ set(self.wanted)))
        told = set()
        for site in SITES:
            with open(os.path.join(new, site, "READY"), encoding="utf-8") as file:
                lines = file.read().splitlines()
            self.holds(f"{what}, since", f"since {os.path.basename(old)}" in lines, lines)
            told |= {f"{site}/{line.split()[1]}" for line in lines if line.startswith("made ")}
        self.holds(f"{what}, READY names what changed", told == made, told)

    def pages(self):
        """Another text on page A3, and another plan."""
        self.made("page A3", self.page("A3-text.tif", "A2-text.tif"), SITES, "MORNING-A-002-K.tif")
        with open(os.path.join(self.work, "south.json"), encoding="utf-8") as file:
            plan = json.load(file)
        plan["screens"]["Y"] = "bayer4"
        text = os.path.join(self.folder, "south.json")
        with open(text, "w", encoding="utf-8") as file:
            json.dump(plan, file)
        names = [f"MORNING-{pair}-Y.tif" for pair in ("A-001", "B-001", "B-002")]
        self.made("a screen", text, press.PRESSES["south"], *names)

    def stays(self, what, status, line, *words):
        """late ends so: no version is new, and WORK is unchanged."""
        before, work, names = self.current(), self.tree(self.work), os.listdir(self.out)
        answer = pressroom(self.program, "late", *words)
        self.holds(
            f"{what}, status", answer.returncode == status and "Traceback" not in answer.stderr, answer
        )
        self.holds(f"{what}, line", line in answer.stdout + answer.stderr, answer)
        shas = {path: entry[2] for path, entry in work.items()}
        self.holds(
            f"{what}, WORK",
            {path: entry[2] for path, entry in self.tree(self.work).items()} == shas,
            "changed",
        )
        ready = [
            name
            for name in os.listdir(self.out)
            if name not in names and press.sites_ready(os.path.join(self.out, name))
        ]
        self.holds(f"{what}, no version", not ready and self.current() == before, ready)

    def refuses(self):
        """The same page again, a damaged one, one of no plan, an OUT without an edition."""
        self.stays(
            "the same page",
            0,
            "nothing changed",
            self.work,
            self.page("A3-text.tif", "A2-text.tif"),
            self.out,
        )
        cut = self.page("A2-text.tif", "A3-text.tif")
        os.truncate(cut, 1000)
        self.stays("a damaged page", 4, "fault: A2-text.tif (line)", self.work, cut, self.out)
        self.stays(
            "no page of it", 2, "has a file A9.tif", self.work, self.page("A9.tif", "A2-text.tif"), self.out
        )
        empty = os.path.join(self.folder, "empty")
        os.mkdir(empty)
        self.stays(
            "no edition",
            2,
            "no version that is READY",
            self.work,
            self.page("B2-text.tif", "A2-text.tif"),
            empty,
        )

    def leaves(self):
        """A site fails in replate: it is remade alone, in full, and the version before is unchanged."""
        with open(os.path.join(self.folder, "fault"), "w", encoding="utf-8") as file:
            file.write("killed 1\n")
        old, stood = self.current(), self.tree(self.current())
        answer = pressroom(
            self.program, "late", self.work, self.page("A1-photo.tif", "A1north-photo.tif"), self.out
        )
        self.wanted = self.paper.plates(self.tried.program, self.work)
        self.holds(
            "killed, status", answer.returncode == 0 and "retry: site TROMSO alone" in answer.stderr, answer
        )
        self.tried.holds("late, killed, READY", faults_of_ready(self.current(), self.wanted, SITES))
        self.holds(
            "killed, the version before", self.tree(old) == stood and self.current() > old, "it changed"
        )

    def written_in_place(self):
        """A file of WORK was written in place, so that the version before lost what it was made of: all is
        made anew."""
        shutil.copyfile(
            os.path.join(self.paper.art, "A2-text.tif"), os.path.join(self.work, "files", "B2-text.tif")
        )
        answer = pressroom(self.program, "late", self.work, self.page("B3-text.tif", "A2-text.tif"), self.out)
        self.wanted = self.paper.plates(self.tried.program, self.work)
        self.holds("in place, status", answer.returncode == 0, answer)
        self.tried.holds("late, in place, READY", faults_of_ready(self.current(), self.wanted, SITES))

    def intake(self):
        """With --house and --in the page goes through `pressroom intake`, and comes back where that
        refuses it."""
        stand, into = os.path.join(self.folder, "pressroom"), os.path.join(self.folder, "in")
        with open(stand, "w", encoding="utf-8") as file:
            file.write(INTAKE.format(entry=press.ENTRY))
        os.chmod(stand, 0o755)
        os.mkdir(into)
        shutil.copyfile(os.path.join(self.paper.art, "A1-text.tif"), os.path.join(into, "A1-text.tif.pdf"))
        house = self.page("house.toml", "A1-text.tif")
        for good in (False, True):
            page = self.page("A1-text.tif.pdf", "A1north-text.tif")
            if not good:
                with open(page, "w", encoding="utf-8") as file:
                    file.write("%PDF")
            words = ["late", self.work, page, self.out, "--house", house, "--in", into]
            stood = digest(os.path.join(into, "A1-text.tif.pdf"))
            answer = pressroom(self.program, *words, PRESSROOM=stand)
            self.holds(f"intake, good {good}", answer.returncode == (0 if good else 4), answer)
            same = digest(os.path.join(into, "A1-text.tif.pdf")) == stood
            self.holds(f"intake, IN, good {good}", same == (not good), os.listdir(into))
        self.wanted = self.paper.plates(self.tried.program, self.work)
        self.tried.holds("late, intake, READY", faults_of_ready(self.current(), self.wanted, SITES))


def late_trials(tried, paper, folder):
    trial = Late(tried, paper, folder)
    for part in (trial.pages, trial.refuses, trial.leaves, trial.written_in_place, trial.intake):
        part()
    tried.part("late")
