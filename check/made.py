"""What `pressroom make` does: versions, READY, retries, statuses."""
import fcntl
import json
import os
import shutil
import subprocess

import press
from press import SITES, faults_of_ready, faults_of_verify, pressroom, sites_ready, sums_below


class Make:
    """A WORK folder, an OUT folder, and a program that fails on request."""

    def __init__(self, tried, paper, folder):
        self.tried, self.paper, self.folder = tried, paper, os.path.join(folder, "make")
        os.mkdir(self.folder)
        self.program = press.stand_in(tried.program, self.folder)
        self.work = paper.work(os.path.join(self.folder, "work"))
        self.out = os.path.join(self.folder, "out")
        self.wanted = paper.plates(tried.program, self.work)

    def file(self, *names):
        return os.path.join(self.out, *names)

    def fault(self, text):
        with open(os.path.join(self.folder, "fault"), "w", encoding="utf-8") as file:
            file.write(text)

    def versions(self):
        return sorted(set(os.listdir(self.out)) - {"current", ".lock"}) if os.path.isdir(self.out) else []

    def makes(self, what, status, ready, *words, current=True):
        """make ends with this status, these sites are READY and right in its version, and `current` moves
        or not."""
        before = set(self.versions())
        led = os.readlink(self.file("current")) if os.path.lexists(self.file("current")) else None
        answer = pressroom(self.program, "make", self.work, self.out, *words)
        self.holds(f"{what}, status", answer.returncode == status, answer)
        new = sorted(set(self.versions()) - before)
        self.holds(f"{what}, one version", len(new) == 1 and new[0] > max(before, default=""), new)
        if len(new) != 1:
            return answer, {}
        version = self.file(new[0])
        self.holds(f"{what}, sites", sites_ready(version) == ready, sites_ready(version))
        self.tried.holds(f"{what}, READY", faults_of_ready(version, self.wanted))
        now = os.readlink(self.file("current")) if os.path.lexists(self.file("current")) else None
        self.holds(f"{what}, current", now == (new[0] if current else led), now)
        with open(os.path.join(version, "report.json"), encoding="utf-8") as file:
            report = json.load(file)
        self.holds(f"{what}, report", report["status"] == status, report)
        return answer, report

    def holds(self, what, is_so, seen):
        self.tried.holds(f"make, {what}", "" if is_so else repr(seen))

    def whole(self):
        """All sites are READY with the program's own plates; the report has steps, presses and sites."""
        _, report = self.makes("whole", 0, SITES)
        self.tried.holds("make, verify", faults_of_verify(self.tried.program, self.file("current")))
        self.holds("whole, plates", sums_below(self.file("current")) == self.wanted, "other plates")
        self.holds("whole, steps", {"check", "run", "verify", "sums"} <= set(report["seconds"]), report)
        self.holds(
            "whole, pages", report["pages"] == 22 and report["plates"] == len(self.wanted), report["plates"]
        )
        each = {site: (entry["ready"], entry["retried"]) for site, entry in report["sites"].items()}
        self.holds("whole, sites of the report", each == {site: (True, False) for site in SITES}, each)

    def keys(self):
        """The counts of ink keys in PRESS.report are the program's own."""
        self.makes("keys", 0, SITES, "--keys", "4")
        for name in press.PRESSES:
            words = ["keys", os.path.join(self.work, f"{name}.json"), os.path.join(self.work, "files")]
            said = subprocess.run(
                [self.tried.program, *words, os.path.join(self.folder, "keys"), "4"],
                text=True,
                capture_output=True,
                check=True,
            ).stdout
            with open(self.file("current", f"{name}.report"), encoding="utf-8") as file:
                self.holds(f"keys of {name}", file.read() == said, said)

    def parts(self):
        """In parts the plates are the same."""
        if shutil.which("make"):
            self.makes("parts", 0, SITES, "--parts")
        else:
            print("skipped: parts (make isn't installed)")

    def recovers(self):
        """A site that fails once is remade alone, and no other site is."""
        for word, why in (
            ("blocked", "left plates 0 row 0 call begin"),
            ("killed", "the program ended with status 137"),
            ("spoiled", "verify: differs "),
        ):
            self.fault(f"{word} 1")
            answer, report = self.makes(word, 0, SITES)
            retried = [site for site in SITES if report["sites"][site]["retried"]]
            self.holds(f"{word}, retried", retried == ["TROMSO"], report["sites"])
            self.holds(f"{word}, why", why in answer.stderr, answer.stderr)

    def leaves(self):
        """A site that fails twice isn't READY, the others are, and `current` stays; --resume makes that
        site alone."""
        self.fault("blocked 2")
        answer, report = self.makes("blocked twice", 1, SITES[:2], current=False)
        why = report["sites"]["TROMSO"]["why"]
        self.holds("blocked twice, why", why.startswith("left plates 0 row 0 call begin file "), why)
        version = self.file(self.versions()[-1])
        before = os.stat(os.path.join(version, "OSLO", "MORNING-A-001-K.tif")).st_ino
        self.makes("resumed", 0, SITES, "--resume")
        now = os.stat(self.file("current", "OSLO", "MORNING-A-001-K.tif")).st_ino
        self.holds("resumed, OSLO isn't made again", now == before, "another file")

    def no_sums(self):
        """SHA256SUMS can't be written: the site has no READY, since that is written after it."""
        self.fault("sums 1")
        _, report = self.makes("no SHA256SUMS", 1, SITES[:2], current=False)
        why = report["sites"]["TROMSO"]["why"]
        self.holds("no SHA256SUMS, why", why.endswith("SHA256SUMS: Is a directory"), why)

    def refuses(self):
        """A plan or a file that is refused, a site twice: nothing is READY, and the report says why."""
        path = os.path.join(self.work, "files", "A3-text.tif")
        os.rename(path, path + ".away")
        answer, report = self.makes("no file", 4, [], current=False)
        line = "north: fault: A3-text.tif (line): is missing or can't be read; page A3 layer 0"
        self.holds("no file, line", line in report["refused"] and line in answer.stderr, report)
        os.rename(path + ".away", path)
        for name, text in (("wrong", "{"), ("again", json.dumps(dict(self.paper.plans("MORNING"))["north"]))):
            with open(os.path.join(self.work, f"{name}.json"), "w", encoding="utf-8") as file:
                file.write(text)
            _, report = self.makes(f"plan {name}", 3, [], current=False)
            wanted = {
                "wrong": "wrong: plateroom: plan: not JSON",
                "again": "site TROMSO is in the plans again and north",
            }
            self.holds(f"plan {name}, line", report["refused"] == [wanted[name]], report["refused"])
            os.remove(os.path.join(self.work, f"{name}.json"))

    def begins_not(self):
        """No plan, an OUT that can't be made, a lock that is held, wrong arguments: no version is
        begun."""
        before = self.versions()
        empty = os.path.join(self.folder, "empty")
        os.mkdir(empty)
        for what, status, words in (
            ("no plan", 2, [empty, self.out]),
            ("no WORK", 2, [empty + "/no", self.out]),
            ("OUT in a file", 2, [self.work, os.path.join(self.work, "north.json", "out")]),
            ("65 keys", 2, [self.work, self.out, "--keys", "65"]),
        ):
            answer = pressroom(self.program, "make", *words)
            self.holds(what, answer.returncode == status and "Traceback" not in answer.stderr, answer)
        with open(self.file(".lock"), "w", encoding="utf-8") as file:
            fcntl.flock(file, fcntl.LOCK_EX)
            answer = pressroom(self.program, "make", self.work, self.out)
        self.holds("another works there", answer.returncode == 5, answer)
        self.holds("no version", self.versions() == before, self.versions())

    def later(self):
        """A version is named later than one of the future."""
        os.mkdir(self.file("29991231-235959"))
        self.makes("after a clock that ran ahead", 0, SITES)
        self.holds("its name", os.readlink(self.file("current")) == "30000101-000000", self.versions()[-1])


def make_trials(tried, paper, folder):
    trial = Make(tried, paper, folder)
    for part in (
        trial.whole,
        trial.keys,
        trial.parts,
        trial.recovers,
        trial.leaves,
        trial.no_sums,
        trial.refuses,
        trial.begins_not,
        trial.later,
    ):
        part()
    tried.part("make")
