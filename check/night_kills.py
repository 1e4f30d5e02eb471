#!/usr/bin/env python3
"""Kills the night's service, and its jobs, before each call that changes a disk or sends a message: small evenings, each
of which must end right.

    check/night_kills.py PROGRAM [--evenings N] [--seed N] [--wrong]

An evening has four pages and a zone's own one, for a site that is a mounted folder and one that rsync reaches; a page is
wrong and corrected, one is held and released, and a plate is sent again. kill_at.c counts the calls of an evening that
nobody disturbs. Then each of N evenings (default: 12) is killed first at one of N numbers spread over that count, and
afterwards, at each new start, after some more calls: of the service and all that it started, or of a job's process alone.
At the end both sites have the plates of a run of the last pages, byte for byte, each READY is whole and lists what is
beside it, the events claim nothing that wasn't so, and nothing is left under way. The seconds between looks and of pauses
are cut to some tenths, in a copy of the tools. --wrong plays it with services that are wrong, which must be caught. The
last line is `N passed, M failed`; it needs gcc, x86-64 and what intake needs, and is skipped otherwise.
"""
import argparse
import collections
import os
import platform
import random
import shutil
import signal
import subprocess
import sys
import tempfile
import time

sys.dont_write_bytecode = True

import evening
import trial
from evening import NAME, SIZE, WRONG_SIZE, Evening
from night_evening import NEEDS, Counts

HERE = os.path.dirname(os.path.abspath(__file__))
PLACES = ("A01", "A02", "A03", "A04", "west/A02")
SECONDS, STARTS = 150, 5
# What is cut to some tenths of a second: a file below tools/pressroom/night, its text, and the new one.
SHORTER = (
    ("versions.py", "SETTLED = 40.0", "SETTLED = 0.4"),
    ("versions.py", "GHOSTS = 60.0", "GHOSTS = 0.5"),
    ("scheduler.py", "BETWEEN = 30.0", "BETWEEN = 0.5"),
    ("pauses.py", '{"network": 10.0, "limit": 60.0}, 600.0', '{"network": 0.5, "limit": 60.0}, 2.0'),
    ("pauses.py", "FIRST.get(fault, 5.0)", "FIRST.get(fault, 0.3)"),
)
WRONG = {
    "what was being sent is forgotten at the start": (
        "versions.py",
        "for row in book.journal.rows(\"SELECT * FROM version WHERE state IN ('sending', 'leaving')\"):",
        "for row in []:",
    ),
    "a page is removed before it is entered": (
        "incoming.py",
        "            taken: Taken = end.value\n",
        "            taken: Taken = end.value\n"
        "            os.unlink(os.path.join(os.fsencode(copying.folder), copying.found.name))\n",
    ),
    "READY is sent before the journal says that it leaves": (
        "tasks.py",
        "        if not versions.leaving(self.room.book, self.work.version, seconds):\n            return False\n",
        "        job.ask(self.request('ready', folder=moves.get(self.room.book, self.work.version)['folder'],"
        " text=moves.get(self.room.book, self.work.version)['ready']))\n        import time; time.sleep(0.5)\n"
        "        if not versions.leaving(self.room.book, self.work.version, seconds):\n            return False\n"
        "        self.left = True\n        return True\n",
    ),
}


class Killed(Evening):
    """A small evening whose service runs under kill_at: `kills` are pairs of a number and `all` or `one`."""

    pages, zones, zone_of = 4, {"west": ["A02"]}, {"OSLO": "", "BERGEN": "west"}
    text = evening.HOUSE.replace("A = 16", "A = 4").partition("[sites.TROMSO]")[0].replace("254", "127")

    def __init__(self, tried, folder, seed, tools, tracer, kills):
        super().__init__(tried, folder, seed, tools=tools)
        shutil.copy(tried.program, self.program)
        self.tracer, self.plan, self.log, self.starts = tracer, list(kills), os.path.join(folder, "calls"), 0

    def target(self, site):
        return ("rsync:" if site == "BERGEN" else "") + self.sites[site]

    def begin(self):
        number, mode = self.plan.pop(0) if self.plan else (0, "all")
        words = [self.tracer, str(number), mode, f"{self.log}.{self.starts}", sys.executable, "-B"]
        words += [
            os.path.join(self.tools, "pressroom.py"),
            "night",
            self.spool,
            "--house",
            self.house,
            "--json",
        ]
        with open(self.out, "a", encoding="utf-8") as out, open(
            f"{self.out}.err", "a", encoding="utf-8"
        ) as err:
            self.process = subprocess.Popen(words, stdout=out, stderr=err, env=self.environment())
        self.starts += 1

    def status(self):
        """The service's word, without a process for each question. A service that was killed is begun again."""
        from pressroom.night import client

        if self.process.poll() is not None:
            self.kills += 1
            self.begin()
        try:
            return client.status(self.spool)
        except (client.Down, OSError, ValueError):
            return None

    def command(self, *words):
        """A command, given again where the service was killed before it answered."""
        end = time.monotonic() + 60
        while time.monotonic() < end:
            self.status()
            code, said = super().command(*words)
            if code != 3:
                return code, said
            time.sleep(0.2)
        return code, said

    def calls(self):
        """The calls of all starts: for each the number, the process, the call and what it is about."""
        found = []
        for count in range(self.starts):
            if os.path.exists(f"{self.log}.{count}"):
                with open(f"{self.log}.{count}", encoding="utf-8", errors="replace") as file:
                    found.append([line.rstrip("\n").split("\t") for line in file])
        return found


def play(tried, folder, seed, tools, tracer, kills):
    """Plays an evening, and returns the calls of each start of its service."""
    one, rng = Killed(tried, folder, seed, tools, tracer, kills), random.Random(seed)
    one.begin()
    order = rng.sample(PLACES, len(PLACES))
    bad, held = rng.sample([place for place in order if place != "west/A02"], 2)
    try:
        one.put(order[0], 1, WRONG_SIZE if order[0] == bad else SIZE)
        one.waits_for("the edition begins", lambda _: True, SECONDS)
        code, said = one.command("hold", one.spool, NAME, held)
        tried.holds(f"{held} is held", "" if code == 0 else said)
        for place in order[1:]:
            one.put(place, 1, WRONG_SIZE if place == bad else SIZE)
            time.sleep(rng.random() * 0.5)
        told = {"refused": False}

        def is_refused(edition):
            return any(page["page"] == bad and page["state"] == "refused" for page in edition["pages"])

        told["refused"] = one.waits_for(f"{bad} is refused", is_refused, SECONDS)
        one.put(bad, 2)
        code, said = release(one, held)
        tried.holds(f"{held} is released", "" if code == 0 else said)
        if one.waits_for("both sites are complete", lambda edition: len(edition["complete"]) == 2, SECONDS):
            code, said = one.command("resend", one.spool, NAME, "OSLO", "A-001", "K", "--reason", "torn")
            tried.holds("a plate is asked for again", "" if code == 0 else said)
            one.waits_for("it comes", lambda _: resent(one), SECONDS)
        one.end()
        one.see_sites()
        one.see_events()
        see_nothing_left(tried, one)
        return one.calls()
    finally:
        one.clean()


def release(one, held):
    """Releases a page, again where it was in intake or the service was killed in between."""
    end = time.monotonic() + 60
    while True:
        code, said = one.command("release", one.spool, NAME, held)
        if code == 0 or time.monotonic() > end:
            return code, said
        time.sleep(0.5)


def resent(one):
    """Whether OSLO has a plate again, with its READY."""
    top = os.path.join(one.sites["OSLO"], NAME, "A-001")
    return any(os.path.exists(os.path.join(top, name, "READY")) for name in os.listdir(top) if ".r" in name)


def see_nothing_left(tried, one):
    """No page is left in in/ or grab/, and no version of the journal is under way."""
    import sqlite3

    left = []
    for folder in ("in", "grab"):
        for path, _, names in os.walk(os.path.join(one.spool, folder)):
            left += [os.path.join(os.path.relpath(path, one.spool), name) for name in names]
    with sqlite3.connect(os.path.join(one.spool, "journal", "night.db")) as db:
        sql = "SELECT count(*) FROM version WHERE state IN ('queued', 'sending', 'leaving', 'unknown')"
        under_way = db.execute(sql).fetchone()[0]
    tried.holds("nothing is left in in/", ", ".join(left))
    tried.holds("nothing is left under way", f"{under_way} versions" if under_way else "")


def quick_tools(folder, wrong=None):
    """A copy of the tools with short pauses, and with a wrong text in the place of a right one."""
    tools = os.path.join(folder, "tools")
    shutil.rmtree(tools, ignore_errors=True)
    shutil.copytree(
        os.path.join(evening.TOP, "tools"), tools, ignore=shutil.ignore_patterns("tests", "__pycache__")
    )
    for file, old, new in [*SHORTER, *([wrong] if wrong else [])]:
        path = os.path.join(tools, "pressroom", "night", file)
        with open(path, encoding="utf-8") as source:
            text = source.read()
        if text.count(old) != 1:
            sys.exit(f"night_kills.py: {file} has no longer the text {old!r}")
        with open(path, "w", encoding="utf-8") as target:
            target.write(text.replace(old, new))
    return tools


def place_of(call):
    """What kind of step a call is: its process, its name, and the folder of the spool or of a site."""
    _, process, name, about = call
    for part in ("journal", "store", "making", "renders", "plates", "grab", "in", "run", "sites"):
        if f"/{part}/" in about + "/":
            return process, name, part
    return process, name, "socket" if about.startswith("socket") else "else"


def kills_of(rng, first, job_first):
    """The kills of an evening: the first at a given call, then at each new start after some more."""
    kills = [(first, "all")] if rng.random() < 0.7 else [(job_first, "one")]
    for _ in range(STARTS - 1):
        kills.append((int(2 ** rng.uniform(0, 9.5)), "all" if rng.random() < 0.7 else "one"))
    return kills


def evenings(tried, folder, tools, tracer, number, seed):
    """An evening without a kill, and so many with kills spread over its calls."""
    calls = play(tried, os.path.join(folder, "plain"), seed, tools, tracer, [])[0]
    jobs = [call for call in calls if call[1] != "service"]
    places = collections.Counter(map(place_of, calls))
    print(
        f"an evening has {len(calls)} calls, {len(jobs)} of them in jobs, at {len(places)} kinds of step",
        flush=True,
    )
    rng, killed, hit = random.Random(seed), 0, collections.Counter()
    for count in range(number):
        at = (count + rng.random()) / number
        kills = kills_of(rng, 1 + int(at * len(calls)), 1 + int(at * len(jobs)))
        before = tried.failed
        starts = play(tried, os.path.join(folder, f"e{count}"), seed + count, tools, tracer, kills)
        for (wanted, mode), found in zip(kills, starts):
            if len(found) >= wanted or found is not starts[-1]:
                killed += 1
                if found:
                    hit[place_of(found[min(wanted, len(found)) - 1])] += 1
        if tried.failed > before:
            print(f"evening {count}, seed {seed + count}: kills {kills}", flush=True)
    print(f"{killed} kills in {number} evenings, at {len(hit)} kinds of step", flush=True)


def wrong_services(tried, folder, tracer, seed):
    """Each wrong service must be caught within some evenings."""
    for name, wrong in WRONG.items():
        tools, rng = quick_tools(folder, wrong), random.Random(seed)
        for count in range(8):
            counts = Counts(tried.program)
            kills = [(int(2 ** rng.uniform(6, 10)), "all") for _ in range(STARTS)]
            play(counts, os.path.join(folder, "wrong"), seed + count, tools, tracer, kills)
            if counts.failed:
                print(f"wrong service: {name}: evening {count}: {counts.said}", flush=True)
                break
        tried.holds(f"wrong service: {name}", "" if counts.failed else "it wasn't noticed in 8 evenings")


def main():
    parser = argparse.ArgumentParser(
        description=__doc__, formatter_class=argparse.RawDescriptionHelpFormatter
    )
    parser.add_argument("program", metavar="PROGRAM")
    parser.add_argument("--evenings", metavar="N", type=int, default=12)
    parser.add_argument("--seed", metavar="N", type=int, default=1)
    parser.add_argument("--wrong", action="store_true", help="also play wrong services")
    words = parser.parse_args()
    tried = trial.Trial(words.program)
    missing = [name for name in (*NEEDS, "gcc", "rsync") if shutil.which(name) is None]
    if missing or platform.machine() != "x86_64":
        print(f"skipped: kills at every write ({missing[0] if missing else 'not x86-64'})")
        print("0 passed, 0 failed")
        return 0
    signal.signal(signal.SIGINT, signal.default_int_handler)
    with tempfile.TemporaryDirectory(prefix="pressroom-kills-") as folder:
        tracer = os.path.join(folder, "kill_at")
        subprocess.run(["gcc", "-O1", "-o", tracer, os.path.join(HERE, "kill_at.c")], check=True)
        tools = quick_tools(folder)
        sys.path.insert(0, os.path.join(evening.TOP, "tools"))
        evenings(tried, folder, tools, tracer, words.evenings, words.seed)
        tried.part("kills at every write")
        if words.wrong:
            wrong_services(tried, folder, tracer, words.seed)
            tried.part("wrong services")
    print(f"{tried.passed} passed, {tried.failed} failed")
    return bool(tried.failed)


if __name__ == "__main__":
    sys.exit(main())
