#!/usr/bin/env python3
"""Measures the seconds from the last page of a pair to its READY at each site, by step, beside the rest of a night.

usage: bench/night.py FOLDER PROGRAM [--seconds N] [--dpi DPI]

A service plates 16 pages of 280 by 400 mm at 1000 dpi for three sites, two of which are mounted folders and one is
reached by rsync. The PDFs are those of intake.py, written to FOLDER unless they exist. A page comes each N seconds
(default: 4), so that a pair's last page always meets the pages, plates and deliveries of others. The table has the
median and the longest of each step over all pairs and sites:

seen       from the upload's rename to the service's first sight of the file, and `settle`, 2 s
copied     into the private store, hashed and synced
job        until intake has begun, and its verdict is entered: the wait for a free job, and Python's start
intake     the page job's own seconds
wait       until the plates' job has begun
plates     `replate`, sums and syncs
verified   `verify` of the pair among the plates of its plan
queue      until the delivery has begun
sending    plates and SHA256SUMS
READY      READY, synced and compared

It needs the programs and libraries of intake, and rsync.
"""
import argparse
import json
import os
import shutil
import sqlite3
import statistics
import subprocess
import sys
import time

sys.dont_write_bytecode = True
import intake

TOP = intake.TOP
NAME, PAGES = "SPEED-2026-12-09", 16
STEPS = "seen", "copied", "job", "intake", "wait", "plates", "verified", "queue", "sending", "READY"
HOUSE = """edition = "SPEED"
dpi = %s
trim = [280, 400]
margins = [10, 10, 10, 10]
gutter = 10
limit = 240
[sections]
A = 16
[spot]
separation = "HOUSE"
colour = "#1a8cd8"
[colour]
rgb = "convert"
profile = "/usr/share/color/icc/ghostscript/default_cmyk.icc"
spots = "mix"
[sites.OSLO]
[sites.BERGEN]
[sites.TROMSO]
[night]
least_free = 0
[delivery.sites]
OSLO = "rsync:%s/sites/OSLO"
BERGEN = "%s/sites/BERGEN"
TROMSO = "%s/sites/TROMSO"
"""


class Night:
    """A spool with its service, and when each page was put there."""

    def __init__(self, folder, program, dpi):
        self.folder, self.put_at = os.path.join(folder, "night"), {}
        shutil.rmtree(self.folder, ignore_errors=True)
        for site in ("OSLO", "BERGEN", "TROMSO"):
            os.makedirs(os.path.join(self.folder, "sites", site))
        self.spool, house = (os.path.join(self.folder, name) for name in ("spool", "house.toml"))
        with open(house, "w", encoding="utf-8") as file:
            file.write(HOUSE % (dpi, self.folder, self.folder, self.folder))
        words = [sys.executable, "-B", os.path.join(TOP, "tools", "pressroom.py"), "night", self.spool]
        self.out = open(os.path.join(self.folder, "events"), "w", encoding="utf-8")
        where = os.environ | {"PLATEROOM": os.path.abspath(program)}
        self.process = subprocess.Popen([*words, "--house", house, "--json"], stdout=self.out, env=where)

    def events(self):
        with open(self.out.name, encoding="utf-8") as file:
            return [json.loads(line) for line in file if line.endswith("\n")]

    def put(self, page, source):
        """A page comes, as an upload that is renamed into place."""
        folder = os.path.join(self.spool, "in", NAME)
        os.makedirs(folder, exist_ok=True)
        part = os.path.join(folder, f".{page}")
        with open(source, "rb") as file:
            data = file.read()
        with open(part, "wb") as file:
            file.write(data + f"%{page}\n".encode())  # Each page has bytes of its own.
        self.put_at[page] = time.time()
        os.rename(part, os.path.join(folder, f"{page}.pdf"))

    def wait_for(self, count, seconds):
        """Waits until so many pairs are sent to sites. Returns whether they are."""
        end = time.monotonic() + seconds
        while time.monotonic() < end and self.process.poll() is None:
            if (
                sum(event["event"] == "sent" and event["pair"] is not None for event in self.events())
                >= count
            ):
                return True
            time.sleep(0.5)
        return False

    def end(self):
        self.process.terminate()
        self.process.wait(60)
        self.out.close()

    def exact(self):
        """The events with their times to the millisecond, as only the journal has them."""
        with sqlite3.connect(os.path.join(self.spool, "journal", "night.db")) as journal:
            at = dict(journal.execute("SELECT seq, at FROM event"))
        return [event | {"exact": at[event["seq"]]} for event in self.events()]


def steps_of(events, put_at):
    """Returns the seconds of each step for each pair and site, from its last page on."""
    at, found = {}, []
    for event in events:
        name, page, pair, site = (event[key] for key in ("event", "page", "pair", "site"))
        at[name, page or pair, site] = event
    for (name, pair, site), sent in at.items():
        if name != "sent" or pair is None:
            continue
        number = int(pair.rpartition("-")[2])
        pages = f"A{number:02}", f"A{PAGES + 1 - number:02}"
        last = max(pages, key=lambda page: at["accepted", page, None]["exact"])
        arrived, accepted = (at[name, last, None] for name in ("arrived", "accepted"))
        made, leaving = at["made", pair, None], at["leaving", pair, site]
        copied, begun = arrived["seconds"], arrived["exact"] - arrived["seconds"]
        times = (
            begun - put_at[last],
            copied,
            accepted["exact"] - arrived["exact"] - accepted["seconds"],
            accepted["seconds"],
            made["exact"] - accepted["exact"] - made["seconds"],
            made["seconds"] - made["verify"],
            made["verify"],
            leaving["exact"] - made["exact"] - leaving["seconds"],
            leaving["seconds"],
            sent["exact"] - leaving["exact"],
        )
        found.append((pair, site, dict(zip(STEPS, times)), sent["exact"] - put_at[last]))
    return found


def table(found):
    """Returns the lines of the table."""
    lines = ["| Step | Median | Longest |", "|---|---|---|"]
    for step in STEPS:
        values = [times[step] for _, _, times, _ in found]
        lines.append(f"| {step} | {statistics.median(values):.2f} | {max(values):.2f} |")
    all_of = [total for *_, total in found]
    return [*lines, f"| from page to READY | {statistics.median(all_of):.1f} | {max(all_of):.1f} |"]


def main():
    parser = argparse.ArgumentParser(
        description=__doc__, formatter_class=argparse.RawDescriptionHelpFormatter
    )
    parser.add_argument("folder", metavar="FOLDER")
    parser.add_argument("program", metavar="PROGRAM")
    parser.add_argument("--seconds", metavar="N", type=float, default=4.0)
    parser.add_argument("--dpi", metavar="DPI", type=int, default=1000)
    words = parser.parse_args()
    os.makedirs(words.folder, exist_ok=True)
    bodies = intake.kinds(words.folder)
    sources = [intake.write(words.folder, f"{name}.pdf", body) for name, body in bodies.items()]
    night = Night(os.path.abspath(words.folder), words.program, words.dpi)
    time.sleep(2)
    # One after the other from both ends inwards, so that a pair's two pages come in a row.
    order = [page for number in range(1, PAGES // 2 + 1) for page in (number, PAGES + 1 - number)]
    try:
        for count, number in enumerate(order):
            night.put(f"A{number:02}", sources[count % len(sources)])
            time.sleep(words.seconds)
        whole = night.wait_for(PAGES // 2 * 3, 600)
    finally:
        night.end()
    found = steps_of(night.exact(), night.put_at)
    print("\n".join(table(found)))
    print(f"{len(found)} of {PAGES // 2 * 3} pairs at sites; load {os.getloadavg()[0]:.1f}")
    return 0 if whole else 1


if __name__ == "__main__":
    sys.exit(main())
