#!/usr/bin/env python3
"""Plays an evening against the service: pages come one by one, and pairs leave as soon as their two pages are there.

    check/night_evening.py PROGRAM [--seed N] [--kills N] [--wrong]

16 pages in two zones for three sites come in random order; two are wrong and corrected, one is held and released, one
comes again after its plates were sent, a plate is asked for again, a site is down for a while, the program spoils plates,
and the service is killed. At the end each site has byte for byte the plates that a run of the last plan gives, and the
events claim nothing that wasn't so. --wrong plays it with services that are wrong, each of which must fail. The last line
is `N passed, M failed`, and the status is 1 if one failed.
"""
import argparse
import os
import shutil
import sys
import tempfile
import time

sys.dont_write_bytecode = True

import trial
from evening import NAME, PAGES, SITES, TOP, WRONG_SIZE, ZONES, Evening

PLACES = [f"A{number:02}" for number in range(1, PAGES + 1)]
PLACES += [f"{zone}/{place}" for zone, places in ZONES.items() for place in places]
SECONDS = 600
NEEDS = ("gs", "qpdf", "pdfinfo", "pdffonts", "tiffcp", "prlimit", "setpriv", "sha256sum")
# Services that are wrong: a file below tools/pressroom/night, what is replaced in it, and by what.
WRONG = {
    "a held page leaves": ("schema.sql", "WHEN n.held THEN 'held'", "WHEN 0 THEN 'held'"),
    "a pair is sent unverified": ("plates_job.py", '    if not said.startswith("same "):', "    if False:"),
    "an approval outlives its page": (
        "schema.sql",
        "v.arrival = n.arrival AND v.render = r.key",
        "v.arrival = (SELECT max(w.arrival) FROM verdict w JOIN arrival b ON b.id = w.arrival WHERE b.place = n.place)",
    ),
    "COMPLETE before the last pair": (
        "schema.sql",
        "NOT (n.may_leave AND v.state IS 'kept' AND v.sums IS n.sums)",
        "v.id IS NULL AND p.number = 1",
    ),
}


def play(tried, folder, seed, kills, ask=False, tools=None, quick=False):
    """Plays an evening. Its last step is the comparison of what is there with what must be."""
    evening = Evening(tried, folder, seed, ask, tools)
    rng = evening.rng
    evening.begin()
    order = rng.sample(PLACES, len(PLACES))
    bad, late = rng.sample([place for place in PLACES if "/" not in place], 2), "A10"
    held = next(place for place in order if place not in (*bad, late))
    deaths = sorted(rng.sample(range(2, len(order)), min(kills, len(order) - 2)))
    try:
        evening.waits_for_service()
        for count, place in enumerate(order):
            evening.put(place, 1, WRONG_SIZE if place in bad else (60, 80))
            if count == 1:
                hold(tried, evening, held)
            if count == 4:
                evening.down("TROMSO")
            if count == 12:
                evening.up("TROMSO")
            if count in deaths:
                evening.kill()
            time.sleep(rng.random() * (0.3 if quick else 1.0))
        rest(tried, evening, bad, held, late)
        evening.end()
        evening.see_sites()
        evening.see_events()
        tried.holds(
            "the service ended as it was told", "" if evening.process.returncode == 0 else evening.said()
        )
    finally:
        evening.clean()


def hold(tried, evening, place):
    """A page is held, before or after it came; the edition must have begun."""
    evening.waits_for("the edition begins", lambda edition: True, 60)
    code, said = evening.command("hold", evening.spool, NAME, place, "--word", "waits")
    tried.holds(f"{place} is held", "" if code == 0 else said)


def rest(tried, evening, bad, held, late):
    """The wrong pages are told and corrected, the held one is released, one comes late, and a plate is sent again."""
    if not evening.waits_for(
        "the wrong pages are refused",
        lambda edition: {page["page"] for page in edition["pages"] if page["state"] == "refused"} >= set(bad),
        SECONDS,
    ):
        return
    for place in bad:
        evening.put(place, 2)
    stopped = {place for place in (held,)}
    evening.waits_for(
        "all pairs but those of the held page are sent",
        lambda edition: all(
            at["state"] in ("sent", "acknowledged") or stopped & {wait["page"] for wait in at["waits_for"]}
            for pair in edition["pairs"]
            for at in pair["sites"]
        ),
        SECONDS,
    )
    code, said = evening.command("release", evening.spool, NAME, held)
    tried.holds(f"{held} is released", "" if code == 0 else said)
    evening.put(late, 3)
    done = evening.waits_for("all sites are complete", lambda edition: is_complete(evening, edition), SECONDS)
    if done:
        code, said = evening.command(
            "resend", evening.spool, NAME, "OSLO", "A-001", "K", "--reason", "scratched"
        )
        tried.holds("a plate is asked for again", "" if code == 0 else said)
        evening.waits_for("it comes beside its version", lambda _: has_resend(evening), 120)


def is_complete(evening, edition):
    """Whether all sites have COMPLETE, with the late page in it."""
    arrived = {page["page"]: page["version"] for page in edition["pages"]}
    return len(edition["complete"]) == len(SITES) and arrived["A10"] == 2


def has_resend(evening):
    """Whether OSLO has a folder VERSION.r1 with READY and one plate."""
    top = os.path.join(evening.sites["OSLO"], NAME, "A-001")
    folders = [os.path.join(top, name) for name in os.listdir(top) if name.endswith(".r1")]
    return any(
        os.path.exists(os.path.join(folder, "READY"))
        and sum(n.endswith(".tif") for n in os.listdir(folder)) == 1
        for folder in folders
    )


class Counts(trial.Trial):
    """The counts of a service that is wrong, which are not printed."""

    def holds(self, what, fault):
        self.failed += bool(fault)
        self.passed += not fault
        if fault:
            self.said = f"{what}: {fault}"[:160]


def wrong_services(tried, folder, seed):
    """Each wrong service must fail the evening."""
    for name, (file, old, new) in WRONG.items():
        tools = os.path.join(folder, "tools")
        shutil.rmtree(tools, ignore_errors=True)
        shutil.copytree(os.path.join(TOP, "tools"), tools)
        path = os.path.join(tools, "pressroom", "night", file)
        with open(path, encoding="utf-8") as source:
            text = source.read()
        if old not in text:
            tried.holds(f"wrong service: {name}", "its text isn't there any more")
            continue
        with open(path, "w", encoding="utf-8") as target:
            target.write(text.replace(old, new))
        counts = Counts(tried.program)
        play(counts, os.path.join(folder, "wrong"), seed, 0, "approval" in name, tools, quick=True)
        tried.holds(f"wrong service: {name}", "" if counts.failed else "it wasn't noticed")
        if counts.failed:
            print(f"wrong service: {name}: {counts.said}", flush=True)


def main():
    parser = argparse.ArgumentParser(
        description=__doc__, formatter_class=argparse.RawDescriptionHelpFormatter
    )
    parser.add_argument("program", metavar="PROGRAM")
    parser.add_argument("--seed", type=int, default=1, help="the evening's number (1)")
    parser.add_argument("--kills", type=int, default=4, help="how often the service is killed (4)")
    parser.add_argument("--wrong", action="store_true", help="also play it with services that are wrong")
    words = parser.parse_args()
    tried = trial.Trial(words.program)
    missing = [name for name in NEEDS if shutil.which(name) is None]
    if missing:
        print(f"skipped: {missing[0]} isn't installed")
    else:
        with tempfile.TemporaryDirectory(prefix="pressroom-evening-") as folder:
            play(tried, os.path.join(folder, "plain"), words.seed, words.kills)
            tried.part("an evening")
            play(tried, os.path.join(folder, "asked"), words.seed + 1, words.kills, ask=True)
            tried.part("an evening with approvals")
            if words.wrong:
                wrong_services(tried, folder, words.seed + 2)
                tried.part("wrong services")
    print(f"{tried.passed} passed, {tried.failed} failed")
    return bool(tried.failed)


if __name__ == "__main__":
    sys.exit(main())
