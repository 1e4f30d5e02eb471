#!/usr/bin/env python3
"""Tests `pressroom make` and `late` on the newspaper of examples/ at a quarter of its size, the units, and the night:
its journal by pytest and by the model, and an evening that is played against the service.

    check/night.py PROGRAM [--kills N] [--only PART]

Plates are compared with those of a run of the program alone. It skips and reports what isn't installed. The
last line is `N passed, M failed`, and the status is 1 if one failed.
"""
import argparse
import functools
import os
import shutil
import subprocess
import sys
import tempfile

sys.dont_write_bytecode = True

import night_evening
import night_model
import trial
from lately import late_trials
from made import make_trials
from press import Paper
from units import unit_trials

TESTS = os.path.join(os.path.dirname(os.path.abspath(__file__)), "..", "tools", "tests", "night")
# Of the model: how many evenings, and within how many each broken design of these must be caught.
EVENINGS, MOST = 40, 60
QUICK = ("approval_by_name", "hold_outside", "no_second_look", "since_made", "unverified", "verdict_unseen")


def place():
    """The folder of the tests: in memory, if there is enough for files, since each plate is synced to its
    disk."""
    memory = "/dev/shm"
    if os.access(memory, os.W_OK) and shutil.disk_usage(memory).free > 2 * 10**9:
        return memory
    return None


def model_trials(tried, paper, folder):
    """The model's evenings are right, and broken designs are caught."""
    for seed in range(EVENINGS):
        tried.holds(f"evening {seed} of the model", night_model.tried(seed)[0])
    for variant in QUICK:
        caught = any(night_model.tried(seed, variant)[0] for seed in range(1, MOST))
        tried.holds(f"the model catches {variant}", "" if caught else f"not in {MOST} evenings")
    tried.part("model")


def journal_trials(tried, paper, folder):
    """The tests of the night's modules, where pytest is installed."""
    words = ["/usr/bin/python3", "-B", "-m", "pytest", "-q", "-p", "no:cacheprovider", TESTS]
    if subprocess.run([*words[:3], "pytest", "--version"], capture_output=True).returncode:
        print("skipped: the night's modules (pytest isn't installed)")
        return
    answer = subprocess.run(words, capture_output=True, text=True)
    tried.holds("pytest tools/tests/night", "" if answer.returncode == 0 else answer.stdout[-500:])
    tried.part("journal")


def evening_trials(tried, paper, folder, kills):
    """An evening, page by page, with approvals."""
    missing = [name for name in night_evening.NEEDS if shutil.which(name) is None]
    if missing:
        print(f"skipped: an evening ({missing[0]} isn't installed)")
        return
    night_evening.play(tried, os.path.join(folder, "evening"), 1, kills, ask=True)
    tried.part("evening")


def main():
    parser = argparse.ArgumentParser(
        description=__doc__, formatter_class=argparse.RawDescriptionHelpFormatter
    )
    parser.add_argument("program", metavar="PROGRAM")
    parser.add_argument("--kills", type=int, default=4, help="how often the night's service is killed (4)")
    parser.add_argument("--only", metavar="NAME", help="run only this part, such as evening")
    words = parser.parse_args()
    tried = trial.Trial(words.program)
    with tempfile.TemporaryDirectory(prefix="plateroom-night-", dir=place()) as folder:
        paper = Paper(folder)
        for name, part in {
            "make": make_trials,
            "late": late_trials,
            "units": unit_trials,
            "journal": journal_trials,
            "model": model_trials,
            "evening": functools.partial(evening_trials, kills=words.kills),
        }.items():
            if words.only not in (None, name):
                continue
            with tempfile.TemporaryDirectory(prefix=f"{name}-", dir=folder) as its:
                part(tried, paper, its)
    return tried.end()


if __name__ == "__main__":
    sys.exit(main())
