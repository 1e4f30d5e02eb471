#!/usr/bin/env python3
"""Runs the tests of threads many times on a machine kept busy by loops.

usage: check/threads.py TESTS [--times N] [--loops N] [--processors N] [--word WORD]

TESTS is the program that the gate built from the tests of run_tests. Each test with WORD in its name runs N
times (100), next to N loops that compute all the time (20), all on N processors (all). It prints the runs
that failed and, for each test, how many passed and the seconds of the longest, and ends with `N passed, M
failed`. The status is 1 if one failed.
"""
import argparse
import os
import subprocess
import sys
import time

sys.dont_write_bytecode = True

import trial

MOST_SECONDS = 120


def runs(program, name, times):
    """How many of so many runs of a test passed, and the seconds of the longest one."""
    passed, longest = 0, 0.0
    for number in range(times):
        began = time.monotonic()
        try:
            ran = subprocess.run([program, name], capture_output=True, timeout=MOST_SECONDS)
            fault = "" if ran.returncode == 0 else f"status {ran.returncode}: {ran.stderr.decode(errors='replace').strip()}"
        except subprocess.TimeoutExpired:
            fault = f"not done in {MOST_SECONDS} s"
        longest = max(longest, time.monotonic() - began)
        if fault:
            print(f"FAILED: {name}, run {number}: {fault}", flush=True)
        else:
            passed += 1
    return passed, longest


def main():
    words = argparse.ArgumentParser(description=__doc__, formatter_class=argparse.RawDescriptionHelpFormatter)
    words.add_argument("tests")
    words.add_argument("--times", type=int, default=100)
    words.add_argument("--loops", type=int, default=20)
    words.add_argument("--processors", type=int, default=0)
    words.add_argument("--word", default="threads::")
    options = words.parse_args()
    if options.processors:
        os.sched_setaffinity(0, sorted(os.sched_getaffinity(0))[:options.processors])
    program = os.path.abspath(options.tests)
    listed = subprocess.run([program, "--list"], capture_output=True, text=True, check=True).stdout.split()
    names = [name.rstrip(":") for name in listed if options.word in name]
    if not names:
        sys.exit(f"no test's name has {options.word} in it")
    loops, passed = trial.busy(options.loops), 0
    try:
        for name in names:
            some, longest = runs(program, name, options.times)
            print(f"{name}: {some} of {options.times}, the longest {longest:.2f} s", flush=True)
            passed += some
    finally:
        trial.stop(loops)
    failed = len(names) * options.times - passed
    print(f"{passed} passed, {failed} failed")
    sys.exit(1 if failed else 0)


if __name__ == "__main__":
    main()
