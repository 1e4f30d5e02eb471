#!/usr/bin/env python3
"""Makes each allocation of a command fail in turn, and checks the command's result.

usage: check/allocations.py PROGRAM [COMMAND ..]

The commands are those of plateroom (default: all): run, keys, verify and replate over the small edition of
examples/, one of an image, and drill 7. Each must end with 6 and the line on memory, with a front of the text
and of each plate; or with 0 and all of them, where it does without what it asked for, such as a thread. Texts
and plates are those of the definitions. It needs a C compiler, as `cc`, and takes some minutes, so the gate
doesn't run it. It prints how many allocations each command has and ends with `N passed, M failed`.
"""
import json
import os
import shutil
import subprocess
import sys
import tempfile

sys.dont_write_bytecode = True

import drill
import editions
import held
import keyed
import trial
from picks import Change
from plates import Edition, black_plate, compared

EXAMPLES = os.path.join(os.path.dirname(os.path.abspath(__file__)), "..", "examples")
KEYS, NUMBER, BEYOND, MOST_SECONDS = 4, 7, 8, 60

# In the place of the machine's `malloc`: that with the number ALLOCATION fails, and makes the file FAILED.
SHIM = r"""
#define _GNU_SOURCE
#include <dlfcn.h>
#include <fcntl.h>
#include <stdatomic.h>
#include <stdlib.h>
#include <unistd.h>

static void *(*made)(size_t);
static atomic_long calls, failing;

__attribute__((constructor)) static void begin(void) {
    made = (void *(*)(size_t))dlsym(RTLD_NEXT, "malloc");
    failing = atol(getenv("ALLOCATION"));
    calls = 0;
}

void *malloc(size_t size) {
    if (!made) made = (void *(*)(size_t))dlsym(RTLD_NEXT, "malloc");
    if (failing && ++calls == failing) {
        close(open(getenv("FAILED"), O_WRONLY | O_CREAT, 0644));
        return 0;
    }
    return made(size);
}
"""


class Command:
    """A command: its arguments, what it prints if memory suffices, and the plates below OUT then."""

    def __init__(self, words, text, plates=()):
        self.words, self.text, self.plates = words, text, dict(plates)


def commands(folder):
    """Each command over the small edition, whose plates are below WHOLE."""
    with open(os.path.join(EXAMPLES, "edition.json"), encoding="utf-8") as file:
        edition = Edition(json.load(file), EXAMPLES)
    before = Edition({**edition.plan, "screens": {**edition.plan["screens"], "C": "bayer4"}}, EXAMPLES)
    editions.write_plan(os.path.join(folder, "new.json"), edition.plan)
    editions.write_plan(os.path.join(folder, "old.json"), before.plan)
    plates, change = dict(edition.plates()), Change(before, edition)
    for path, plate in plates.items():
        at = os.path.join(folder, "WHOLE", path)
        os.makedirs(os.path.dirname(at), exist_ok=True)
        with open(at, "wb") as file:
            file.write(plate)
    image = os.path.join(EXAMPLES, "chunky.tif")
    return {
        "run": Command(["run", "new.json", EXAMPLES, "OUT"], edition.report("OUT").encode(), plates),
        "keys": Command(["keys", "new.json", EXAMPLES, "OUT", str(KEYS)], keyed.text(edition, KEYS), plates),
        "verify": Command(["verify", "new.json", EXAMPLES, "WHOLE"], held.same(edition).encode()),
        "replate": Command(["replate", "old.json", EXAMPLES, "new.json", EXAMPLES, "OUT"], change.text().encode(),
                           {path: plates[path] for path in change.made}),
        "one": Command(["one", image], black_plate(image)),
        "drill": Command(["drill", str(NUMBER)], drill.Job(NUMBER).text().encode()),
    }


def finished(plates, out):
    """Those of the plates that are complete."""
    there = {}
    for path, plate in plates.items():
        if os.path.isfile(os.path.join(out, path)):
            with open(os.path.join(out, path), "rb") as file:
                if file.read() == plate:
                    there[path] = plate
    return there


def fault(command, out, status, text, note):
    """What is wrong with an answer, if something is."""
    if status == 0:
        same = text == command.text and note == b""
        return compared(command.plates, out) if same else f"it prints {text[:100]!r} and {note[:100]!r}"
    if status != 6:
        return f"its status is {status}, and it says {note[:100]!r}"
    if note != b"plateroom: memory\n" or not command.text.startswith(text):
        return f"it prints {text[:100]!r} and {note[:100]!r}"
    return compared(finished(command.plates, out), out, command.plates)


def tries(tried, shim, folder, name, command):
    """Lets each allocation of a command fail, until it has none with the next few numbers."""
    out, mark = os.path.join(folder, "OUT"), os.path.join(folder, "FAILED")
    number, last, ends = 0, 0, {}
    while number < last + BEYOND:
        number += 1
        shutil.rmtree(out, ignore_errors=True)
        how = dict(os.environ, LD_PRELOAD=shim, ALLOCATION=str(number), FAILED=mark)
        got = subprocess.run([tried.program, *command.words], cwd=folder, env=how, capture_output=True,
                             stdin=subprocess.DEVNULL, timeout=MOST_SECONDS)
        if os.path.exists(mark):
            os.remove(mark)
            last = number
            ends[got.returncode] = ends.get(got.returncode, 0) + 1
        elif got.returncode != 0:
            tried.holds(f"{name} without a failed allocation", f"its status is {got.returncode}")
        tried.holds(f"{name} whose allocation {number} fails",
                    fault(command, out, got.returncode, got.stdout, got.stderr))
    told = ", ".join(f"{ends[status]} of status {status}" for status in sorted(ends))
    tried.part(f"{name}: {last} allocations, {told or 'no failed one'}")
    tried.holds(f"{name} allocates", "" if last else "no allocation failed")


def main():
    program, *names = sys.argv[1:]
    tried = trial.Trial(program)
    with tempfile.TemporaryDirectory() as folder:
        shim = os.path.join(folder, "shim.so")
        with open(os.path.join(folder, "shim.c"), "w", encoding="utf-8") as file:
            file.write(SHIM)
        subprocess.run(["cc", "-O1", "-shared", "-fPIC", "-o", shim, os.path.join(folder, "shim.c"), "-ldl"], check=True)
        for name, command in commands(folder).items():
            if not names or name in names:
                tries(tried, shim, folder, name, command)
    return tried.end()


if __name__ == "__main__":
    sys.exit(main())
