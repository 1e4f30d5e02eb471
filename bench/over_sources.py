#!/usr/bin/env python3
"""Proves named functions of a crate over libraries that aren't proved yet, which it reads as sources.

usage: bench/over_sources.py CRATE FUNCTION ..        such as bench/over_sources.py ink_keys key_reader::KeyReader::turn

On a machine without a cache, `rt check` proves all crates below first, which takes half an hour for a high
crate. This takes a minute or two on one processor for a low crate, and up to a quarter of an hour for a high
one, since the functions of the crates below that the named ones reach are proved too. It says early whether a
function meets its contract. It is no verdict: only `rt ci` is. Libraries that this clone has built are used as they are. It reaches into the
kit, whose command `rt` has to be in PATH, and may not fit another kit.

status: that of the check
"""
import os
import re
import subprocess
import sys

TOP = os.path.normpath(os.path.join(os.path.dirname(os.path.abspath(__file__)), ".."))


def read_crates():
    """The libraries that each crate names in crates.txt."""
    uses = {}
    with open(os.path.join(TOP, "crates.txt"), encoding="utf-8") as file:
        for line in file:
            found = re.match(r"(\w+)[^:#]*:(.*)", line)
            if found:
                uses[found[1]] = found[2].split()
    return uses


def below(uses, crate, seen):
    """The crates below this one, lowest first."""
    for name in uses[crate]:
        if name in uses and name not in seen:
            below(uses, name, seen)
            seen.append(name)
    return seen


def built(crate):
    """The library of a crate, where this clone has built it."""
    path = os.path.join(TOP, "crates", crate, "out", "rlib", f"{crate}.rlib")
    return path if os.path.exists(path) else None


def command(kit, uses, crate, functions):
    words = [os.path.join(kit, "bin", "rattle"), "check", "--crate-name", crate, "src/lib.rt"]
    order = below(uses, crate, [])
    of_kit = {"std", "core"} | {name for one in [*order, crate] for name in uses[one] if name not in uses}
    for name in sorted(of_kit):
        words += ["--extern", f"{name}={kit}/rlibs/{name}.rlib"]
    words += ["-L", f"dependency={kit}/rlibs"]
    taken = set()
    for name in order:
        if built(name) and all(one in taken for one in uses[name] if one in uses):
            taken.add(name)
            words += ["--extern", f"{name}={built(name)}"]
        else:
            needs = ",".join(dict.fromkeys(["core", "std", *uses[name]]))
            words += ["--lib", f"{name}:{needs}={TOP}/crates/{name}/src/lib.rt"]
    words += ["--antt-project", f"{kit}/rattle/logic/antt-project.json", "--logic-built", f"{kit}/logic_built"]
    words += ["--links", f"{crate}=", "--jobs", "1"]
    for function in functions:
        words += ["--only", function]
    return words


def main():
    uses = read_crates()
    if len(sys.argv) < 3 or sys.argv[1] not in uses:
        sys.exit(__doc__)
    page = subprocess.run(["rt", "doc"], capture_output=True, text=True, check=True).stdout.strip()
    kit = os.path.dirname(os.path.realpath(page))
    crate = sys.argv[1]
    return subprocess.call(command(kit, uses, crate, sys.argv[2:]), cwd=os.path.join(TOP, "crates", crate))


if __name__ == "__main__":
    sys.exit(main())
