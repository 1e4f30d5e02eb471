#!/usr/bin/env python3
"""Builds the program of this clone without a proof, to measure a change before it is proved.

usage: bench/unproved.py PROGRAM

It takes two minutes. The result is what `rt try` runs in its checked run, without the checks, with the
processor's pauses that these leave out, and compiled at -O3. Use it only to measure and test: nothing of it
was proved. It reaches into the kit, whose command `rt` has to be in PATH, and may not fit another kit: then
it says so.
"""
import os
import re
import shutil
import subprocess
import sys
import tempfile

HERE = os.path.dirname(os.path.abspath(__file__))
CRATE = os.path.join(HERE, "..", "crates", "plateroom")

# Keeps the module of a checked run, and compiles nothing of it.
KEEPER = """#!/bin/sh
case "$*" in *-fsanitize=address*) cp module.bc {kept}; exit 1;; esac
exec {clang} "$@"
"""

FLAGS = ["--target=x86_64-unknown-linux-gnu", "-march=x86-64", "-ffunction-sections", "-fdata-sections", "-fPIE",
         "-fintegrated-cc1", "--no-default-config"]

# The calls by which a checked run stops at an overflow and its kin, the stop at a bad index, which leaves code that
# is never reached, and the bytes that it fills fresh values with.
CHECK = re.compile(r'  call void @("rattle-llvm-checks::(?!Unreachable)|llvm\.trap\(\))')
FILL = re.compile(r"  call void @llvm\.memset\.p0\.i64\(ptr %r\d+, i8 -86,")


def linked(kit, folder, kept):
    """A copy of the kit, by links, whose compiler keeps the module."""
    copy = os.path.join(folder, "kit")
    for name in ("", "bin", "toolchain", "toolchain/bin"):
        at, to = os.path.join(kit, name), os.path.join(copy, name)
        os.makedirs(to, exist_ok=True)
        for entry in os.listdir(at):
            if os.path.join(name, entry) not in ("bin", "toolchain", "toolchain/bin"):
                os.symlink(os.path.join(at, entry), os.path.join(to, entry))
    for name in ("rt", "rtlib.py"):
        os.remove(os.path.join(copy, "bin", name))
        shutil.copy(os.path.join(kit, "bin", name), os.path.join(copy, "bin", name))
    clang = os.path.join(copy, "toolchain", "bin", "clang")
    os.remove(clang)
    with open(clang, "w") as file:
        file.write(KEEPER.format(kept=kept, clang=os.path.join(kit, "toolchain", "bin", "clang")))
    os.chmod(clang, 0o755)
    return copy


def strip(checked, plain):
    """Writes a module without the checks of a checked run."""
    with open(checked) as lines, open(plain, "w") as out:
        for line in lines:
            if CHECK.match(line) or FILL.match(line):
                continue
            if line.startswith('  call void @"core::hint::spin_loop"()'):
                line = '  call void asm sideeffect "pause", "~{memory}"()\n'
            if line.startswith("attributes #"):
                line = line.replace(" sanitize_address", "").replace('"target-cpu"="x86-64"', '"target-cpu"="x86-64-v2"')
            out.write(line)


def main():
    if len(sys.argv) != 2:
        sys.exit(__doc__)
    program = os.path.abspath(sys.argv[1])
    page = subprocess.run(["rt", "doc"], capture_output=True, text=True, check=True).stdout.strip()
    kit = os.path.dirname(os.path.realpath(page))
    clang = os.path.join(kit, "toolchain", "bin", "clang")
    with tempfile.TemporaryDirectory(prefix="unproved-") as folder:
        kept, checked, plain, made = (os.path.join(folder, name) for name in ("kept.bc", "checked.ll", "plain.ll", "made.o"))
        copy = linked(kit, folder, kept)
        tried = subprocess.run([sys.executable, os.path.join(copy, "bin", "rt"), "try", "--steps", "1", "--", "drill", "7"],
                               cwd=CRATE, capture_output=True, text=True)
        if not os.path.exists(kept):
            sys.exit(f"no module was made:\n{tried.stdout}{tried.stderr}")
        subprocess.run([clang, *FLAGS, "-S", "-emit-llvm", "-Xclang", "-disable-llvm-passes", "-x", "ir", kept, "-o",
                        checked], check=True)
        strip(checked, plain)
        subprocess.run([clang, *FLAGS, "-O3", "-c", "-x", "ir", plain, "-o", made], check=True)
        subprocess.run([os.path.join(kit, "bin", "rattle-link"), "--target", "x86_64-unknown-linux-gnu", "--toolchain",
                        os.path.join(kit, "toolchain"), "-o", program, made,
                        *(os.path.join(kit, "c", name) for name in ("libos_c.a", "liblibc_c.a"))], check=True)


if __name__ == "__main__":
    main()
