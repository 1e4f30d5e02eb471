#!/usr/bin/env python3
"""Prints a man page's source with its version, and with the commands of pressroom.

    package/page.py PAGE VERSION | scdoc

PAGE is a file of docs/. Its @VERSION@ becomes VERSION, and its line @COMMANDS@ the list of pressroom's commands, each of
which has a page of its own.
"""
import os
import sys

sys.dont_write_bytecode = True
sys.path.insert(0, os.path.join(os.path.dirname(os.path.abspath(__file__)), "..", "tools"))
from pressroom.front import COMMANDS


def main():
    if len(sys.argv) != 3:
        print("usage: package/page.py PAGE VERSION", file=sys.stderr)
        return 2
    with open(sys.argv[1], encoding="utf-8") as file:
        text = file.read().replace("@VERSION@", sys.argv[2])
    commands = "".join(f"*pressroom-{name}*(1)\n\t{said}\n\n" for name, said in sorted(COMMANDS.items()))
    sys.stdout.write(text.replace("@COMMANDS@\n", commands.rstrip("\n") + "\n"))
    return 0


if __name__ == "__main__":
    sys.exit(main())
