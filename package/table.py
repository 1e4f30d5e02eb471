#!/usr/bin/env python3
"""Prints what is made of the table of pressroom's commands: a completion script, or a command's man page.

    package/table.py bash|zsh|fish
    package/table.py man COMMAND VERSION | scdoc
    package/table.py commands
"""
import os
import sys

sys.dont_write_bytecode = True
sys.path.insert(0, os.path.join(os.path.dirname(os.path.abspath(__file__)), "..", "tools"))
from pressroom.table import main

if __name__ == "__main__":
    sys.exit(main())
