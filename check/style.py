#!/usr/bin/env python3
"""Checks the companions' code: formatting, unused names, types, and the tests that need no built program.

    check/style.py [NAME ..]

Runs black, pyflakes, mypy and pytest of Debian, with the settings of pyproject.toml; with names only these. What isn't
installed is skipped, and said. The last line is `N passed, M failed`, and the status is 1 if one failed.
"""
import os
import subprocess
import sys

sys.dont_write_bytecode = True
from trial import Count

TOP = os.path.join(os.path.dirname(os.path.abspath(__file__)), "..")
PYTHON = "/usr/bin/python3"
# Each tool with its module, its package and its arguments.
TOOLS = {
    "black": ("black", "black", ["--check", "--quiet", "tools"]),
    "pyflakes": ("pyflakes", "pyflakes3", ["tools", "check", "package", "bench"]),
    "mypy": ("mypy", "mypy", []),
    "pytest": ("pytest", "python3-pytest", []),
}
# Without this library pytest can't read its tests.
BESIDE = {"pytest": ("hypothesis", "python3-hypothesis")}


def installed(module):
    """Whether Debian's python3 has a module."""
    words = [PYTHON, "-c", f"import importlib.util, sys; sys.exit(importlib.util.find_spec('{module}') is None)"]
    return os.access(PYTHON, os.X_OK) and subprocess.run(words).returncode == 0


def main():
    count, names = Count(), sys.argv[1:] or list(TOOLS)
    for name in names:
        if name not in TOOLS:
            print(f"check/style.py: no tool {name}; the tools are {', '.join(TOOLS)}", file=sys.stderr)
            return 2
        module, package, words = TOOLS[name]
        lacking = [held for one, held in ((module, package), BESIDE.get(name, (module, package))) if not installed(one)]
        if lacking:
            print(f"skipped: {name} ({lacking[0]} isn't installed)")
            continue
        environment = os.environ | {"PYTHONDONTWRITEBYTECODE": "1"}
        answer = subprocess.run(
            [PYTHON, "-m", module, *words], cwd=TOP, capture_output=True, text=True, env=environment
        )
        count.holds(name, answer.returncode and f"\n{answer.stdout}{answer.stderr}")
        count.part(name)
    return count.end()


if __name__ == "__main__":
    sys.exit(main())
