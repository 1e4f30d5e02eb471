#!/usr/bin/env python3
"""Copies the documents of the package into one folder, with links that hold there.

    package/documents.py FOLDER

FOLDER also receives the examples, as `examples`. A link to a file that the package doesn't have becomes its
text.
"""
import os
import re
import shutil
import subprocess
import sys

TOP = os.path.join(os.path.dirname(os.path.abspath(__file__)), "..")

# Each document of the repository that the package has, and its place in the folder.
DOCUMENTS = {
    "README.md": "README.md",
    "NOTICE": "NOTICE",
    "docs/MANUAL.md": "MANUAL.md",
    "docs/FORMATS.md": "FORMATS.md",
    "docs/PROVED.md": "PROVED.md",
    "docs/SPEED.md": "SPEED.md",
    "docs/EDITORS.md": "EDITORS.md",
    "docs/plan.schema.json": "plan.schema.json",
    "docs/newspaper.png": "newspaper.png",
    "docs/web.png": "web.png",
    "docs/board.png": "board.png",
}

# An image's link begins with `!`. A link's place is a path, a fragment or both.
LINK = re.compile(r"(!?)\[([^\]]*)\]\(([^)#\s]*)(#[^)\s]*)?\)")


def installed(path):
    """The place in the folder of a path of the repository, or None where the package doesn't have it."""
    if path == "examples" or path.startswith("examples/"):
        return path
    return DOCUMENTS.get(path)


def relinked(text, source):
    """The text of the document `source` with links that hold in the package."""
    folder, place = os.path.dirname(source), os.path.dirname(installed(source))

    def link(found):
        image, label, path, fragment = found.groups()
        if not path or ":" in path:
            return found[0]
        target = installed(os.path.normpath(os.path.join(folder, path)))
        if target is None:
            return label
        return f"{image}[{label}]({os.path.relpath(target, place or '.')}{fragment or ''})"

    return LINK.sub(link, text)


def copy(sources, folder):
    """Copies each document and example among `sources` into the folder, and returns their places there."""
    placed = [(source, installed(source)) for source in sources if installed(source)]
    for source, place in placed:
        target = os.path.join(folder, place)
        os.makedirs(os.path.dirname(target), exist_ok=True)
        if source.endswith(".md"):
            with open(os.path.join(TOP, source), encoding="utf-8") as file:
                text = relinked(file.read(), source)
            with open(target, "w", encoding="utf-8") as file:
                file.write(text)
        else:
            shutil.copy(os.path.join(TOP, source), target)
    return [place for _, place in placed]


def tracked():
    """The files that git keeps, as paths from the top of the repository."""
    listed = subprocess.run(["git", "-C", TOP, "ls-files", "-z"], check=True, capture_output=True, text=True)
    return [path for path in listed.stdout.split("\0") if path]


def main():
    if len(sys.argv) != 2:
        print("usage: package/documents.py FOLDER", file=sys.stderr)
        return 2
    copy([path for path in tracked() if not path.endswith("/.gitignore")], sys.argv[1])
    return 0


if __name__ == "__main__":
    sys.exit(main())
