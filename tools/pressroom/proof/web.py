"""Makes the folder of a proof in the browser: the page, its blocks and manifest, and Leaflet. The folder appears when
everything is made, and replaces an earlier proof there."""
import argparse
import os
import shutil
import tempfile

from pressroom.base.console import Console, Missing, need_libraries
from pressroom.tiff.tiff import Broken

LEAFLET = "/usr/share/javascript/leaflet"
LICENCE = "/usr/share/doc/libjs-leaflet/copyright"
FILES = os.path.join(os.path.dirname(os.path.abspath(__file__)), "web_files")
# Files of ours that mark a folder as a proof, which may be replaced.
OURS = "index.html", "proof.js"


def need_all() -> None:
    """Raises Missing for a library or Leaflet that isn't installed."""
    need_libraries("numpy", "PIL")
    if not os.path.exists(os.path.join(LEAFLET, "leaflet.min.js")):
        raise Missing("Leaflet is not installed: apt-get install libjs-leaflet")


def may_be_made(out: str) -> None:
    """Raises Broken if OUT must not be replaced."""
    if not os.path.lexists(out):
        return
    if os.path.islink(out) or not os.path.isdir(out):
        raise Broken(f"{out}: not a folder")
    held = os.listdir(out)
    if held and not all(name in held for name in OURS):
        raise Broken(f"{out}: has files other than a proof; name a new folder")


def copy_files(folder: str) -> None:
    """Copies what every proof has: the page, its script and style, and Leaflet with its licence."""
    for name in sorted(os.listdir(FILES)):
        shutil.copyfile(os.path.join(FILES, name), os.path.join(folder, name))
    leaflet = os.path.join(folder, "leaflet")
    os.mkdir(leaflet)
    shutil.copyfile(os.path.join(LEAFLET, "leaflet.min.js"), os.path.join(leaflet, "leaflet.js"))
    shutil.copyfile(os.path.join(LEAFLET, "leaflet.css"), os.path.join(leaflet, "leaflet.css"))
    shutil.copyfile(LICENCE, os.path.join(leaflet, "LICENCE.txt"))


def put(made: str, out: str, aside: str) -> None:
    """Gives the made folder its name, and removes what had it before."""
    if os.path.lexists(out):
        os.rename(out, aside)
    os.rename(made, out)
    shutil.rmtree(aside, ignore_errors=True)


def size_of(folder: str) -> int:
    """The bytes of all files of a folder."""
    return sum(os.path.getsize(os.path.join(at, name)) for at, _, names in os.walk(folder) for name in names)


def make(words: argparse.Namespace, console: Console) -> int:
    """Makes the proof next to OUT, renames it to OUT, and returns how many plates are damaged."""
    from pressroom.proof.web_proof import Proof

    out = os.path.abspath(words.out)
    may_be_made(out)
    parent, name = os.path.split(out)
    os.makedirs(parent, exist_ok=True)
    room = tempfile.mkdtemp(prefix=f".{name}.", suffix=".part", dir=parent)
    try:
        folder = os.path.join(room, "proof")
        os.mkdir(folder)
        copy_files(folder)
        made = Proof(words, console, folder)
        made.make()
        size = size_of(folder)
        put(folder, out, os.path.join(room, "old"))
    finally:
        shutil.rmtree(room, ignore_errors=True)
    page = os.path.join(words.out, "index.html")
    console.tell(
        "done",
        f"{page}: {made.summary()}, {size / 1e6:.1f} MB",
        page=page,
        bytes=size,
        plates=len(made.plates),
        damaged=len(made.damaged),
    )
    return len(made.damaged)
