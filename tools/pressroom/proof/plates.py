"""The plates of an edition below a folder: its sites, pairs and inks, and which files have the same content.

Only files with the full name of a plate are read, so a `.tif.part` never is.
"""
import hashlib
import os

from pressroom.base.files import Unreadable, open_regular
from pressroom.proof.names import COLOURS, PLATE, see_size
from pressroom.tiff.tiff import Broken, Tiff

BLOCK = 1 << 20


class Site:
    """A site's folder: the plates of each pair, as paths by ink in printing order."""

    def __init__(self, name: str, folder: str) -> None:
        self.name = name
        self.pairs: dict[str, dict[str, str]] = {}
        self.edition: str | None = None
        for file in sorted(os.listdir(folder)):
            named = PLATE.fullmatch(file)
            if named:
                edition, pair = named[1].split("-", 1)
                self.edition = self.edition or edition
                self.pairs.setdefault(pair, {})[named[2]] = os.path.join(folder, file)
        for pair, paths in self.pairs.items():
            self.pairs[pair] = {ink: paths[ink] for ink in COLOURS if ink in paths}

    def paths(self) -> list[str]:
        """The paths of all plates."""
        return [path for paths in self.pairs.values() for path in paths.values()]


def sites_of(folder: str) -> list[Site]:
    """The sites that have plates below a folder; a folder with plates of its own is one site."""
    own = Site(os.path.basename(os.path.abspath(folder)), folder)
    if own.pairs:
        return [own]
    names = [name for name in sorted(os.listdir(folder)) if os.path.isdir(os.path.join(folder, name))]
    sites = [Site(name, os.path.join(folder, name)) for name in names if not name.startswith(".")]
    return [site for site in sites if site.pairs]


def content_of(path: str) -> str:
    """An identity of the file's bytes: files have the same one exactly if their bytes are the same."""
    digest = hashlib.sha256()
    try:
        with open_regular(path) as file:
            while piece := file.read(BLOCK):
                digest.update(piece)
    except Unreadable as error:
        raise Broken(str(error)) from None
    except OSError as error:
        raise Broken(f"{path}: {error.strerror}") from None
    return digest.hexdigest()


class Plate(Tiff):
    """A plate: an image of one ink with its resolution in pixels an inch."""

    dpi: float = 0


def open_plate(path: str) -> Plate:
    """The plate at this path. Raises Broken if it isn't one."""
    plate = Plate(path)
    if (plate.samples, plate.bits, plate.photometric) != (1, 1, 0):
        plate.close()
        raise Broken(f"{path}: not a plate: a plate has 1 sample of 1 bit, and 1 prints")
    try:
        see_size(plate)
        plate.dpi = plate.rational(282)
    except Broken:
        plate.close()
        raise
    return plate
