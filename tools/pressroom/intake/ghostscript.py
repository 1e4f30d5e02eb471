"""Calls Ghostscript, which renders a page to planes of ink at a resolution, in the page's own folder."""
import json
import os
import re
import sys
from dataclasses import dataclass

from pressroom.base.limits import Limits, Passed, PassedTime
from pressroom.intake import display
from pressroom.intake.colorant_names import PROCESS
from pressroom.intake.pdf import Refused, first_line, printable
from pressroom.intake.planes import Planes
from pressroom.intake.separations import Separations

# The lines that say what Ghostscript repaired. That they are errors or warnings is on standard error.
REPAIRED = re.compile(rb"^\t(.+)$", re.MULTILINE)
# Lines after which something of the page isn't painted, though Ghostscript calls them warnings.
UNPAINTED = re.compile(
    rb"image error|error in (?:pattern|shading|Mask|image|transparency|group)|error reading a stream|unknown filter"
)
# Larger pages, in pixels, are painted in bands. Ghostscript paints 10 MB without them.
SMALL = 8 << 20


@dataclass(frozen=True)
class Ghostscript:
    """Renders one page: a PDF in a folder that also has the files of write_profiles. `box` names the page box
    that is rendered, `version` is the output of `gs --version`. `planes` names the separations that have a
    plane besides the four inks: all others are mixed by their tint transforms. None gives each a plane.
    """

    version: str
    limits: Limits
    pdf: str
    box: str
    folder: str
    planes: tuple[bytes, ...] | None = None

    def words(self, dpi, size, colours="colour"):
        """Returns the arguments of a call without the device and the file."""
        return [
            "gs",
            "-dNOPAUSE",
            "-dBATCH",
            "-dSAFER",
            "-dPDFSTOPONERROR",
            "-dPrinted",
            f"-dUse{self.box}Box",
            "-dFirstPage=1",
            "-dLastPage=1",
            # Otherwise an object that overprints a separation mixed into the four inks erases it.
            "-dOverprint=/simulate",
            "--permit-file-read=./",
            f"-sSourceObjectICC={colours}.txt",
            "-sOutputICCProfile=press.icc",
            "-sDefaultCMYKProfile=press.icc",
            f"-r{dpi}",
            f"-g{size[0]}x{size[1]}",
        ]

    def file(self):
        """Returns the last arguments of a call, which name the file."""
        if self.planes is None:
            return [self.pdf]
        names = [f"<{name.hex()}> cvn" for name in (*PROCESS, *self.planes)]
        order = f"/SeparationColorNames [ {' '.join(names[4:])} ] /SeparationOrder [ {' '.join(names)} ]"
        return ["-c", f"<< {order} >> setpagedevice", "-f", self.pdf]

    def render(self, dpi, size, name, colours="colour"):
        """Renders the page, at this size in pixels, to this file in the folder. Returns its planes."""
        words = [*self.words(dpi, size, colours), "-sDEVICE=psdcmyk", f"-sOutputFile={name}", *self.file()]
        status, out, note = self.limits.run(words, self.folder)
        path = os.path.join(self.folder, name)
        if status or not os.path.isfile(path):
            raise Refused("damaged", f"can't be rendered: {first_line(out + note)}")
        # If a picture has too few samples, Ghostscript paints those it has and exits with 0.
        if was_repaired(out, note):
            said = b", ".join(REPAIRED.findall(out + note)).decode("utf-8", "replace")
            raise Refused("damaged", f"damaged: {printable(said) or 'Ghostscript had to repair it'}")
        return Planes(path, size)

    def separate(self, dpi, size, house, strips, tables=None, has_all=False, means=None):
        """Makes the page's files, and means over blocks if they are asked for. Returns the result of
        Separations.end and the page at a low resolution. `tables` and `has_all` are those of Separations.

        With `strips`, the library paints the page strip by strip into memory. That takes less than half the
        time of planes in a file, and makes the same pixels, except on pages so small that `gs` paints them
        without bands. All other pages go through a file. So do pages on which the library fails: then `gs`
        reports what is wrong.
        """
        painted = None
        if strips and size[0] * size[1] > SMALL:
            painted = self.painted(dpi, size, house, has_all, means)
        if painted:
            return painted
        planes = self.render(dpi, size, "page.psd")
        made = Separations(self.folder, size, dpi, planes.spots, house, tables, has_all, means)
        for number, strip in planes.strips():
            made.add(number, strip)
        os.remove(planes.path)
        return made.end(), made.seen

    def painted(self, dpi, size, house, has_all=False, means=None):
        """Returns what `separate` returns, made by the library, or None if the library fails."""
        import numpy as np

        asked = {"words": self.words(dpi, size), "file": self.file(), "size": size, "dpi": dpi}
        asked |= {"house": house, "has_all": has_all, "version": self.version}
        asked |= {"shrunk": means.words() if means else None}
        words = [sys.executable, "-B", os.path.abspath(display.__file__), json.dumps(asked)]
        try:
            status, out, note = self.limits.run(words, self.folder, "gs")
        except PassedTime:
            raise
        except Passed:
            return None
        if status or was_repaired(out, note):
            return None
        with open(os.path.join(self.folder, "answer.json"), encoding="utf-8") as file:
            return json.load(file), np.load(os.path.join(self.folder, "seen.npy"))


def was_repaired(out, note):
    """Returns whether Ghostscript painted something differently from what the PDF says."""
    return b"errors were encountered" in out + note or any(map(UNPAINTED.search, REPAIRED.findall(out + note)))
