#!/usr/bin/env python3
"""Measures the CPU seconds a page of `pressroom intake`, by program, on tabloid pages of several kinds.

usage: bench/intake.py FOLDER [--times N] [--tools TOOLS] [--second RULE] [KIND ..]

The pages are PDFs of 280 by 400 mm, rendered at 1016 dpi: 11,200 by 16,000 pixels. They are written to FOLDER
with Ghostscript's pdfwrite unless they exist. Each is made N times (default: 3), one at a time, and the least
CPU time counts. TOOLS is the folder `tools` of another clone to compare with. RULE is that of the second opinion in
the house file, which costs the difference between `off` and `note`. It needs the programs and libraries of intake.
"""
import argparse
import os
import resource
import subprocess
import sys
import tempfile
import time

sys.dont_write_bytecode = True
TOP = os.path.dirname(os.path.dirname(os.path.abspath(__file__)))
MM = 72 / 25.4
WORDS = "The council voted late on Tuesday to close the harbour road while the old sea wall is made safe".split()
HOUSE = """edition = "SPEED"
dpi = 1016
trim = [280, 400]
[sections]
A = 2
[spot]
separation = "HOUSE"
colour = "#1a8cd8"
[colour]
rgb = "convert"
profile = "/usr/share/color/icc/ghostscript/default_cmyk.icc"
spots = "mix"
[sites.OSLO]
"""


def picture(folder, name, mode, size, place):
    """Writes a smooth picture with grain as JPEG. Returns PostScript that places it, in millimetres."""
    import numpy as np
    from PIL import Image

    path, count = os.path.join(folder, name), len(mode.replace("CMYK", "1234").replace("RGB", "123"))
    if not os.path.exists(path):
        random, (y, x) = np.random.default_rng(5), np.mgrid[0 : size[1], 0 : size[0]]
        waves = [128 + 70 * np.sin(x / 90 + ink) + 50 * np.cos(y / 70 + x / 200 + 2 * ink) for ink in range(count)]
        grain = random.normal(0, 8, (*size[::-1], count))
        samples = np.clip(np.stack(waves, -1) + grain, 0, 255).astype(np.uint8)
        Image.fromarray(samples, mode).save(path, quality=88)
    left, top, width, height = (side * MM for side in place)
    return f"""gsave {left} {top} translate {width} {height} scale /Device{mode} setcolorspace << /ImageType 1
/Width {size[0]} /Height {size[1]} /BitsPerComponent 8 /Decode [{'0 1 ' * count}]
/ImageMatrix [{size[0]} 0 0 -{size[1]} 0 {size[1]}] /DataSource ({path}) (r) file /DCTDecode filter >> image
grestore\n"""


def texts(colour="0 0 0 1 setcmykcolor"):
    """Returns a headline and five columns of text."""
    body = f"{colour} /Helvetica-Bold findfont 44 scalefont setfont 34 964 moveto (Sea wall to be closed) show\n"
    body += "/Times-Roman findfont 9 scalefont setfont\n"
    for column in range(5):
        for line in range(54):
            words = " ".join(WORDS[(line * 5 + n) % len(WORDS)] for n in range(6))
            body += f"{34 + column * 147} {600 - line * 10.4} moveto ({words}) show\n"
    return body


def kinds(folder):
    """Returns the bodies of the pages by their contents."""
    colour = picture(folder, "cmyk.jpg", "CMYK", (1600, 1100), (12, 232, 180, 100))
    light = picture(folder, "rgb.jpg", "RGB", (1200, 1500), (200, 232, 68, 100))
    spot = "[/Separation /{} /DeviceCMYK {{ 0 exch dup 0.6 mul exch 0 }}] setcolorspace {} setcolor {} rectfill\n"
    box = "34 992 726 85"
    return {
        "text": texts(),
        "text that overprints": "true setoverprint\n" + texts(),
        "CMYK picture": colour + texts(),
        "CMYK picture, text overprints": colour + "true setoverprint\n" + texts(),
        "CMYK and RGB pictures": colour + light + texts(),
        "the house's spot": colour + spot.format("HOUSE", 1, box) + spot.format("HOUSE", 0.4, "34 620 726 9") + texts(),
        "a spot that is mixed": spot.format("OTHER", 1, "113 170 567 567") + texts(),
        "transparent": colour + "0.5 .setfillconstantalpha 0 1 1 0 setcmykcolor 113 737 567 142 rectfill "
        "1 .setfillconstantalpha\n" + texts(),
    }


def write(folder, name, body):
    path, (width, height) = os.path.join(folder, name), (280 * MM, 400 * MM)
    if os.path.exists(path):
        return path
    text = f"%!PS\n<< /PageSize [{width + 18:.4f} {height + 18:.4f}] >> setpagedevice\n"
    text += f"[ /TrimBox [9 9 {width + 9:.4f} {height + 9:.4f}] /PAGE pdfmark 9 9 translate\n{body}showpage\n"
    words = ["gs", "-q", "-dNOPAUSE", "-dBATCH", "-dNOSAFER", "-dALLOWPSTRANSPARENCY", "-sDEVICE=pdfwrite"]
    words += ["-dAutoRotatePages=/None", "-dAutoFilterColorImages=false", "-dPassThroughJPEGImages=true"]
    words += ["-dDownsampleColorImages=false", f"-sOutputFile={path}", "-c", "<< /NeverEmbed [] >> setdistillerparams"]
    subprocess.run([*words, "-f", "-"], input=text.encode(), check=True, capture_output=True)
    return path


def spent(who):
    used = resource.getrusage(who)
    return used.ru_utime + used.ru_stime


class Watch:
    """Replaces Limits.run, and adds up the CPU seconds of each program."""

    def __init__(self, limits):
        self.run, self.seconds, limits.run = limits.run, {}, lambda *words: self.watched(*words)

    def watched(self, limits, words, folder, *more):
        before = spent(resource.RUSAGE_CHILDREN)
        try:
            return self.run(limits, words, folder, *more)
        finally:
            made = next((word.partition("=")[2] for word in words if word.startswith("-sOutputFile=")), "strips")
            name = f"gs {made}" if "gs" in (words[0], *more) else words[0]
            took = spent(resource.RUSAGE_CHILDREN) - before
            self.seconds[name] = self.seconds.get(name, 0) + took


def measure(intake, source, watch):
    """Returns the CPU seconds of a page, its wall-clock seconds, and the CPU seconds by program."""
    watch.seconds, begun = {}, time.monotonic()
    before = spent(resource.RUSAGE_SELF) + spent(resource.RUSAGE_CHILDREN)
    outcome = intake.outcome(source)
    if outcome.fault:
        sys.exit(f"{source.path}: {outcome.fault}")
    total = spent(resource.RUSAGE_SELF) + spent(resource.RUSAGE_CHILDREN) - before
    rest = total - sum(watch.seconds.values())
    return total, time.monotonic() - begun, watch.seconds | {"intake itself": rest}


def main():
    parser = argparse.ArgumentParser(
        description=__doc__, formatter_class=argparse.RawDescriptionHelpFormatter
    )
    parser.add_argument("folder", metavar="FOLDER")
    parser.add_argument("kinds", metavar="KIND", nargs="*")
    parser.add_argument("--times", metavar="N", type=int, default=3)
    parser.add_argument("--tools", metavar="TOOLS", default=os.path.join(TOP, "tools"))
    parser.add_argument("--second", metavar="RULE")
    words = parser.parse_args()
    sys.path.insert(0, words.tools)
    from pressroom.base import limits
    from pressroom.intake import state
    from pressroom.house.house import Place, read_house
    from pressroom.intake.intake import Intake
    from pressroom.intake.pages import PageFile

    folder = os.path.abspath(words.folder)
    os.makedirs(folder, exist_ok=True)
    house = os.path.join(folder, "house.toml")
    with open(house, "w", encoding="utf-8") as file:
        file.write(HOUSE + (f'[check]\nsecond = "{words.second}"\n' if words.second else ""))
    watch = Watch(limits.Limits)
    for kind, body in kinds(folder).items():
        if words.kinds and kind not in words.kinds:
            continue
        path = write(folder, kind.replace(" ", "-").replace(",", "") + ".pdf", body)
        source = PageFile(Place(None, "A", 1), path, os.path.basename(path), "pdf")
        found = []
        for _ in range(words.times):
            with tempfile.TemporaryDirectory(dir=folder) as work:
                intake = Intake(read_house(house), state.Work(work), limits.Limits(), 20)
                found.append(measure(intake, source, watch))
        total, clock, parts = min(found, key=lambda one: one[0])
        said = ", ".join(f"{name} {seconds:.2f}" for name, seconds in parts.items() if seconds >= 0.05)
        print(f"{kind}: CPU {total:.1f} s, wall-clock {clock:.1f} s: {said}", flush=True)


if __name__ == "__main__":
    main()
