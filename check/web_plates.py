"""What the checks of the proof share: how it is made, and what a screen shows of plates, by the definitions of sRGB."""
import os
import subprocess
import sys

from two_sites import LENGTH, TOP, WIDTH

try:
    import numpy
except ImportError:
    numpy = None

COLOURS = {"C": (0, 255, 255), "M": (255, 0, 255), "Y": (255, 255, 0), "K": (0, 0, 0), "S": (18, 120, 60)}
CAME, WENT = (0, 96, 255), (255, 60, 0)
CELL = 64
# Middles of the view at one to one; the first shows the whole plate.
MIDDLES = [(750, 550), (1211, 237)]


def tool(*words, **how):
    """Runs `pressroom web` and returns its status, its output and its messages."""
    line = [sys.executable, "-B", os.path.join(TOP, "tools", "pressroom.py"), "web", *map(str, words)]
    answer = subprocess.run(line, capture_output=True, text=True, **how)
    return answer.returncode, answer.stdout, answer.stderr


def light_of(numbers):
    """The light, 0 to 1, of sRGB numbers of 0 to 255, by IEC 61966-2-1."""
    part = numpy.asarray(numbers) / 255
    return numpy.where(part <= 0.04045, part / 12.92, ((part + 0.055) / 1.055) ** 2.4)


def screen_of(light):
    """The sRGB numbers of light, not rounded."""
    return 255 * numpy.where(
        light <= 0.0031308, 12.92 * light, 1.055 * numpy.maximum(light, 1e-9) ** (1 / 2.4) - 0.055
    )


def composite(plates, inks, black=False):
    """What a screen shows of these inks: each takes from the light of white paper what its colour doesn't
    have."""
    light = numpy.ones((LENGTH, WIDTH, 3))
    for ink in inks:
        colour = numpy.array((0, 0, 0) if black else COLOURS[ink]) / 255
        light *= numpy.where(plates[ink][:, :, None] == 1, colour, 1)
    return numpy.rint(light * 255).astype(numpy.int16)
