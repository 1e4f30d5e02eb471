"""Light and what screens store: sRGB numbers are a curve of light, so shares of light are averaged before the curve."""

import numpy
from numpy.typing import NDArray

Floats = NDArray[numpy.float64]


def light_of(colour: tuple[int, int, int]) -> Floats:
    """Returns the light of an sRGB colour of 0 to 255: three numbers from 0 to 1 (IEC 61966-2-1)."""
    part: Floats = numpy.array(colour, numpy.float64) / 255
    found: Floats = numpy.where(part <= 0.04045, part / 12.92, ((part + 0.055) / 1.055) ** 2.4)
    return found


def screen_of(light: Floats) -> NDArray[numpy.uint8]:
    """Returns the sRGB numbers of 0 to 255 of any array of light from 0 to 1."""
    bounded = numpy.clip(light, 0, 1)
    part = numpy.where(bounded <= 0.0031308, 12.92 * bounded, 1.055 * bounded ** (1 / 2.4) - 0.055)
    found: NDArray[numpy.uint8] = numpy.rint(255 * part).astype(numpy.uint8)
    return found
