"""The newspaper's pictures: each gives red, green and blue at a place, all of them 0 to 1."""
import math


def sunset(u, v):
    if v < 0.62:
        glow = math.exp(-((u - 0.62) ** 2 * 9 + (v - 0.5) ** 2 * 22))
        if (u - 0.62) ** 2 * 2.2 + (v - 0.5) ** 2 < 0.006:
            return 1.0, 0.93, 0.6
        return (
            min(1, 0.25 + 0.5 * v + 0.6 * glow),
            min(1, 0.3 + 0.3 * v + 0.4 * glow),
            0.55 + 0.15 * v - 0.2 * glow,
        )
    deep = (v - 0.62) / 0.38
    wave = math.sin(40 * deep**0.5 + 3 * math.sin(9 * u)) * 0.5 + 0.5
    shine = math.exp(-(((u - 0.62) / (0.05 + 0.2 * deep)) ** 2)) * wave
    return 0.12 + 0.8 * shine, 0.2 + 0.5 * shine + 0.1 * wave, 0.34 + 0.15 * wave + 0.1 * shine


def aurora(u, v):
    ridge = 0.72 + 0.1 * math.sin(7 * u + 1) + 0.05 * math.sin(19 * u) + 0.02 * math.sin(53 * u)
    if v > ridge:
        snow = max(0.0, 1 - (v - ridge) * 9) * (0.6 + 0.4 * math.sin(60 * u + 30 * v))
        return 0.08 + 0.6 * snow, 0.1 + 0.6 * snow, 0.16 + 0.65 * snow
    band = math.exp(-(((v - 0.35 - 0.12 * math.sin(5 * u)) * 5) ** 2)) * (
        0.6 + 0.4 * math.sin(31 * u + 4 * math.sin(8 * v))
    )
    return 0.05 + 0.25 * band * v, 0.08 + 0.85 * band, 0.18 + 0.45 * band


def balls(colours):
    """Balls on a table, each a place, a radius and a colour."""

    def picture(u, v):
        for x, y, size, (r, g, b) in colours:
            dx, dy = (u - x) / size, (v - y) * 0.75 / size
            deep = 1 - dx * dx - dy * dy
            if deep > 0:
                light = max(0.0, 0.62 * math.sqrt(deep) - 0.45 * dx - 0.6 * dy)
                shine = max(0.0, light - 0.86) * 5
                light = 0.16 + 0.84 * light
                return min(1, r * light + shine), min(1, g * light + shine), min(1, b * light + shine)
        if v < 0.45:
            return 0.93 - 0.4 * v, 0.92 - 0.35 * v, 0.86 - 0.2 * v
        grain = 0.06 * math.sin(70 * v + 6 * math.sin(5 * u))
        dark = max(
            [0.0]
            + [
                math.exp(-(((u - x - 0.05) / size) ** 2 + ((v - y - size * 1.2) * 3.4 / size) ** 2))
                for x, y, size, _ in colours
            ]
        )
        return (
            (0.72 + grain) * (1 - 0.6 * dark),
            (0.56 + grain) * (1 - 0.6 * dark),
            (0.4 + grain) * (1 - 0.6 * dark),
        )

    return picture


FRUIT = balls(
    [
        (0.3, 0.58, 0.17, (1.0, 0.55, 0.05)),
        (0.62, 0.52, 0.21, (0.85, 0.12, 0.12)),
        (0.82, 0.7, 0.11, (0.55, 0.75, 0.15)),
        (0.47, 0.74, 0.09, (0.45, 0.15, 0.5)),
    ]
)
GLOBE = balls([(0.5, 0.5, 0.3, (0.2, 0.5, 0.85))])


def city(u, v):
    block = math.floor(u * 14)
    top = 0.25 + 0.4 * (math.sin(block * 12.9898) * 43758.5453 % 1)
    if v < top:
        light = 0.95 - 0.5 * v
        return light, light, light
    inside = (u * 14 - block) * 6
    lit = (
        inside % 1 > 0.4
        and v * 40 % 1 > 0.45
        and math.sin(block * 7 + math.floor(inside) * 3 + math.floor(v * 40) * 5) > 0.1
    )
    light = 0.9 if lit else 0.2 + 0.1 * (u * 14 - block)
    return light, light, light


def hills(u, v):
    for number, base in enumerate((0.35, 0.5, 0.65, 0.82)):
        edge = base + 0.08 * math.sin((4 + number) * u * 2 + number * 2) + 0.02 * math.sin(23 * u + number)
        if v < edge:
            light = 0.92 - 0.2 * number - 0.12 * (1 - (edge - v) * 3 if edge - v < 0.33 else 0)
            return light, light, light
    light = 0.12 + 0.1 * math.sin(200 * u) * math.sin(150 * v)
    return light, light, light
