"""The tone of the proof: at every zoom the light of the screen is that of the plates' dots."""
from browser import MIDDLE
from two_sites import LENGTH, WIDTH, plates_of
from web_plates import COLOURS, composite, light_of

try:
    import numpy
except ImportError:
    numpy = None

# How far the light of a pixel, of 0 to 1, may be from what the plates' dots are counted to give.
NEAR = 0.02


def blocks(plate, side):
    """The share that prints of each whole block of so many pixels across and down."""
    tall, wide = LENGTH // side, WIDTH // side
    return plate[: tall * side, : wide * side].reshape(tall, side, wide, side).mean(axis=(1, 3))


def light_by_shares(plates, inks, side):
    """The light of each block, whose inks overlap at random."""
    light = numpy.ones((LENGTH // side, WIDTH // side, 3))
    for ink in inks:
        light *= 1 - blocks(plates[ink], side)[:, :, None] * (1 - light_of(COLOURS[ink]))
    return light


def see_tone(results, page, plates):
    """At each zoom by two each pixel has the light of its block, of each ink and of all; the whole plate has the plate's."""
    read = plates_of(f"{plates}/OSLO", "A-001")
    for zoom in (1, 2, 3, 4):
        side = 2**zoom
        for inks in ("K", "C", "S", "CMYKS"):
            middle = [at // side * side for at in MIDDLE]
            page.open(f"#pair=A-001&site=OSLO&inks={inks}&x={middle[0]}&y={middle[1]}&z=-{zoom}")
            part, wanted = light_of(page.whole(side)), light_by_shares(read, inks, side)
            off = numpy.abs(part - wanted).max() if part.shape == wanted.shape else 1
            results.see(off <= NEAR, f"{inks} at one to {side}: the light of a pixel is off by {off:.3f}")


def see_means(results, page, plates):
    """At any zoom, of two and between, the mean light of the plate on the screen is 1 less what black covers."""
    covered = plates_of(f"{plates}/OSLO", "A-001")["K"].mean()
    for zoom in (0, -0.3, -0.5, -1, -1.4, -1.7, -2, -2.5, -3, -3.6, -4):
        x, y = WIDTH / 2, LENGTH / 2
        page.open(f"#pair=A-001&site=OSLO&inks=K&x={x}&y={y}&z={zoom}")
        picture, step = page.picture(), 2**-zoom
        tall, wide = picture.shape[:2]
        # The plate's edges on the screen; the pixels around them belong to the plate in part.
        left, top = round(wide / 2 - x / step), round(tall / 2 - y / step)
        part = light_of(
            picture[max(0, top) : top + int(LENGTH / step), max(0, left) : left + int(WIDTH / step)]
        )
        off = abs(part.mean() - (1 - covered))
        results.see(
            off <= NEAR, f"at 2 to the {zoom} the mean light is {part.mean():.3f}, not {1 - covered:.3f}"
        )


def see_enlarged(results, page, plates):
    """Eight screen pixels a plate pixel are that pixel."""
    read, (x, y) = plates_of(f"{plates}/OSLO", "A-001"), (700, 460)
    page.open(f"#pair=A-001&site=OSLO&x={x}&y={y}&z=3")
    picture = page.picture()
    height, width = picture.shape[:2]
    rows, columns = (numpy.arange(height) - height // 2) // 8 + y, (numpy.arange(width) - width // 2) // 8 + x
    wrong = int((picture != composite(read, "CMYKS")[rows][:, columns]).any(axis=2).sum())
    results.see(wrong == 0, f"{wrong} pixels differ at eight to one")
