"""Printed areas, rectangles, ink keys, sums of inks and changes."""
import os
import subprocess

from browser import MIDDLE, drag
from two_sites import EXAMPLES, LENGTH, WIDTH, plates_of
from web_plates import CAME, CELL, COLOURS, MIDDLES, WENT, composite

try:
    import numpy
except ImportError:
    numpy = None


def see_measures(results, page, plates):
    """The table has each plate's share, and a dragged rectangle the dots of its whole cells."""
    read, (x, y) = plates_of(os.path.join(plates, "OSLO"), "A-001"), (700, 500)
    page.open(f"#pair=A-001&site=OSLO&x={x}&y={y}&z=0")
    totals = {ink: row.text for ink in COLOURS for row in [page.find(f"#ink-{ink} td")]}
    wanted = {ink: f"{100 * plate.mean():.1f} %" for ink, plate in read.items()}
    results.see(totals == wanted, f"the plates have {totals}, not {wanted}")
    for way, (a, b), shift in (
        ("the button", ((1130, 700), (800, 401)), False),
        ("Shift", ((900, 200), (1090, 380)), True),
    ):
        if not shift:
            page.press("r")
        drag(page, page.on_screen(a, (x, y)), page.on_screen(b, (x, y)), shift)
        x0, y0 = (min(p, q) // CELL * CELL for p, q in zip(a, b))
        x1, y1 = (-(-max(p, q) // CELL) * CELL for p, q in zip(a, b))
        dots = {
            ink: int(
                page.find(f"#ink-{ink}").find_elements("css selector", "td")[1].get_attribute("data-dots")
            )
            for ink in COLOURS
        }
        counted = {ink: int(plate[y0:y1, x0:x1].sum()) for ink, plate in read.items()}
        results.see(dots == counted, f"a rectangle by {way}: {dots}, not {counted}")
        results.see(page.hash()["rect"] == f"{x0},{y0},{x1},{y1}", f"a rectangle by {way}: {page.hash()}")
        sides = f"{(x1 - x0) * 25.4 / 1200:.1f} by {(y1 - y0) * 25.4 / 1200:.1f} mm"
        results.see(
            sides in page.find("#rect-line").text, f"it says {page.find('#rect-line').text}, not {sides}"
        )
        if not shift:
            page.press("r")


def see_keys(results, page, program, folder, plan):
    """The bars below the plate are the counts of `plateroom keys`."""
    for count in (8, 5):
        page.open(f"#pair=A-001&site=OSLO&show=keys&keys={count}")
        bars = page.script(
            "return [...document.querySelectorAll('#map rect[data-key]')]"
            ".map(bar => [bar.dataset.ink, +bar.dataset.key, +bar.dataset.dots])"
        )
        found = {
            ink: [dots for _, dots in sorted((key, dots) for of, key, dots in bars if of == ink)]
            for ink in COLOURS
        }
        answer = subprocess.run(
            [program, "keys", plan, EXAMPLES, os.path.join(folder, "keys"), str(count)],
            capture_output=True,
            text=True,
        )
        lines = [line.split() for line in answer.stdout.splitlines() if line.startswith("keys ")]
        wanted = {name[-1]: list(map(int, dots)) for _, _, name, *dots in lines if name.startswith("A-001-")}
        results.see(found == wanted, f"{count} keys: {found}, not {wanted}")
    page.press("c", "m", "y", "s")
    inks = page.script(
        "const bars = [...document.querySelectorAll('#map rect[data-key]')];"
        "return [...new Set(bars.map(bar => bar.dataset.ink))].join('')"
    )
    results.see(inks == "K", f"with black alone the keys show {inks}")
    page.press("i")
    results.see(
        not page.driver.find_elements("css selector", "#map rect[data-key]"), "i doesn't take the keys away"
    )


def see_limit(results, page, plates):
    """The squares whose sum of C, M, Y and K is above a number are marked, and no others."""
    read = plates_of(os.path.join(plates, "OSLO"), "A-001")
    rows, columns = -(-LENGTH // CELL), -(-WIDTH // CELL)
    sums = numpy.zeros((rows, columns))
    for row in range(rows):
        for column in range(columns):
            sums[row, column] = 100 * sum(
                read[ink][row * CELL : row * CELL + CELL, column * CELL : column * CELL + CELL].mean()
                for ink in "CMYK"
            )
    page.open("#pair=A-001&site=OSLO")
    results.see(
        page.find("#over").get_attribute("value") == "305", "the plan's limit of 300 percent isn't the first"
    )
    for over in (int(numpy.median(sums[sums > 1])), int(sums.max()) - 8):
        wanted = numpy.kron(sums > over, numpy.ones((CELL, CELL), bool))[:LENGTH, :WIDTH]
        wrong = 0
        for x, y in MIDDLES:
            page.open(f"#pair=A-001&site=OSLO&inks=CMYK&x={x}&y={y}&z=0&show=limit&over={over}")
            part, picture = page.seen(x, y)
            wrong += int(((picture != composite(read, "CMYK")[part]).any(axis=2) != wanted[part]).sum())
        results.see(
            wrong == 0 and 0 < wanted.mean() < 0.9, f"above {over}: {wrong} pixels are marked wrongly"
        )
        line = page.find("#over-line").text
        results.see(
            line.startswith(f"Sum of C M Y K: {int((sums > over).sum())} squares")
            and "limit is 300 %" in line,
            f"it says {line!r}",
        )


def see_changes(results, page, plates, old):
    """The list names the pairs that changed, and by how many dots; each line leads to its pair."""
    page.open()
    lines = [line.text for line in page.driver.find_elements("css selector", "#changed li")]
    new, was = (plates_of(os.path.join(where, "OSLO"), "A-001") for where in (plates, old))

    def told(ink):
        came, went = (int((a & ~b & 1).sum()) for a, b in ((new[ink], was[ink]), (was[ink], new[ink])))
        return f"{ink} {came:,} dots came, {went:,} went"

    changed = [ink for ink in COLOURS if (new[ink] != was[ink]).any()]
    wanted = "A-001 at BERGEN, OSLO: " + "; ".join(map(told, changed))
    results.see(
        lines[0] == wanted and set(changed) >= {"M", "S"} and len(changed) < 5,
        f"the list has {lines[0]!r}, not {wanted!r}",
    )
    results.see(
        [line.split(":")[0] for line in lines]
        == [
            "A-001 at BERGEN, OSLO",
            "A-002 at BERGEN",
            "C-001 at BERGEN, OSLO",
            "B-001 at BERGEN",
            "B-001 at OSLO",
        ],
        f"changed: {lines}",
    )
    results.see(
        lines[2:] == ["C-001 at BERGEN, OSLO: is new", "B-001 at BERGEN: is gone", "B-001 at OSLO: is gone"],
        f"changed: {lines[2:]}",
    )
    page.find("#changed a").click()
    page.settle()
    results.see(
        page.hash()["pair"] == "A-001" and page.hash()["show"] == "changes", f"a line leads to {page.hash()}"
    )


def see_differences(results, page, plates, old):
    """The difference layer shows the pixels that differ, and no others; from afar all places with one."""
    new, was = (plates_of(os.path.join(where, "OSLO"), "A-001") for where in (plates, old))
    for inks in ("M", "S", "K", "CMYKS"):
        came, went = numpy.zeros((LENGTH, WIDTH), bool), numpy.zeros((LENGTH, WIDTH), bool)
        for ink in inks:
            came |= (new[ink] & ~was[ink] & 1).astype(bool)
            went |= (was[ink] & ~new[ink] & 1).astype(bool)
        wrong = 0
        for x, y in MIDDLES:
            page.open(f"#pair=A-001&site=OSLO&inks={inks}&x={x}&y={y}&z=0&show=changes")
            part, picture = page.seen(x, y)
            is_came, is_went = ((picture == colour).all(axis=2) for colour in (CAME, WENT))
            wrong += int((is_came != came[part]).sum() + (is_went != (went & ~came)[part]).sum())
        results.see(wrong == 0, f"changes of {inks}: {wrong} pixels are marked wrongly")
    # A change of few dots is seen from afar: every block with one has one of the two colours.
    page.open(f"#pair=A-001&site=OSLO&inks=S&x={MIDDLE[0]}&y={MIDDLE[1]}&z=-2&show=changes")
    differs = (new["S"] != was["S"]).reshape(LENGTH // 4, 4, -1, 4).any(axis=(1, 3))
    part = page.whole(4)
    marked = numpy.abs(part[:, :, 0] - part[:, :, 2]) > 100
    results.see(
        (marked == differs).all(), f"from afar {int((marked != differs).sum())} blocks are marked wrongly"
    )
    page.press("d")
    page.settle()
    results.see("show" not in page.hash(), "d doesn't take the changes away")
