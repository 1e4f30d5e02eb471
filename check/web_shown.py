"""What the screen shows: the index, the plates' bits, switches, moves, places, links."""
import os

from browser import Keys, touch
from two_sites import LENGTH, WIDTH, plates_of
from web_plates import CELL, COLOURS, MIDDLES, composite

try:
    import numpy
except ImportError:
    numpy = None


def see_index(results, page):
    """The index: a card for each form of a pair, with its picture, inks, sites and zones."""
    page.open()
    cards = [card.text.replace("\n", " ") for card in page.driver.find_elements("css selector", ".card")]
    results.see(
        cards
        == [
            "A-001 back | front OSLO, BERGEN (zone west)".replace(
                "OSLO, BERGEN (zone west)", "BERGEN (zone west), OSLO"
            ),
            "A-002 local | third BERGEN (zone west)",
            "A-002 inside | third OSLO",
            "C-001 back | third BERGEN (zone west), OSLO",
        ],
        f"the index has {cards}",
    )
    inks = [
        len(card.find_elements("css selector", ".chip"))
        for card in page.driver.find_elements("css selector", ".card")
    ]
    results.see(inks == [5, 1, 1, 4], f"the cards have {inks} inks")
    sizes = page.script("return [...document.images].map(image => image.naturalWidth)")
    results.see(len(sizes) == 4 and min(sizes) > 100, f"the thumbnails are {sizes} pixels wide")
    page.find(".card").click()
    page.settle()
    results.see(
        page.hash()["pair"] == "A-001" and page.hash()["site"] == "BERGEN", f"a card leads to {page.hash()}"
    )


def see_native(results, page, plates):
    """At one screen pixel a plate pixel the screen shows the plates' bits: of each ink alone, of two, of
    all."""
    for site, pair, choices in (
        ("OSLO", "A-001", ["C", "M", "Y", "K", "S", "CM", "KS", "CMYKS"]),
        ("BERGEN", "A-002", ["K"]),
        ("OSLO", "A-002", ["K"]),
        ("OSLO", "C-001", ["MY", "CMYK"]),
    ):
        read = plates_of(os.path.join(plates, site), pair)
        for inks in choices:
            for black in (False, True) if len(inks) == 1 else (False,):
                wanted, wrong, seen = composite(read, inks, black), 0, numpy.zeros((LENGTH, WIDTH), bool)
                for x, y in MIDDLES[: 1 if len(inks) == 1 else 2]:
                    page.open(f"#pair={pair}&site={site}&inks={inks}&x={x}&y={y}&z=0" + "&black=1" * black)
                    part, picture = page.seen(x, y)
                    wrong += int((picture != wanted[part]).any(axis=2).sum())
                    seen[part] = True
                results.see(
                    wrong == 0 and seen.all(),
                    f"{site} {pair} {inks}{' in black' * black}: {wrong} pixels differ",
                )
    left, top, width, height = page.box()
    page.open("#pair=A-001&site=OSLO&x=0&y=0&z=0")
    around = page.picture()[: height // 2 - 1, : width // 2 - 1]
    results.see(len(numpy.unique(around.reshape(-1, 3), axis=0)) == 1, "something is drawn outside the plate")


def see_switches(results, page, plates):
    """Switches and keys work at once: no tile is removed for them."""
    read, (x, y) = plates_of(os.path.join(plates, "OSLO"), "A-001"), MIDDLES[1]
    page.open(f"#pair=A-001&site=OSLO&x={x}&y={y}&z=0")
    page.script("window.kept = [...document.querySelectorAll('#map canvas')]")

    def shows(what, inks, black=False):
        part, picture = page.seen(x, y)
        wrong = int((picture != composite(read, inks, black)[part]).any(axis=2).sum())
        same = page.script(
            "const now = [...document.querySelectorAll('#map canvas')];"
            "return now.length === window.kept.length && now.every((tile, i) => tile === window.kept[i])"
        )
        checked = [
            ink for ink in COLOURS if page.find(f"#switch-{ink}").get_attribute("aria-checked") == "true"
        ]
        results.see(
            wrong == 0 and same and checked == list(inks),
            f"{what}: {wrong} pixels, {checked}, tiles kept: {same}",
        )
        results.see(page.hash()["inks"] == inks, f"{what}: the link has {page.hash()}")

    shows("all inks", "CMYKS")
    page.find("#switch-M").click()
    shows("a click on magenta", "CYKS")
    page.press("c", "k")
    shows("the keys c and k", "YS")
    page.press("M")
    shows("the key M", "MYS")
    page.press("a")
    shows("the key a", "CMYKS")
    page.press("b")
    shows("the key b", "C", black=True)
    page.press("y")
    shows("another ink in black", "Y", black=True)
    page.find("#separate").click()
    shows("a click on One in black", "CMYKS")
    told = page.find("#told").get_attribute("textContent")
    results.see(told == "All inks", f"a screen reader is told {told!r}")
    unnamed = page.script(
        "return [...document.querySelectorAll('button, select, input, #map')].filter(element =>"
        " !(element.getAttribute('aria-label') || element.textContent.trim()"
        " || element.labels && element.labels.length))"
        ".map(element => element.outerHTML)"
    )
    results.see(not unnamed, f"without a label: {unnamed}")


def see_moves(results, page):
    """Keys move and zoom."""
    page.open("#pair=A-001&site=OSLO&x=700&y=500&z=0")
    page.press(Keys.ARROW_RIGHT, Keys.ARROW_DOWN)
    page.settle()
    results.see((page.hash()["x"], page.hash()["y"]) == ("780", "580"), f"arrows lead to {page.hash()}")
    for key, zoom, scale in (("8", "3", "8:1"), ("-", "2", "4:1"), ("1", "0", "1:1"), ("+", "1", "2:1")):
        page.press(key)
        page.settle()
        results.see(
            (page.hash()["z"], page.find("#scale").text) == (zoom, scale),
            f"{key!r}: {page.hash()}, {page.find('#scale').text}",
        )
    page.press("0")
    page.settle()
    picture, (_, _, width, height) = page.picture(), page.box()
    whole = min((width - 24) / WIDTH, (height - 24) / LENGTH)
    results.see(abs(2 ** float(page.hash()["z"]) - whole) < 0.01, f"the whole pair is at {page.hash()['z']}")
    results.see(
        (picture[0] == picture[0, 0]).all() and (picture[:, 0] == picture[0, 0]).all(),
        "the whole pair leaves the window",
    )


def see_pairs(results, page):
    """Keys and lists lead to other pairs and sites, and to the index; a finger moves the plates."""
    page.open("#pair=A-001&site=OSLO&x=700&y=500&z=0")
    page.press("]")
    page.settle()
    results.see(page.hash()["pair"] == "A-002" and page.hash()["site"] == "OSLO", f"] leads to {page.hash()}")
    page.script(
        "const pick = document.getElementById('pick-site');"
        "pick.value = 'BERGEN'; pick.onchange({target: pick})"
    )
    page.settle()
    results.see(
        "BERGEN · zone west" in page.find("#bar-view").text, f"another site: {page.find('#bar-view').text}"
    )
    page.press(Keys.HOME)
    results.see(
        page.find("#edition").is_displayed() and not page.find("#pair").is_displayed(),
        "Home doesn't lead to the index",
    )
    page.open("#pair=A-001&site=OSLO&x=700&y=500&z=0")
    touch(page, (600, 500), (540, 470))
    page.settle()
    moved = float(page.hash()["x"]) - 700, float(page.hash()["y"]) - 500
    # A browser passes over a finger's first pixels.
    results.see(45 <= moved[0] <= 60 and 22 <= moved[1] <= 30, f"a touch moves by {moved}")


def see_links(results, page):
    """A link names what is shown, and shows it again; surroundings are dark by choice."""
    page.open(
        "#pair=A-001&site=OSLO&inks=MK&x=612&y=433&z=1&show=keys,limit&over=150&keys=5&rect=64,128,640,512"
    )
    before, link = page.picture(), page.script("return location.hash")
    page.open(link, anew=True)
    results.see(
        (page.picture() == before).all() and page.script("return location.hash") == link,
        "a link shows something else",
    )
    was = page.script("return getComputedStyle(document.getElementById('map')).backgroundColor")
    page.press("n")
    is_dark = page.script("return getComputedStyle(document.getElementById('map')).backgroundColor")
    results.see(
        was != is_dark and page.find("#panel .dark-switch").get_attribute("aria-pressed") == "true",
        "n doesn't darken",
    )
    page.press("n")


def see_places(results, page):
    """A key measures what is in view, and the bar shows the position under the pointer."""
    x, y = 700, 500
    page.open(f"#pair=A-001&site=OSLO&x={x}&y={y}&z=0")
    _, _, width, height = page.box()
    page.press("v")
    inside = [
        max(0, x - width // 2) // CELL * CELL,
        max(0, y - height // 2) // CELL * CELL,
        min(WIDTH, -(-(x - width // 2 + width) // CELL) * CELL),
        min(LENGTH, -(-(y - height // 2 + height) // CELL) * CELL),
    ]
    results.see(
        page.hash()["rect"] == ",".join(map(str, inside)),
        f"what is in view: {page.hash()['rect']}, not {inside}",
    )
    page.press(Keys.ESCAPE)
    results.see("rect" not in page.hash(), "Escape leaves the rectangle")
    for place, wanted in (
        ((310, 150), ["6.6, 3.2 mm · pixel 310, 150", "page 4 (back): 5.9, 2.8 mm"]),
        ((1000, 130), ["21.2, 2.8 mm · pixel 1000, 130", "page 1 (front): 4.9, 2.3 mm"]),
        ((740, 200), ["15.7, 4.2 mm · pixel 740, 200", "no page"]),
    ):
        page.point(page.on_screen(place, (x, y)))
        said = [page.find(name).text for name in ("#bar-place", "#bar-page")]
        results.see(said == wanted, f"at {place} the bar says {said}, not {wanted}")
