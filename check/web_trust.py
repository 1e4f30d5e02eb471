"""A proof that isn't whole says so: files that are missing, cut, changed or of another proof."""
import os
import shutil

from two_sites import plates_of
from web_plates import MIDDLES, composite

SIZES = (1440, 900), (1024, 768), (390, 844)


def copied(out, folder, name):
    """A copy of a proof."""
    path = os.path.join(folder, name)
    shutil.rmtree(path, ignore_errors=True)
    shutil.copytree(out, path)
    return path


def plate_of(out, front):
    """The folder of the first plate whose key begins so."""
    return os.path.join(
        out,
        "plates",
        min(
            name
            for name in os.listdir(os.path.join(out, "plates"))
            if name.startswith(front) and not name.endswith(("-came", "-went"))
        ),
    )


def cut(path, size=None):
    """Keeps the front of a file, half of it unless a size is given."""
    with open(path, "r+b") as file:
        file.truncate(os.path.getsize(path) // 2 if size is None else size)


def change(path):
    """Changes one letter in the middle of a file."""
    with open(path, "r+b") as file:
        at = os.path.getsize(path) // 2
        file.seek(at)
        letter = file.read(1)
        file.seek(at)
        file.write(b"B" if letter != b"B" else b"C")


def harms(out):
    """What a transfer that was cut, or a disk, makes of the magenta of A-001: a name, and what does it."""

    def each(*names, by):
        return lambda out: [by(os.path.join(plate_of(out, "A-001-M"), name)) for name in names]

    def other(out):
        shutil.copyfile(
            os.path.join(plate_of(out, "A-001-Y"), "bits-0-0.js"),
            os.path.join(plate_of(out, "A-001-M"), "bits-0-0.js"),
        )

    def other_edition(out):
        """The block is of another plate, under this one's name."""
        with open(os.path.join(plate_of(out, "A-001-Y"), "bits-0-0.js"), encoding="ascii") as file:
            text = file.read()
        names = [os.path.basename(plate_of(out, f"A-001-{ink}")) for ink in "YM"]
        with open(os.path.join(plate_of(out, "A-001-M"), "bits-0-0.js"), "w", encoding="ascii") as file:
            file.write(text.replace(*names))

    return {
        "the folder is missing": lambda out: shutil.rmtree(plate_of(out, "A-001-M")),
        "the bits are missing": each("bits-0-0.js", by=os.remove),
        "the bits are cut": each("bits-0-0.js", by=cut),
        "the bits are empty": each("bits-0-0.js", by=lambda path: cut(path, 0)),
        "a letter of the bits is another": each("bits-0-0.js", by=change),
        "the bits are another plate's": other,
        "the bits are another plate's, under this one's name": other_edition,
        "the counts are missing": each("counts.js", by=os.remove),
        "the counts are cut": each("counts.js", by=cut),
        "a letter of the counts is another": each("counts.js", by=change),
    }


def see_harms(results, page, out, folder, plates):
    """Each harm is named in words that are seen; the ink has no number, and there is neither a sum nor a limit."""
    x, y = MIDDLES[1]
    for number, (what, harm) in enumerate(harms(out).items()):
        hurt = copied(out, folder, "web-harm")
        harm(hurt)
        page.address = "file://" + os.path.join(hurt, "index.html")
        page.resize(*SIZES[number % 3])
        page.open(f"#pair=A-001&site=OSLO&x={x}&y={y}&z=0&show=limit&over=100", anew=True)
        said = page.find("#trouble")
        results.see(said.is_displayed() and "Magenta" in said.text, f"{what}: it says {said.text!r}")
        texts = [
            page.script("return document.querySelector(arguments[0]).textContent", name)
            for name in ("#ink-M td", "#sum-plate", "#over-line", "#ink-C td")
        ]
        results.see(
            texts[:3] == ["not whole", "not known", ""] and texts[3].endswith("%"),
            f"{what}: the numbers are {texts}",
        )
        results.see(not page.find("#show-limit").is_enabled(), f"{what}: the limit can be switched on")
        hatched = page.script("return document.getElementById('ink-M').classList.contains('lost')")
        results.see(hatched, f"{what}: the ink isn't hatched")
        if "count" not in what:
            picture = page.seen(x, y)[1]
            calm = composite(plates_of(f"{plates}/OSLO", "A-001"), "CYKS")[page.seen(x, y)[0]]
            results.see(
                (picture != calm).any(axis=2).mean() > 0.9,
                f"{what}: plates without magenta are shown as if they were right",
            )
    page.whole_window()


def see_alone(results, page, out, folder):
    """A harm to one site's plate leaves the other pairs as they are, and the index names the files."""
    hurt = copied(out, folder, "web-harm")
    shutil.rmtree(plate_of(hurt, "A-001-M"))
    os.remove(os.path.join(hurt, "thumbs", "3.js"))
    page.address = "file://" + os.path.join(hurt, "index.html")
    page.open("#pair=C-001&site=OSLO", anew=True)
    results.see(not page.find("#trouble").is_displayed(), "another pair is said not to be whole")
    page.open("#pair=A-001&site=OSLO")
    page.script("location.hash = ''")
    page.wait("return !document.getElementById('edition').hidden")
    said = page.find("#not-whole").text
    results.see("A-001-M" in said and "is missing" in said, f"the index says {said!r}")
    results.see("picture is missing" in page.find("#cards").text, "a picture that is missing isn't named")


def see_unfinished(results, page, out, folder):
    """Without its manifest, with a changed or a cut one, or without a script, the page says that it isn't whole."""

    def dropped(path):
        os.remove(path)

    names = [name for name in os.listdir(out) if name.endswith(".js")]
    tried = [(name, harm) for name in names for harm in (dropped, cut)] + [("proof.js", change)]
    tried += [
        ("proof.js", lambda path: cut(path, os.path.getsize(path) - 40)),
        (os.path.join("leaflet", "leaflet.js"), cut),
    ]
    for name, harm in tried:
        hurt = copied(out, folder, "web-harm")
        harm(os.path.join(hurt, name))
        page.address = "file://" + os.path.join(hurt, "index.html")
        page.open("", anew=True)
        said = page.find("#unloaded")
        results.see(
            said.is_displayed() and "not whole" in said.text.lower(),
            f"{name} {harm.__name__}: the page says {said.text!r}",
        )
        cards = page.driver.find_elements("css selector", ".card")
        results.see(not cards, f"{name} {harm.__name__}: {len(cards)} pairs are shown")
