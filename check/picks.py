"""Which plates of a new edition must be made, given those of an old one, by the definitions alone."""
import functools
import os

from plates import INKS


def bytes_of(edition, name):
    """The bytes of a file that a layer names."""
    if name is None:
        return None
    with open(os.path.join(edition.folder, name), "rb") as file:
        return file.read()


def page_recipe(edition, page):
    """What a page is made from, with the bytes of images and masks in place of their names."""
    return "C" in page["inks"], "S" in page["inks"], [
        (part["kind"], part.get("x", 0), part.get("y", 0), part.get("scale", 1), part.get("crop"),
         part.get("paint", "knockout"), (part.get("ink", [0, 0, 0, 255]) + [0])[:5],
         bytes_of(edition, part["file"]), bytes_of(edition, part.get("mask"))) for part in page["layers"]]


def screen_recipe(plan, ink):
    """How an ink is screened, with the numbers of an own tile in the place of its name."""
    screen = plan.get("screens", {}).get(ink, "bayer8")
    tile = next((tile for tile in plan.get("tiles", []) if "tile:" + tile["name"] == screen), None)
    return [tile["width"], tile["height"], tile["at"]] if tile else screen


def recipes(edition):
    """Everything that each plate is made from. Names of files, pages, tiles and zones are no part of it."""
    plan, made = edition.plan, {}
    pages = {name: page_recipe(edition, page) for name, page in edition.pages.items()}
    common = (
        plan["dpi"], plan["page"], plan.get("margins", [0] * 4), plan.get("gutter", 0), plan.get("limit", 1020),
        [(set(mark["inks"]), mark["x"], mark["y"], mark["w"], mark["h"]) for mark in plan.get("marks", [])],
        [plan.get("curves", {}).get(ink, [[0, 0], [255, 255]]) for ink in INKS])
    for name, left, right, inks, sites in edition.groups():
        for ink in inks:
            recipe = common, screen_recipe(plan, ink), pages[left], pages[right]
            made.update((f"{site}/{name}-{ink}.tif", recipe) for site in sites)
    return made


@functools.lru_cache(maxsize=4)
def plates_of(edition):
    return dict(edition.plates())


class Change:
    """An old and a new edition: the new plates that must be made, and the old ones that are dropped."""

    def __init__(self, before, after):
        old, new = recipes(before), recipes(after)
        self.before, self.after = before, after
        self.made = {path for path in new if path not in old or new[path] != old[path]}
        paths = [path for plates in before.spans()[0].values() for path, _, _ in plates]
        self.dropped = [path for path in paths if path not in new]

    def end(self, site, broken):
        """The plates that a site finishes, and the row and the plate at which it leaves, if it does."""
        plates = [plate for plate in self.after.spans()[0][site] if plate[0] in self.made]
        left = min(((first, path) for path, first, _ in plates if path in broken), default=None)
        return [path for path, _, last in plates if not left or last < left[0]], left

    def counts(self):
        """How many plates are made at each site."""
        return tuple(len(self.end(site, ())[0]) for site in self.after.spans()[0])

    def text(self, broken=()):
        """What is printed if the plates in `broken` can't be made."""
        lines, total = [], 0
        for site, plates in self.after.spans()[0].items():
            finished, left = self.end(site, broken)
            made = len(finished)
            end = f"left made {made} file OUT/{left[1]}" if left else f"made {made} kept {len(plates) - made}"
            lines.append(f"site {site} {end}")
            total += made
        lines += [f"dropped OUT/{path}" for path in self.dropped]
        return "".join(line + "\n" for line in [*lines, f"total made {total}"])

    def files(self, broken):
        """The plates below OUT afterwards: those that are made, those that are unchanged, and those begun,
        which have other names."""
        plates, stays, made, begun = plates_of(self.after), dict(plates_of(self.before)), {}, {}
        for site, spans in self.after.spans()[0].items():
            finished, left = self.end(site, broken)
            for path, first, _ in spans:
                if path not in self.made:
                    stays[path] = plates[path]
                elif path in finished:
                    made[path] = plates[path]
                    stays.pop(path, None)
                elif first <= left[0]:
                    begun[path] = plates[path]
                    if path in broken:
                        stays.pop(path, None)
        return made, stays, begun
