"""Makes the plates of one pair with plateroom, verifies them, and says which of them print nothing.

The program replates from the plan whose pages are all blank to the plan that has the pair, which makes the
plates of this pair alone. It then verifies them among the plates of the plan's other, blank pairs: all blank
plates of a plan have the same bytes, so one is made and gets all of their names. Every end but a verdict of
`same` is the machine's fault.
"""
import hashlib
import json
import os
import shutil
import subprocess
import tempfile
import time
from collections.abc import Iterable, Sequence
from typing import Any

from pressroom.night.below import sync_folder
from pressroom.night.escapes import shown
from pressroom.night.records import Plan
from pressroom.plans.plan_reader import Plan as PlanReader
from pressroom.tiff.tiff import Tiff

SUMS = "SHA256SUMS"


class Failed(Exception):
    """The plates aren't made; the text says why."""


def work(request: dict[str, Any], _: Sequence[int]) -> dict[str, Any]:
    """Answers a request of the kind `plates` or `whole`."""
    begun = time.monotonic()
    try:
        with tempfile.TemporaryDirectory(prefix="plates-", dir=folder_of(request)) as folder:
            if request["kind"] == "whole":
                answer = whole(request["plan"], request["files"], request["site"], request["plates"], folder)
            else:
                answer = made(request["blank"], request["plan"], request["files"], request["out"], folder)
    except (Failed, OSError) as error:
        return {"why": shown(str(error))}
    return answer | {"seconds": round(time.monotonic() - begun, 2)}


def folder_of(request: dict[str, Any]) -> str | None:
    """Returns the folder for what is made on the way: on the file system of the plates, so that they can be
    moved; for a verification alone, any."""
    return None if request["kind"] == "whole" else os.path.dirname(os.path.abspath(request["out"]))


# ---- a pair


def made(blank: Plan, plan: Plan, files: str, out: str, folder: str) -> dict[str, Any]:
    """Makes, verifies, sums and syncs a pair's plates in the folder `out`."""
    plans = [written(plan, folder, f"{name}.json") for name, plan in (("blank", blank), ("pair", plan))]
    site, names = plan["sites"][0]["name"], names_of(plan)
    wanted = pair_names(plan, names)
    new, whole_folder = os.path.join(folder, "new"), os.path.join(folder, "whole")
    called("replate", plans[0], files, plans[1], files, new)
    os.makedirs(os.path.join(whole_folder, site))
    blanks = blank_plates(blank, files, folder)
    for name in names:
        source = os.path.join(new, site, name)
        if name not in wanted or not os.path.exists(source):
            source = blanks.get(name[-len("K.tif") :], source)
        os.link(source, os.path.join(whole_folder, site, name))
    begun = time.monotonic()
    verified(plans[1], files, whole_folder)
    verify = round(time.monotonic() - begun, 2)
    os.makedirs(out, exist_ok=True)
    for name in wanted:
        os.rename(os.path.join(whole_folder, site, name), os.path.join(out, name))
    sums = {name: synced_sum(os.path.join(out, name)) for name in wanted}
    text = sums_text(sums)
    write_synced(os.path.join(out, SUMS), text)
    sync_folder(out)
    empty = [name for name in wanted if is_empty(os.path.join(out, name))]
    return {"made": sums, "empty": empty, "sums": hashlib.sha256(text).hexdigest(), "verify": verify}


def names_of(plan: Plan) -> list[str]:
    """Returns the names of all plates of a plan's first site."""
    names: list[str] = PlanReader("pair", json.dumps(plan).encode()).plates(plan["sites"][0]["name"])
    return names


def pair_names(plan: Plan, names: Iterable[str]) -> list[str]:
    """Returns the names of the plates of the pair for which a plan was made: its pages are `left` and `right`,
    and its number is that of the one nearer to the front."""
    for section in plan["sections"]:
        if {"left", "right"} <= set(section["pages"]):
            number = min(section["pages"].index(side) for side in ("left", "right")) + 1
            start = f"{plan['edition']}-{section['name']}-{number:03}-"
            return sorted(name for name in names if name.startswith(start))
    raise Failed("the plan has no pair that is to be made")


def blank_plates(blank: Plan, files: str, folder: str) -> dict[str, str]:
    """Makes the plates of a pair of blank pages. Returns their paths by ink and ending, such as `K.tif`."""
    section = blank["sections"][0]
    one = blank | {"sections": [section | {"pages": section["pages"][:1] * 2}]}
    path, out = written(one, folder, "one.json"), os.path.join(folder, "blank")
    called("run", path, files, out)
    site = os.path.join(out, blank["sites"][0]["name"])
    return {name[-len("K.tif") :]: os.path.join(site, name) for name in os.listdir(site)}


# ---- a site's whole edition


def whole(plan: Plan, files: str, site: str, plates: dict[str, str], folder: str) -> dict[str, Any]:
    """Verifies all plates of a site, which are at these paths under these names."""
    path, out = written(plan, folder, "whole.json"), os.path.join(folder, "out")
    os.makedirs(os.path.join(out, site))
    for name, source in plates.items():
        if os.path.basename(name) != name or not os.path.isabs(source):
            raise Failed(f"{name!r} isn't a plate's name, or its path isn't absolute")
        os.symlink(source, os.path.join(out, site, name))
    verified(path, files, out)
    return {"same": True}


# ---- the program


def called(*words: str) -> str:
    """Runs plateroom. Returns what it printed; raises Failed unless its status is 0."""
    program = os.environ.get("PLATEROOM") or "plateroom"
    if shutil.which(program) is None:
        raise Failed(f"{program} isn't installed")
    answer = subprocess.run([program, *words], stdin=subprocess.DEVNULL, capture_output=True, check=False)
    said = (answer.stderr or answer.stdout).decode("utf-8", "replace").strip()
    if answer.returncode:
        raise Failed(f"plateroom {words[0]} ended with status {answer.returncode}: {said[-200:]}")
    return answer.stdout.decode("utf-8", "replace")


def verified(plan: str, files: str, out: str) -> None:
    """Raises Failed unless the program finds all plates of a plan as they must be."""
    said = called("verify", plan, files, out)
    if not said.startswith("same "):
        raise Failed(f"plateroom verify says {said.strip()!r}")


# ---- files


def written(plan: Plan, folder: str, name: str) -> str:
    """Writes a plan into a folder. Returns its path."""
    path = os.path.join(folder, name)
    with open(path, "w", encoding="utf-8") as file:
        json.dump(plan, file, ensure_ascii=False)
    return path


def synced_sum(path: str) -> str:
    """Syncs a file. Returns the SHA-256 of its bytes."""
    with open(path, "rb") as file:
        os.fsync(file.fileno())
        return hashlib.file_digest(file, "sha256").hexdigest()


def sums_text(sums: dict[str, str]) -> bytes:
    """Returns the lines of `sha256sum` for these names and sums."""
    return "".join(f"{digest}  {name}\n" for name, digest in sorted(sums.items())).encode()


def write_synced(path: str, data: bytes) -> None:
    """Writes a file, and syncs it."""
    with open(path, "wb") as file:
        file.write(data)
        file.flush()
        os.fsync(file.fileno())


def is_empty(path: str) -> bool:
    """Returns whether a plate has no dot at all, not even of a mark."""
    plate, blank = Tiff(path), set()
    try:
        for strip in range(plate.strips):
            data = plate.stored(strip)
            if data in blank:
                continue
            top = strip * plate.each
            if any(any(row) for row in plate.rows(top, top + plate.rows_of(strip))):
                return False
            blank.add(data)
        return True
    finally:
        plate.close()
