"""Answers of jobs, tested before they are believed: a page job works on strangers' bytes, and may be theirs."""
import math
import re
from typing import Any

from pressroom.night.records import OUTPUTS, Layer, PageFault, shown

INKS = re.compile(r"[CMYKS]{1,5}")
SHA = re.compile(r"[0-9a-f]{64}")
PLATE = re.compile(r"[A-Za-z0-9_][A-Za-z0-9_.-]{0,99}\.tif")
KEY = re.compile(r"[a-z_]{1,16}")
MOST_NOTES, MOST_PLATES, MOST_TEXT = 100, 16, 300


class Wrong(Exception):
    """An answer has another form than it must have."""


def need(so: object, what: str) -> None:
    if not so:
        raise Wrong(what)


def clean(text: str) -> str:
    """Returns a job's text as one line. An honest job has escaped it already, and it isn't escaped twice."""
    return text[:MOST_TEXT] if text.isprintable() else shown(text)


def seconds(answer: dict[str, Any], key: str = "seconds") -> float:
    """Returns the seconds that a job took, as it says, or a part of it."""
    value = answer.get(key, 0.0)
    return float(value) if isinstance(value, (int, float)) and math.isfinite(value) and value >= 0 else 0.0


def layers(answer: dict[str, Any], job: str) -> tuple[str, list[Layer], set[int]]:
    """Returns an accepted page's inks, its layers with names below renders/, and the outputs that they use."""
    inks, given, used = answer.get("inks"), answer.get("layers"), set()
    need(isinstance(inks, str) and INKS.fullmatch(inks), "inks")
    need(isinstance(given, list) and len(given) <= OUTPUTS, "layers")
    found = []
    for layer in given or []:
        need(isinstance(layer, dict) and isinstance(layer.get("file"), int), "a layer")
        named = {}
        for key, value in layer.items():
            if key in ("file", "mask"):
                need(type(value) is int and 0 <= value < OUTPUTS, f"a layer's {key}")
                used.add(value)
                value = f"{job}/{value:02}.tif"
            need(KEY.fullmatch(key) and is_plain(value), "a layer's key")
            named[key] = value
        found.append(named)
    return str(inks), found, used


def is_plain(value: object, depth: int = 2) -> bool:
    """Returns whether a value of a layer is a short text, a number, a truth, or a short list of such."""
    if isinstance(value, list):
        return depth > 0 and len(value) <= 8 and all(is_plain(item, depth - 1) for item in value)
    if isinstance(value, str):
        return len(value) <= 64 and value.isprintable()
    return value is None or isinstance(value, (int, bool))


def notes(answer: dict[str, Any]) -> list[str]:
    """Returns a page's notes, each as one line."""
    given = answer.get("notes", [])
    need(isinstance(given, list) and all(isinstance(note, str) for note in given), "notes")
    return [clean(note) for note in given[:MOST_NOTES]]


def fault(answer: dict[str, Any]) -> PageFault:
    """Returns why a page is refused."""
    given = answer.get("fault")
    if not isinstance(given, dict):
        raise Wrong("a fault")
    at = given.get("at_mm")
    if at is not None:
        need(
            isinstance(at, list) and len(at) <= 4 and all(type(mm) in (int, float) for mm in at),
            "a fault's place",
        )
    need(isinstance(given.get("kind"), str) and isinstance(given.get("text"), str), "a fault")
    return {"kind": clean(given["kind"])[:40], "text": clean(given["text"]), "at_mm": at}


def plates(answer: dict[str, Any]) -> tuple[dict[str, str], list[str], str]:
    """Returns the plates that were made with their sums, those that print nothing, and the sum of SHA256SUMS."""
    made, empty, sums = answer.get("made"), answer.get("empty"), answer.get("sums")
    if not isinstance(made, dict) or not 1 <= len(made) <= MOST_PLATES:
        raise Wrong("plates")
    for name, digest in made.items():
        need(PLATE.fullmatch(name) and isinstance(digest, str) and SHA.fullmatch(digest), "a plate")
    need(isinstance(empty, list) and all(name in made for name in empty), "empty plates")
    need(isinstance(sums, str) and SHA.fullmatch(sums), "sums")
    return made, list(empty or []), str(sums)


def why(answer: dict[str, Any], *keys: str) -> str:
    """Returns the first text of an answer that says why it failed."""
    for key in keys:
        if isinstance(answer.get(key), str):
            return clean(answer[key])
    return "it gave no reason"
