"""The methods of delivery by name, and how the house file chooses among them."""
from collections.abc import Mapping
from typing import Any

from pressroom.house.forms import TARGET, Wrong
from pressroom.night.method import Method
from pressroom.night.method_folder import Folder
from pressroom.night.method_rsync import Rsync

# A target belongs to the first that takes it.
METHODS: dict[str, type[Method]] = {"folder": Folder, "rsync": Rsync}


def described(target: str, options: Mapping[str, Any]) -> dict[str, Any] | None:
    """Returns what a job needs to reach a site: the method's name, the target, and the house's options.

    None where no method takes the target. `METHOD:TARGET` names the method; otherwise an absolute path is a
    mounted folder, and all else is for rsync.
    """
    if not is_target(target):
        return None
    name, colon, rest = target.partition(":")
    if colon and name in METHODS and not rest.startswith("//"):
        if not is_target(rest) or not METHODS[name].takes(rest):
            return None
        return {"name": name, "target": rest, **options}
    for name, method in METHODS.items():
        if method.takes(target):
            return {"name": name, "target": target, **options}
    return None


def is_target(text: str) -> bool:
    """Returns whether a text has the form of a target."""
    try:
        return bool(TARGET.read(text))
    except Wrong:
        return False


def method(keys: Mapping[str, Any]) -> Method:
    """Returns the method of a description that `described` made."""
    return METHODS[keys["name"]](keys)
