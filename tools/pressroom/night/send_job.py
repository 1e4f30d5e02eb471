"""Delivers to one site: a pair's plates and SHA256SUMS, then READY at another request, or a look at the site.

Between the two requests the service commits that the version leaves. After READY was begun, only a comparison
says that it is there: every other end is `unsure`, and `failed` is said only where nothing can have reached
the site.
"""
import hashlib
import os
import time
from collections.abc import Sequence
from typing import Any

from pressroom.night.escapes import shown
from pressroom.night.method import Fault, Method
from pressroom.night.methods import method


def work(request: dict[str, Any], _: Sequence[int]) -> dict[str, Any]:
    """Answers a request of the kind `plates`, `ready` or `look`."""
    begun = time.monotonic()
    try:
        answer = answered(request, method(request["method"]))
    except Fault as fault:
        said = "unsure" if request["kind"] == "ready" and fault.begun else "failed"
        answer = {said: shown(str(fault)), "network": fault.network, "host_key": fault.host_key}
    return answer | {"seconds": round(time.monotonic() - begun, 2)}


def answered(request: dict[str, Any], way: Method) -> dict[str, Any]:
    """Does what is asked; raises Fault if it fails."""
    if request["kind"] == "look":
        seen = way.look(request["expected"])
        return {"seen": seen.texts, "acked": seen.acked}
    if request["kind"] == "ready":
        way.ready(request["folder"], request["text"].encode())
        return {"there": True, "kept": way.keeps}
    see_plates(request["source"], request["names"], request["sums"])
    way.plates(request["source"], request["names"], request["sums"].encode(), request["folder"])
    return {"there": True}


def see_plates(source: str, names: Sequence[str], sums: str) -> None:
    """Raises Fault unless the plates on the disk have the sums that were recorded when they were made."""
    wanted = {name: digest for digest, _, name in (line.partition("  ") for line in sums.splitlines())}
    if sorted(wanted) != sorted(names):
        raise Fault("SHA256SUMS lists other plates than are sent", network=False, begun=False)
    for name in names:
        try:
            with open(os.path.join(source, name), "rb") as file:
                found = hashlib.file_digest(file, "sha256").hexdigest()
        except OSError as error:
            raise Fault(f"{name}: {error.strerror}", network=False, begun=False) from None
        if found != wanted[name]:
            raise Fault(f"{name} isn't what it was when it was made", network=False, begun=False)
