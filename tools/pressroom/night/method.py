"""What a way of delivering to a site has to do: the interface that rsync and a mounted folder share.

A site's folder has NAME/SECTION-PPP/VERSION/ with plates, SHA256SUMS and READY, and NAME/COMPLETE/VERSION/
with READY alone. `folder` is such a path below the site's own folder. To add a method, write a class as one
of these, name it in methods.py, test it in tools/tests/night, and describe it in the manual.
"""
from collections.abc import Mapping, Sequence
from dataclasses import dataclass, field
from typing import Any, Protocol

READY, SUMS, ACK, COMPLETE = "READY", "SHA256SUMS", "ACK", "COMPLETE"


class Fault(Exception):
    """A delivery failed; the text says why.

    `network` is whether the site or the way to it is at fault, `host_key` whether the site may be another
    one, and `begun` whether something may have reached the site.
    """

    def __init__(self, why: str, network: bool = True, host_key: bool = False, begun: bool = True):
        super().__init__(why)
        self.network, self.host_key, self.begun = network, host_key, begun


@dataclass
class Seen:
    """What a look at a site found: READY's text by folder, '' where it is another than expected; a folder
    without READY isn't in it. `acked` are the folders that have a file ACK."""

    texts: dict[str, str] = field(default_factory=dict)
    acked: list[str] = field(default_factory=list)


class Method(Protocol):
    """A way to one site. Each call raises Fault if it fails, and may be repeated then."""

    # Whether a READY survives a loss of power at the site as soon as `ready` returned.
    keeps: bool

    def __init__(self, keys: Mapping[str, Any]) -> None:
        """Takes the keys that `described` made of the house file."""

    @staticmethod
    def takes(target: str) -> bool:
        """Returns whether a site's target in the house file is for this method."""

    def plates(self, source: str, names: Sequence[str], sums: bytes, folder: str) -> None:
        """Sends files of the folder `source`, then SHA256SUMS with these bytes; all are durable
        afterwards."""

    def ready(self, folder: str, text: bytes) -> None:
        """Sends READY, and compares what is there with it."""

    def look(self, expected: Mapping[str, str]) -> Seen:
        """Looks for READY and ACK in these folders, of which each is expected to have this READY."""


def is_complete(folder: str) -> bool:
    """Returns whether a folder is that of a COMPLETE, which has READY and no plates."""
    return folder.split("/")[1:2] == [COMPLETE]
