"""The values that the modules of the night's service pass to one another: what is planned, what came in, what was made,
and the messages between the service and its jobs.

A place of an edition is written `A07`, or `west/A02` where it belongs to a zone. A pair is written `A-002`. A name
that a stranger chose is bytes; `shown` gives its text for people. Messages are JSON objects of at most MESSAGE bytes.
"""
from __future__ import annotations

from collections.abc import Mapping, Sequence
from dataclasses import dataclass
from typing import Any, Literal, NamedTuple, Protocol, TypedDict

from pressroom.night import escapes

shown = escapes.shown

# The most bytes of one message between the service and a job; what is longer goes through a handle.
MESSAGE = 100_000
# The outputs that a page job gets: its layers and masks.
OUTPUTS = 32
# The most bytes of an edition's own file.
EDITION_FILE = 65_536

Kind = Literal["page", "plates", "send"]
Deliver = Literal["pair", "edition"]
Plan = dict[str, Any]
Layer = dict[str, Any]


# ---- what is planned


class PageKey(NamedTuple):
    """A place of an edition: its zone ('' for all), its section and its number from 1."""

    zone: str
    section: str
    number: int

    def __str__(self) -> str:
        return (f"{self.zone}/" if self.zone else "") + f"{self.section}{self.number:02}"


@dataclass(frozen=True)
class Page:
    """A planned page. A page that is planned `blank` prints nothing and never comes."""

    zone: str
    section: str
    number: int
    blank: bool = False

    @property
    def key(self) -> PageKey:
        return PageKey(self.zone, self.section, self.number)


@dataclass(frozen=True)
class Site:
    """A site of an edition. `press_start` is "23:30" or None; `lead` is in minutes, `plate_seconds` a plate there."""

    name: str
    press: str
    zone: str
    press_start: str | None = None
    lead: float = 0.0
    plate_seconds: float = 0.0


@dataclass(frozen=True)
class Pair:
    """A pair at a site. `making` is the sum of all that its plates depend on besides its two renders."""

    site: str
    section: str
    number: int
    left: PageKey
    right: PageKey
    making: str

    @property
    def name(self) -> str:
        return f"{self.section}-{self.number:03}"


@dataclass(frozen=True)
class Planned:
    """An edition as it is planned. `settings` is the sum of all that a render depends on besides its page."""

    name: str
    date: str | None
    sections: Mapping[str, int]
    pages: tuple[Page, ...]
    sites: tuple[Site, ...]
    pairs: tuple[Pair, ...]
    settings: str
    ask: bool = False
    deliver: Deliver = "pair"


# ---- what came in


@dataclass(frozen=True)
class Found:
    """A regular file of in/: `edition` is its folder, `name` its path below in/. `stamp` names device, inode, size and
    times, so that a file that changed has another one."""

    edition: str
    name: bytes
    stamp: str
    size: int


@dataclass(frozen=True)
class Unfit:
    """What can't be taken, and why. `stamp` is as of a file, so that it is told once."""

    edition: str | None
    name: bytes
    stamp: str
    why: str


@dataclass(frozen=True)
class Taken:
    """A file that was copied to store/SHA, which is synced."""

    sha: str
    size: int
    kind: Literal["pdf", "tiff"]


# ---- what was made


@dataclass(frozen=True)
class Render:
    """A page that intake accepted. renders/`folder` has its files; `layers` are a plan's layers, whose `file` and `mask`
    are relative to renders/, as `J7-12/03.tif`."""

    key: int
    sha: str
    folder: str
    inks: str
    layers: tuple[Layer, ...]


@dataclass(frozen=True)
class Ready:
    """What READY of a version says. `since` is the version that the site surely has, None where it has none.

    `expose` are the plates that differ from it, or that were asked for again; `empty` are plates that print nothing;
    `blank` are pages that are planned blank.
    """

    edition: str
    date: str | None
    pair: str
    pages: tuple[str, str]
    version: int
    since: int | None
    sums: str
    plates: int
    expose: tuple[str, ...]
    empty: tuple[str, ...]
    resend: str | None = None
    blank: tuple[str, ...] = ()


@dataclass(frozen=True)
class Complete:
    """What READY in COMPLETE/VERSION says: each pair with its version and the sum of its SHA256SUMS."""

    edition: str
    date: str | None
    site: str
    version: int
    pairs: tuple[tuple[str, int, str], ...]


# ---- messages to and from jobs


class PageFault(TypedDict):
    """Why intake refuses a page: a word of the table of faults, a text, and a place in mm where there is one."""

    kind: str
    text: str
    at_mm: list[float] | None


class PageRequest(TypedDict):
    """With the handles [page, house file, profile, OUTPUTS files that are write-only]."""

    kind: Literal["page"]
    suffix: Literal["pdf", "tiff"]
    page: str


class PageAnswer(TypedDict, total=False):
    """The verdict on a page. Where a layer's `file` or `mask` would be, it has the number of an output from 0.

    accepted: inks, layers, notes, seconds. refused: fault. none: why, which is the machine's fault.
    """

    verdict: Literal["accepted", "refused", "none"]
    inks: str
    layers: list[Layer]
    notes: list[str]
    seconds: float
    fault: PageFault
    why: str


class PlatesRequest(TypedDict):
    """Makes the plates of a pair: `files` is the folder renders/, `out` a new folder below making/, both absolute. The
    plates and SHA256SUMS are directly in `out`."""

    kind: Literal["plates"]
    blank: Plan
    plan: Plan
    files: str
    out: str


class WholeRequest(TypedDict):
    """Verifies all plates of a site. `plates` gives for each name of a plate its absolute path."""

    kind: Literal["whole"]
    plan: Plan
    files: str
    site: str
    plates: dict[str, str]


class PlatesAnswer(TypedDict, total=False):
    """plates: `made` has the SHA-256 of each plate, `empty` those that print nothing, `sums` the SHA-256 of SHA256SUMS.
    whole: `same`. What failed: `why`, which is the machine's fault."""

    made: dict[str, str]
    empty: list[str]
    sums: str
    same: bool
    seconds: float
    why: str


class SendRequest(TypedDict, total=False):
    """plates: sends `names` of the absolute folder `source` to `folder`, then SHA256SUMS with the text `sums`.
    ready: sends `text` as READY, and compares it. look: says which folders of `expected` have their READY.

    `folder` is relative to the site's own folder, as `MON/A-002/000412-1a2b3c4d`, or with `.r2` behind it for a resend.
    """

    kind: Literal["plates", "ready", "look"]
    site: str
    method: dict[str, Any]
    folder: str
    source: str
    names: list[str]
    sums: str
    text: str
    expected: dict[str, str]


class SendAnswer(TypedDict, total=False):
    """plates: `there`, or `failed`. ready: `there`, `unsure`, or `failed`, which says that READY surely isn't there.
    look: `seen` has each folder that has a READY, with the text expected, or '' where it is another; `acked` the folders
    that have an ACK. `network` is False where this machine is at fault."""

    there: bool
    unsure: str
    failed: str
    network: bool
    host_key: bool
    seen: dict[str, str]
    acked: list[str]
    seconds: float


class Job(Protocol):
    """A process at the other end of a socket. The service never blocks on it. `why` says how it ended."""

    why: str

    def fileno(self) -> int:
        """Returns the handle to wait for."""

    def ask(self, request: Mapping[str, Any], handles: Sequence[int] = ()) -> None:
        """Sends a request; raises OSError where the job is gone."""

    def answer(self) -> dict[str, Any] | None:
        """Returns the answer that is there, or None where the job ended without one.

        Called when fileno is readable; raises BlockingIOError where neither is so yet.
        """

    def late(self, now: float | None = None) -> bool:
        """Returns whether its time is over, by time.monotonic()."""

    def stop(self) -> None:
        """Ends the job and all its processes. May be called twice."""


class Runner(Protocol):
    """Starts jobs."""

    def start(self, kind: Kind) -> Job:
        """Starts a job; raises OSError, the machine's fault."""
