"""The texts of READY and COMPLETE, by which a site knows what came and what it has to expose.

READY is lines of a word and its value: `edition`, `date`, `pair`, `pages` (left and right), `version`,
`since` (a version, or `none`), `sums` (the SHA-256 of SHA256SUMS), `plates` (how many), `expose` and `empty`
for each such plate, `resend` with its reason, and last `end`: without it the text is cut off.
"""
import hashlib
from collections.abc import Iterable

from pressroom.night.escapes import shown
from pressroom.night.records import Complete, Ready


def ready_text(ready: Ready) -> str:
    """Returns the text of a version's READY."""
    lines = [
        f"edition {ready.edition}",
        f"date {ready.date or 'none'}",
        f"pair {ready.pair}",
        f"pages {' '.join(ready.pages)}",
        f"version {ready.version}",
        f"since {'none' if ready.since is None else ready.since}",
        f"sums {ready.sums}",
        f"plates {ready.plates}",
        *(f"expose {name}" for name in ready.expose),
        *(f"empty {name}" for name in ready.empty),
    ]
    if ready.resend is not None:
        lines.append(f"resend {shown(ready.resend)}")
    return text_of(lines)


def complete_text(complete: Complete) -> str:
    """Returns the text of the READY of a COMPLETE: each pair with its version and the sum of its
    SHA256SUMS."""
    return text_of(
        [
            f"edition {complete.edition}",
            f"date {complete.date or 'none'}",
            f"site {complete.site}",
            f"version {complete.version}",
            f"pairs {len(complete.pairs)}",
            *(f"pair {name} {version} {sums}" for name, version, sums in complete.pairs),
        ]
    )


def text_of(lines: Iterable[str]) -> str:
    """Returns lines as a text that says where it ends."""
    return "".join(f"{line}\n" for line in [*lines, "end"])


def version_name(number: int, text: str) -> str:
    """Returns the name of a version's folder: its number, and the start of the sum of its READY."""
    return f"{number:06}-{hashlib.sha256(text.encode()).hexdigest()[:8]}"
