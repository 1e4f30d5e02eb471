"""Brings a spool of an older pressroom up to date: what it made is put aside below old/, for the new service to begin.

No edition may be under way. One that is can be named with --again: its pages in in/NAME stay there, and each site gets
whole pairs of it anew, in folders beside the old versions. The house file must be moved out of the spool by hand, to
/etc/pressroom/house.toml: the list `rsync` of [delivery] has become the keys port, key and bandwidth.

status: 0 done; 1 an edition is under way; 2 the arguments are wrong, or this is no spool of an older pressroom

example: pressroom migrate /var/spool/pressroom --again MON
"""
import os
import sys

from pressroom.base.command_line import Parser

# The folders of an older spool, which are put aside.
FOLDERS = ("work", "out", "done", "failed", "state")
DONE, UNDER_WAY, NO_SPOOL = 0, 1, 2


def parser() -> Parser:
    """Returns the arguments of the command."""
    found = Parser("migrate", __doc__)
    found.add_argument("spool", metavar="SPOOL", help="the folder of the spool")
    found.add_argument(
        "--again", metavar="NAME", action="append", default=[], help="an edition to be made anew"
    )
    return found


def names(spool: str, folder: str) -> set[str]:
    """Returns the editions of a folder of the spool."""
    path = os.path.join(spool, folder)
    if not os.path.isdir(path):
        return set()
    return {name for name in os.listdir(path) if not name.startswith((".", "_"))}


def under_way(spool: str) -> list[str]:
    """Returns the editions that came in and neither ended nor failed."""
    ended = names(spool, "done") | names(spool, "failed")
    return sorted(names(spool, "in") | names(spool, "work") - ended)


def leave(status: int, text: str) -> int:
    print(f"pressroom migrate: {text}", file=sys.stderr)
    return status


def main() -> int:
    """Runs the command. Returns its status."""
    words = parser().parse_args()
    spool = os.path.abspath(words.spool)
    if os.path.isdir(os.path.join(spool, "journal")) or not os.path.isdir(os.path.join(spool, "state")):
        return leave(NO_SPOOL, f"{spool} isn't a spool of an older pressroom")
    left = [name for name in under_way(spool) if name not in words.again]
    if left:
        return leave(UNDER_WAY, f"{', '.join(left)}: under way; let it finish, or name it with --again")
    old = os.path.join(spool, "old")
    try:
        os.mkdir(old)
        for folder in FOLDERS:
            if os.path.isdir(os.path.join(spool, folder)):
                os.rename(os.path.join(spool, folder), os.path.join(old, folder))
        for name in words.again:
            ready = os.path.join(spool, "in", name, "READY")
            if os.path.exists(ready):
                os.unlink(ready)
    except OSError as error:
        return leave(NO_SPOOL, f"{error.filename}: {error.strerror}")
    print(f"{old} has what was made; begin the service with the house file outside of the spool")
    return DONE
