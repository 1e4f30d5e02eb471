"""The words that start a job which isn't a unit of systemd's: with limits, and in a room of its own where the
machine permits that.

A job of the kind `page` sees programs, fonts and a folder for its files, and nothing else; `plates` also
sees the spool's renders and plates, and writes below `making/`. Neither has a network. `send` has the
network, sees the machine's files but for the rest of the spool, and writes into mounted folders of sites.
"""
import functools
import os
import shutil
import subprocess
from collections.abc import Sequence
from dataclasses import dataclass

from pressroom.night.records import Kind

MEGABYTE = 1 << 20
# What programs need besides /usr: fonts, Ghostscript's own, the loader's cache, and names of users.
SEEN = (
    "/etc/alternatives",
    "/etc/fonts",
    "/etc/ghostscript",
    "/etc/ld.so.cache",
    "/etc/passwd",
    "/etc/group",
    "/var/lib/ghostscript",
    "/var/cache/fontconfig",
)
LINKS = ("bin", "lib", "lib64", "sbin")


@dataclass(frozen=True)
class Limits:
    """The limits of one job: seconds by the clock, seconds of CPU time of each of its processes, and
    megabytes of memory of each and of each file that it writes."""

    seconds: int
    cpu: int
    memory: int
    output: int


LIMITS: dict[Kind, Limits] = {
    "page": Limits(seconds=600, cpu=300, memory=4_000, output=4_000),
    # A whole edition's files, of at most 3 GiB, are in memory while it is verified.
    "plates": Limits(seconds=1_800, cpu=3_600, memory=8_000, output=2_000),
    "send": Limits(seconds=3_600, cpu=1_800, memory=2_000, output=2_000),
}


def limited(kind: Kind) -> list[str]:
    """Returns the words that limit a job, and end it when the service ends."""
    limits = LIMITS[kind]
    return [
        *("setpriv", "--pdeathsig", "KILL", "--no-new-privs", "prlimit"),
        f"--as={limits.memory * MEGABYTE}",
        f"--fsize={limits.output * MEGABYTE}",
        f"--cpu={limits.cpu}:{limits.cpu + 1}",
        *("--core=0", "--nofile=1024", "--"),
    ]


@functools.cache
def has_rooms() -> bool:
    """Returns whether `bwrap` is installed and may be used here."""
    words = ["bwrap", "--unshare-all", "--die-with-parent", "--ro-bind", "/", "/", "true"]
    return (
        bool(shutil.which("bwrap")) and not subprocess.run(words, capture_output=True, check=False).returncode
    )


def bound(option: str, paths: Sequence[str]) -> list[str]:
    """Returns the words that show paths under their own names."""
    return [word for path in paths for word in (option, path, path)]


def room(kind: Kind, spool: str, scratch: str, needed: Sequence[str], targets: Sequence[str]) -> list[str]:
    """Returns the words of a job's room.

    `scratch` is its folder for temporary files, `needed` what it runs outside of /usr, and `targets` are the
    folders of sites that a `send` may write to.
    """
    private = {
        name: os.path.join(spool, name) for name in ("in", "grab", "store", "journal", "run", "making")
    }
    if kind == "send":
        shown = [
            "--unshare-user-try",
            "--unshare-ipc",
            "--unshare-pid",
            "--unshare-uts",
            "--ro-bind",
            "/",
            "/",
        ]
        hidden = [path for path in private.values() if os.path.isdir(path)]
        shown += [word for path in hidden for word in ("--tmpfs", path)]
        # After /dev, since a spool may be in memory, below /dev/shm.
        shown += ["--dev", "/dev", "--proc", "/proc", *bound("--ro-bind", [os.path.join(spool, "plates")])]
        # A folder that isn't there is that site's fault, and no reason that jobs for other sites don't begin.
        shown += [*bound("--bind", [scratch]), *bound("--bind-try", targets)]
    else:
        shown = ["--unshare-all", "--ro-bind", "/usr", "/usr"]
        shown += [word for name in LINKS for word in ("--symlink", f"usr/{name}", f"/{name}")]
        shown += [*bound("--ro-bind-try", SEEN), "--proc", "/proc", "--dev", "/dev"]
        shown += [*bound("--ro-bind", needed), *bound("--bind", [scratch])]
    if kind == "plates":
        shown += bound("--ro-bind", [os.path.join(spool, name) for name in ("renders", "plates")])
        shown += bound("--bind", [private["making"]])
    return ["bwrap", *shown, "--cap-drop", "ALL", "--die-with-parent", "--chdir", scratch, "--"]
