"""Runs programs on untrusted files. Each call has limits, a folder of its own and, where the machine permits
it, no network.
"""
import functools
import os
import shutil
import signal
import subprocess
from collections.abc import Sequence
from dataclasses import dataclass

# The most that a program may print, in bytes. Its output is read whole.
MOST_TEXT = 64 << 20


class Passed(Exception):
    """A program exceeded a limit. The text says which."""


class PassedTime(Passed):
    """A program exceeded the time limit."""


@dataclass(frozen=True)
class Limits:
    """The limits of one call: seconds, megabytes of memory, and megabytes of each file that it writes."""

    seconds: int = 120
    memory: int = 2000
    output: int = 4000

    def run(self, words: Sequence[str], folder: str, name: str | None = None) -> tuple[int, bytes, bytes]:
        """Runs a program in this folder. Returns its status, and its standard output and standard error as
        bytes. Messages call it `name`, which is by default the name of the program.

        Raises Passed if it exceeds a limit. At the end the program's process group is killed.
        """
        name = name or words[0]
        prefix = [
            "prlimit",
            f"--as={self.memory << 20}",
            f"--fsize={self.output << 20}",
            # The first limit sends SIGXCPU. The second kills a program that ignores that.
            f"--cpu={self.seconds}:{self.seconds + 1}",
            "--core=0",
            "--",
        ]
        paths = [os.path.join(folder, name) for name in (".out", ".note")]
        with open(paths[0], "wb") as out, open(paths[1], "wb") as note:
            process = subprocess.Popen(
                [*without_network(), *prefix, *words], cwd=folder, stdin=subprocess.DEVNULL, stdout=out,
                stderr=note, start_new_session=True, env=environment(folder),
            )  # fmt: skip
            try:
                status = process.wait(self.seconds)
            except subprocess.TimeoutExpired:
                raise PassedTime(f"{name} took more than {self.seconds} s") from None
            finally:
                stop(process)
        if any(os.path.getsize(path) > MOST_TEXT for path in paths):
            raise Passed(f"{name} printed more than {MOST_TEXT >> 20} MB")
        printed, said = map(read, paths)
        self.see(name, status, printed + said, folder)
        return status, printed, said

    def see(self, name: str, status: int, said: bytes, folder: str) -> None:
        """Raises Passed if the program exceeded a limit or was killed by a signal."""
        if status == -signal.SIGXCPU:
            raise PassedTime(f"{name} took more than {self.seconds} s of CPU time")
        if status == -signal.SIGXFSZ or (status and self.is_full(folder)):
            raise Passed(f"{name} wrote a file of more than {self.output} MB")
        if status and (b"VMerror" in said or b"emory" in said or b"bad_alloc" in said):
            raise Passed(f"{name} needed more than {self.memory} MB of memory")
        if status < 0:
            raise Passed(f"{name} was killed by {signal.Signals(-status).name}")

    def is_full(self, folder: str) -> bool:
        """Returns whether a file in the folder has the largest size that files may have."""
        with os.scandir(folder) as items:
            return any(item.is_file() and item.stat().st_size >= self.output << 20 for item in items)


def read(path: str) -> bytes:
    """Returns the bytes of a file."""
    with open(path, "rb") as file:
        return file.read()


def stop(process: subprocess.Popen[bytes]) -> None:
    """Kills the process and its group."""
    try:
        os.killpg(process.pid, signal.SIGKILL)
    except ProcessLookupError:
        pass
    process.wait()


def environment(folder: str) -> dict[str, str]:
    """Returns the environment of a program, reduced to what it needs."""
    kept = {name: os.environ[name] for name in ("PATH", "LANG") if name in os.environ}
    home = os.path.abspath(folder)
    return kept | {"HOME": home, "TMPDIR": home, "LC_ALL": "C.UTF-8"}


@functools.cache
def without_network() -> list[str]:
    """Returns the arguments that start a program without a network; none if the machine forbids that."""
    if shutil.which("unshare"):
        for words in (["unshare", "--net"], ["unshare", "--user", "--net"]):
            if subprocess.run([*words, "--", "true"], capture_output=True).returncode == 0:
                return [*words, "--"]
    return []
