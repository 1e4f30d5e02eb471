"""Delivery by rsync, over ssh or to a folder of this machine.

rsync writes each file under another name, syncs and renames it (`--fsync`), but syncs no folder. So
SHA256SUMS goes last, in place and in a call of its own: on a file system with an ordered journal, its sync
makes the names of the plates durable before READY may come. READY goes alone, and is compared. Nothing is
ever fetched: a look is a list of names and a comparison of sums (`-n --checksum --itemize-changes`).
"""
import os
import re
import shlex
import tempfile
from collections.abc import Iterable, Mapping, Sequence
from typing import Any

from pressroom.night.bounded import Late, TooMuch, call
from pressroom.night.method import ACK, READY, SUMS, Fault, Seen, is_complete

# ssh's own status.
SSH_FAILED = 255
# rsync's statuses (errcode.h of rsync 3.2, and its manual), and whether the site or the way to it is at fault.
STATUSES: dict[int, tuple[str, bool]] = {
    1: ("rsync doesn't take these options", False),
    2: ("its rsync speaks another protocol", True),
    3: ("a file or folder can't be chosen there", True),
    4: ("its rsync can't do what is asked", True),
    5: ("its rsync couldn't begin", True),
    6: ("its rsync daemon can't write its log", True),
    10: ("the connection failed", True),
    11: ("a file can't be read or written", True),
    12: ("the connection broke off", True),
    13: ("its rsync couldn't report", True),
    14: ("rsync's processes can't talk to one another", False),
    15: ("a process of rsync crashed", False),
    16: ("a process of rsync was ended", False),
    19: ("rsync was interrupted", False),
    20: ("rsync was interrupted", False),
    21: ("rsync couldn't wait for its processes", False),
    22: ("rsync is out of memory", False),
    23: ("some files couldn't be written", True),
    24: ("files to be sent vanished", False),
    25: ("a limit stopped it", True),
    30: ("no answer in time", True),
    35: ("its rsync daemon didn't answer in time", True),
    124: ("the remote command failed", True),
    125: ("the remote command was killed", True),
    126: ("the remote command can't be run", True),
    127: ("rsync isn't installed there", True),
    SSH_FAILED: ("ssh can't reach it", True),
}
# A line of --itemize-changes: what happens, what it is, nine letters of what differs, and its name.
ITEM = re.compile(r"[<>ch.*]f(\+{9}|[.a-zA-Z?+]{9}) (.*)")
LISTED = re.compile(r"-[-rwxstST]{9}\s+[0-9,.]+\S*\s+\S+\s+\S+ (.*)")
CHANGED_KEY, UNKNOWN_KEY = "HOST IDENTIFICATION HAS CHANGED", "Host key verification failed"


class Rsync:
    """A site that rsync reaches. Its description has `target`, and may have `port`, `key` (a file with ssh's
    private key), `bandwidth` in KB a second, and `timeout` in seconds for each call."""

    keeps = False

    def __init__(self, keys: Mapping[str, Any]) -> None:
        self.target = str(keys["target"]).rstrip("/") or "/"
        self.timeout = float(keys.get("timeout") or 900)
        self.options = ["rsync", f"--timeout={max(1, min(300, round(self.timeout)))}"]
        if keys.get("bandwidth"):
            self.options.append(f"--bwlimit={keys['bandwidth']}")
        if self.is_remote():
            self.options += ["-e", shlex.join(ssh(keys.get("port"), keys.get("key")))]

    @staticmethod
    def takes(target: str) -> bool:
        """Returns whether a target is HOST:FOLDER, rsync's own address, or an absolute path."""
        return target.startswith(("/", "rsync://")) or ":" in target.partition("/")[0]

    def is_remote(self) -> bool:
        """Returns whether ssh is needed."""
        return not self.target.startswith(("/", "rsync://"))

    def path(self, folder: str) -> str:
        """Returns rsync's word for a folder of the site."""
        return f"{self.target.rstrip('/')}/{folder}"

    def plates(self, source: str, names: Sequence[str], sums: bytes, folder: str) -> None:
        """Sends the plates, and then SHA256SUMS."""
        to = self.path(folder) + "/"
        files = [os.path.join(source, name) for name in names]
        if files:
            self.call("--fsync", "--mkpath", "--times", "--chmod=F644", "--checksum", "--", *files, to)
        with tempfile.TemporaryDirectory() as own:
            path = written(own, SUMS, sums)
            self.call("--inplace", "--fsync", "--mkpath", "--chmod=F644", "--ignore-times", "--", path, to)

    def ready(self, folder: str, text: bytes) -> None:
        """Sends READY alone, and compares it."""
        # Only COMPLETE makes its own folder. To a file's path rsync makes none: where the folder of the plates
        # is gone, READY doesn't come.
        made = ["--mkpath"] if is_complete(folder) else []
        with tempfile.TemporaryDirectory() as own:
            path, to = written(own, READY, text), self.path(folder) + "/"
            self.call("--fsync", *made, "--chmod=F644", "--ignore-times", "--", path, to + READY)
            if self.call("-n", "--checksum", "--itemize-changes", "--", path, to):
                raise Fault("READY compares as something else")

    def look(self, expected: Mapping[str, str]) -> Seen:
        """Compares each READY by its sum, and lists the ACKs."""
        with tempfile.TemporaryDirectory() as own:
            for folder, text in expected.items():
                os.makedirs(os.path.join(own, "tree", folder))
                written(os.path.join(own, "tree", folder), READY, text.encode())
            differ = self.differing(os.path.join(own, "tree"))
            names = {f"{folder}/{ACK}": folder for folder in expected}
            acked = [names[name] for name in self.listed(names, own) if name in names]
        texts = {
            folder: "" if f"{folder}/{READY}" in differ else text
            for folder, text in expected.items()
            if differ.get(f"{folder}/{READY}") != "missing"
        }
        return Seen(texts, sorted(acked))

    def differing(self, tree: str) -> dict[str, str]:
        """Returns the files of a tree that the site lacks (`missing`) or has otherwise (`other`)."""
        lines = self.call("-rn", "--checksum", "--itemize-changes", "--", f"{tree}/", self.target + "/")
        found = [match for match in map(ITEM.fullmatch, lines) if match]
        return {match[2]: "missing" if match[1] == "+" * 9 else "other" for match in found}

    def listed(self, names: Iterable[str], own: str) -> list[str]:
        """Returns which of these files the site has; nothing else is listed."""
        wanted: dict[str, None] = {}
        for name in names:
            parts = name.split("/")
            wanted |= {f"+ /{'/'.join(parts[:count])}/": None for count in range(1, len(parts))}
            wanted[f"+ /{name}"] = None
        path = written(own, "rules", "".join(f"{rule}\n" for rule in [*wanted, "- *"]).encode())
        try:
            lines = self.call("-r", "--list-only", f"--filter=merge {path}", "--", self.target + "/")
        except Ended as fault:
            if fault.status == 23:  # Its folder isn't there yet.
                return []
            raise
        return [match[1] for match in map(LISTED.fullmatch, lines) if match]

    def call(self, *words: str) -> list[str]:
        """Runs rsync. Returns the lines that it printed; raises Fault unless its status is 0."""
        try:
            status, out, note = call([*self.options, *words], self.timeout)
        except OSError as error:
            raise Fault(f"rsync can't be started: {error.strerror}", network=False, begun=False) from None
        except Late:
            raise Fault(f"no answer within {self.timeout:g} s") from None
        except TooMuch:
            raise Fault("it prints without end") from None
        if status:
            raise fault_of(status, note)
        return out.decode("utf-8", "replace").splitlines()


class Ended(Fault):
    """rsync ended with a status other than 0."""

    status: int


def fault_of(status: int, note: bytes) -> Ended:
    """Returns the fault that a status of rsync and its text on standard error are."""
    text = note.decode("utf-8", "replace")
    host_key = CHANGED_KEY in text or UNKNOWN_KEY in text
    if status < 0:
        why, network = f"rsync was killed by signal {-status}", False
    elif host_key:
        why = "the site's host key " + ("has changed" if CHANGED_KEY in text else "isn't known")
        network = True
    else:
        line = next((line for line in text.split("\n") if line.strip(" @\r")), "").rstrip("\r")
        # Where ssh can't reach a site, rsync ends with ssh's status, or finds its pipe closed first.
        own = SSH_FAILED if line.startswith("ssh: ") else status
        why, network = STATUSES.get(own, (f"rsync ended with status {status}", True))
        why += f": {line}" if line else ""
    # With status 1 nothing was begun.
    fault = Ended(why, network=network, host_key=host_key, begun=status != 1)
    fault.status = status
    return fault


def ssh(port: int | None, key: str | None) -> list[str]:
    """Returns the words for ssh: it asks nothing, and accepts known hosts alone.

    A file KEY.known beside the key has the site's host key; otherwise the user's known_hosts is read.
    """
    words = ["ssh", "-oBatchMode=yes", "-oStrictHostKeyChecking=yes", "-oConnectTimeout=20"]
    words += ["-oServerAliveInterval=15", "-oServerAliveCountMax=4"]
    if port:
        words += ["-p", str(port)]
    if key:
        words += ["-i", key, "-oIdentitiesOnly=yes"]
        if os.path.exists(f"{key}.known"):
            words.append(f"-oUserKnownHostsFile={key}.known")
    return words


def written(folder: str, name: str, data: bytes) -> str:
    """Writes a file into a folder. Returns its path."""
    path = os.path.join(folder, name)
    with open(path, "wb") as file:
        file.write(data)
    return path
