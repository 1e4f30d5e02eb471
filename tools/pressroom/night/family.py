"""Ends a process with everything that it started, also what has a session of its own."""
import os
import signal


def descendants(pid: int) -> list[int]:
    """Returns the processes that a process started, and those that they started, parents first."""
    found = [pid]
    for parent in found:
        found += [child for child in children(parent) if child not in found]
    return found[1:]


def children(pid: int) -> list[int]:
    """Returns the children of a process, of all its threads; none if it ended."""
    found: list[int] = []
    try:
        threads = os.listdir(f"/proc/{pid}/task")
    except OSError:
        return found
    for thread in threads:
        try:
            with open(f"/proc/{pid}/task/{thread}/children", encoding="ascii") as file:
                found += map(int, file.read().split())
        except OSError:
            continue
    return found


def kill(pids: list[int]) -> None:
    """Kills processes; those that ended are passed over."""
    for pid in pids:
        try:
            os.kill(pid, signal.SIGKILL)
        except (ProcessLookupError, PermissionError):
            continue
