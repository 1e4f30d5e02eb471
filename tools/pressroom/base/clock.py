"""Elapsed time, also when the clock is set back: a stamp has the boot and its monotonic clock besides the
hour."""
import time
from typing import Any, TypedDict


class Stamp(TypedDict):
    """A time: the machine's boot, its monotonic clock in seconds, and the hour in seconds."""

    boot: str
    uptime: float
    hour: float


def boot() -> str:
    """The name of this boot of the machine."""
    with open("/proc/sys/kernel/random/boot_id", encoding="ascii") as file:
        return file.read().strip()


def stamp() -> Stamp:
    """The current time, to be kept in a file."""
    return {
        "boot": boot(),
        "uptime": round(time.clock_gettime(time.CLOCK_BOOTTIME), 3),
        "hour": round(time.time(), 3),
    }


def elapsed(before: Any) -> float | None:
    """The seconds since a stamp: by the monotonic clock of this boot, otherwise by the hour. None if there is no stamp,
    or if it is in the future, so that the time is unknown."""
    try:
        if before["boot"] == boot():
            seconds = time.clock_gettime(time.CLOCK_BOOTTIME) - before["uptime"]
        else:
            seconds = time.time() - before["hour"]
    except (KeyError, TypeError):
        return None
    return seconds if seconds >= 0 else None


def left(before: Any, pause: float) -> float:
    """The seconds until a pause since a stamp is over, 0 if it is over or unknown."""
    seconds = elapsed(before)
    return 0 if seconds is None else max(0, pause - seconds)


class Attempts:
    """Failed attempts, kept in a state: each pause is twice as long as the one before, up to the longest."""

    def __init__(self, kept: dict[str, Any], first: float, longest: float, most: int) -> None:
        self.kept, self.first, self.longest, self.most = kept, first, longest, most

    def failed(self) -> None:
        """Records one more failed attempt."""
        self.kept["tries"] = self.kept.get("tries", 0) + 1
        self.kept["at"] = stamp()

    def wait(self) -> float:
        """The seconds until the next attempt."""
        tries = int(self.kept.get("tries", 0))
        return (
            left(self.kept.get("at"), min(self.longest, self.first * 2 ** min(tries - 1, 30))) if tries else 0
        )

    def over(self) -> bool:
        """Whether no attempts are left."""
        return int(self.kept.get("tries", 0)) >= self.most
