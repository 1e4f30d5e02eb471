"""Disks of a model: what isn't synced may be lost when power fails, name by name."""
import hashlib
import random


class Crash(Exception):
    """The service ends here: by `kill`, or all of its machine by `power`."""


class Wrong(Exception):
    """An invariant doesn't hold."""


def sha(text: str) -> str:
    """Returns the SHA-256 of a text."""
    return hashlib.sha256(text.encode()).hexdigest()


class File:
    """What is read of a file, and what a power failure surely leaves of it: None is nothing."""

    def __init__(self, data: str = "") -> None:
        self.data, self.safe = data, None


class Disk:
    """Files by path. `now` is what is seen; `kept` is what a power failure leaves. Between both, each name is as chance
    has it."""

    def __init__(self, rng: random.Random) -> None:
        self.rng, self.now, self.kept = rng, {}, {}

    def get(self, path):
        return self.now[path].data if path in self.now else None

    def write(self, path, data):
        self.now[path] = File(data)

    def fsync(self, path):
        self.now[path].safe = self.now[path].data

    def remove(self, path):
        self.now = {p: f for p, f in self.now.items() if p != path and not p.startswith(path + "/")}

    def below(self, folder):
        """Returns the names in a folder."""
        return sorted({p[len(folder) + 1 :].split("/")[0] for p in self.now if p.startswith(folder + "/")})

    def rename(self, old, new):
        """Renames a file or a folder. A folder's names that aren't synced may be lost wherever it is."""
        for p in [p for p in self.now if p == old or p.startswith(old + "/")]:
            self.now[new + p[len(old) :]] = self.now.pop(p)
            if p.startswith(old + "/") and self.kept.get(p) is not self.now[new + p[len(old) :]]:
                self.now[new + p[len(old) :]].safe = None

    def sync_folder(self, folder):
        new = {p: f for p, f in self.now.items() if p.startswith(folder + "/")}
        self.kept = {p: f for p, f in self.kept.items() if not p.startswith(folder + "/")} | new

    def sync_all(self):
        self.kept = dict(self.now)
        for file in self.now.values():
            file.safe = file.data

    def power(self):
        """Fails: what wasn't synced is lost, cut short, or there, as chance has it."""
        chosen = {}
        for path in sorted(set(self.now) | set(self.kept)):
            file = (self.now if self.rng.random() < 0.5 else self.kept).get(path)
            if file:
                file.data = file.safe = file.safe or ("" if self.rng.random() < 0.5 else file.data[:5])
                chosen[path] = file
        self.now, self.kept = chosen, dict(chosen)

    def durable(self, path):
        """Returns what a power failure surely leaves of a file."""
        return self.kept[path].safe if path in self.kept and self.now.get(path) is self.kept[path] else None
