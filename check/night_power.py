"""Power failures while the night takes pages, keeps renders, makes plates and delivers them.

usage: check/night_power.py PROGRAM [--rounds N] [--seed N]

A spool and the folders of two sites are on an ext4 of their own (a file, mounted by a loop device), which is shut
down at a random moment by EXT4_IOC_SHUTDOWN without flushing its log, as a loss of power does. Then it is mounted
again. What was acknowledged before that moment must be there, byte for byte, and at the sites no READY may be cut
off or without its plates. Wrong programs (nothing is synced, folders aren't, rsync doesn't sync) must be caught by
the same rounds. It needs root, mkfs.ext4 and loop devices, and is skipped otherwise.
"""
import argparse
import contextlib
import fcntl
import hashlib
import json
import os
import random
import shutil
import signal
import struct
import subprocess
import sys
import tempfile
import time

from trial import Trial

TOP = os.path.join(os.path.dirname(os.path.abspath(__file__)), "..")
sys.path.insert(0, os.path.join(TOP, "tools"))
# ext4's ioctl, and its flag for leaving everything that isn't in the log on the disk (linux/fs/ext4/ext4.h).
SHUTDOWN, NO_FLUSH = 0x8004587D, 2
PLAN = {
    "plan": 2, "edition": "MON", "dpi": 200, "page": [320, 400], "margins": [4, 4, 4, 4], "gutter": 8,
    "limit": 1020, "tiles": [], "screens": {}, "curves": {}, "marks": [], "zones": [], "sites": [{"name": "OSLO"}],
}  # fmt: skip
BLANK = {"name": "blank", "inks": "K", "layers": []}
MARK = {"inks": "CMYK", "x": 4, "y": 4, "w": 40, "h": 2}


# ---- what works until the power fails


class Work:
    """The steps of a night on one disk. `tell` says what the journal could now commit."""

    def __init__(self, disk, seed, variant):
        from pressroom.night import below, clear, page_job, plates_job, scan, take
        from pressroom.night.methods import method

        self.disk, self.random, self.number = disk, random.Random(seed), 0
        self.below, self.clear, self.page_job, self.plates_job = below, clear, page_job, plates_job
        self.scan, self.take, self.method = scan, take, method
        if variant == "nothing is synced":
            os.fsync = lambda handle: None
        elif variant == "folders aren't synced":
            real = os.fsync
            os.fsync = lambda handle: None if os.path.isdir(f"/proc/self/fd/{handle}") else real(handle)
        elif variant == "rsync doesn't sync":
            rsync = __import__("pressroom.night.method_rsync", fromlist=["call"])
            real_call = rsync.call
            rsync.call = lambda words, seconds: real_call(
                [word for word in words if word != "--fsync"], seconds
            )

    def at(self, *names):
        return os.path.join(self.disk, *names)

    def job(self):
        """A name that no job had before, also in the rounds before this one."""
        self.number += 1
        return f"J{os.getpid()}-{time.monotonic_ns()}-{self.number}"

    def bytes(self):
        return self.random.randbytes(self.random.choice((10, 5_000, 300_000)))

    def page(self):
        """A page is put into in/, taken into the store, and removed."""
        os.makedirs(self.at("in", "MON"), exist_ok=True)
        with open(self.at("in", "MON", "A01.pdf"), "wb") as file:
            file.write(self.bytes())
        (found,) = [item for item in self.scan.scan(self.at("in")) if hasattr(item, "size")]
        steps = self.take.copy(self.at("in"), found, self.at("making", self.job()), self.at("store"))
        try:
            while True:
                next(steps)
        except StopIteration as end:
            tell("store", end.value.sha)
        self.clear.clear(self.at("in"), found, self.at("grab", str(time.monotonic_ns())))

    def render(self):
        """The layers of a page go into files of the service, and their folder gets its place."""
        job, folder = self.job(), tempfile.mkdtemp()
        names = ["a.tif", "b.tif"]
        sums = {}
        for name in names:
            data = self.bytes()
            sums[name] = hashlib.sha256(data).hexdigest()
            with open(os.path.join(folder, name), "wb") as file:
                file.write(data)
        os.mkdir(self.at("making", job))
        paths = [self.at("making", job, f"{number:02}.tif") for number in range(2)]
        outputs = [os.open(path, os.O_WRONLY | os.O_CREAT | os.O_EXCL) for path in paths]
        self.page_job.stored([{"kind": "line", "file": name} for name in names], outputs, folder)
        for output in outputs:
            os.close(output)
        shutil.rmtree(folder)
        self.below.settle(self.at("making", job), self.at("renders", job))
        tell("renders", job, {f"{number:02}.tif": sums[name] for number, name in enumerate(names)})

    def plates(self):
        """A pair's plates are made, verified, summed and get their place; then they are delivered to two sites."""
        job, inks = self.job(), self.random.choice(("K", "CMYK"))
        mark = MARK | {"w": self.random.randrange(1, 300)}
        blank = PLAN | {
            "marks": [mark],
            "pages": [BLANK],
            "sections": [{"name": "A", "pages": ["blank"] * 4}],
        }
        pages = [{"name": name, "inks": inks, "layers": []} for name in ("left", "right")]
        pair = blank | {
            "pages": [*pages, BLANK],
            "sections": [{"name": "A", "pages": ["left", "blank", "blank", "right"]}],
        }
        request = {"kind": "plates", "blank": blank, "plan": pair, "files": self.at("renders")}
        answer = self.plates_job.work(request | {"out": self.at("making", job)}, [])
        if "why" in answer:
            raise OSError(5, answer["why"])
        self.below.settle(self.at("making", job), self.at("plates", job))
        tell("plates", job, answer["made"])
        self.deliver(job, answer["made"])

    def deliver(self, job, made):
        sums = self.plates_job.sums_text(made)
        source = self.at("plates", job)
        copies = tempfile.mkdtemp()
        for site, name, folder in (
            ("linked", "folder", source),
            ("copied", "folder", copies),
            ("rsync", "rsync", source),
        ):
            if site == "copied":
                shutil.copytree(source, copies, dirs_exist_ok=True)
            way = self.method({"name": name, "target": self.at(site), "timeout": 20})
            at = f"MON/A-001/{job}"
            way.plates(folder, sorted(made), sums, at)
            text = f"pair A-001\nversion {job}\nsums {hashlib.sha256(sums).hexdigest()}\nend\n"
            way.ready(at, text.encode())
            tell("sent", site, at, text)
        shutil.rmtree(copies)


def tell(*what):
    print(json.dumps(what), flush=True)


def work(disk, seed, variant):
    """Works until the disk is gone."""
    night = Work(disk, seed, variant)
    steps = [night.page, night.render, night.plates]
    tell("begun")
    while True:
        night.random.choice(steps)()


# ---- the power


class Disk:
    """An ext4 in a file, and its mount."""

    def __init__(self, folder):
        self.image, self.path = os.path.join(folder, "disk"), os.path.join(folder, "mount")
        os.mkdir(self.path)
        with open(self.image, "wb") as file:
            file.truncate(400 << 20)
        subprocess.run(["mkfs.ext4", "-q", "-F", self.image], check=True)

    def mount(self):
        subprocess.run(["mount", "-o", "loop", self.image, self.path], check=True)

    def unmount(self):
        """Unmounts it; what was killed may still be at its last call."""
        for _ in range(100):
            if not subprocess.run(["umount", self.path], capture_output=True, check=False).returncode:
                return
            time.sleep(0.1)
        subprocess.run(["umount", "--lazy", self.path], check=True)

    def power_off(self):
        """Shuts the file system down: nothing that isn't on the disk by now will ever be."""
        handle = os.open(self.path, os.O_RDONLY)
        try:
            fcntl.ioctl(handle, SHUTDOWN, struct.pack("I", NO_FLUSH))
        finally:
            os.close(handle)

    def clear(self):
        """Empties the folders, which begin a round as the service begins: with nothing under way."""
        for name in ("in", "grab", "making", "store", "renders", "plates", "linked", "copied", "rsync"):
            shutil.rmtree(os.path.join(self.path, name), ignore_errors=True)
            os.mkdir(os.path.join(self.path, name))
        os.sync()


def round_of(disk, program, seed, variant, counts):
    """Works, fails the power at a random moment, and returns what isn't as it was told."""
    disk.mount()
    disk.clear()
    words = [sys.executable, "-B", os.path.abspath(__file__), program, "--work", disk.path]
    words += ["--seed", str(seed), "--variant", variant]
    environment = os.environ | {"PLATEROOM": program}
    with subprocess.Popen(
        words, stdout=subprocess.PIPE, stderr=subprocess.DEVNULL, env=environment
    ) as process:
        process.stdout.readline()
        time.sleep(random.Random(seed).uniform(0.0, 1.2))
        disk.power_off()
        time.sleep(0.02)
        with contextlib.suppress(ProcessLookupError):
            os.killpg(process.pid, signal.SIGKILL)
        lines = process.stdout.read().decode().splitlines()
    told = [json.loads(line) for line in lines if line.endswith("]") and line != '["begun"]']
    disk.unmount()
    disk.mount()
    try:
        return [*lost(disk.path, told, counts), *torn(disk.path, counts)]
    finally:
        disk.unmount()


def sum_of(path):
    try:
        with open(path, "rb") as file:
            return hashlib.file_digest(file, "sha256").hexdigest()
    except OSError:
        return None


def lost(disk, told, counts):
    """What was told and isn't on the disk."""
    for kind, name, *more in told:
        counts[kind] = counts.get(kind, 0) + 1
        if kind == "store" and sum_of(os.path.join(disk, "store", name)) != name:
            yield f"store/{name}"
        if kind in ("renders", "plates"):
            for file, digest in more[0].items():
                if sum_of(os.path.join(disk, kind, name, file)) != digest:
                    yield f"{kind}/{name}/{file}"
        if kind == "sent":
            at, text = more
            try:
                with open(os.path.join(disk, name, at, "READY"), encoding="utf-8") as file:
                    is_there = file.read() == text
            except OSError:
                is_there = False
            if not is_there and name == "rsync":
                counts["READY lost at a site, to be seen by a look"] = (
                    counts.get("READY lost at a site, to be seen by a look", 0) + 1
                )
            elif not is_there:
                yield f"{name}/{at}/READY"


def torn(disk, counts):
    """READYs that are cut off, or without their plates."""
    for site in ("linked", "copied", "rsync"):
        for folder, _, names in os.walk(os.path.join(disk, site)):
            if "READY" not in names:
                continue
            counts["READYs seen"] = counts.get("READYs seen", 0) + 1
            with open(os.path.join(folder, "READY"), encoding="utf-8") as file:
                text = file.read()
            if not text.endswith("\nend\n"):
                yield f"{folder}: READY is {text!r}"
                continue
            sums = sum_of(os.path.join(folder, "SHA256SUMS"))
            checked = subprocess.run(
                ["sha256sum", "-c", "--strict", "--quiet", "SHA256SUMS"],
                cwd=folder,
                capture_output=True,
                check=False,
            )
            if f"sums {sums}\n" not in text or checked.returncode:
                yield f"{folder}: READY without its plates: {checked.stdout.decode()[:100]}"


def trials(tried, disk, rounds, seed):
    """The rounds of the right program, and then those of the wrong ones."""
    counts = {}
    for number in range(rounds):
        for fault in list(round_of(disk, tried.program, seed + number, "", counts))[:1] or [""]:
            tried.holds(f"power failure {seed + number}", fault)
    print(", ".join(f"{name}: {count}" for name, count in sorted(counts.items())), flush=True)
    tried.part(f"{rounds} power failures")
    for variant in ("nothing is synced", "folders aren't synced", "rsync doesn't sync"):
        caught = None
        for number in range(60):
            if round_of(disk, tried.program, seed + number, variant, {}):
                caught = number + 1
                break
        tried.holds(f"{variant}: caught", "" if caught else "not in 60 rounds")
        print(f"{variant}: caught in round {caught}", flush=True)
    tried.part("wrong programs")


def main():
    parser = argparse.ArgumentParser(
        description=__doc__, formatter_class=argparse.RawDescriptionHelpFormatter
    )
    parser.add_argument("program")
    parser.add_argument("--rounds", type=int, default=40)
    parser.add_argument("--seed", type=int, default=1)
    parser.add_argument("--work", help=argparse.SUPPRESS)
    parser.add_argument("--variant", default="", help=argparse.SUPPRESS)
    words = parser.parse_args()
    if words.work:
        return work(words.work, words.seed, words.variant)
    if os.geteuid() or not shutil.which("mkfs.ext4") or not shutil.which("rsync"):
        print("skipped: power failures (they need root, mkfs.ext4 and rsync)")
        return 0
    tried = Trial(words.program)
    with tempfile.TemporaryDirectory() as folder:
        disk = Disk(folder)
        try:
            disk.mount()
            disk.unmount()
        except subprocess.CalledProcessError:
            print("skipped: power failures (nothing can be mounted here)")
            return 0
        trials(tried, disk, words.rounds, words.seed)
    print(f"{tried.passed} passed, {tried.failed} failed")
    return 1 if tried.failed else 0


if __name__ == "__main__":
    sys.exit(main())
