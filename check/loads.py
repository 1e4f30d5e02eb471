"""Files that have no length, that grow or that shrink while they are loaded, and threads that can't start.

A file is read to its end, which is where a read finds no more, or to one byte beyond its limit.
"""
import contextlib
import os
import resource
import shutil
import signal
import subprocess
import threading
import time

import editions
import strips
from answers import layer
from plates import Edition, black_plate, compared
from trial import MOST_SECONDS, shown

# A long file has so many bytes, most of them a hole. Its directory is appended at a place beyond its end.
LENGTH, PLACE = 96 << 20, 97 << 20
TRIES = 40

# The bytes that an image may have.
MOST = 536_870_912

# A user that has no other process.
OTHER = 61234


class Pipe:
    """A named pipe into which a thread writes, in pieces of odd sizes, once something reads."""

    def __init__(self, path, data):
        self.path, self.data = path, data
        with contextlib.suppress(FileNotFoundError):
            os.remove(path)
        os.mkfifo(path)
        self.writer = threading.Thread(target=self.write, daemon=True)

    def write(self):
        with contextlib.suppress(BrokenPipeError), open(self.path, "wb", buffering=0) as pipe:
            at, size = 0, 1
            while at < len(self.data):
                at += pipe.write(self.data[at:at + size])
                size = min(2 * size + 1, 1 << 17)

    def __enter__(self):
        self.writer.start()

    def __exit__(self, *_):
        # If nothing has opened the pipe, its writer still waits.
        reader = os.open(self.path, os.O_RDONLY | os.O_NONBLOCK)
        self.writer.join(5)
        os.close(reader)
        os.remove(self.path)


def pipes(tried, folder):
    """Pipes in the place of a plan, an image and a plate. Their length is unknown before they end."""
    image = os.path.join(folder, "images", "large-planar-64.tif")
    with open(image, "rb") as file:
        data = file.read()
    path = os.path.join(folder, "images", "pipe.tif")
    for part, status, out, note in (
        (data, 0, black_plate(image), ""), (data + bytes(70_000), 0, black_plate(image), ""),
        (data[:-1], 4, b"", "tag 279: field place"), (data[:100_000], 4, b"", "tag 0: directory"),
        (b"", 4, b"", "tag 0: header"),
    ):
        line = f"plateroom: file images/pipe.tif: {note}\n" if note else ""
        with Pipe(path, part):
            where = f"{len(part)} bytes"
            tried.answers(["one", "images/pipe.tif"], status, out, line.encode(), where, folder=folder)
    plan = strips.plan("PIPE", [lambda picture: f"{picture}.tif"], [33, 21], {})
    edition = Edition(plan, os.path.join(folder, "images"))
    editions.write_plan(os.path.join(folder, "pipe.json"), plan)
    with open(os.path.join(folder, "pipe.json"), "rb") as file:
        text = file.read()
    with open(os.path.join(folder, "images", "large.tif"), "rb") as file:
        large = file.read()
    wanted, out = dict(edition.plates()), os.path.join(folder, "OUT")
    os.rename(os.path.join(folder, "images", "large.tif"), os.path.join(folder, "large.tif"))
    words = ["pipe.json", "images", "OUT"]
    with Pipe(os.path.join(folder, "pipe.json"), text):
        with Pipe(os.path.join(folder, "images", "large.tif"), large):
            tried.answers(["run", *words], 0, edition.report("OUT").encode(), b"", folder=folder)
    tried.holds("plates by a plan and an image from pipes", compared(wanted, out))
    os.rename(os.path.join(folder, "large.tif"), os.path.join(folder, "images", "large.tif"))
    editions.write_plan(os.path.join(folder, "pipe.json"), plan)
    path, plate = list(wanted.items())[0]
    same = f"same plates {len(wanted)} sites 2\n"
    for part, status, line in (
        (plate, 0, same), (plate + b"\0", 8, f"differs OUT/{path} byte {len(plate)}\n"),
        (plate[:-1], 8, f"differs OUT/{path} byte {len(plate) - 1}\n"),
        (b"", 8, f"differs OUT/{path} byte 0\n"),
    ):
        with Pipe(os.path.join(out, path), part):
            tried.answers(["verify", *words], status, line.encode(), b"", f"{len(part)} bytes", folder=folder)
    shutil.rmtree(out)
    tried.part("pipes in the places of files")


def without_end(tried, folder):
    """Files without an end, and a pipe as long as a plan may be and longer."""
    words = ["run", "/dev/zero", "images", "OUT"]
    tried.answers(words, 3, b"", b"plateroom: plan: too long\n", folder=folder)
    for size, fault in ((16_777_216, "not JSON"), (16_777_217, "too long")):
        with Pipe(os.path.join(folder, "pipe.json"), bytes(size)):
            line = f"plateroom: plan: {fault}\n".encode()
            tried.answers(["run", "pipe.json", "images", "OUT"], 3, b"", line, f"{size} bytes", folder=folder)
    line = b"plateroom: file /dev/zero: tag 0: too long\n"
    tried.answers(["one", "/dev/zero"], 4, b"", line, folder=folder)
    tried.part("files without an end")


class Long:
    """A long file whose directory is behind everything else."""

    def __init__(self, folder):
        self.path = os.path.join(folder, "images", "long.tif")
        self.data = editions.contone(40, 30, 24)
        self.directory = int.from_bytes(self.data[4:8], "little")
        small = os.path.join(folder, "images", "short.tif")
        editions.write(folder, "images/short.tif", self.data)
        self.plate = black_plate(small)

    def lay(self):
        """Writes all but the directory."""
        with open(self.path, "wb") as file:
            file.write(self.data[:4] + PLACE.to_bytes(4, "little") + self.data[8:self.directory])
            file.truncate(LENGTH)

    def append(self):
        """Appends the directory, behind a hole. What its entries keep elsewhere moves with it."""
        tail = bytearray(self.data[self.directory:])
        for at in range(2, 2 + 12 * int.from_bytes(tail[:2], "little"), 12):
            kind, count, place = (int.from_bytes(tail[at + a:at + b], "little")
                                  for a, b in ((2, 4), (4, 8), (8, 12)))
            if {3: 2, 4: 4}[kind] * count > 4:
                tail[at + 8:at + 12] = (place + PLACE - self.directory).to_bytes(4, "little")
        with open(self.path, "r+b") as file:
            file.seek(PLACE)
            file.write(tail)


def state(process):
    """The state of a process: T where it is stopped, Z where it has ended."""
    with open(f"/proc/{process.pid}/stat", encoding="utf-8") as file:
        return file.read().rpartition(")")[2].split()[0]


def stopped(process, path):
    """Stops the program as soon as it has opened the file. Returns up to which byte it has read the file, or
    None if it no longer has it open."""
    mine, path = f"/proc/{process.pid}", os.path.realpath(path)

    def opened():
        # What a process has open changes meanwhile, and one that has ended has nothing open.
        with contextlib.suppress(OSError):
            for number in os.listdir(f"{mine}/fd"):
                with contextlib.suppress(OSError):
                    if os.readlink(f"{mine}/fd/{number}") == path:
                        return number
        return None

    while state(process) != "Z":
        if opened():
            process.send_signal(signal.SIGSTOP)
            while state(process) not in "TZ":
                time.sleep(0.0001)
            number = opened()
            if not number:
                return None
            with open(f"{mine}/fdinfo/{number}", encoding="utf-8") as file:
                return int(file.readline().split()[1])
    return None


def met(tried, folder, long, what, words, change, wanted, times=2):
    """The file changes while it is loaded, so many times. A try counts if the program has not come to the end
    of the file by then."""
    count = 0
    for _ in range(TRIES):
        long.lay()
        if what != "grows":
            long.append()
        process = subprocess.Popen([tried.program, *words], cwd=folder, stdin=subprocess.DEVNULL,
                                   stdout=subprocess.PIPE, stderr=subprocess.PIPE)
        place = stopped(process, long.path)
        is_met = place is not None and place < LENGTH
        if is_met:
            change()
        process.send_signal(signal.SIGCONT)
        try:
            out, note = process.communicate(timeout=MOST_SECONDS)
        except subprocess.TimeoutExpired:
            process.kill()
            out, note = process.communicate()
        if is_met:
            got = process.returncode, out, note
            tried.holds(f"{' '.join(words)}, whose file {what} at byte {place}",
                        "" if got == wanted else f"{shown(got[1])}, {shown(got[2])}, status {got[0]}")
            count += 1
            if count == times:
                return
    tried.holds(f"a file that {what}", f"it was met {count} times in {TRIES}")


def change(tried, folder):
    """A regular file that grows, and one that shrinks, while it is loaded."""
    long = Long(folder)
    edition = Edition(layer(file="short.tif", scale=2), os.path.join(folder, "images"))
    editions.write_plan(os.path.join(folder, "long.json"), layer(file="long.tif", scale=2))
    out, line = os.path.join(folder, "OUT"), "plateroom: file {}: tag 0: {}\n"
    run, one = ["run", "long.json", "images", "OUT"], ["one", "images/long.tif"]
    met(tried, folder, long, "grows", one, long.append, (0, long.plate, b""))
    met(tried, folder, long, "grows", run, long.append, (0, edition.report("OUT").encode(), b""), 1)
    tried.holds("plates by a file that grows", compared(dict(edition.plates()), out))
    shutil.rmtree(out, ignore_errors=True)
    for length in (8, 4096, LENGTH // 2):
        wanted = (4, b"", line.format("images/long.tif", "directory").encode())
        met(tried, folder, long, "shrinks", one, lambda length=length: os.truncate(long.path, length), wanted)
    wanted = (4, b"", line.format("long.tif", "directory").encode())
    met(tried, folder, long, "shrinks", run, lambda: os.truncate(long.path, 4096), wanted, 1)
    wanted = (4, b"", line.format("images/long.tif", "too long").encode())
    met(tried, folder, long, "grows", one, lambda: os.truncate(long.path, MOST + 1), wanted, 1)
    tried.holds("a file that shrinks", "the folder of plates was made" if os.path.exists(out) else "")
    os.remove(long.path)
    tried.part("files that change while they are loaded")


def may_limit():
    """Whether a process may become another user's, and then may not start a second one."""
    def begin():
        resource.setrlimit(resource.RLIMIT_NPROC, (1, 1))
        os.setgroups([])
        os.setgid(OTHER)
        os.setuid(OTHER)

    try:
        words = ["sh", "-c", "true & wait $!"]
        return subprocess.run(words, preexec_fn=begin, capture_output=True, timeout=20).returncode != 0
    except (OSError, subprocess.SubprocessError):
        return False


def few_threads(tried, folder, name, wanted, report):
    """The program as a user who may have one thread, two or three: no further one can be started."""
    if not may_limit():
        print("skipped: few threads, since this user can't become another one with a limit")
        return
    program, out = tried.program, os.path.join(folder, "OUT")
    tried.program = shutil.copy(program, os.path.join(folder, "plateroom"))
    for at in (folder, os.path.dirname(folder)):
        os.chmod(at, 0o711)
    with open(os.path.join(folder, "images", "large-planar-64.tif"), "rb") as file:
        wrong = strips.spoiled(file.read(), {9: "short", 50: "strip place"})
    editions.write(folder, "images/wrong.tif", wrong)
    editions.write_plan(os.path.join(folder, "wrong.json"), layer(file="wrong.tif"))
    try:
        for tasks in (1, 2, 3):
            os.mkdir(out)
            os.chown(out, OTHER, OTHER)
            how = dict(folder=folder, user=OTHER, limits=[(resource.RLIMIT_NPROC, tasks)])
            line = b"plateroom: file wrong.tif: tag 273: short\n"
            tried.answers(["run", "wrong.json", "images", "OUT"], 4, b"", line, **how)
            tried.answers(["run", name, "images", "OUT"], 0, report, b"", **how)
            tried.holds(f"plates of {tasks} threads", compared(wanted, out))
            same = f"same plates {len(wanted)} sites 2\n".encode()
            tried.answers(["verify", name, "images", "OUT"], 0, same, b"", **how)
            kept = "".join(f"site {site} made 0 kept {len(wanted) // 2}\n" for site in ("OSLO", "BERGEN"))
            words = ["replate", name, "images", name, "images", "OUT"]
            tried.answers(words, 0, f"{kept}total made 0\n".encode(), b"", **how)
            shutil.rmtree(out)
    finally:
        tried.program = program
    tried.part("few threads")


def trials(tried, folder, name, wanted, report):
    """In a folder with the images of `strips`, and an edition of its own: plan, plates and report."""
    pipes(tried, folder)
    without_end(tried, folder)
    if os.path.isdir("/proc/self/fdinfo"):
        change(tried, folder)
    else:
        print("skipped: files that change while they are loaded, since there is no /proc")
    few_threads(tried, folder, name, wanted, report)
