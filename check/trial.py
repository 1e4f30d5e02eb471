"""Counts what held, for every check, and runs the program."""
import os
import resource
import signal
import subprocess
import sys
import time

MOST_SECONDS, MOST_HANGS = 60, 2

# What a limit is of, for the line of a trial.
LIMITED = {resource.RLIMIT_FSIZE: "files of {} bytes", resource.RLIMIT_STACK: "stacks of {} bytes",
           resource.RLIMIT_NPROC: "{} threads"}


class Hangs(Exception):
    """Too many runs didn't end in time, so no more are made."""


class Count:
    """How many tests held, and how many of a part."""

    def __init__(self):
        self.passed, self.failed, self.before, self.begun = 0, 0, (0, 0), time.monotonic()

    def holds(self, what, fault):
        """Counts one test. A fault is what is wrong, or nothing."""
        if fault:
            self.failed += 1
            print(f"FAILED: {what}: {fault}", flush=True)
        else:
            self.passed += 1

    def see(self, right, words):
        """Counts one test. The words say what is seen where it isn't right."""
        if right:
            self.passed += 1
        else:
            self.failed += 1
            print(f"FAILED: {words}", flush=True)

    def rule(self, path, faults):
        """Counts one test of a file, whose faults are pairs of a line and a text."""
        faults = list(faults)
        for number, fault in faults:
            print(f"{path}:{number}: {fault}")
        self.passed += not faults
        self.failed += bool(faults)

    def end(self):
        """Prints the count, which is the last line of every check, and returns the check's status."""
        print(f"{self.passed} passed, {self.failed} failed")
        return 1 if self.failed else 0

    def part(self, name):
        """Prints how many tests of a part held."""
        passed, failed = self.passed - self.before[0], self.failed - self.before[1]
        seconds = time.monotonic() - self.begun
        print(f"{name}: {passed} of {passed + failed}, {seconds:.1f} s since the beginning", flush=True)
        self.before = self.passed, self.failed


class Trial(Count):
    """The program under test, and how much held."""

    def __init__(self, program):
        super().__init__()
        self.program, self.hangs = os.path.abspath(program), 0

    def answers(self, words, status, out, note, where="", **how):
        """The program ends with this status and writes exactly this to its two streams."""
        got = self.run(words, **how)
        faults = []
        names = "status", "standard output", "standard error"
        for name, wanted, given in zip(names, (status, out, note), got):
            if given != wanted and wanted is not None:
                faults.append(f"{name} is {shown(given)} and not {shown(wanted)}")
        self.holds(told(words, how) + f" ({where})" * bool(where), "; ".join(faults))

    def run(self, words, folder=None, streams=("", ""), limits=(), processors=(), user=0,
            seconds=MOST_SECONDS):
        """The status and the text of both streams. A stream is a path, `closed`, `unread` or kept here.
        The program runs on these processors alone, if some are named, and as this user, if it isn't 0."""
        kept, closing, opened = [subprocess.PIPE] * 2, [], []
        for number, stream in enumerate(streams):
            if stream == "closed":
                closing.append(number + 1)
            elif stream == "unread":
                reading, kept[number] = os.pipe()
                os.close(reading)
                opened.append(kept[number])
            elif stream:
                making = 0 if os.path.dirname(stream) == "/dev" else os.O_CREAT
                kept[number] = os.open(stream, os.O_WRONLY | making, 0o644)
                opened.append(kept[number])

        def begin():
            for stream in closing:
                os.close(stream)
            for kind, most in limits:
                resource.setrlimit(kind, (most, most))
            if processors:
                os.sched_setaffinity(0, processors)
            if any(kind == resource.RLIMIT_FSIZE for kind, _ in limits):
                signal.signal(signal.SIGXFSZ, signal.SIG_IGN)
            if user:
                os.setgroups([])
                os.setgid(user)
                os.setuid(user)

        out, note = kept
        process = subprocess.Popen([self.program, *words], cwd=folder, stdin=subprocess.DEVNULL, stdout=out,
                                   stderr=note, preexec_fn=begin)
        for stream in opened:
            os.close(stream)
        try:
            out, note = process.communicate(timeout=seconds)
        except subprocess.TimeoutExpired:
            process.kill()
            process.communicate()
            self.hangs += 1
            if self.hangs > MOST_HANGS:
                raise Hangs
            return f"not done in {seconds} s", None, None
        return process.returncode, out or b"", note or b""


def told(words, how):
    """The command line, and what is special in the run."""
    line = " ".join(word if isinstance(word, str) and word else repr(word) for word in words) or "no words"
    for name, stream in zip((">", "2>"), how.get("streams", ())):
        line += f" {name} {stream}" if stream else ""
    for kind, most in how.get("limits", ()):
        line += f" with {LIMITED.get(kind, 'memory of {} bytes').format(most)}"
    if how.get("processors"):
        line += f" on {len(how['processors'])} processors"
    return line


def shown(given):
    return repr(given[:300]) + ("" if len(given) <= 300 else "..") if isinstance(given, bytes) else given


def busy(count):
    """Loops that compute all the time, until this process ends or stops them."""
    loop = f"import os\nwhile os.getppid() == {os.getpid()}:\n    for _ in range(10 ** 6):\n        pass"
    return [subprocess.Popen([sys.executable, "-S", "-c", loop]) for _ in range(count)]


def stop(loops):
    for loop in loops:
        loop.kill()
    for loop in loops:
        loop.wait()
