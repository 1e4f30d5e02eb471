#!/usr/bin/env python3
"""Makes the newspaper of examples/ in parts by each script of examples/queue whose engine is installed.

    check/queues.py PROGRAM

Each time one part is killed in the middle, named, and made when the script runs again; then plates and report
are those of one run, byte for byte. A site's folder that can't be written is named, and only its part is made
again. A plan that the program refuses is refused with the program's line. It skips and reports what isn't
installed. Slurm runs on this machine only: a controller and two nodes on loopback addresses, in a folder of
their own. The last line is `N passed, M failed`, and the status is 1 if one failed.
"""
import contextlib
import json
import os
import shutil
import signal
import socket
import subprocess
import sys
import tempfile
import time

sys.dont_write_bytecode = True

import trial
from parts import held
from plates import Edition

TOP = os.path.join(os.path.dirname(os.path.abspath(__file__)), "..")
QUEUE, NEWSPAPER = (os.path.join(TOP, "examples", name) for name in ("queue", "newspaper"))
SLURM = "munged", "slurmctld", "slurmd", "sbatch", "sinfo"

# Replaces the program: records which parts are run, and kills the first run of one when its first plate is there.
STAND_IN = """#!/bin/sh
name=${{2##*/}}
if [ "$name" = plan.json ]; then
  exec '{program}' "$@"
fi
echo "$1 $name" >> '{folder}/runs'
if [ -e '{folder}/kill' ] && [ "$(cat '{folder}/kill')" = "$name" ]; then
  rm '{folder}/kill'
  '{program}' "$@" &
  until [ -e "$4/OSLO/MORNING-B-001-C.tif" ]; do
    sleep 0.01
  done
  kill -9 $!
  wait $! 2> /dev/null
  exit
fi
exec '{program}' "$@"
"""

SLURM_CONF = """ClusterName=check
SlurmctldHost={host}(127.0.0.1)
SlurmctldPort={ports[0]}
CommunicationParameters=NoInAddrAny,NoCtldInAddrAny
AuthType=auth/munge
AuthInfo=socket={folder}/munge.socket
CredType=cred/munge
SlurmUser={user}
SlurmdUser={user}
SlurmctldPidFile={folder}/slurmctld.pid
SlurmdPidFile={folder}/%n.pid
StateSaveLocation={folder}/state
SlurmdSpoolDir={folder}/%n
ProctrackType=proctrack/linuxproc
TaskPlugin=task/none
MpiDefault=none
SwitchType=switch/none
SelectType=select/cons_tres
SelectTypeParameters=CR_CPU
ReturnToService=2
NodeName=n1 NodeHostname={host} NodeAddr=127.0.0.1 Port={ports[1]} CPUs=2
NodeName=n2 NodeHostname={host} NodeAddr=127.0.0.1 Port={ports[2]} CPUs=2
PartitionName=all Nodes=n1,n2 Default=YES State=UP
"""


class Newspaper:
    """The newspaper, one run of it, and a corner of each page for three sites of which one shares little."""

    def __init__(self, tried, folder):
        self.art, self.text, self.small = (os.path.join(folder, name) for name in ("art", "news.json", "small.json"))
        make = [sys.executable, "-B", os.path.join(NEWSPAPER, "make.py"), "--art", self.art, "--plan", self.text]
        subprocess.run(make, check=True)
        with open(self.text, encoding="utf-8") as file:
            plan = json.load(file)
        plan["page"], plan["marks"] = [240, 160], []
        next(zone for zone in plan["zones"] if zone["name"] == "north")["replace"].append(
            {"section": "B", "page": 1, "with": "A1north"})
        with open(self.small, "w", encoding="utf-8") as file:
            json.dump(plan, file)
        self.corner, self.reports, self.plates = plan, {}, {}
        for text in (self.text, self.small):
            out = os.path.join(folder, "whole")
            status, report, note = tried.run(["run", text, self.art, out])
            tried.holds(f"one run of {text}", "" if status == 0 else f"{status}, {note}")
            self.reports[text], self.plates[text] = report.decode(), held(out)
            shutil.rmtree(out)

    def rows_apart(self):
        """The rows of the corner where the last site has a part of its own."""
        parts = (self.corner | {"sites": sites} for sites in (self.corner["sites"][:2], self.corner["sites"][2:]))
        return sum(Edition(part, self.art).spans()[1] for part in parts)


class Engine:
    """A script of examples/queue, and the program under it."""

    def __init__(self, tried, folder, name, news):
        self.tried, self.folder, self.name, self.news = tried, os.path.join(folder, name), name, news
        os.mkdir(self.folder)
        self.out, self.program = (os.path.join(self.folder, end) for end in ("plates", "plateroom"))
        with open(self.program, "w", encoding="utf-8") as file:
            file.write(STAND_IN.format(program=tried.program, folder=self.folder))
        os.chmod(self.program, 0o755)

    def file(self, name, text=None):
        """Writes a file of the trial, or reads it and takes it away."""
        path = os.path.join(self.folder, name)
        if text is not None:
            with open(path, "w", encoding="utf-8") as file:
                file.write(text)
            return None
        with open(path, encoding="utf-8") as file:
            text = file.read()
        os.remove(path)
        return text

    def answers(self, what, status, out, said, ran, text, *words, **more):
        """The script ends with this status, prints this, says this on standard error, and ran these parts."""
        answer = subprocess.run(
            [os.path.join(QUEUE, f"{self.name}.sh"), text, self.news.art, self.out, *words], capture_output=True,
            text=True, env=os.environ | {"PLATEROOM": self.program, "JOBS": "2"} | more)
        self.holds(f"{what}, status", answer.returncode == status, answer)
        self.holds(f"{what}, report", answer.stdout == out, answer)
        lines = [line for line in answer.stderr.splitlines() if line.startswith(("failed: ", "plateroom: "))]
        self.holds(f"{what}, what failed", lines == said, answer)
        runs = sorted(self.file("runs").split("\n")[:-1]) if os.path.exists(os.path.join(self.folder, "runs")) else []
        self.holds(f"{what}, what ran", runs == sorted(ran), runs)

    def holds(self, what, is_so, seen):
        self.tried.holds(f"{self.name}: {what}", "" if is_so else repr(seen))

    def same(self, what, text, but=()):
        """The plates are those of one run, but for those in some folder."""
        now = held(self.out)
        wrong = [path for path in now.keys() | self.news.plates[text].keys()
                 if now.get(path) != self.news.plates[text].get(path) and not path.startswith(tuple(but))]
        self.holds(f"{what}, plates", not wrong, sorted(wrong)[:3])

    def killed(self):
        """One part is killed in the middle of its run, and made when the script runs again."""
        text, report = self.news.text, self.news.reports[self.news.text]
        self.file("kill", "B-OSLO.json")
        line = "failed: sections B sites OSLO,BERGEN,TROMSO status 137: "
        every = ["run A-OSLO.json", "run B-OSLO.json"]
        self.answers("killed", 137, report.splitlines(True)[-1], [line], every, text)
        self.same("killed", text, [".B-OSLO/", *(f"{site}/MORNING-B-" for site in ("OSLO", "BERGEN", "TROMSO"))])
        self.holds("a plate in part", held(self.out) != self.news.plates[text], "all plates are there")
        self.answers("run again", 0, report, [], every[1:], text)
        self.same("run again", text)
        self.answers("all is done", 0, report, [], [], text)
        shutil.rmtree(self.out)
        shutil.rmtree(self.out + ".parts")

    def blocked(self):
        """A file is in the place of a part's folder, and then of a site's: only its part fails."""
        text, report = self.news.small, self.news.reports[self.news.small]
        os.mkdir(self.out)
        self.file("plates/.A-TROMSO", "")
        oslo, bergen, tromso, _ = report.splitlines(True)
        left = f"site TROMSO left plates 0 row 0 call begin file {self.out}/TROMSO/MORNING-A-001-C.tif"
        line = f"failed: sections A,B sites TROMSO status 1: {left}"
        total = f"total rows {self.news.rows_apart()} sites 3\n"
        every = ["run A-OSLO.json", "run A-TROMSO.json"]
        self.answers("blocked", 1, oslo + bergen + left + "\n" + total, [line], every, text, "--by", "site")
        self.same("blocked", text, ["TROMSO", ".A-TROMSO"])
        self.file("plates/.A-TROMSO")
        self.file("plates/TROMSO", "")
        line = "failed: sections A,B sites TROMSO status 1: "
        line += f"mkdir: cannot create directory '{self.out}/TROMSO': File exists"
        self.answers("not moved", 1, oslo + bergen + total, [line], every[1:], text, "--by", "site", LC_ALL="C")
        self.same("not moved", text, ["TROMSO", ".A-TROMSO/"])
        self.file("plates/TROMSO")
        self.answers("mended", 0, oslo + bergen + tromso + total, [], every[1:], text, "--by", "site")
        self.same("mended", text)

    def refused(self):
        """A plan that the program refuses is refused by its line, and no part is run."""
        text = os.path.join(self.folder, "wrong.json")
        self.file("wrong.json", "{")
        self.answers("refused", 3, "", ["plateroom: plan: not JSON"], [], text)

    def late(self):
        """Another text of page A3 comes late: replate makes the plates of its pair, in both parts."""
        text, late = self.news.small, os.path.join(self.folder, "late")
        shutil.copytree(self.news.art, late)
        shutil.copyfile(os.path.join(late, "A2-text.tif"), os.path.join(late, "A3-text.tif"))
        lines = ["site OSLO made 1 kept 14", "site BERGEN made 1 kept 14", "total made 2",
                 "site TROMSO made 1 kept 14", "total made 1"]
        ran = ["replate A-OSLO.json", "replate A-TROMSO.json"]
        self.answers("late", 0, "\n".join([*lines, ""]), [], ran, text, "--by", "site", LATE=late)
        _, _, note = self.tried.run(["run", text, late, os.path.join(self.folder, "anew")])
        now, anew = held(self.out), held(os.path.join(self.folder, "anew"))
        self.holds("late, plates", now == anew != self.news.plates[text], note)

    def trials(self):
        self.killed()
        self.blocked()
        self.refused()
        if self.name == "make":
            self.late()
        self.tried.part(f"the newspaper under {self.name}")


def free_ports(count):
    """Ports of the loopback address on which nobody listens."""
    with contextlib.ExitStack() as stack:
        sockets = [stack.enter_context(socket.socket()) for _ in range(count)]
        for one in sockets:
            one.bind(("127.0.0.1", 0))
        return [one.getsockname()[1] for one in sockets]


@contextlib.contextmanager
def slurm():
    """A controller and two nodes of Slurm, which end with it."""
    with tempfile.TemporaryDirectory(prefix="check-slurm-") as folder, contextlib.ExitStack() as stack:
        os.chmod(folder, 0o755)
        host, user = socket.gethostname().split(".")[0], subprocess.run(["id", "-un"], capture_output=True, text=True)
        for name in ("state", "n1", "n2"):
            os.mkdir(os.path.join(folder, name))
        conf, key = os.path.join(folder, "slurm.conf"), os.path.join(folder, "key")
        with open(conf, "w", encoding="utf-8") as file:
            file.write(SLURM_CONF.format(folder=folder, host=host, user=user.stdout.strip(), ports=free_ports(3)))
        with open(key, "wb") as file:
            file.write(os.urandom(1024))
        os.chmod(key, 0o400)
        places = {"socket": "munge.socket", "pid-file": "munge.pid", "log-file": "munge.log", "seed-file": "seed"}
        munge = ["munged", "--foreground", f"--key-file={key}"]
        munge += [f"--{word}={os.path.join(folder, name)}" for word, name in places.items()]
        log = stack.enter_context(open(os.path.join(folder, "log"), "wb"))
        for command in (munge, ["slurmctld", "-D", "-f", conf], *(["slurmd", "-D", "-N", n, "-f", conf] for n in ("n1", "n2"))):
            process = subprocess.Popen(command, stdout=log, stderr=log)
            stack.callback(process.wait)
            stack.callback(process.send_signal, signal.SIGTERM)
            if command is munge:
                wait_for(lambda: os.path.exists(os.path.join(folder, "munge.socket")))
        os.environ["SLURM_CONF"] = conf
        words = ["sinfo", "--noheader", "--format=%D %T"]
        idle = lambda: subprocess.run(words, capture_output=True, text=True).stdout == "2 idle\n"
        if not wait_for(idle):
            with open(log.name, encoding="utf-8", errors="replace") as file:
                raise OSError(f"the nodes of Slurm don't come up: {file.read()[-500:]}")
        yield


def wait_for(is_so, seconds=20):
    """Whether it comes to be so in time."""
    end = time.monotonic() + seconds
    while not is_so() and time.monotonic() < end:
        time.sleep(0.1)
    return is_so()


def lacking(name):
    """What is missing of an engine, if anything."""
    gone = [word for word in (SLURM if name == "slurm" else [name]) if shutil.which(word) is None]
    if name == "parallel" and not gone:
        version = subprocess.run(["parallel", "--version"], capture_output=True, text=True)
        gone = [] if version.stdout.startswith("GNU parallel") else ["GNU parallel"]
    return ", ".join(gone)


def main():
    if len(sys.argv) != 2:
        sys.exit(__doc__.splitlines()[2].strip())
    tried = trial.Trial(sys.argv[1])
    os.environ["PATH"] += ":/usr/sbin"
    room = "/dev/shm" if os.access("/dev/shm", os.W_OK) else None
    with tempfile.TemporaryDirectory(prefix="check-", dir=room) as folder:
        news = Newspaper(tried, folder)
        tried.part("one run of the newspaper")
        for name in ("parallel", "make", "slurm"):
            if lacking(name):
                print(f"skipped: {name}.sh ({lacking(name)} isn't installed)")
                continue
            with slurm() if name == "slurm" else contextlib.nullcontext():
                Engine(tried, folder, name, news).trials()
    return tried.end()


if __name__ == "__main__":
    sys.exit(main())
