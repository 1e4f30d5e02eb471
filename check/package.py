#!/usr/bin/env python3
"""Installs the package in a clean Debian 12, makes a newspaper there, upgrades, removes and purges it.

    check/package.py PROGRAM [--base FOLDER]

Two packages are made with the program: of the last commit, and of the last commit that has an older version.
They go into a root folder made by debootstrap with the recommended packages and systemd, which doesn't run
there. A user without privileges makes the newspaper. At the end the root must be unchanged, file by file,
except caches, logs and the records of apt and dpkg. FOLDER keeps the clean root for the next time; without it
the root is made anew, some 200 MB from Debian's mirror. It needs root, debootstrap and what package/deb.sh
needs. The last line is `N passed, M failed`, and the status is 1 if one failed.
"""
import argparse
import hashlib
import os
import re
import shutil
import stat
import subprocess
import sys
import tempfile

sys.dont_write_bytecode = True
from release import COMPLETION, TOP, said, text_of, version_in
from trial import Trial

SUITE = "bookworm"
NEEDED = "chroot", "debootstrap", "dpkg-deb", "git", "mount", "scdoc", "strip"
# What is tried with the package and isn't one of its own needs.
BESIDE = "bash-completion", "man-db", "systemd"
# What isn't compared: mounts, caches, logs, and what apt, dpkg and systemd keep for themselves.
PASSED_OVER = ("/dev", "/proc", "/run", "/sys", "/tmp", "/var/cache", "/var/log", "/var/lib/apt",
               "/var/lib/dpkg", "/var/lib/systemd", "/etc/passwd-", "/etc/group-", "/etc/shadow-",
               "/etc/gshadow-", "/etc/ld.so.cache")
USER = 4321
ACCOUNTS = "/etc/passwd", "/etc/group", "/etc/shadow", "/etc/gshadow"
ENVIRONMENT = "PATH=/usr/sbin:/usr/bin:/sbin:/bin", "LC_ALL=C.UTF-8", "DEBIAN_FRONTEND=noninteractive"
EXAMPLES = "/usr/share/doc/plateroom/examples"
UNITS = "/lib/systemd/system"


def last_of_another_version(version):
    """The last commit whose changelog begins with another version."""
    for commit in said("git", "-C", TOP, "log", "--format=%H", "--", "CHANGELOG.md").split():
        if version_in(said("git", "-C", TOP, "show", f"{commit}:CHANGELOG.md")) != version:
            return commit
    sys.exit("check/package.py: no commit here has an older version; it needs a clone with its history")


def package_of(commit, folder, program):
    """The package that a commit makes."""
    said("git", "clone", "-q", "--no-hardlinks", TOP, folder)
    said("git", "-C", folder, "checkout", "-q", commit)
    return os.path.join(folder, said(os.path.join(folder, "package", "deb.sh"), program, cwd=folder).strip())


def names_in(deb, *fields):
    """The Debian packages that fields of a package's control name."""
    items = ", ".join(said("dpkg-deb", "-f", deb, field).strip() for field in fields).split(", ")
    return [item.split()[0] for item in items if item]


class Root:
    """A root folder, in which programs run."""

    def __init__(self, folder):
        self.folder = folder

    def run(self, *words, user=None, folder="/"):
        """Runs a program there, and returns its status and everything that it wrote."""
        who = [f"--userspec={user}:{user}"] if user else []
        asked = ["chroot", *who, self.folder, "/usr/bin/env", "-i", *ENVIRONMENT, f"HOME={folder}",
                 "sh", "-c", 'cd "$0" && exec "$@"', folder, *words]
        done = subprocess.run(asked, stdout=subprocess.PIPE, stderr=subprocess.STDOUT,
                              stdin=subprocess.DEVNULL, text=True, errors="replace")
        return done.returncode, done.stdout

    def must(self, *words):
        """Runs a program that must succeed for the test to continue."""
        status, text = self.run(*words)
        if status:
            sys.exit(f"check/package.py: {' '.join(words)} ended with status {status}:\n{text}")

    def path(self, name):
        return os.path.join(self.folder, name.lstrip("/"))

    def state(self):
        """Each path there, with everything that a package could change of it."""
        found = {}
        for folder, folders, names in os.walk(self.folder):
            here = "/" + os.path.relpath(folder, self.folder) if folder != self.folder else ""
            folders[:] = [name for name in folders if f"{here}/{name}" not in PASSED_OVER]
            for name in names + folders:
                if f"{here}/{name}" not in PASSED_OVER:
                    found[f"{here}/{name}"] = described(os.path.join(folder, name))
        return found


def described(path):
    about = os.lstat(path)
    kind, what = stat.S_IFMT(about.st_mode), ""
    if kind == stat.S_IFLNK:
        what = os.readlink(path)
    elif kind == stat.S_IFREG:
        with open(path, "rb") as file:
            what = hashlib.file_digest(file, "sha256").hexdigest()
    return about.st_mode, about.st_uid, about.st_gid, what


def make_base(folder, packages):
    """A clean root with these packages."""
    said("debootstrap", "--variant=minbase", SUITE, folder)
    with mounted(Root(folder)) as root:
        root.must("apt-get", "update")
        root.must("apt-get", "install", "-y", "--no-install-recommends", *packages)
        root.must("apt-get", "clean")


class mounted:
    """A root with /proc, for as long as it is used."""

    def __init__(self, root):
        self.root = root

    def __enter__(self):
        said("mount", "-t", "proc", "proc", self.root.path("/proc"))
        return self.root

    def __exit__(self, *_):
        said("umount", self.root.path("/proc"))


class Tried:
    """The steps in a root, each counted."""

    def __init__(self, trial, root):
        self.trial, self.root = trial, root

    def runs(self, *words, says="", status=0, **how):
        """A program ends with this status, and its output has this text. Returns the output."""
        got, text = self.root.run(*words, **how)
        fault = got != status and f"status {got} and not {status}" or says not in text and f"no {says!r}"
        self.trial.holds(" ".join(words), fault and f"{fault}:\n{text[-2000:]}")
        return text

    def holds(self, what, fault):
        self.trial.holds(what, fault)


def try_install(tried, deb, version):
    """Installs a package over the present state."""
    shutil.copy(deb, tried.root.path("/tmp/plateroom.deb"))
    tried.runs("apt-get", "install", "-y", "--no-install-recommends", "/tmp/plateroom.deb")
    tried.runs("dpkg-query", "-W", "-f", "${Version} ${db:Status-Status}", "plateroom",
               says=f"{version}-1 installed")
    changed = tried.runs("dpkg", "--verify", "plateroom")
    tried.holds("dpkg --verify", changed.strip())
    tried.runs("plateroom", "drill", "7", says="site S0 finished plates 13 rows 832")


def try_old_tools(tried):
    """Root ran the tools of the older version, and Python left its bytecode next to them."""
    tried.runs("python3", "/usr/share/plateroom/tools/check.py", "--help", says="usage")
    left = tried.root.path("/usr/share/plateroom/tools/__pycache__")
    os.makedirs(left, exist_ok=True)
    with open(os.path.join(left, "gone.cpython-311.pyc"), "wb"):
        pass


def try_upgraded(tried, version):
    """Nothing of the older version is left, and everything of the new one is present."""
    listed = set(tried.runs("dpkg", "-L", "plateroom").split("\n"))
    for top in "/usr/share/plateroom", "/usr/share/doc/plateroom":
        there = tried.runs("find", top, "-name", "__pycache__", "-prune", "-o", "-print").split("\n")
        tried.holds(f"files below {top}", [name for name in there if name and name not in listed])
    bytecode = tried.runs("find", "/usr/share/plateroom", "-name", "*.pyc")
    tried.holds("bytecode of the new modules", "/pressroom/__pycache__/front." not in bytecode and bytecode)
    tried.holds("bytecode of the old modules", "gone." in bytecode and bytecode)
    tried.runs("pressroom", "--version", says=f"pressroom {version}")
    for section, page in ("1", "plateroom"), ("1", "pressroom"), ("5", "plateroom-plan"):
        tried.runs("man", section, page, says=f"plateroom {version}")
    for name in "plateroom", "pressroom":
        loader = f". {COMPLETION}; _completion_loader {name}; complete -p {name}"
        tried.runs("bash", "-c", loader, says=f"-F _{name} {name}")


def try_newspaper(tried, commands):
    """The newspaper of the examples, from its pages to plates, as a user would make it."""
    folder = "/tmp/newspaper"
    os.mkdir(tried.root.path(folder))
    os.chown(tried.root.path(folder), USER, USER)
    how = {"user": USER, "folder": folder}
    tried.runs("python3", f"{EXAMPLES}/newspaper/make.py", "--art", "art", "--plan", "plan.json", **how)
    tried.runs("pressroom", "check", "plan.json", "art", says="0 faults, 0 notes", **how)
    tried.runs("plateroom", "run", "plan.json", "art", "plates", says="total rows 148720 sites 3", **how)
    tried.runs("plateroom", "verify", "plan.json", "art", "plates", says="same plates 45 sites 3", **how)
    tried.runs("pressroom", "proof", "plates/OSLO", "oslo.png", **how)
    tried.runs("pressroom", "parts", "plan.json", "parts", "--files", "art", says="sections A", **how)
    tried.runs(f"{EXAMPLES}/queue/make.sh", "plan.json", "art", "again", "--by", "both",
               says="site TROMSO finished plates 15 rows 85800", **how)
    tried.runs("plateroom", "verify", "plan.json", "art", "again", says="same plates 45 sites 3", **how)
    tried.runs("pressroom", "tile", "K45", "--angle", "45", "--ruling", "100", says="K45: side 17", **how)
    for name in commands:
        tried.runs("pressroom", name, "--help", says=f"usage: pressroom {name}", **how)
    # Once more by root, who may write next to the modules and the examples.
    tried.runs("python3", f"{EXAMPLES}/newspaper/make.py", "--art", "/tmp/root", "--plan", "/tmp/root.json")
    tried.runs("pressroom", "check", "/tmp/root.json", "/tmp/root", says="0 faults, 0 notes")


def try_night(tried):
    """The newspaper from PDFs: converted, made, shown; and by a pass over the spool, as by the unit."""
    folder = "/tmp/newspaper"
    how = {"user": USER, "folder": folder}
    house = f"{EXAMPLES}/newspaper/house.toml"
    tried.runs("python3", f"{EXAMPLES}/newspaper/make.py", "--art", "art", "--plan", "plan.json", "--pages",
               "pages", **how)
    tried.runs("pressroom", "intake", house, "pages", "work", **how)
    tried.runs("pressroom", "make", "work", "out", **how)
    tried.runs("sh", "-c", "ls out/current/*/READY | wc -l", says="3\n", **how)
    tried.runs("pressroom", "web", "out/current", "proof", **how)
    tried.runs("test", "-s", "proof/index.html", **how)
    spool = tried.root.path("/var/spool/pressroom")
    account = re.search(r"^pressroom:[^:]*:(\d+):", text_of(tried.root.path("/etc/passwd")), re.MULTILINE)
    if not account or not os.path.isdir(f"{spool}/in"):
        tried.holds("user and spool of the units", "they aren't there")
        return
    os.mkdir(tried.root.path("/tmp/oslo"))
    os.chown(tried.root.path("/tmp/oslo"), int(account[1]), int(account[1]))
    with open(f"{spool}/house.toml", "w", encoding="utf-8") as file:
        file.write(text_of(tried.root.path(house)) + '\n[night]\nleast_free = 0\n\n'
                   '[delivery.sites]\nOSLO = "/tmp/oslo"\n')
    shutil.copytree(tried.root.path(f"{folder}/pages"), f"{spool}/in/monday")
    with open(f"{spool}/in/monday/READY", "w", encoding="utf-8"):
        pass
    said("chown", "-R", f"{account[1]}:{account[1]}", f"{spool}/in/monday")
    tried.runs("pressroom", "night", "/var/spool/pressroom", user=int(account[1]))
    tried.runs("test", "-d", "/var/spool/pressroom/done/monday")
    tried.runs("find", "/tmp/oslo", "-name", "READY", says="READY")


def try_units(tried):
    """Units are installed, right, and not enabled; a house enables them."""
    folder = tried.root.path(UNITS)
    units = sorted(name for name in os.listdir(folder) if name.startswith("pressroom"))
    for unit in units:
        text = text_of(os.path.join(folder, unit))
        tried.runs("systemd-analyze", "verify", "--man=no", f"{UNITS}/{unit}" if "@." not in unit
                   else f"{UNITS}/{unit.replace('@.', '@one.')}")
        if "[Install]" in text:
            tried.runs("systemctl", "is-enabled", unit, says="disabled", status=1)
            tried.runs("systemctl", "enable", unit)
    if units:
        tried.runs("getent", "passwd", "pressroom", says=":/var/spool/pressroom:")
        tried.runs("test", "-d", "/var/spool/pressroom/in")


def try_gone(tried, before, but=()):
    """After purge everything is as before the first installation, except at these paths or below."""
    after = tried.root.state()
    changed = sorted(name for name in before.keys() | after.keys()
                     if before.get(name) != after.get(name) and not name.startswith(tuple(but)))
    tried.holds("the root after purge", changed)
    known = tried.root.run("dpkg-query", "-W", "plateroom")
    tried.holds("dpkg after purge", known[0] == 0 and known[1])


def try_purge(tried, before, editions):
    """Removes and purges the package. Editions in the spool are the house's: they are kept, with their user."""
    tried.runs("apt-get", "remove", "-y", "plateroom")
    tried.holds("files after remove", [name for name in tried.root.state() if "/plateroom" in name])
    told = tried.runs("apt-get", "purge", "-y", "plateroom")
    if not editions:
        try_gone(tried, before)
        return
    tried.holds("a spool that isn't empty", "it stays" not in told and told)
    try_gone(tried, before, but=("/var/spool", *ACCOUNTS))
    shutil.rmtree(tried.root.path("/var/spool/pressroom"))


def try_all(trial, root, old, new, version):
    tried = Tried(trial, root)
    before = root.state()
    try_install(tried, old[0], old[1])
    try_old_tools(tried)
    trial.part(f"install of {old[1]}")
    try_install(tried, new, version)
    try_upgraded(tried, version)
    trial.part(f"upgrade to {version}")
    commands = re.findall(r"^  ([a-z]+)  ", root.run("pressroom", "--help")[1], re.MULTILINE)
    try_newspaper(tried, commands)
    trial.part("newspaper")
    try_units(tried)
    trial.part("units")
    night = {"intake", "make", "night", "web"} <= set(commands)
    if night:
        try_night(tried)
        trial.part("night")
    try_purge(tried, before, night)
    trial.part("remove and purge")
    try_install(tried, new, version)
    tried.runs("apt-get", "purge", "-y", "plateroom")
    try_gone(tried, before)
    trial.part("install and purge")


def read_words():
    parser = argparse.ArgumentParser(description=__doc__,
                                     formatter_class=argparse.RawDescriptionHelpFormatter)
    parser.add_argument("program", metavar="PROGRAM", help="the built program")
    parser.add_argument("--base", metavar="FOLDER", help="the clean root, which is made if missing, and kept")
    return parser.parse_args()


def main():
    words = read_words()
    missing = [name for name in NEEDED if shutil.which(name) is None]
    if missing or os.geteuid() != 0:
        print(f"nothing was tried: {', '.join(missing) if missing else 'it needs root'}")
        return 2
    trial = Trial(words.program)
    version = version_in(text_of(os.path.join(TOP, "CHANGELOG.md")))
    with tempfile.TemporaryDirectory(prefix="plateroom-package-") as folder:
        new = package_of("HEAD", os.path.join(folder, "new"), trial.program)
        old = package_of(last_of_another_version(version), os.path.join(folder, "old"), trial.program)
        base = words.base or os.path.join(folder, "base")
        if not os.path.exists(base):
            make_base(base, [*BESIDE, *names_in(new, "Depends", "Recommends")])
            trial.part("clean root")
        root = Root(os.path.join(folder, "root"))
        said("cp", "-a", base, root.folder)
        with mounted(root):
            old_version = said("dpkg-deb", "-f", old, "Version").strip().removesuffix("-1")
            try_all(trial, root, (old, old_version), new, version)
    return trial.end()


if __name__ == "__main__":
    sys.exit(main())
