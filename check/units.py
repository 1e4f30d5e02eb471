"""The units of package/systemd by systemd's own tools, where they are installed."""
import os
import re
import shutil
import subprocess

import press

UNITS = os.path.join(press.TOP, "package", "systemd")
# The greatest exposure that `systemd-analyze security` may find, in tenths.
EXPOSURE = 15
NAMES = [
    "pressroom-board.service",
    "pressroom-board.socket",
    "pressroom-failed@.service",
    "pressroom-night.service",
    "pressroom-page.socket",
    "pressroom-page@.service",
    "pressroom-plates.socket",
    "pressroom-plates@.service",
    "pressroom-send.socket",
    "pressroom-send@.service",
]


def unit_trials(tried, paper, folder):
    if not shutil.which("systemd-analyze"):
        print("skipped: the units (systemd isn't installed)")
        return
    units = os.path.join(folder, "units")
    os.mkdir(units)
    for name in os.listdir(UNITS):
        if name.startswith("pressroom") and name.endswith((".service", ".socket")):
            write_unit(name, units)
    names = sorted(os.listdir(units))
    tried.holds("units", "" if names == NAMES else names)
    status, said = analyzed(units, "verify", "--man=no", *(name.replace("@.", "@x.") for name in names))
    tried.holds("systemd-analyze verify", f"{status}: {said}" if status or said else "")
    for name in names:
        if name.endswith(".service"):
            words = ["security", "--offline=true", f"--threshold={EXPOSURE}", os.path.join(units, name)]
            status, said = analyzed(units, *words)
            tried.holds(f"systemd-analyze security {name}", f"{status}: {said[-200:]}" if status else "")
    write_unit("pressroom-night.service", units, "ProtectClock=yes", "ProtectClock=maybe")
    _, said = analyzed(units, "verify", "--man=no", "pressroom-night.service")
    tried.holds("a wrong unit is named", "" if "boolean value" in said else said)
    with open(os.path.join(UNITS, "pressroom-night.service"), encoding="utf-8") as file:
        text = file.read()
    tried.holds("the manual's file of metrics may be written", metrics_fault(text))
    without = text.replace("ReadWritePaths=-/var/lib/prometheus/node-exporter\n", "")
    tried.holds("a unit without its folder is noticed", "" if metrics_fault(without) else "it isn't")
    tmpfiles(tried, folder)
    tried.part("units")


def metrics_fault(unit):
    """Why the night's unit can't write the file of metrics that the manual names, or nothing."""
    with open(os.path.join(press.TOP, "docs", "MANUAL.md"), encoding="utf-8") as file:
        named = re.findall(r'^metrics = "([^"]+)"', file.read(), re.MULTILINE)
    lines = re.findall(r"^ReadWritePaths=(.*)", unit, re.MULTILINE)
    folders = [path.lstrip("-") for line in lines for path in line.split()]
    is_below = named and all(any(path.startswith(f"{one}/") for one in folders) for path in named)
    return "" if is_below else f"{named} aren't below {folders}"


def write_unit(name, units, old="", new=""):
    """Copies a unit; its command is the repository's own entry, since /usr/bin has none here."""
    with open(os.path.join(UNITS, name), encoding="utf-8") as file:
        text = file.read().replace("/usr/bin/pressroom", press.ENTRY)
    with open(os.path.join(units, name), "w", encoding="utf-8") as file:
        file.write(text.replace(old, new) if old else text)


def analyzed(units, *words):
    """Status and output of systemd-analyze, which sees only these units and the system's."""
    answer = subprocess.run(
        ["systemd-analyze", *words],
        capture_output=True,
        text=True,
        cwd=units,
        env=os.environ | {"SYSTEMD_UNIT_PATH": units + ":"},
    )
    return answer.returncode, answer.stdout + answer.stderr


# Users and groups of the check's own root, with numbers that the machine's own users don't have.
USERS = {"pressroom": 990, "pressroom-page": 991, "pressroom-send": 992, "pressroom-board": 993}
GROUPS = USERS | {"pressroom-in": 994, "pressroom-desk": 995, "pressroom-look": 996}
# Each folder of the spool: its mode, its user and its group.
FOLDERS = {
    "in": ("3770", "pressroom", "pressroom-in"),
    "grab": ("0700", "pressroom", "pressroom"),
    "store": ("0700", "pressroom", "pressroom"),
    "making": ("2710", "pressroom", "pressroom-send"),
    "renders": ("0700", "pressroom", "pressroom"),
    "plates": ("2750", "pressroom", "pressroom-send"),
    "out": ("2750", "pressroom-send", "pressroom-send"),
    "journal": ("0700", "pressroom", "pressroom"),
}


def made_spool(root):
    """Makes the folders of tmpfiles.d below a root of its own. Returns the spool, or what failed."""
    os.makedirs(os.path.join(root, "etc"))
    lines = {
        "passwd": [f"{name}:x:{number}:{number}::/:/usr/sbin/nologin" for name, number in USERS.items()],
        "group": [f"{name}:x:{number}:" for name, number in GROUPS.items()],
    }
    for name, text in lines.items():
        with open(os.path.join(root, "etc", name), "w", encoding="utf-8") as file:
            file.write("\n".join(text) + "\n")
    # An access list is read with the machine's own users, which may lack these.
    conf = os.path.join(root, "spool.conf")
    with open(os.path.join(UNITS, "pressroom.tmpfiles"), encoding="utf-8") as file:
        text = file.read().replace("user:pressroom:", f"user:{USERS['pressroom']}:")
    with open(conf, "w", encoding="utf-8") as file:
        file.write(text)
    answer = subprocess.run(
        ["systemd-tmpfiles", "--create", f"--root={root}", conf], capture_output=True, text=True
    )
    return os.path.join(root, "var", "spool", "pressroom"), answer.stderr


def tmpfiles(tried, folder):
    """The folders of the spool are made with their owners and modes, and users and groups by sysusers.d."""
    if not shutil.which("systemd-tmpfiles") or os.geteuid():
        print("skipped: tmpfiles.d (systemd-tmpfiles isn't installed, or this isn't root)")
        return
    spool, said = made_spool(os.path.join(folder, "root"))
    found = {}
    for name in sorted(os.listdir(spool)) if os.path.isdir(spool) else []:
        status = os.stat(os.path.join(spool, name))
        found[name] = (oct(status.st_mode)[-4:], status.st_uid, status.st_gid)
    wanted = {name: (mode, USERS[user], GROUPS[group]) for name, (mode, user, group) in FOLDERS.items()}
    tried.holds("systemd-tmpfiles", "" if found == wanted and not said else f"{found}, {said}")
    root = os.path.join(folder, "users")
    os.makedirs(os.path.join(root, "etc"))
    words = ["systemd-sysusers", f"--root={root}", os.path.join(UNITS, "pressroom.sysusers")]
    subprocess.run(words, capture_output=True, check=False)
    names = {}
    for name in ("passwd", "group"):
        path = os.path.join(root, "etc", name)
        with open(path, encoding="utf-8") as file:
            names[name] = {line.partition(":")[0] for line in file}
    right = set(USERS) <= names["passwd"] and set(GROUPS) <= names["group"]
    tried.holds("systemd-sysusers", "" if right else names)
