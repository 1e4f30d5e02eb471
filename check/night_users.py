"""Uploaders, the service and its jobs as different users: what each may do in the spool that the package makes.

usage: check/night_users.py

The folders are those of package/systemd/pressroom.tmpfiles, with their owners, modes and access lists. Alice and
Bob are in the group pressroom-in; the service takes pages as the user pressroom. It needs root and
systemd-tmpfiles, and is skipped otherwise.
"""
import json
import os
import shutil
import signal
import subprocess
import sys
import tempfile
import time

from trial import Trial
from units import GROUPS, USERS, made_spool

TOP = os.path.join(os.path.dirname(os.path.abspath(__file__)), "..")
TOOLS = os.path.abspath(os.path.join(TOP, "tools"))
ALICE, BOB, STRANGER = 2001, 2002, 2003
IN = GROUPS["pressroom-in"]
PAGE = b"%PDF-1.4 a page"
SECRET = b"%PDF-1.4 of the service alone"
# What the service does with in/, in a process of its own: it takes what it finds, and tells what it can't take.
TAKE = """
import json, sys
sys.path.insert(0, sys.argv[1])
from pressroom.night import clear, scan, take
from pressroom.night.records import Found
spool, rounds = sys.argv[2], int(sys.argv[3])
told = {"taken": [], "unfit": {}, "cleared": {}, "changed": 0}
for count in range(rounds):
    for item in scan.scan(spool + "/in"):
        name = item.name.decode("utf-8", "backslashreplace")
        if not isinstance(item, Found):
            told["unfit"][name] = item.why
            continue
        try:
            steps = take.copy(spool + "/in", item, spool + "/making/part", spool + "/store")
            while True:
                next(steps)
        except StopIteration as end:
            told["taken"].append([name, end.value.sha])
            told["cleared"][name] = clear.clear(spool + "/in", item, f"{spool}/grab/{count}")
        except take.Changed:
            told["changed"] += 1
        except take.NotTaken as error:
            told["unfit"][name] = str(error)
print(json.dumps(told))
"""


class Spool:
    """The spool, and what users did in it."""

    def __init__(self, tried, path):
        self.tried, self.path = tried, path

    def at(self, *names):
        return os.path.join(self.path, *names)

    def run(self, user, words, groups=(), umask="022", seconds=60):
        """Runs a program as a user of these groups alone. Returns its status and its output."""
        setpriv = ["setpriv", "--reuid", str(user), "--regid", str(user)]
        setpriv += ["--groups", ",".join(map(str, (user, *groups)))]
        shell = ["sh", "-c", f'umask {umask}; exec "$@"', "sh"]
        try:
            answer = subprocess.run(
                [*setpriv, *shell, *words],
                capture_output=True,
                text=True,
                timeout=seconds,
                cwd="/",
                check=False,
            )
        except subprocess.TimeoutExpired:
            return -1, "", f"not done in {seconds} s"
        return answer.returncode, answer.stdout, answer.stderr

    def upload(self, user, script, umask="022"):
        """Runs a shell script as an uploader, in in/."""
        return self.run(user, ["sh", "-c", f"cd {self.at('in')} && {script}"], (IN,), umask)

    def take(self, rounds=1):
        """The service takes what is in in/. Returns what it told."""
        words = ["/usr/bin/python3", "-B", "-c", TAKE, TOOLS, self.path, str(rounds)]
        status, out, note = self.run(USERS["pressroom"], words, (), "027")
        return json.loads(out) if not status else {"fault": note, "unfit": {}, "taken": [], "cleared": {}}

    def stored(self):
        return [read(self.at("store", name)) for name in os.listdir(self.at("store"))]

    def may(self, what, user, groups, script, is_allowed):
        """A user may, or may not, do what a script does."""
        status, _, note = self.run(user, ["sh", "-c", script], groups)
        self.tried.holds(what, "" if (status == 0) == is_allowed else f"status {status}, {note.strip()}")

    def empty(self):
        for folder in ("in", "grab", "store", "making"):
            for name in os.listdir(self.at(folder)):
                path = self.at(folder, name)
                shutil.rmtree(path) if os.path.isdir(path) and not os.path.islink(path) else os.unlink(path)


def read(path):
    with open(path, "rb") as file:
        return file.read()


def uploads(spool):
    """Pages are taken whatever the uploader's umask is, and removed."""
    for umask in ("000", "002", "022", "027", "077"):
        for number, way in enumerate(("printf x > MON/west/A01.pdf", "printf y > MON/A02.pdf")):
            status, _, note = spool.upload(ALICE, f"mkdir -p MON/west && {way}", umask)
            told = spool.take()
            fault = "" if not status and len(told["taken"]) == 1 and not told["unfit"] else f"{note}, {told}"
            spool.tried.holds(f"umask {umask}, page {number}", fault)
            removed = set(told["cleared"].values()) == {"removed"}
            spool.tried.holds(f"umask {umask}, page {number} is removed", "" if removed else told["cleared"])
        spool.empty()
    spool.upload(
        ALICE, "mkdir MON && printf x > MON/A01.pdf && chmod 600 MON/A01.pdf && printf y > MON/A02.pdf"
    )
    told = spool.take()
    right = told["unfit"] == {"MON/A01.pdf": "can't be opened: Permission denied"} and len(told["taken"]) == 1
    spool.tried.holds(
        "a file that the service may not read is told, and no other waits", "" if right else told
    )
    spool.empty()
    spool.upload(ALICE, "mkdir MON TUE && printf x > MON/A01.pdf && chmod 0 MON && printf y > TUE/A01.pdf")
    told = spool.take()
    right = told["unfit"] == {"MON": "can't be opened: Permission denied"} and len(told["taken"]) == 1
    spool.tried.holds(
        "a folder that the service may not read is told, and no other waits", "" if right else told
    )
    spool.empty()
    spool.upload(ALICE, "mkdir MON && printf x > MON/A01.pdf && chmod 555 MON")
    told = spool.take()
    right = told["cleared"] == {"MON/A01.pdf": "kept: Permission denied"} and len(told["taken"]) == 1
    spool.tried.holds("a page that can't be removed is taken, and that is told", "" if right else told)
    spool.empty()
    spool.tried.part("uploads")


def strangers(spool):
    """An uploader changes, reads and removes nothing but what is his own; others reach nothing at all."""
    spool.upload(ALICE, "mkdir MON && printf x > MON/A01.pdf")
    folder, page = spool.at("in", "MON"), spool.at("in", "MON", "A01.pdf")
    for name, user, groups in (("bob", BOB, (IN,)), ("a stranger", STRANGER, ())):
        for what, script in (
            ("reads a page", f"cat {page}"),
            ("lists the folder", f"ls {folder}"),
            ("writes a page", f"echo > {page}"),
            ("adds a page", f"echo > {folder}/A02.pdf"),
            ("removes a page", f"rm -f {page}"),
            ("renames the folder", f"mv {folder} {spool.at('in', 'TUE')}"),
            ("removes the folder", f"rm -rf {folder}"),
            ("links a page", f"ln {page} {spool.at('in', 'own.pdf')}"),
            ("changes the access list", f"setfacl -m u:{user}:rwx {folder}"),
            ("locks the folder", f"flock -n {folder} true"),
        ):
            spool.may(f"{name} {what} of alice's", user, groups, script, False)
    for name, user, groups in (("alice", ALICE, (IN,)), ("a stranger", STRANGER, ())):
        for folder in ("grab", "store", "making", "renders", "plates", "out", "journal"):
            spool.may(f"{name} lists {folder}", user, groups, f"ls {spool.at(folder)}", False)
            spool.may(f"{name} writes into {folder}", user, groups, f"echo > {spool.at(folder, 'x')}", False)
        spool.may(f"{name} lists the spool", user, groups, f"ls {spool.path}", False)
        spool.may(f"{name} writes into the spool", user, groups, f"echo > {spool.at('x')}", False)
        spool.may(f"{name} renames in/", user, groups, f"mv {spool.at('in')} {spool.at('old')}", False)
    spool.may("alice hands in more", ALICE, (IN,), f"echo > {spool.at('in', 'MON', 'A03.pdf')}", True)
    spool.may("a stranger hands in", STRANGER, (), f"mkdir {spool.at('in', 'WED')}", False)
    spool.empty()
    jobs(spool)
    spool.tried.part("strangers")


def jobs(spool):
    """A delivery reads plates and nothing else of the spool; an intake reaches none of it."""
    made = "import os; os.umask(0o27); os.makedirs(%r); open(%r, 'w').write('plate')"
    for folder in ("renders", "plates", "store", "journal"):
        inner = spool.at("making", folder)
        words = ["/usr/bin/python3", "-c", made % (inner, os.path.join(inner, "x.tif"))]
        spool.run(USERS["pressroom"], words, (), "027")
        os.rename(inner, spool.at(folder, "J1-1"))
    for user, readable in (("pressroom-send", {"plates"}), ("pressroom-page", set())):
        for folder in ("renders", "plates", "store", "journal"):
            path = spool.at(folder, "J1-1", "x.tif")
            spool.may(f"{user} reads {folder}", USERS[user], (), f"cat {path}", folder in readable)
            spool.may(f"{user} writes {folder}", USERS[user], (), f"echo > {path}", False)
            spool.may(f"{user} removes from {folder}", USERS[user], (), f"rm -f {path}", False)
        spool.may(f"{user} reads in/", USERS[user], (), f"ls {spool.at('in')}", False)
    for folder in ("renders", "plates", "store", "journal"):
        shutil.rmtree(spool.at(folder, "J1-1"))


def tricks(spool):
    """Links, pipes, locks and replacements: nothing of the service's own comes into a page, and nothing waits."""
    with open(spool.at("journal", "secret.pdf"), "wb") as file:
        file.write(SECRET)
    os.chown(file.name, USERS["pressroom"], USERS["pressroom"])
    os.chmod(file.name, 0o600)
    secret = file.name
    script = (
        f"mkdir MON && cd MON && ln -s {secret} A01.pdf && ln -s {spool.at('journal')} west && mkfifo A02.pdf"
    )
    script += f" && ln -s . loop && ln -s {spool.at('in')} ../TUE && printf x > A04.pdf && mkdir -p a/b/c"
    spool.upload(ALICE, script)
    told = spool.take()
    wanted = {
        "MON/A01.pdf": "a link, not a regular file",
        "MON/A02.pdf": "a pipe, not a regular file",
        "MON/a/b": "a folder, not a regular file",
        "MON/loop": "a link, not a regular file",
        "MON/west": "a link, not a regular file",
        "TUE": "a link, not a folder",
    }
    right = told["unfit"] == wanted and [name for name, _ in told["taken"]] == ["MON/A04.pdf"]
    spool.tried.holds("links and pipes", "" if right else told)
    spool.tried.holds("the store after links", "" if spool.stored() == [b"x"] else spool.stored())
    spool.empty()
    locker = hold_lock(spool)
    told = spool.take()
    spool.tried.holds("locks of an uploader", "" if len(told["taken"]) == 1 else told)
    locker.kill()
    locker.wait()
    spool.empty()
    race(spool, secret)
    os.unlink(secret)
    spool.tried.part("tricks")


def hold_lock(spool):
    """A process of alice's that holds locks on her folder and her page."""
    spool.upload(ALICE, "mkdir MON && printf x > MON/A01.pdf")
    page = spool.at("in", "MON", "A01.pdf")
    words = ["setpriv", "--reuid", str(ALICE), "--regid", str(ALICE), "--groups", f"{ALICE},{IN}"]
    words += ["flock", os.path.dirname(page), "flock", page, "sleep", "60"]
    process = subprocess.Popen(words)
    time.sleep(0.5)
    return process


def race(spool, secret):
    """A page, a link to the service's own file, a pipe and a folder take one another's place all the time."""
    spool.upload(ALICE, "mkdir MON")
    script = f"""cd {spool.at('in', 'MON')}; while :; do
    ln -s {secret} .t && mv -T .t A01.pdf; printf '%s' '{PAGE.decode()}' > .t && mv -T .t A01.pdf
    mkfifo .t && mv -T .t A01.pdf; rm A01.pdf; ln -s {spool.at('journal')} west; rm west; mkdir west
    printf '%s' '{PAGE.decode()}' > west/secret.pdf; rm -r west; done"""
    words = ["setpriv", "--reuid", str(ALICE), "--regid", str(ALICE), "--groups", f"{ALICE},{IN}"]
    swapper = subprocess.Popen(
        [*words, "sh", "-c", script],
        stdout=subprocess.DEVNULL,
        stderr=subprocess.DEVNULL,
        start_new_session=True,
    )
    told = {"taken": []}
    ends = {"taken": 0, "changed": 0, "unfit": 0}
    try:
        end = time.monotonic() + 20
        while time.monotonic() < end and (ends["taken"] < 50 or ends["changed"] < 50):
            told = spool.take(200)
            ends["taken"] += len(told["taken"])
            ends["changed"] += told.get("changed", 0)
            ends["unfit"] += len(told["unfit"])
            if "fault" in told:
                break
    finally:
        os.killpg(swapper.pid, signal.SIGKILL)
        swapper.wait()
    fault = told.get("fault") or ("" if ends["taken"] and ends["changed"] else f"no race: {ends}")
    spool.tried.holds("replacements at full speed end in a page or in none", fault)
    found = {data for data in spool.stored() if not PAGE.startswith(data)}
    spool.tried.holds("nothing but the uploader's bytes is in the store", found)
    same = read(secret) == SECRET and os.listdir(spool.at("journal")) == ["secret.pdf"]
    spool.tried.holds("the service's own file is as it was", "" if same else os.listdir(spool.at("journal")))
    print(
        f"replacements: {ends['taken']} pages taken, {ends['changed']} found changed, {ends['unfit']} unfit"
    )
    spool.empty()


def main():
    if os.geteuid() or not shutil.which("systemd-tmpfiles") or not shutil.which("setfacl"):
        print("skipped: users of the spool (it needs root, systemd-tmpfiles and setfacl)")
        return 0
    tried = Trial(sys.argv[1] if len(sys.argv) > 1 else "plateroom")
    with tempfile.TemporaryDirectory() as folder:
        os.chmod(folder, 0o755)
        path, said = made_spool(os.path.join(folder, "root"))
        tried.holds("systemd-tmpfiles", said)
        spool = Spool(tried, path)
        uploads(spool)
        strangers(spool)
        tricks(spool)
    print(f"{tried.passed} passed, {tried.failed} failed")
    return 1 if tried.failed else 0


if __name__ == "__main__":
    sys.exit(main())
