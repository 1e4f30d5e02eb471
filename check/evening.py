"""An evening that is played against the real service: its spool, its sites, its pages, and what its events claim."""
import hashlib
import json
import os
import random
import shutil
import signal
import subprocess
import sys
import time

from night_pdf import page

TOP = os.path.join(os.path.dirname(os.path.abspath(__file__)), "..")
SIZE, WRONG_SIZE = (60, 80), (50, 80)
SITES = {"OSLO": "", "BERGEN": "west", "TROMSO": "north"}
ZONES = {"west": ["A02", "A07"], "north": ["A01"]}
PAGES = 16
NAME = "WED-2026-12-09"
HOUSE = """edition = "WED"
dpi = 254
trim = [60, 80]
margins = [2, 2, 2, 2]
gutter = 2
[sections]
A = 16
[screens]
C = { angle = 15, ruling = 30 }
K = "diffuse"
[sites.OSLO]
%s[sites.BERGEN]
zone = "west"
[sites.TROMSO]
zone = "north"
"""
NIGHT = """[zones]
%s[night]
settle = 0.3
least_free = 0
approve = %s
[delivery]
timeout = 5
[delivery.sites]
"""
# The program, which spoils a plate of every fourth pair that it makes: `verify` must find it each time. The program
# itself is behind this text, since a job sees no other file.
STAND_IN = """#!/bin/sh
real=$(mktemp) && tail -c {size} "$0" > "$real" && chmod 700 "$real"
"$real" "$@"
status=$?
rm "$real"
if [ "$1" = replate ] && [ $(($(od -An -N1 -tu1 /dev/urandom) % 4)) = 0 ]; then
  find "$6" -name '*-K.tif' -exec sh -c 'printf x | dd of="$1" bs=1 seek=200 conv=notrunc status=none' - {} \\;
fi
exit $status
"""


def content(place, number):
    """A page's content: a rectangle at a place of its own, so that no two contents print the same."""
    digest = hashlib.sha256(f"{place} {number}".encode()).digest()
    x, y, c, k = (value / 255 for value in digest[:4])
    return b"%.3f 0 0 %.3f k %.2f %.2f 40 30 re f" % (c * 0.8, 0.2 + k * 0.8, 10 + x * 100, 10 + y * 150)


class Evening:
    """A spool with its service, which may be killed at any moment, and the folders of its sites.

    `pages` is the page count, `zones` has each zone's own pages, `zone_of` each site's zone, and `text` is the house
    file as intake reads it.
    """

    pages, zones, zone_of, text = PAGES, ZONES, SITES, HOUSE

    def __init__(self, tried, folder, seed, ask=False, tools=None):
        self.tried, self.folder, self.rng, self.ask = tried, folder, random.Random(seed), ask
        self.tools = tools or os.path.join(TOP, "tools")
        self.spool, self.house = os.path.join(folder, "spool"), os.path.join(folder, "house.toml")
        os.makedirs(folder)
        self.out, self.process, self.kills, self.last = os.path.join(folder, "events"), None, 0, {}
        self.program = os.path.join(folder, "plateroom")
        with open(tried.program, "rb") as file:
            real = file.read()
        with open(self.program, "wb") as file:
            file.write(STAND_IN.replace("{size}", str(len(real))).encode() + real)
        os.chmod(self.program, 0o755)
        self.sites = {site: os.path.join(folder, "sites", site) for site in self.zone_of}
        for path in self.sites.values():
            os.makedirs(path)
        with open(self.house, "w", encoding="utf-8") as file:
            deadline = 'press_start = "23:30"\nlead = 10\nplate_seconds = 60\n'
            own = "".join(f"{zone} = {json.dumps(pages)}\n" for zone, pages in self.zones.items())
            file.write(self.text % deadline + NIGHT % (own, "true" if ask else "false"))
            file.write("".join(f'{site} = "{self.target(site)}"\n' for site in self.sites))

    def target(self, site):
        """The way to a site, as the house file has it."""
        return self.sites[site]

    # ---- the service

    def environment(self):
        return os.environ | {"PLATEROOM": self.program, "PYTHONDONTWRITEBYTECODE": "1", "PRESSROOM_RUN": ""}

    def begin(self):
        words = [sys.executable, "-B", os.path.join(self.tools, "pressroom.py"), "night", self.spool]
        words += ["--house", self.house, "--json"]
        with open(self.out, "a", encoding="utf-8") as out, open(
            self.out + ".err", "a", encoding="utf-8"
        ) as err:
            self.process = subprocess.Popen(words, stdout=out, stderr=err, env=self.environment())

    def kill(self):
        """Ends the service without a word, and begins the next one."""
        self.process.send_signal(signal.SIGKILL)
        self.process.wait()
        self.kills += 1
        self.begin()

    def waits_for_service(self, seconds=60):
        """Waits until the service answers."""
        end = time.monotonic() + seconds
        while self.status() is None and time.monotonic() < end:
            time.sleep(0.2)

    def said(self):
        """The last lines of the service's standard error."""
        with open(self.out + ".err", encoding="utf-8") as file:
            return file.read()[-300:]

    def end(self):
        if self.process and self.process.poll() is None:
            self.process.terminate()
            self.process.wait(60)

    def command(self, *words):
        """A command by hand. Returns its status and what it said."""
        line = [sys.executable, "-B", os.path.join(self.tools, "pressroom.py"), *words]
        answer = subprocess.run(line, capture_output=True, text=True, env=self.environment())
        return answer.returncode, answer.stdout + answer.stderr

    def status(self):
        code, text = self.command("status", self.spool, "--json")
        return json.loads(text) if code == 0 else None

    def edition(self):
        state = self.status()
        return state["editions"][0] if state and state["editions"] else None

    # ---- uploads

    def put(self, place, number, size=SIZE):
        """A page comes, as an upload that is renamed into place."""
        zone, _, name = place.rpartition("/")
        folder = os.path.join(self.spool, "in", NAME, zone)
        os.makedirs(folder, exist_ok=True)
        part = os.path.join(folder, f".{name}.part")
        with open(part, "wb") as file:
            file.write(page(content(place, number), size))
        os.rename(part, os.path.join(folder, f"{name}.pdf"))
        if size == SIZE:
            self.last[place] = number

    def down(self, site):
        os.rename(self.sites[site], self.sites[site] + ".away")

    def up(self, site):
        os.rename(self.sites[site] + ".away", self.sites[site])

    def waits_for(self, what, so, seconds):
        """Waits until something is so, approving what asks where the house asks for it."""
        end = time.monotonic() + seconds
        while time.monotonic() < end:
            edition = self.edition()
            if edition and so(edition):
                return True
            if edition and self.ask:
                self.approve(edition)
            time.sleep(0.5)
        faults = [fault["text"] for fault in (edition or {}).get("faults", [])]
        counts = (edition or {}).get("counts", {}).get("pairs")
        self.tried.holds(what, f"not within {seconds} s: {counts} {faults[:3]}")
        return False

    def approve(self, edition):
        for one in edition["asks"]:
            if one["kind"] == "approve":
                self.command("approve", self.spool, NAME, one["page"])

    # ---- what holds

    def events(self):
        """All events in the order of their numbers: a line may come twice after a crash, and none is missing."""
        found = {}
        with open(self.out, encoding="utf-8") as file:
            for line in file:
                if line.endswith("\n"):
                    event = json.loads(line)
                    found[event["seq"]] = event
        return [found[seq] for seq in sorted(found)]

    def current(self, site):
        """The plates of the newest READY version of each pair, by name."""
        plates, top = {}, os.path.join(self.sites[site], NAME)
        for pair in sorted(os.listdir(top)):
            ready = [
                name
                for name in os.listdir(os.path.join(top, pair))
                if "." not in name and os.path.exists(os.path.join(top, pair, name, "READY"))
            ]
            if pair != "COMPLETE" and ready:
                folder = os.path.join(top, pair, max(ready))
                for name in os.listdir(folder):
                    if name.endswith(".tif"):
                        with open(os.path.join(folder, name), "rb") as file:
                            plates[name] = file.read()
        return plates

    def reference(self):
        """The plates of each site, as intake and the program make them of the pages that were put last."""
        pages, work, out = (os.path.join(self.folder, name) for name in ("pages", "work", "plates"))
        for place, number in self.last.items():
            os.makedirs(os.path.dirname(os.path.join(pages, place)), exist_ok=True)
            with open(os.path.join(pages, f"{place}.pdf"), "wb") as file:
                file.write(page(content(place, number), SIZE))
        house = os.path.join(self.folder, "plain.toml")
        with open(house, "w", encoding="utf-8") as file:
            file.write(self.text % "")
        words = [
            sys.executable,
            "-B",
            os.path.join(TOP, "tools", "pressroom.py"),
            "intake",
            house,
            pages,
            work,
        ]
        subprocess.run(words, check=True, capture_output=True)
        run = [self.tried.program, "run", os.path.join(work, "plan.json"), os.path.join(work, "files"), out]
        subprocess.run(run, check=True, capture_output=True)
        found = {}
        for site in self.zone_of:
            found[site] = {}
            for name in os.listdir(os.path.join(out, site)):
                with open(os.path.join(out, site, name), "rb") as file:
                    found[site][name] = file.read()
        return found

    def see_sites(self):
        """Each site has exactly the plates of the last pages, and READYs in the order of their numbers."""
        for site, plates in self.reference().items():
            mine = self.current(site)
            wrong = sorted(name for name in plates.keys() | mine.keys() if plates.get(name) != mine.get(name))
            self.tried.holds(f"{site} has the plates of a run of the last plan", ", ".join(wrong))
            self.see_sums(site)

    def see_sums(self, site):
        """Each READY is whole, and its SHA256SUMS are those of the plates beside it."""
        top = os.path.join(self.sites[site], NAME)
        for folder, _, names in os.walk(top):
            if "READY" in names:
                with open(os.path.join(folder, "READY"), encoding="utf-8") as file:
                    ready = file.read()
                faults = [] if ready.endswith("\nend\n") else ["READY is cut off"]
                if "SHA256SUMS" in names:
                    call = subprocess.run(
                        ["sha256sum", "--quiet", "-c", "SHA256SUMS"], cwd=folder, capture_output=True
                    )
                    faults += ["a plate differs from its sum"] if call.returncode else []
                self.tried.holds(f"{os.path.relpath(folder, top)} at {site}", "; ".join(faults))

    def see_events(self):
        """Replays the events: what left was judged, was what came last, wasn't held, and was approved."""
        held, newest, judged, good, approved, sent = set(), {}, {}, {}, set(), {}
        faults = []
        for event in self.events():
            name, page_name = event["event"], event["page"]
            if name == "arrived":
                newest[page_name], judged[page_name] = event["sha"], False
                approved.discard(page_name)
            elif name == "accepted":
                judged[page_name], good[page_name] = True, event["sha"]
            elif name == "refused":
                judged[page_name] = True
            elif name in ("held", "released"):
                held = held | {page_name} if name == "held" else held - {page_name}
            elif name in ("approved", "rejected"):
                approved = approved | {page_name} if name == "approved" else approved - {page_name}
            elif name == "leaving" and event["pair"]:
                faults += self.leaves(event, held, judged, good, approved)
                if event["version"] < sent.get((event["site"], event["pair"]), 0):
                    faults.append(f"{event['text']}: out of order")
                sent[event["site"], event["pair"]] = event["version"]
            elif name == "complete":
                pairs = {pair for site, pair in sent if site == event["site"]}
                faults += (
                    []
                    if len(pairs) == self.pages // 2
                    else [f"{event['site']} complete with {len(pairs)} pairs"]
                )
        self.tried.holds("what left might leave, by the events alone", "; ".join(faults[:5]))

    def leaves(self, event, held, judged, good, approved):
        """What was wrong when a pair left."""
        number, zone = int(event["pair"].split("-")[1]), self.zone_of[event["site"]]
        faults = []
        for place in (f"A{number:02}", f"A{self.pages + 1 - number:02}"):
            place = f"{zone}/{place}" if place in self.zones.get(zone, ()) else place
            for is_so, what in (
                (place not in good, "never came"),
                (place in held, "is held"),
                (not judged.get(place), "isn't judged"),
                (self.ask and place not in approved, "isn't approved"),
            ):
                faults += [f"{event['site']} {event['pair']} leaves, and {place} {what}"] if is_so else []
        return faults

    def clean(self):
        self.end()
        shutil.rmtree(self.folder, ignore_errors=True)
