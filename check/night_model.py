#!/usr/bin/env python3
"""A model of the night: the service's journal is real, and disks drop what isn't synced when power fails.

An evening is one random interleaving of service, jobs, sites, uploader, operator and faults, with crashes (kill, power) at
any step. Then faults end, and everything must become delivered. What must hold is in model_oracle.py, which knows contents
and commands by itself. --variants tries broken designs, each of which must be caught.

example: check/night_model.py --evenings 1000 --exhaustive 1 --variants 1000
"""
import argparse
import collections
import json
import os
import random
import sqlite3
import time

from model_disk import Crash, Disk, Wrong, sha
from model_oracle import Oracle
from model_service import HANG, GHOST, WRITEBACK, Service

HERE = os.path.dirname(os.path.abspath(__file__))
with open(os.path.join(HERE, "../tools/pressroom/night/schema.sql"), encoding="utf-8") as text:
    SCHEMA = text.read()
SITES = {"OSLO": "", "BERGEN": "west", "TROMSO": ""}
PLACES = [("", 1), ("", 2), ("", 3), ("", 4), ("west", 2)]
RELEASE, VERDICT = "WHEN OLD.held AND NOT NEW.held AND", "BEFORE INSERT ON verdict\nWHEN"
SHOWN = "v.arrival = n.arrival AND v.render = r.key"
LATE = (
    60  # the last ticks of an evening, when no more pages come and the desk is done: sites and crashes go on
)
# Broken by other SQL: what is replaced in schema.sql, and by what.
SQL = {
    "hold_outside": [("WHEN NEW.state = 'leaving' AND", "WHEN 0 AND")],
    "approval_by_render": [
        (
            SHOWN,
            "v.render = r.key AND v.arrival = (SELECT max(w.arrival) FROM verdict w WHERE w.render = r.key)",
        )
    ],
    "approval_by_name": [
        (
            SHOWN,
            "v.arrival = (SELECT max(w.arrival) FROM verdict w JOIN arrival b ON b.id = w.arrival"
            " WHERE b.place = n.place)",
        )
    ],
    "stale_page": [
        (
            "NOT EXISTS\n    (SELECT 1 FROM render x WHERE x.sha = a.sha AND x.settings = e.settings"
            " AND x.state = 'refused')",
            "(a.id = (SELECT max(b.id) FROM arrival b WHERE b.place = p.id) OR EXISTS\n"
            "    (SELECT 1 FROM render x WHERE x.sha = a.sha AND x.state = 'accepted'))",
        ),
        (
            "WHEN r.key IS NULL THEN 'arrived' ",
            "WHEN r.key IS NULL AND NOT EXISTS (SELECT 1 FROM arrival b JOIN"
            " render y ON y.sha = b.sha AND y.state = 'accepted' WHERE b.place = n.place) THEN 'arrived' ",
        ),
    ],
    "later_verdict": [
        (
            "(SELECT max(a.id) FROM arrival a WHERE a.place = p.id AND NOT EXISTS\n    (SELECT 1 FROM render x"
            " WHERE x.sha = a.sha AND x.settings = e.settings AND x.state = 'refused'))",
            "(SELECT a.id FROM arrival a LEFT JOIN render x ON x.sha = a.sha WHERE a.place = p.id"
            " AND x.state IS NOT 'refused' ORDER BY x.key IS NULL DESC, x.key DESC LIMIT 1)",
        )
    ],
    "refused_hides_older": [
        (
            "(SELECT max(a.id) FROM arrival a WHERE a.place = p.id AND NOT EXISTS\n",
            "(SELECT max(a.id)"
            " FROM arrival a WHERE a.place = p.id AND a.id = (SELECT max(b.id) FROM arrival b WHERE b.place ="
            " p.id) AND NOT EXISTS\n",
        )
    ],
    "rejection_by_arrival": [("OR v.verdict IS NULL AND EXISTS", "OR 0 AND EXISTS")],
    "verdict_unseen": [(VERDICT, VERDICT + " 0 AND")],
    "release_unseen": [(RELEASE, RELEASE + " 0 AND")],
    "complete_by_sent": [
        ("v.state IS 'kept' AND v.sums", "ifnull(v.state, '') IN ('sent','kept') AND v.sums")
    ],
    "complete_by_made": [
        ("n.may_leave AND v.state IS 'kept' AND v.sums IS n.sums", "n.may_leave AND n.sums IS NOT NULL")
    ],
    "complete_unverified": [
        (
            "w.is_whole AND EXISTS (SELECT 1 FROM whole o WHERE o.site = w.site AND o.list = w.list)",
            "w.is_whole",
        ),
        ("AND EXISTS (SELECT 1 FROM whole o WHERE o.site = v.site AND o.list = v.list)", ""),
    ],
    "since_there": [
        (
            "CASE WHEN NOT EXISTS (SELECT 1 FROM version o WHERE o.pair = n.pair AND o.id > there.id AND o.went IS NOT NULL\n"
            "                        AND o.kind = 'plates') THEN there.id END AS since",
            "there.id AS since",
        )
    ],
    "unknown_resend": [("'leaving>unknown'", "'leaving>unknown','leaving>queued'")],
    "two_in_flight": [
        (
            "AND NOT EXISTS (SELECT 1 FROM version o WHERE o.pair = n.pair\n"
            "                  AND o.state IN ('queued', 'sending', 'leaving', 'unknown'))",
            "",
        )
    ],
    "in_pieces": [("(n.deliver = 'pair' OR NOT EXISTS", "(1 OR NOT EXISTS")],
    "request_dropped": [("UPDATE request SET version = NULL WHERE version = NEW.id", "SELECT 1")],
}
# Broken by other code: `self.v == NAME` in model_service.py and below.
CODE = """look_across_outage event_before_commit hold_by_content journal_first journal_normal local_unsynced machine_counted names_unsynced
no_second_look one_look orphans ready_unsynced request_forgotten resend_same_folder same_by_content sent_before_exit
since_made site_unsynced unlink_in_place unverified""".split()
# A variant of code that a trigger would stop needs the trigger gone too.
GONE = {"hold_by_content": [(RELEASE, RELEASE + " 0 AND")]}


class Evening(Service, Oracle):
    """One evening, given by its seed."""

    def __init__(self, seed, variant="", crash_at=None, crash_kind="", crashes=True, length=170):
        self.rng, self.v, self.tick, self.steps, self.job = random.Random(seed), variant, 0, 0, 0
        self.crash_at, self.crash_kind, self.crashes, self.length = crash_at, crash_kind, crashes, length
        self.calm = self.nested = self.alive = self.full = self.cancelled = False
        self.counts, self.disk = collections.Counter(), Disk(self.rng)
        self.sites = {name: Disk(self.rng) for name in SITES}
        self.up, self.ghosts, self.children, self.orphans = dict.fromkeys(SITES, "up"), [], [], []
        self.inbox, self.grab, self.put_last, self.content = {}, {}, {}, {}
        self.claims, self.landed, self.barred, self.approved, self.saved = [], {}, set(), set(), []
        self.came, self.judged, self.verified = collections.defaultdict(list), set(), set()
        self.exposed, self.asked, self.saw, self.ever = [], [], {}, set()
        self.ask, self.deliver = self.rng.random() < 0.5, "edition" if self.rng.random() < 0.2 else "pair"
        self.open()

    def open(self):
        """Makes the journal, with one edition."""
        self.db = sqlite3.connect(":memory:", isolation_level=None)
        self.db.row_factory = sqlite3.Row
        text = SCHEMA
        for old, new in SQL.get(self.v, []) + GONE.get(self.v, []):
            assert old in text, (self.v, old)
            text = text.replace(old, new)
        self.db.executescript(text + "PRAGMA foreign_keys = ON;")
        self.add("house", sum=sha("house"), text="house", at=0)
        self.add("spool", one=1, id="0123456789abcdef", house=1)
        self.add("edition", name="E", house=1, settings="S", ask=self.ask, deliver=self.deliver, at=0)
        ids = {
            (zone, n): self.add("place", edition=1, zone=zone, section="A", number=n) for zone, n in PLACES
        }
        self.ids, self.pairs = {f"{zone}A{number}": key for (zone, number), key in ids.items()}, {}
        names = {key: name for name, key in self.ids.items()}
        for site, zone in SITES.items():
            at = self.add("site", edition=1, name=site, press="P", zone=zone)
            for number in (1, 2):
                left, right = (ids.get((zone, n), ids["", n]) for n in (number, 5 - number))
                values = {"site": at, "section": "A", "number": number, "left": left, "right": right}
                key = self.add("pair", **values, making=f"M{number}")
                self.pairs[key] = (site, number, names[left], names[right])

    # ---- steps, crashes, transactions

    def step(self, label):
        """A moment at which the service may end, or somebody else acts."""
        self.steps += 1
        chance = 0.02 if any(child.landing for child in self.children) else 0.004
        by_chance = self.crash_at is None and self.crashes and not self.calm and self.rng.random() < chance
        if self.crash_at == self.steps or by_chance:
            kind = self.crash_kind or self.rng.choice(["kill", "power"])
            self.counts[f"{kind} at {label}"] += 1
            raise Crash(kind)
        if not self.nested and not self.db.in_transaction and self.rng.random() < 0.3:
            self.nested = True
            self.somebody()
            self.nested = False

    def hurt(self):
        if self.full and self.rng.random() < 0.5:
            raise OSError(28, "no space")

    def txn(self, label, work, quiet=False):
        """One transaction with its events. What they claim is tried as soon as it is committed."""
        quiet or self.step(f"before {label}")
        self.db.execute("BEGIN IMMEDIATE")
        self.claims = []
        try:
            work()
            quiet or self.step(f"in {label}")
            self.hurt()
        except BaseException:
            self.db.rollback()
            raise
        self.db.execute("COMMIT")
        if self.v == "journal_normal":
            self.saved = [sqlite3.connect(":memory:"), *self.saved][:4]
            self.db.backup(self.saved[0])
        for name, fields in list(self.claims):
            self.believe(name, **fields)
        quiet or self.step(f"after {label}")

    def event(self, name, **fields):
        self.add("event", at=self.tick, name=name, more=json.dumps(fields))
        self.claims.append((name, fields))
        if self.v == "event_before_commit":
            self.counts["told"] += 1 + (self.nested or self.step("told") or 0)

    def all(self, sql, *values):
        return self.db.execute(sql, values).fetchall()

    def one(self, sql, *values):
        return (self.db.execute(sql, values).fetchone() or [None])[0]

    def add(self, table, **values):
        names, signs = ", ".join(values), ", ".join("?" * len(values))
        return self.db.execute(
            f"INSERT INTO {table} ({names}) VALUES ({signs})", [*values.values()]
        ).lastrowid

    def pause(self, kind, key, fault="machine"):
        tries = (self.one("SELECT tries FROM pause WHERE kind = ? AND key = ?", kind, key) or 0) + 1
        until = self.tick + min(2**tries, 8)
        values = [kind, key, tries, fault, "why", 0, 0, until]
        self.db.execute("INSERT OR REPLACE INTO pause VALUES (?, ?, ?, ?, ?, ?, ?, ?)", values)
        if kind == "site" and self.v != "look_across_outage":
            # A site that hung may have a READY under way for as long as it hung: looks begin anew.
            sql = "UPDATE version SET seen = NULL WHERE state = 'unknown' AND site IN (SELECT id FROM site WHERE name = ?)"
            self.db.execute(sql, [key])
        self.event("waits", kind=kind, key=key, fault=fault)
        return tries

    def is_due(self, kind, key):
        return (self.one("SELECT until FROM pause WHERE kind = ? AND key = ?", kind, key) or 0) <= self.tick

    # ---- the others: uploader, operator, sites, faults

    def somebody(self):
        draw, every = self.rng.random(), self.children + self.orphans
        if draw < 0.5:
            for child in self.rng.sample(every, len(every))[:2]:
                self.grow(child)
        elif self.tick < self.length - LATE and draw < 0.58:
            self.put(self.rng.choice(list(self.ids)), self.rng.random() < 0.75)
        elif not self.calm and draw < 0.88 and self.alive:
            self.operator(self.rng.choice(list(self.ids)), self.rng.random())
        elif not self.calm and draw < 0.94:
            site = self.rng.choice(list(SITES))
            self.up[site] = self.rng.choice(["up", "up", "up", "down", "hung", "hung", "power"])
            if self.up[site] == "power":
                self.dark(site)
        else:
            self.full = not self.calm and self.rng.random() < 0.15

    def dark(self, site):
        """A power failure at a site. Each READY that it leaves is whole, and so are its plates."""
        self.sites[site].power()
        self.ghosts, self.up[site] = [g for g in self.ghosts if g[1] != site], "down"
        for path, file in self.sites[site].now.items():
            if path.endswith("/READY"):
                sql = "SELECT * FROM version WHERE folder = ? AND site = (SELECT id FROM site WHERE name = ?)"
                row = self.all(sql, path[: -len("/READY")], site)[0]
                self.need(file.data == row["ready"], "a site's power failure: READY isn't whole", path)
                inks = json.loads(row["ready"])["sums"] if row["plates"] else ()
                for ink in inks:
                    right = self.sites[site].get(path[:-5] + ink) == self.right(row["plates"])[ink]
                    self.need(right, "a site's power failure: READY without its plates", path)

    def put(self, place, good):
        text = f"{place}.{len(self.content)}.{'good' if good else 'bad'}.c{self.rng.randrange(2)}"
        old = [c for c in self.content.values() if c.startswith(place + ".")]
        if old and not self.calm and self.rng.random() < 0.3:
            text = self.rng.choice(old)
        self.content[sha(text)] = self.put_last[place] = text
        self.inbox[place] = (text, str(self.steps + self.rng.random()))

    def operator(self, place, draw):
        """Does one thing, on what was seen when this place was last looked at, which may be long ago."""
        try:
            if draw < 0.3 or place not in self.saw:
                self.see(place)
            elif draw < 0.42:
                self.command(
                    "held", "UPDATE place SET held = 1 WHERE id = ?", [self.ids[place]], [place], place
                )
            elif draw < 0.55:
                self.release(place)
            elif draw < 0.83:
                self.judge(place, "approved" if draw < 0.78 else "rejected")
            elif draw < 0.99:
                self.resend(self.rng.choice(list(self.pairs)))
            elif self.rng.random() < 0.5:
                self.command("cancelled", "UPDATE edition SET state = 'cancelled'", [], ["cancel"])
                self.cancelled = True
        except OSError:
            self.counts["command not done"] += 1
        except sqlite3.IntegrityError as error:
            self.need("stale" in str(error), "a command ends with", error)
            self.counts["stale command"] += 1

    def see(self, place):
        """Remembers what a look at the place shows: its arrival and render, the newest arrival, and their numbers."""
        row = self.all("SELECT arrival, render, newest, sha FROM page WHERE place = ?", self.ids[place])[0]
        self.saw[place] = (dict(row), self.in_force(place)[0], len(self.came[place]))

    def command(self, name, sql, values, why=(), place=None, **more):
        """A command and its event, which has the pairs for which it is in time."""
        free = """SELECT id FROM pair p WHERE (? IS NULL OR ? IN (left, right)) AND NOT EXISTS
            (SELECT 1 FROM version v WHERE v.pair = p.id AND v.state IN ('leaving','unknown'))"""

        def work():
            self.db.execute(sql, values)
            pairs = [row[0] for row in self.all(free, *[self.ids.get(place)] * 2)]
            self.event(name, why=list(why), pairs=pairs, **more)

        self.txn(name, work, quiet=True)

    def release(self, place):
        row, _, count = self.saw[place]
        if self.one("SELECT held FROM place WHERE id = ?", self.ids[place]):
            seen = row["newest"] or 0
            values = [seen, self.ids[place]]
            set_to = "UPDATE place SET held = 0, seen = ? WHERE id = ?"
            self.command("released", set_to, values, page=place, count=count)
            self.barred = {bar for bar in self.barred if bar[1] != place}

    def judge(self, place, verdict):
        """The command names the render and the arrival that its user saw."""
        row, number, _ = self.saw[place]
        if self.v == "verdict_unseen":
            row = dict(
                self.all("SELECT arrival, render, newest, sha FROM page WHERE place = ?", self.ids[place])[0]
            )
        if row["render"]:
            values = [row["arrival"], row["render"], verdict, "", "editor", self.steps]
            why = f"{place} {row['sha']}"
            sql = "INSERT OR REPLACE INTO verdict VALUES (?, ?, ?, ?, ?, ?)"
            self.command(verdict, sql, values, [why] if verdict == "rejected" else [], place)
            if verdict == "approved":
                self.approved.add((place, number))
                self.ever.add((place, number))
                self.barred = {bar for bar in self.barred if bar[1] != why}
            else:
                self.approved.discard((place, number))

    def resend(self, pair):
        if self.one("SELECT 1 FROM version WHERE pair = ? AND state IN ('sent','kept')", pair):
            plate, last = self.rng.choice("CK"), self.one("SELECT max(id) FROM version WHERE pair = ?", pair)
            sql = "INSERT INTO request (pair, plate, reason, who) VALUES (?, ?, 'scratched', 'op')"
            self.command("resend", sql, [pair, plate])
            self.asked.append((pair, plate, last))

    # ---- an evening

    def grow(self, child):
        if child.run.gi_running or self.v == "orphans" and child in self.orphans and self.rng.random() < 0.9:
            return
        if child.result is None:
            child.advance()
        if child in self.orphans and (child.result is not None or child.age > 2 * HANG):
            self.orphans.remove(child)
            self.stop(child)

    def stop(self, child):
        """A child is killed. A READY that it had handed over may still become visible at a site that lives."""
        child.run.close()
        if child.landing and self.up[child.site] != "down" and self.rng.random() < 0.7:
            self.ghosts.append((self.rng.randrange(1, GHOST), *child.landing))
        child.landing = None

    def fall(self, kind):
        self.alive = False
        for child in [c for c in self.children + self.orphans]:
            lives = kind == "kill" and child.result is None and child.run.gi_frame and self.rng.random() < 0.5
            if child in self.orphans and not lives:
                self.orphans.remove(child)
            elif lives and child not in self.orphans:
                self.orphans.append(child)
            lives or self.stop(child)
        self.children = []
        if kind == "power":
            self.full = False
            self.disk.power()
            if self.v == "journal_normal" and self.saved:
                self.rng.choice(self.saved).backup(self.db)
                self.saved = []

    def moment(self):
        self.tick += 1
        try:
            for disk in self.sites.values() if self.tick % WRITEBACK == 0 else ():
                disk.sync_all()
            for ghost in [g for g in self.ghosts if self.up[g[1]] == "up"]:
                self.ghosts.remove(ghost)
                if ghost[0] > 0:
                    self.ghosts.append((ghost[0] - 1, *ghost[1:]))
                else:
                    self.counts["READY after its rsync was killed"] += 1
                    self.ready_lands(*ghost[1:])
            if self.alive:
                self.turn()
            elif self.rng.random() < 0.5:
                self.begin()
            for child in self.children + self.orphans:
                self.grow(child)
            self.nested = True
            self.somebody()
        except Crash as crash:
            self.fall(str(crash))
        except OSError:
            self.counts["disk full"] += 1
        self.nested = False

    def run(self):
        for place in self.ids:
            if self.rng.random() < 0.8:
                self.put(place, True)
        while self.tick < self.length:
            self.moment()
            if self.alive and self.tick > self.length - LATE and self.tick % 10 == 0:
                self.nested = True
                self.tidy()
                self.nested = False
        self.calm, self.full, self.up, self.crash_at = True, False, dict.fromkeys(SITES, "up"), None
        for place in self.ids:
            if "good" not in self.put_last.get(place, ""):
                if not (self.in_force(place)[0] and self.rng.random() < 0.5):
                    self.put(place, True)
        for count in range(900):
            self.moment()
            if self.alive and count % 5 == 0:
                self.tidy()
                if not self.faults():
                    break
        self.need(not self.faults(), "not live:", self.faults()[:3])
        self.counts["evenings with a cancel"] += self.cancelled

    def tidy(self):
        """Releases all holds and approves what asks, on a fresh look."""
        for place, key in self.ids.items():
            try:
                self.see(place)
                self.release(place)
                if self.one("SELECT state IN ('asks','rejected') FROM page WHERE place = ?", key):
                    self.judge(place, "approved")
            except (sqlite3.IntegrityError, OSError):
                self.counts["command not done"] += 1


def tried(seed, variant="", **more):
    """Plays an evening. Returns what was wrong, and the evening."""
    evening = Evening(seed, variant, **more)
    try:
        evening.run()
        if variant == "event_before_commit":
            told = evening.one("SELECT count(*) FROM event")
            evening.need(evening.counts["told"] == told, "told what the journal doesn't have")
    except (Wrong, sqlite3.Error) as wrong:
        return f"{type(wrong).__name__}: {wrong}", evening
    return "", evening


def play(seed, evenings):
    """Plays evenings, and prints how much happened in them. Returns how many were wrong."""
    counts, begun = collections.Counter(), time.monotonic()
    for number in range(seed, seed + evenings):
        fault, evening = tried(number)
        more = {
            "steps": evening.steps,
            "events": evening.one("SELECT max(seq) FROM event"),
            "wrong": bool(fault),
        }
        counts.update(evening.counts + collections.Counter(more))
        if fault:
            print("WRONG", number, fault[:300], flush=True)
    print(f"{evenings} evenings, {counts['wrong']} wrong, {time.monotonic() - begun:.0f} s")
    for kind in ("kill at", "power at"):
        some = [counts.pop(key) for key in list(counts) if key.startswith(kind)]
        if some:
            print(
                f"{sum(some)} crashes, {kind} one of {len(some)} kinds of step, at least {min(some)} times at each"
            )
    print(dict(sorted(counts.items())))
    return counts["wrong"]


def exhaust(seed):
    """Plays an evening once for each of its steps and each kind of crash. Returns how many were wrong."""
    ends, bad = tried(seed, crashes=False, length=100)[1].steps, 0
    for kind in ("kill", "power"):
        for at in range(1, ends):
            fault, _ = tried(seed, crashes=False, crash_at=at, crash_kind=kind, length=100)
            bad += bool(fault)
            if fault:
                print("WRONG", seed, kind, at, fault[:300], flush=True)
    print(
        f"evening {seed}: a kill, and a power failure, at each of {ends - 1} steps: {bad} wrong", flush=True
    )
    return bad


def catch(variant, seed, most):
    """Plays a broken design until it is caught. Returns whether it was."""
    for number in range(1, most + 1):
        fault, _ = tried(seed + number, variant)
        if fault:
            print(f"{variant}: caught in evening {number}: {fault[:150]}", flush=True)
            return True
    print(f"{variant}: NOT caught in {most} evenings", flush=True)
    return False


def main():
    words = argparse.ArgumentParser(description=__doc__, formatter_class=argparse.RawDescriptionHelpFormatter)
    words.add_argument("--evenings", type=int, default=0, metavar="N", help="play N random evenings")
    words.add_argument("--seed", type=int, default=0, help="the first evening's number")
    words.add_argument(
        "--exhaustive", type=int, default=0, metavar="N", help="play N evenings, with a crash at each step"
    )
    words.add_argument(
        "--variants", type=int, default=0, metavar="N", help="catch each broken design within N evenings"
    )
    words.add_argument("--only", default="", metavar="NAME", help="of the broken designs, only this one")
    words = words.parse_args()
    bad = play(words.seed, words.evenings) if words.evenings else 0
    bad += sum(exhaust(seed) for seed in range(words.seed, words.seed + words.exhaustive))
    for variant in sorted([*SQL, *CODE]) if words.variants else ():
        bad += words.only in ("", variant) and not catch(variant, words.seed, words.variants)
    return bool(bad)


if __name__ == "__main__":
    raise SystemExit(main())
