"""The night's service as the model plays it: each duty reads the journal's views, and each step may be the last."""
import json
import sqlite3

from model_disk import sha
from model_oracle import OPEN

WRITEBACK, GHOST, HANG = 6, 5, 10  # ticks: a site's disk writes back; a killed rsync's last bytes; a timeout


class Child:
    """A job: a generator that advances when chance lets it, with what it handed over to a site."""

    def __init__(self, kind, key, site=None):
        self.kind, self.key, self.site, self.age = kind, key, site, 0
        self.result = self.landing = None

    def advance(self):
        try:
            self.age += 1
            next(self.run)
        except StopIteration as end:
            self.result, self.landing = end.value, None


class Service:
    """The duties. `self.v` names the fault of a variant."""

    def begin(self):
        """What was under way, by the journal and the disk. Children of the service before hold the lock."""
        if self.orphans and self.v != "orphans":
            return
        self.txn("start", lambda: self.db.execute("UPDATE spool SET epoch = epoch + 1"))
        self.stale()
        tables = {
            "store": "SELECT sha FROM blob",
            "renders": "SELECT folder FROM render",
            "plates": "SELECT folder FROM plates",
        }
        for folder, sql in tables.items():
            known, there = {row[0] for row in self.all(sql)} - {None}, set(self.disk.below(folder))
            self.need(known <= there, "the journal names what the disk lacks", folder, known - there)
            for name in sorted(there - known):
                self.step("sweep")
                self.disk.remove(f"{folder}/{name}")
        for name in self.disk.below("making"):
            self.disk.remove(f"making/{name}")
        self.alive = True

    def stale(self):
        """Versions under way of which this service has no child."""
        mine = {child.key for child in self.children if child.kind == "send"}
        for key, state in self.all("SELECT id, state FROM version WHERE state IN ('sending','leaving')"):
            if key not in mine:
                again = state == "sending" or self.v == "unknown_resend"
                self.txn("stale", lambda: self.to(key, "queued" if again else "unknown"))

    def to(self, key, state, seen=None):
        went = ", went = 1" * (state == "leaving")
        self.db.execute(f"UPDATE version SET state = ?, seen = ? {went} WHERE id = ?", [state, seen, key])

    def turn(self):
        duties = [
            self.take,
            self.reap,
            self.reap,
            self.render,
            self.plates,
            self.versions,
            self.send,
            self.send,
        ]
        duties += [self.look, self.wholes, self.complete, self.drop, self.stale, self.clear]
        for duty in self.rng.sample(duties, 6):
            try:
                duty()
            except OSError:
                self.counts["disk full"] += 1

    def spawn(self, run, kind, key, *values, site=None):
        child = Child(kind, key, site)
        child.run = run(child, *values)
        self.children.append(child)

    def next_job(self):
        self.job += 1
        return f"J{self.job}"

    # ---- what comes in

    def take(self):
        """Copies what is new. What was moved aside comes first: it is older than what has its name now."""
        for box in (self.grab, self.inbox):
            for place, (text, stamp) in list(box.items()):
                if self.one("SELECT 1 FROM look_in WHERE stamp = ?", stamp) is None:
                    self.take_one(place, text, stamp)
                if box is self.grab:
                    self.step("unlink")
                    del self.grab[place]

    def take_one(self, place, text, stamp):
        part, path = f"making/{self.next_job()}", f"store/{sha(text)}"
        if self.v == "journal_first":
            self.txn("arrive", lambda: self.arrive(sha(text), stamp, place))
        self.hurt()
        self.disk.write(part, text)
        self.step("store written")
        self.disk.fsync(part)
        self.step("store synced")
        self.disk.rename(part, path)
        self.step("store renamed")
        self.disk.sync_folder("store")
        if self.v != "journal_first":
            self.txn("arrive", lambda: self.arrive(sha(text), stamp, place))

    def arrive(self, digest, stamp, place):
        """Enters what came. The bytes of the newest arrival are no new one; those of an older one are."""
        key = self.ids[place]
        self.db.execute("INSERT OR IGNORE INTO blob VALUES (?, 'pdf', 1)", [digest])
        last = "SELECT sha FROM arrival WHERE place = ? ORDER BY id DESC LIMIT 1"
        same = self.one(last, key) == digest
        if self.v == "same_by_content":
            same = self.one("SELECT 1 FROM arrival WHERE place = ? AND sha = ?", key, digest)
        result = "same" if same else "page"
        self.add("look_in", stamp=stamp, edition=1, name=b"A", result=result, at=self.tick)
        if same:
            return
        self.add("arrival", place=key, sha=digest, name=b"A", at=self.tick)
        if self.v == "hold_by_content":
            self.db.execute("UPDATE place SET held = 0 WHERE id = ?", [key])
        self.event("arrived", sha=digest, place=place)

    def clear(self):
        """Removes what was taken. It is moved aside and tried once more, so that no newer file is removed unseen."""
        for place, (text, stamp) in list(self.inbox.items()):
            if place not in self.grab and self.one("SELECT 1 FROM look_in WHERE stamp = ?", stamp):
                self.step("clear")
                now = self.inbox.pop(place)
                if self.v != "unlink_in_place":
                    self.grab[place] = now
                    self.step("moved aside")

    # ---- renders and plates

    def is_free_of(self, kind, key):
        return self.is_due(kind, key) and key not in [child.key for child in self.children]

    def render(self):
        for digest, *_ in self.all("SELECT sha FROM due_render"):
            if self.is_free_of("page", digest):
                self.spawn(self.rendering, "render", digest, digest)

    def rendering(self, child, digest):
        job = self.next_job()
        yield
        if not self.calm and self.rng.random() < 0.2:
            return "machine", job
        self.disk.write(f"making/{job}/layer", self.content[digest])
        self.step("layer written")
        yield
        return ("good" if "good" in self.content[digest] else "bad"), job

    def plates(self):
        for values in self.all("SELECT left, right, making FROM due_plates"):
            key = " ".join(map(str, values))
            if self.is_free_of("plates", key):
                self.spawn(self.plating, "plates", key, *values)

    def plating(self, child, left, right, making):
        job = self.next_job()
        layers = [self.one("SELECT folder FROM render WHERE key = ?", key) for key in (left, right)]
        pages = [self.disk.get(f"renders/{folder}/layer") or "lost" for folder in layers]
        texts = self.expected(*pages, making)
        for ink, text in texts.items():
            cut = not self.calm and self.rng.random() < 0.05
            self.disk.write(f"making/{job}/{ink}", text[:5] if cut else text)
            self.step("plate written")
            yield
        right = all(self.disk.get(f"making/{job}/{ink}") == text for ink, text in texts.items())
        right = right or self.v == "unverified"
        return ("good" if right and (self.calm or self.rng.random() > 0.15) else "machine"), job

    def settle(self, job, kind):
        """Makes what a child left in making/ durable, below its job's name."""
        for name in self.disk.below(f"making/{job}"):
            self.hurt()
            if self.v != "local_unsynced":
                self.disk.fsync(f"making/{job}/{name}")
            self.step(f"{kind}: file synced")
        self.disk.sync_folder(f"making/{job}")
        self.step(f"{kind}: own folder synced")
        self.disk.rename(f"making/{job}", f"{kind}/{job}")
        self.step(f"{kind}: renamed")
        self.disk.sync_folder(kind)
        self.step(f"{kind}: folder synced")

    def reap(self):
        for child in list(self.children):
            if child.site and child.age > HANG and child.result is None:
                self.stop(child)
                child.result = ("timeout",)
            if child.result is not None:
                self.children.remove(child)
                getattr(self, f"end_{child.kind}")(child.key, *child.result)

    def end_render(self, digest, how, job):
        if how == "good":
            self.settle(job, "renders")

        def work():
            if how == "machine" and (self.pause("page", digest) < 3 or self.v != "machine_counted"):
                return
            state, more = ("accepted", {"folder": job}) if how == "good" else ("refused", {"fault": "{}"})
            self.add("render", sha=digest, settings="S", state=state, **more)
            self.event(state, sha=digest, folder=job)

        self.txn("rendered", work)

    def end_plates(self, key, how, job):
        if how != "good":
            return self.txn("not made", lambda: self.pause("plates", key))
        sums = {ink: sha(self.disk.get(f"making/{job}/{ink}")) for ink in self.disk.below(f"making/{job}")}
        self.settle(job, "plates")

        def work():
            left, right, making = key.split()
            at = self.add(
                "plates", left=left, right=right, making=making, folder=job, sums=sha(json.dumps(sums))
            )
            for ink, digest in sums.items():
                self.add("plate", plates=at, name=ink, sha=digest)
            self.event("made", plates=at, folder=job)

        self.txn("made", work)

    # ---- versions

    def enter(self, kind, where, ready, of=None, **fields):
        """Enters a version whose READY has its number, and whose folder has READY's sum. Returns the number."""
        number = (self.one("SELECT seq FROM sqlite_sequence WHERE name = 'version'") or 0) + 1
        text = json.dumps({"version": of or number, **ready})
        folder = f"E/{where}/{number:06}-{sha(text)[:8]}"
        if of:
            folder = self.one("SELECT folder FROM version WHERE id = ?", of)
            folder += f".r{fields['nth']}" if self.v != "resend_same_folder" else ""
        self.add("version", id=number, kind=kind, folder=folder, ready=text, of=of, **fields)
        site = self.one("SELECT name FROM site WHERE id = ?", fields["site"])
        self.claims.append(("begun", {"site": site, "kind": kind}))
        return number

    def versions(self):
        """A version begins when nothing of its pair is open: so `since` is what the site has."""
        for row in self.all("SELECT pair FROM due_version"):
            self.txn(
                "version",
                lambda: [self.version(n) for n in self.all("SELECT * FROM due_version WHERE pair = ?", *row)],
            )
        for row in self.all("SELECT pair FROM due_resend"):
            self.txn(
                "resend",
                lambda: [self.again(n) for n in self.all("SELECT * FROM due_resend WHERE pair = ?", *row)],
            )

    def asked_for(self, pair):
        return {
            row[0] for row in self.all("SELECT plate FROM request WHERE pair = ? AND version IS NULL", pair)
        }

    def version(self, n):
        since = n["since"]
        if self.v == "since_made":
            since = self.one("SELECT max(id) FROM version WHERE pair = ?", n["pair"])
        sums = dict(self.all("SELECT name, sha FROM plate WHERE plates = ?", n["plates"]))
        was = dict(
            self.all("SELECT name, sha FROM plate JOIN version v USING (plates) WHERE v.id = ?", since)
        )
        expose = {ink for ink in sums if was.get(ink) != sums[ink]}
        expose |= self.asked_for(n["pair"]) if self.v != "request_forgotten" else set()
        ready = {"sums": sums, "since": since, "expose": sorted(expose)}
        same = {key: n[key] for key in ("site", "pair", "plates", "sums")}
        at = self.enter("plates", f"A-{self.pairs[n['pair']][1]}", ready, since=since, **same)
        self.db.execute("UPDATE request SET version = ? WHERE pair = ? AND version IS NULL", [at, n["pair"]])

    def again(self, n):
        sums = dict(self.all("SELECT name, sha FROM plate WHERE plates = ?", n["plates"]))
        expose = sorted(self.asked_for(n["pair"]))
        ready = {"sums": {ink: sums[ink] for ink in expose}, "expose": expose, "resend": "scratched"}
        nth = self.one("SELECT count(*) + 1 FROM version WHERE of = ?", n["of"])
        ready["nth"] = nth
        same = {key: n[key] for key in ("site", "pair", "plates", "sums", "of")}
        at = self.enter("resend", "", ready, nth=nth, **same)
        self.db.execute("UPDATE request SET version = ? WHERE pair = ? AND version IS NULL", [at, n["pair"]])

    def wholes(self):
        for site, text in self.all("SELECT site, list FROM due_whole"):
            if self.is_free_of("whole", f"{site}\n{text}"):
                self.spawn(self.verifying, "whole", f"{site}\n{text}")

    def verifying(self, child):
        yield
        return ("same" if self.calm or self.rng.random() > 0.2 else "machine",)

    def end_whole(self, key, how):
        site, text = key.split("\n", 1)

        def work():
            if how != "same":
                return self.pause("whole", key)
            self.db.execute("INSERT OR IGNORE INTO whole VALUES (?, ?, ?)", [site, text, self.tick])
            name = self.one("SELECT name FROM site WHERE id = ?", int(site))
            self.claims.append(("verified", {"site": name, "text": text}))

        self.txn("whole", work)

    def complete(self):
        def work():
            for site, text in self.all("SELECT site, list FROM due_complete WHERE site = ?", row["site"]):
                self.enter("complete", "COMPLETE", {"list": text}, site=site, sums=sha(text), list=text)

        for row in self.all("SELECT site FROM due_complete"):
            self.txn("complete", work)

    def drop(self):
        gone = "UPDATE version SET state = 'dropped' WHERE id = ? AND id IN (SELECT version FROM superseded)"
        for row in self.all("SELECT version FROM superseded"):
            self.txn("drop", lambda: self.db.execute(gone, [row[0]]))

    # ---- sites

    def is_free(self, site):
        return not any(child.site == site for child in self.children) and self.is_due("site", site)

    def name_of(self, row):
        return self.one("SELECT name FROM site WHERE id = ?", row["site"])

    def send(self):
        """Begins what is queued and may leave: one child a site."""
        for row in self.all(
            "SELECT v.* FROM version v JOIN may_leave m ON m.version = v.id WHERE state = 'queued' ORDER BY id"
        ):
            site = self.name_of(row)
            if self.is_free(site):
                self.txn("sending", lambda: self.to(row["id"], "sending"))
                folder = self.one("SELECT folder FROM plates WHERE id = ?", row["plates"])
                names = json.loads(row["ready"])["expose"] if row["kind"] == "resend" else None
                self.spawn(self.transfer, "send", row["id"], row["folder"], folder, names, site=site)

    def reached(self, site):
        yield
        yield from iter(lambda: self.up[site] == "hung", False)
        return self.up[site] == "up" and (self.calm or self.rng.random() > 0.05)

    def transfer(self, child, at, folder, names):
        """rsync of plates and SHA256SUMS. READY is another call, begun when the version may leave."""
        disk = self.sites[child.site]
        for name in names or self.disk.below(f"plates/{folder}"):
            if not (yield from self.reached(child.site)):
                return ("network",)
            disk.write(f"{at}/.{name}", self.disk.get(f"plates/{folder}/{name}"))
            if self.v != "site_unsynced":
                disk.fsync(f"{at}/.{name}")
            disk.rename(f"{at}/.{name}", f"{at}/{name}")
            self.step("plate at a site")
        # SHA256SUMS comes --inplace --fsync in a call of its own: an ordered journal then syncs all names before it.
        if self.v != "names_unsynced":
            disk.sync_folder(at)
        return ("plates",)

    def ready(self, child, at, text):
        if not (yield from self.reached(child.site)):
            return ("unsure",)
        child.landing = (child.site, at, text)  # handed over: from here it may become visible at any time
        if not self.calm and self.rng.random() < 0.1:
            self.up[child.site] = "hung"
        for _ in range(3):
            if not (yield from self.reached(child.site)):
                return ("unsure",)
        child.landing = None
        self.ready_lands(child.site, at, text)
        self.step("READY at a site")
        there = yield from self.reached(child.site)
        if not self.calm and self.rng.random() < 0.08:
            self.dark(child.site)
            there = there and self.rng.random() < 0.5
        return ("there",) if there else ("unsure",)

    def ready_lands(self, site, at, text):
        """rsync --fsync: READY's bytes are synced before it has its name, and its name isn't."""
        disk = self.sites[site]
        self.need(disk.get(f"{at}/READY") in (None, text), "READY of a folder changes", site, at)
        disk.write(f"{at}/READY", text)
        if self.v != "ready_unsynced":
            disk.fsync(f"{at}/READY")
        self.land(site, at)

    def end_send(self, key, how):
        row = self.all("SELECT * FROM version WHERE id = ?", key)[0]
        site, at, text = self.name_of(row), row["folder"], row["ready"]

        def leave():
            self.to(key, "leaving")
            self.event("leaving", pair=row["pair"], plates=row["plates"])

        def end():
            if how == "there":
                self.there(row, site, at)
                self.db.execute("DELETE FROM pause WHERE kind = 'site' AND key = ?", [site])
            else:
                again = row["state"] == "sending" or self.v == "unknown_resend"
                self.to(key, "queued" if again else "unknown")
                self.pause("site", site, "network")

        if how != "plates":
            return self.txn("ended", end) if row["state"] in ("sending", "leaving") else None
        if self.v == "hold_outside":
            free = self.one("SELECT 1 FROM may_leave WHERE version = ?", key)
            self.step("tested")
            if not free:
                return self.txn("stopped", lambda: self.to(key, "queued"))
        try:
            self.txn("leaving", leave)
        except sqlite3.IntegrityError:
            self.counts["stopped before READY"] += 1
            return self.txn("stopped", lambda: self.to(key, "queued"))
        self.spawn(self.ready, "send", key, at, text, site=site)
        if self.v == "sent_before_exit":
            self.txn("sent", lambda: self.there(row, site, at))

    def there(self, row, site, at):
        """READY was seen. What the site had of the pair before is old, but for a resend, which is put beside it."""
        old = "UPDATE version SET state = 'old' WHERE site = ? AND pair IS ? AND state IN ('sent','kept') AND id <> ?"
        if row["kind"] != "resend":
            self.db.execute(old, [row["site"], row["pair"], row["id"]])
        self.to(row["id"], "sent", self.tick)
        self.event("sent", site=site, folder=at.split("/")[-1])
        if self.v == "no_second_look":
            self.keep(row, site, at)

    def keep(self, row, site, at):
        self.to(row["id"], "kept", self.tick)
        self.event("kept", site=site, at=at)

    def look(self):
        """Lists a site's READYs: for what is unknown, and once more for what was sent."""
        sites = "SELECT DISTINCT s.name FROM site s JOIN version v ON v.site = s.id WHERE v.state IN ('sent','unknown')"
        for row in self.all(sites):
            if self.rng.random() < 0.5 and self.is_free(row[0]):
                self.spawn(self.looking, "look", row[0], site=row[0])

    def looking(self, child):
        began = self.tick
        if not (yield from self.reached(child.site)):
            return ("network",)
        files = self.sites[child.site].now.items()
        return (
            "seen",
            {path[: -len("/READY")]: file.data for path, file in files if path.endswith("/READY")},
            began,
        )

    def end_look(self, site, how, found=None, began=0):
        def work():
            for row in self.all(
                "SELECT v.* FROM version v JOIN site s ON s.id = v.site WHERE s.name = ?", site
            ):
                self.saw_version(row, site, found.get(row["folder"]) == row["ready"], began)

        self.txn("looked", work if how == "seen" else lambda: self.pause("site", site, "network"))

    def saw_version(self, row, site, is_there, began):
        """What a look that began then says of a version."""
        state, seen, key = row["state"], row["seen"], row["id"]
        if state == "unknown" and is_there:
            self.there(row, site, row["folder"])
        elif state == "unknown" and seen is None and self.v != "one_look":
            self.db.execute("UPDATE version SET seen = ? WHERE id = ?", [began, key])
        elif state == "unknown" and (self.v == "one_look" or began - seen > GHOST + HANG):
            self.to(key, "queued")
            places = self.pairs.get(row["pair"], ())[2:]
            held = [
                name for name in places if self.one("SELECT held FROM place WHERE id = ?", self.ids[name])
            ]
            self.event("withheld", pairs=[row["pair"]], why=held + ["cancel"] * self.cancelled)
        elif state == "sent" and is_there and began - seen > WRITEBACK:
            self.keep(row, site, row["folder"])
        elif (
            not is_there
            and began >= (seen or 0)
            and state in (("sent",) if row["kind"] == "resend" else ("sent", "kept"))
        ):
            if not self.one(
                f"SELECT 1 FROM version WHERE site = ? AND pair IS ? AND state IN {OPEN}",
                row["site"],
                row["pair"],
            ):
                self.to(key, "queued")
                self.event("lost", site=site)
