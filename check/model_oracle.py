"""What must hold in an evening of the model, known by contents and commands alone and not by the journal."""
import json

from model_disk import Wrong, sha

OPEN = "('queued','sending','leaving','unknown')"


class Oracle:
    """Believes an event only if what it claims is so, and a READY only if its site may act on it."""

    def need(self, so, *words):
        if not so:
            raise Wrong(" ".join(map(str, words)))

    def in_force(self, place):
        """Returns the number from 1 of the newest arrival that isn't bad, and its content: what alone may print."""
        for number in range(len(self.came[place]), 0, -1):
            text = self.content[self.came[place][number - 1]]
            if "bad" not in text:
                return number, text
        return 0, None

    def believe(self, name, **f):
        self.counts[name] += 1
        getattr(self, f"believe_{name}", lambda **_: None)(**f)
        if name in ("held", "cancelled", "rejected", "withheld"):
            self.barred |= {(pair, why) for pair in f["pairs"] for why in f["why"]}

    def believe_arrived(self, sha, place):
        self.came[place].append(sha)
        self.need(
            self.disk.durable(f"store/{sha}") == self.content[sha], "arrived: not in the store, durably", sha
        )

    def believe_accepted(self, sha, folder):
        self.judged.add(sha)
        good = "good" in self.content[sha] and self.disk.durable(f"renders/{folder}/layer")
        self.need(good, "accepted: isn't", sha)

    def believe_refused(self, sha, folder):
        self.judged.add(sha)
        self.need("bad" in self.content[sha], "refused: a page that is good", sha)

    def believe_made(self, plates, folder):
        for ink, text in self.right(plates).items():
            self.need(
                self.disk.durable(f"plates/{folder}/{ink}") == text, "made: not right, or not durable", ink
            )

    def believe_begun(self, site, kind):
        if self.deliver == "edition" and kind == "plates":
            for s, _, *places in self.pairs.values():
                for place in places if s == site else ():
                    self.need(self.in_force(place)[0], "begins before the edition is whole", site, place)

    def believe_verified(self, site, text):
        self.verified.add((site, text))

    def believe_leaving(self, pair, plates):
        """The newest arrival has a verdict, and what prints is the newest that isn't bad, approved as this arrival."""
        pages = self.right(plates)["K"].split()[2:] if pair else ()
        for page, place in zip(pages, self.pairs[pair][2:] if pair else ()):
            number, text = self.in_force(place)
            self.need(
                self.came[place][-1] in self.judged, "leaves before intake's verdict on the newest", place
            )
            self.need(page == text, "leaves with another page than the newest", place, page, text)
            self.need(not self.ask or (place, number) in self.approved, "leaves unapproved", place, number)

    def believe_released(self, why, pairs, page, count):
        self.need(len(self.came[page]) == count, "released: what came since wasn't seen", page)
        self.need(
            not count or self.came[page][-1] in self.judged, "released: intake has the newest page", page
        )

    def believe_sent(self, site, folder):
        self.need((site, folder) in self.landed, "sent: isn't at its site", site, folder)

    def believe_kept(self, site, at):
        safe = self.sites[site].durable(f"{at}/READY")
        self.need(safe, "kept: a power failure at the site would lose it", site, at)

    def right(self, plates):
        """Returns the right bytes of plates, by the contents of their pages."""
        join = "JOIN render a ON a.key = left JOIN render b ON b.key = right WHERE plates.id = ?"
        a, b, making = self.all(f"SELECT a.sha, b.sha, making FROM plates {join}", plates)[0]
        return self.expected(self.content[a], self.content[b], making)

    @staticmethod
    def expected(a, b, making):
        return {"C": f"C {making} {a[-2:]} {b[-2:]}", "K": f"K {making} {a} {b}"}

    def land(self, site, at):
        """READY becomes visible at a site."""
        disk, (_, where, folder) = self.sites[site], at.split("/")
        ready = json.loads(disk.get(f"{at}/READY"))
        row = self.all(
            "SELECT * FROM version WHERE site = (SELECT id FROM site WHERE name = ?) AND folder = ?", site, at
        )
        self.need(row, "READY of a version that the journal doesn't know", at)
        row, number = row[0], int(folder[:6])
        before = [n for s, w, n, f in self.landed.values() if (s, w) == (site, where) and f != folder]
        if row["kind"] == "resend":
            self.need(number == max(before, default=0), "READY of a resend of another version", at, before)
        else:
            self.need(
                number > max([n for n in before if n != number], default=0),
                "READY out of time order",
                at,
                before,
            )
        if row["kind"] == "complete":
            self.land_complete(site, at, ready)
        else:
            self.land_plates(site, at, row, ready, before)
        self.landed[site, folder] = (site, where, number, folder)
        self.exposed.append((row["pair"], row["id"], tuple(ready.get("expose", ()))))
        self.counts[f"READY, {row['kind']}"] += 1

    def land_complete(self, site, at, ready):
        self.need((site, ready["list"]) in self.verified, "COMPLETE: unverified", at)
        lines = [line.split(" ") for line in ready["list"].split("\n")]
        mine = {pair for pair, (s, *_) in self.pairs.items() if s == site}
        self.need({int(line[0]) for line in lines} == mine, "COMPLETE: not all", at)
        for _, number, _ in lines:
            there = [
                f"E/{w}/{folder}/READY"
                for s, w, n, folder in self.landed.values()
                if s == site and n == int(number) and "." not in folder
            ]
            durable = there and self.sites[site].durable(there[0])
            self.need(durable, "COMPLETE: a pair isn't there, durably", at, number)

    def land_plates(self, site, at, row, ready, before):
        disk, texts = self.sites[site], self.right(row["plates"])
        if row["kind"] == "plates":
            since = ready["since"]
            older = [n for n in before if n != row["id"]]
            self.need(
                since in (None, max(older, default=None)), "READY: since isn't what came last", at, before
            )
            was = self.right(self.one("SELECT plates FROM version WHERE id = ?", since)) if since else {}
            changed = {ink for ink, text in texts.items() if was.get(ink) != text}
            self.need(changed <= set(ready["expose"]), "READY: a plate that changed isn't exposed", at, ready)
        for ink in texts if row["kind"] == "plates" else ready["expose"]:
            right = disk.get(f"{at}/{ink}") == texts[ink] and ready["sums"][ink] == sha(texts[ink])
            self.need(right, "READY: a plate is wrong", at, ink)
        bars = {why for pair, why in self.barred if pair == row["pair"]}
        for page, place in zip(texts["K"].split()[2:], self.pairs[row["pair"]][2:]):
            self.need(page.startswith(place + ".") and "good" in page, "READY: wrong page", at, page)
            some = {number for p, number in self.ever if p == place}
            right = not self.ask or any(self.content[self.came[place][n - 1]] == page for n in some)
            self.need(right, "READY: page isn't approved", at, page)
            held = bars & {place, f"{place} {sha(page)}", "cancel"}
            self.need(not held, "READY: held, rejected or cancelled", at, page, held)

    def faults(self):
        """Returns what isn't as it must be when all has come to rest."""
        wrong = [*self.inbox, *self.grab, *self.children, *self.orphans, *self.ghosts]
        wrong += [
            tuple(row) for row in self.all(f"SELECT id, state, kind FROM version WHERE state IN {OPEN}")
        ]
        if self.cancelled:
            return wrong
        for place, text in self.put_last.items():
            if not self.came[place] or self.content[self.came[place][-1]] != text:
                wrong.append(f"{place}: what was put last never came")
        for pair, (site, number, *places) in self.pairs.items():
            disk, texts = self.sites[site], self.expected(
                *[self.in_force(p)[1] or "none" for p in places], f"M{number}"
            )
            at = [f"E/A-{number}/{name}" for name in disk.below(f"E/A-{number}") if "." not in name]
            at = [folder for folder in at if disk.get(f"{folder}/READY")]
            if not at or any(disk.get(f"{at[-1]}/{ink}") != text for ink, text in texts.items()):
                wrong.append(f"{site} hasn't the plates of pair {number}")
            at = [disk.get(f"E/COMPLETE/{name}/READY") for name in disk.below("E/COMPLETE")]
            want = self.one(
                "SELECT list FROM site_now w JOIN site s ON s.id = w.site WHERE s.name = ? AND is_whole", site
            )
            if not at or not want or json.loads(at[-1] or "{}").get("list") != want:
                wrong.append(f"{site} isn't COMPLETE")
        for pair, plate, last in self.asked:
            if not any(p == pair and n > last and plate in plates for p, n, plates in self.exposed):
                wrong.append(f"plate {plate} of pair {pair} was asked for again and never came")
        return wrong
