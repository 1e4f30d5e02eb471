"""The night's service: one process, one loop, one writer of the journal.

The loop waits for jobs that answer, for the sockets, and for the second's end. In each round it looks at in/, copies a
little of what came, starts what is due, prints the new events, and reports to systemd that it lives. It never waits for a
job, a site, a disk of an uploader, or a client.
"""
import json
import selectors
import signal
import sqlite3
import sys
import time
from collections.abc import Callable
from dataclasses import dataclass
from typing import Any, TextIO

from pressroom.night import (
    apply,
    events,
    gauges,
    house_file,
    houses,
    late,
    pauses,
    retire,
    scheduler,
    status,
    versions,
    waits,
)
from pressroom.night.asked import Asked
from pressroom.night.book import Book
from pressroom.night.desk import Answer
from pressroom.night.folders import Folders, sweep
from pressroom.night.incoming import Incoming
from pressroom.night.notify import Notify
from pressroom.night.records import Runner
from pressroom.night.sockets import Sockets
from pressroom.night.tasks import PlatesTask, Room, longest_timeout
from pressroom.night.workers import Slots, Workers

# Seconds between looks at in/, at the house file, at what is late and old, and between copies of the journal.
ROUND, MINUTE, HOUR = 1.0, 60.0, 3600.0
# The most seconds that one round copies pages before it looks around again.
SLICE = 0.2
PRINTED = "output"


@dataclass
class Output:
    """Where events are printed, as text or as JSON lines."""

    stream: TextIO = sys.stdout
    as_json: bool = False

    def tell(self, row: sqlite3.Row) -> None:
        line = json.dumps(events.record(row), ensure_ascii=False) if self.as_json else events.text(row)
        print(line, file=self.stream, flush=True)


class Service:
    """The service over an open journal."""

    def __init__(
        self,
        book: Book,
        folders: Folders,
        all_houses: houses.Houses,
        runner: Runner,
        run: str,
        output: Output,
    ):
        self.book, self.folders, self.houses, self.output = book, folders, all_houses, output
        self.room = Room(book, folders, all_houses, scheduler.Looks())
        self.selector = selectors.DefaultSelector()
        self.workers = Workers(self.room, runner, self.selector)
        self.incoming = Incoming(book, folders, all_houses)
        self.asked = Asked(book, self.live, self.apply)
        self.sockets = Sockets(run, self.selector, self.asked.answer)
        self.notify = Notify()
        self.due: dict[Callable[[], None], tuple[float, float]] = {}
        self.ends = False
        self.scan_seconds, self.scanned = 0.0, 0.0
        self.scan_fault: str | None = None
        self.timeout, self.gauges_fault = 900.0, ""
        self.started, self.next_due = (-1, -1), 0.0
        for work, every in (
            (self.look_in, ROUND),
            (self.see_house, 5.0),
            (self.see_late, MINUTE),
            (self.copy, HOUR),
        ):
            self.due[work] = (every, 0.0)

    # ---- the loop

    def start(self) -> None:
        """Makes the journal and the disk agree, before anything else."""
        versions.stale(self.book)
        missing = sweep(self.folders, self.book)
        with self.book.journal.transaction():
            self.book.tell("start", epoch=self.book.journal.epoch)
            for name in missing:
                self.book.tell("alert", why=f"{name} isn't on the disk, though the journal has it")
        self.book.journal.keep_reserve()

    def run(self, seconds: float | None = None) -> None:
        """Goes round until the service is told to end, or for so many seconds."""
        self.start()
        self.notify.tell("READY=1")
        until = None if seconds is None else time.monotonic() + seconds
        while not self.ends and (until is None or time.monotonic() < until):
            self.round()
        self.stop()

    def round(self) -> None:
        """One round: what is due by time, some copying, jobs, sockets, events."""
        now = time.monotonic()
        for work, (every, last) in list(self.due.items()):
            if now - last >= every:
                self.due[work] = (every, now)
                work()
        more = self.copy_some()
        self.workers.end_late()
        self.start_due()
        self.print_events()
        for client in self.sockets.followers():
            self.asked.tell(client)
        self.sockets.flush_all()
        self.notify.tell("WATCHDOG=1")
        for key, mask in self.selector.select(0 if more else self.patience(ROUND)):
            handle = key.fd
            if key.data is self.workers:
                if handle in self.workers.running:
                    self.workers.heard(handle)
            else:
                self.sockets.heard(handle, mask)

    def start_due(self) -> None:
        """Starts what is due, if the journal changed, a job ended, or the time came at which something is due."""
        state = self.book.journal.db.total_changes, len(self.workers.running)
        if state == self.started and self.book.uptime() < self.next_due:
            return
        self.workers.start_due(self.timeout)
        self.started = self.book.journal.db.total_changes, len(self.workers.running)
        waits = [scheduler.BETWEEN, pauses.next_end(self.book), scheduler.next_look(self.book, self.timeout)]
        self.next_due = self.book.uptime() + min(wait for wait in waits if wait is not None)

    def patience(self, most: float) -> float:
        """Returns the seconds until something is due by time, at most so many."""
        return max(0.02, min(most, self.next_due - self.book.uptime()))

    def end(self, *_: Any) -> None:
        """Ends the loop after this round: the signals' handler."""
        self.ends = True

    def stop(self) -> None:
        """Ends all jobs, prints what is left, closes all."""
        self.notify.tell("STOPPING=1")
        self.workers.stop()
        self.incoming.close()
        self.print_events()
        self.sockets.close()
        self.selector.close()

    # ---- what is due by time

    def look_in(self) -> None:
        """Looks at in/. That it can't be read is told as a wait."""
        began = time.monotonic()
        house = self.houses.now()
        try:
            self.incoming.look(2.0 if house is None else house[1].night.settle)
            self.scan_fault = None
            self.clear_pause("disk", "in")
        except OSError as error:
            self.scan_fault = f"in/: {error.strerror}"
            if pauses.is_over(self.book, "disk", "in"):
                with self.book.journal.transaction():
                    pauses.enter(self.book, "disk", "in", "machine", self.scan_fault, what="in/")
        self.scanned, self.scan_seconds = self.book.now(), round(time.monotonic() - began, 3)

    def clear_pause(self, kind: str, key: str) -> None:
        if self.book.journal.value("SELECT 1 FROM pause WHERE kind = ? AND key = ?", kind, key):
            with self.book.journal.transaction():
                pauses.clear(self.book, kind, key, what="in/")

    def see_house(self) -> None:
        """Reads the house file if it changed. One that can't be used is told, and the last good one stays."""
        house_file.see(self.book, self.houses)

    def see_late(self) -> None:
        """Tells pairs that will be late, and waits that last too long."""
        waits.forget(self.book, None if self.scan_fault else self.incoming.quiet)
        late.tell_late(self.book)
        open_editions = [
            row[0] for row in self.book.journal.rows("SELECT id FROM edition WHERE state = 'open'")
        ]
        self.timeout = longest_timeout(self.room, open_editions) or 60.0
        self.book.journal.keep_reserve()
        house = self.houses.now()
        if house is not None:
            waits.tell_alerts(self.book, house[1].night.alert)
            retire.retire(self.book, self.folders, house[1].night.keep)
            self.write_gauges(house[1].night.metrics)

    def write_gauges(self, path: str | None) -> None:
        """Writes the file of metrics, where the house names one."""
        if path is None:
            return
        try:
            gauges.write(path, gauges.text(self.book, self.folders.spool, self.scanned))
        except OSError as error:
            if self.gauges_fault != str(error):
                self.gauges_fault = str(error)
                with self.book.journal.transaction():
                    self.book.tell("alert", why=f"metrics can't be written: {error}")

    def copy(self) -> None:
        """Copies the journal each hour."""
        try:
            self.book.journal.backup()
        except (OSError, sqlite3.Error) as error:
            with self.book.journal.transaction():
                self.book.tell("alert", why=f"the journal's copy can't be written: {error}")

    def copy_some(self) -> bool:
        """Copies pages for a short while. Returns whether there is more."""
        end = time.monotonic() + SLICE
        while time.monotonic() < end:
            if not self.incoming.step():
                return False
        return True

    def print_events(self) -> None:
        """Prints the events that weren't printed yet, and notes the last one."""
        last = self.book.journal.value("SELECT seq FROM output WHERE name = ?", PRINTED) or 0
        rows = self.book.journal.rows("SELECT * FROM event WHERE seq > ? ORDER BY seq", last)
        for row in rows:
            self.output.tell(row)
        if rows:
            with self.book.journal.transaction() as db:
                db.execute("INSERT OR REPLACE INTO output VALUES (?, ?)", [PRINTED, rows[-1]["seq"]])

    # ---- what the sockets ask

    def live(self) -> status.Live:
        """Returns what the service knows besides its journal."""
        house = self.houses.now()
        least = 0.0 if house is None else house[1].night.least_free
        slots: Slots = self.workers.slots
        return status.Live(
            spool=self.folders.spool,
            making=self.workers.busy(PlatesTask),
            busy=len(self.workers.running),
            slots=slots.pages + slots.plates,
            scanned=self.scanned,
            scan_seconds=self.scan_seconds,
            scan_fault=self.scan_fault,
            least_free=least,
            refused=self.incoming.told,
        )

    def apply(self, edition: str, dry: bool, who: str) -> Answer:
        """Applies the house in force to an edition."""
        return apply.apply(self.book, self.houses, edition, dry, who)


def watch_signals(service: Service) -> None:
    """SIGTERM and SIGINT end the service after its round."""
    for number in (signal.SIGTERM, signal.SIGINT):
        signal.signal(number, service.end)
