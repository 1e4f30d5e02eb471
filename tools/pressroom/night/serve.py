"""Runs the night's service over a spool: pages come in all evening, and each pair leaves when its two pages are ready.

SPOOL has the folders in/ (uploads, a folder an edition), store/, renders/, plates/, out/ and journal/, which are made if
they are missing. The house file is /etc/pressroom/house.toml, or that of --house; it is never in the spool. Each event
is a line: `pressroom status SPOOL` shows what is so. The service ends at SIGTERM or SIGINT, and may be killed at any
moment: the next one continues.

status: 0 it was told to end; 2 the arguments are wrong, the house file can't be used, or a program is missing; 3 the
spool or its journal can't be used; 5 another service has the spool

example: pressroom night /var/spool/pressroom --house house.toml
"""
import argparse
import os
import shutil
import sqlite3
import sys
import time

from pressroom.base.ask import program_path
from pressroom.base.command_line import Parser
from pressroom.night import edition, house_file, houses
from pressroom.night.book import Book
from pressroom.night.folders import Folders
from pressroom.night.journal import Busy, Journal, Unusable
from pressroom.night.runner import Runner
from pressroom.night.service import Output, Service, watch_signals
from pressroom.night.sockets import run_folder

ENDED, CANT_BEGIN, SPOOL_FAULT, IN_USE = 0, 2, 3, 5
# How long a service waits for the one before it, in seconds.
PATIENCE = 30.0
HOUSE = "/etc/pressroom/house.toml"
OLD = "this spool is of an older pressroom: `pressroom migrate SPOOL` brings it up to date"


def parser() -> Parser:
    """Returns the command's arguments."""
    parser = Parser("night", __doc__)
    parser.add_argument("spool", metavar="SPOOL", help="the folder of the spool")
    parser.add_argument("--house", metavar="FILE", default=HOUSE, help=f"the house file (default: {HOUSE})")
    parser.add_program()
    parser.add_argument(
        "--for", metavar="SECONDS", dest="seconds", type=float, help="end after so many seconds"
    )
    return parser


def leave(status: int, text: str) -> int:
    """Says on standard error why the service doesn't begin, or ends."""
    print(f"pressroom night: {text}", file=sys.stderr)
    return status


def targets_of(book: Book, all_houses: houses.Houses) -> list[str]:
    """Returns the folders of sites on this machine, into which jobs may write: by the house in force, and by those of
    the editions under way."""
    now, found = all_houses.now(), {}
    for row in book.journal.rows("SELECT DISTINCT house FROM edition WHERE state = 'open'"):
        try:
            found[row[0]] = all_houses.get(row[0])
        except houses.Unreadable:
            continue
    some = [*found.values(), *([now[1]] if now is not None else [])]
    paths = (target["target"] for house in some for target in house.targets.values())
    return list(dict.fromkeys(path for path in paths if path.startswith("/")))


def main() -> int:
    """Runs the service. Returns its status."""
    words = parser().parse_args()
    house_path = os.path.abspath(words.house)
    if is_below(house_path, words.spool):
        return leave(CANT_BEGIN, f"{house_path} is in the spool, where uploaders write: it must be elsewhere")
    if is_old(words.spool):
        return leave(SPOOL_FAULT, OLD)
    program = program_path(words.program)
    found = shutil.which(program)
    if found is None:
        return leave(CANT_BEGIN, f"{program} isn't installed")
    os.environ["PLATEROOM"] = os.path.abspath(found)
    folders = Folders(words.spool)
    fault = fault_of_house(house_path)
    if fault is not None and not os.path.exists(folders.path("journal", "night.db")):
        return leave(CANT_BEGIN, fault)
    try:
        folders.make()
        journal = open_journal(folders)
    except Busy:
        return leave(IN_USE, f"another service has {folders.spool}")
    except (OSError, Unusable) as error:
        return leave(SPOOL_FAULT, str(error))
    book = Book(journal, edition)
    all_houses = houses.Houses(book, edition, house_path)
    fault = house_file.see(book, all_houses)
    if all_houses.now() is None:
        journal.close()
        return leave(CANT_BEGIN, fault or "the house file in force can't be read any more")
    if fault is not None:
        leave(CANT_BEGIN, f"{fault}; the last good house file stays")
    runner = Runner(
        folders.spool,
        run_folder(folders.spool),
        os.environ["PLATEROOM"],
        targets=lambda: [*targets_of(book, all_houses), folders.path("out")],
        held=[journal.lock],
    )
    return serve(book, folders, all_houses, runner, words)


def fault_of_house(path: str) -> str | None:
    """Returns why a house file can't be used, or None."""
    try:
        edition.house_of(houses.read_house(path), path)
    except (OSError, ValueError, edition.Fault) as error:
        return str(error) if isinstance(error, edition.Fault) else f"{path}: {error}"
    return None


def open_journal(folders: Folders) -> Journal:
    """Opens the journal. Where another service has it, or its last jobs, it waits for a while, and says so."""
    end, told = time.monotonic() + PATIENCE, False
    while True:
        try:
            return Journal.open(folders.path("journal"))
        except Busy:
            if time.monotonic() > end:
                raise
            if not told:
                leave(IN_USE, f"waits for another service on {folders.spool}")
            told = True
            time.sleep(0.2)


def serve(
    book: Book, folders: Folders, all_houses: houses.Houses, runner: Runner, words: argparse.Namespace
) -> int:
    """Goes round until the end. A full disk, or a journal that can't be written, ends the service: its start mends."""
    try:
        service = Service(
            book, folders, all_houses, runner, run_folder(folders.spool), Output(sys.stdout, words.json)
        )
    except OSError as error:
        return leave(SPOOL_FAULT, str(error))
    watch_signals(service)
    missing = runner.missing()
    if missing:
        with book.journal.transaction():
            book.tell("unprotected", what="; ".join(missing))
    try:
        service.run(words.seconds)
    except sqlite3.OperationalError as error:
        if book.journal.free_reserve():
            with book.journal.transaction():
                book.tell("spare")
        service.workers.stop()
        return leave(SPOOL_FAULT, f"the journal can't be written: {error}")
    finally:
        book.journal.close()
    return ENDED


def is_below(path: str, spool: str) -> bool:
    """Returns whether a path is in the spool."""
    return os.path.realpath(path).startswith(os.path.realpath(spool) + os.sep)


def is_old(spool: str) -> bool:
    """Returns whether a spool is of the pressroom that kept its state in JSON files."""
    state = os.path.join(spool, "state")
    return (
        not os.path.isdir(os.path.join(spool, "journal"))
        and os.path.isdir(state)
        and any(name.endswith(".json") for name in os.listdir(state))
    )


if __name__ == "__main__":
    sys.exit(main())
