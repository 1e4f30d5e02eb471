"""The arguments of every command: too few, too many, empty, not UTF-8, and each number at the ends of its
range and beyond.
"""
import os
import re
import shutil

import drill
import keyed
from answers import PLAN, refused
from picks import Change
from plates import Edition, black_plate, compared
from trial import shown

# Each number's least and greatest value.
NUMBERS = {"N": (0, 4_294_967_295), "RING": (1, 1024), "PATIENCE": (1, 65_536), "KEYS": (1, 64)}

# The arguments of each command, and how many of the last ones may be left out.
COMMANDS = {
    "one": (["FILE"], 0),
    "run": (["PLAN", "FILES", "OUT", "RING", "PATIENCE"], 2),
    "keys": (["PLAN", "FILES", "OUT", "KEYS", "RING", "PATIENCE"], 2),
    "verify": (["PLAN", "FILES", "OUT"], 0),
    "replate": (["OLDPLAN", "OLDFILES", "PLAN", "FILES", "OUT"], 0),
    "drill": (["N", "RING", "PATIENCE"], 2),
}

# An argument with which the command is done. Files that a mended or a cut argument would name are there too.
USUAL = {"FILE": "a.tif", "PLAN": "plan.json", "FILES": "in", "OUT": "OUT", "OLDPLAN": "plan.json",
         "OLDFILES": "in", "N": "0", "RING": "64", "PATIENCE": "1024", "KEYS": "4"}

# Texts that are no number, whatever its limits.
NO_NUMBERS = ["", "-1", "+1", "00", "01", " 1", "1 ", "1.0", "1e1", "0x1", "1,0", "one", "\uff11",
              "18446744073709551615", "18446744073709551616", "18446744073709551617", "9" * 99,
              b"\xff", b"1\xff", b"\xff1"]

# Other words that are no command.
OTHERS = [
    [], [""], ["a.tif"], ["two", "a.tif"], ["one "], [" one", "a.tif"], ["--help"], ["--version"],
    ["run", "--help"],
    [b"\xff"], [b"\xff", b"one", b"a.tif"], [b"one", b"\xff", b"a.tif"], [b"one", b"a\xff.tif"],
    [b"one", b"\xed\xa0\x80.tif"], [b"one", b"a.tif\xc3"], [b"one", b"\xc0\xaf.tif"], [b"dr\xffill", b"7"],
    [b"run", b"pl\xffan.json", b"in", b"OUT"],
]


def words_of(command, **others):
    """All words of a command, some of them others than usual."""
    return [command, *({**USUAL, **others}[name] for name in COMMANDS[command][0])]


def no_numbers(name):
    """Texts that aren't one of the values of a number."""
    least, most = NUMBERS[name]
    return [*NO_NUMBERS, *map(str, range(least)), str(most + 1), f"0{most}", f"{most}0"]


def no_commands():
    """Words that are no command, by the table of commands."""
    yield from OTHERS
    for command, (names, optional) in COMMANDS.items():
        whole = words_of(command)
        fewest = len(whole) - optional
        yield from (whole[:count] for count in range(1, fewest))
        yield from ([*whole, more] for more in ("", "1", b"\xff"))
        yield [command.capitalize(), *whole[1:]]
        yield [os.fsencode(command) + b"\xff", *whole[1:]]
        for name in names:
            wrong = no_numbers(name) if name in NUMBERS else ["", b"\xff", os.fsencode(USUAL[name]) + b"\xff"]
            yield from (words_of(command, **{name: word}) for word in wrong)
        for name in names[:fewest - 1] if optional else ():
            # The same where the last words are left out.
            yield from (words_of(command, **{name: word})[:fewest] for word in ("", b"\xff"))
        for count in range(fewest, len(whole)):
            yield from ([*whole[:count], word] for word in ("", "0", b"\xff"))


def spellings(name):
    """The least and the greatest value of a number."""
    return map(str, NUMBERS[name])


def at_their_limits(tried, folder):
    """Each number at its least and its greatest value: what the command does is the same."""
    edition, out = Edition(PLAN, os.path.join(folder, "in")), os.path.join(folder, "OUT")
    plates, report = dict(edition.plates()), edition.report("OUT").encode()
    counts = {keys: keyed.text(edition, int(keys)) for keys in spellings("KEYS")}
    drills = {number: drill.Job(int(number)).text().encode() for number in ("0", "1")}
    tried.answers(["drill", "1"], 0, drills.pop("1"), b"")
    pace = [[], *([ring] for ring in spellings("RING")),
            *([ring, patience] for ring in spellings("RING") for patience in spellings("PATIENCE"))]
    for last in pace:
        tried.answers([*words_of("run")[:4], *last], 0, report, b"", folder=folder)
        tried.holds(f"plates of run, {last}", compared(plates, out))
        shutil.rmtree(out, ignore_errors=True)
        for keys, told in counts.items():
            tried.answers([*words_of("keys")[:4], keys, *last], 0, told, b"", folder=folder)
            tried.holds(f"plates of keys, {keys}, {last}", compared(plates, out))
            shutil.rmtree(out, ignore_errors=True)
        for number, told in drills.items():
            tried.answers(["drill", number, *last], 0, told, b"", folder=folder)
    greatest(tried, NUMBERS["N"][1])
    tried.answers(words_of("run"), 0, report, b"", folder=folder)
    same = f"same plates {len(plates)} sites 1\n".encode()
    tried.answers(words_of("verify"), 0, same, b"", folder=folder)
    tried.answers(words_of("replate"), 0, Change(edition, edition).text().encode(), b"", folder=folder)
    tried.holds("plates that all commands leave", compared(plates, out))
    shutil.rmtree(out, ignore_errors=True)
    tried.part("numbers at their limits")


def greatest(tried, number):
    """The drill of the greatest number: its report, and how many dots its sites have, which are those of one
    another where they print the same pages."""
    job = drill.Job(number)
    height = job.height + 16
    pairs = {site: list(job.pairs(site)) for site in range(job.sites)}
    sites = {site: sum(len(job.inks(*pair)) for pair in pairs[site]) for site in pairs}
    groups = {(place, pair) for site in pairs for place, pair in enumerate(pairs[site])}
    total = sum(len(job.inks(*pair)) for _, pair in groups) * height
    form = "".join(rf"site S{site} finished plates {count} rows {count * height}\n"
                   for site, count in sites.items())
    form += rf"total rows {total} sites {job.sites}\n"
    form += r"dots S0 (\d+)\ndots S1 (\d+)\ndots S2 \1\ndots S3 \2\n"
    status, out, note = tried.run(["drill", str(number)])
    is_told = status == 0 and note == b"" and re.fullmatch(form, out.decode())
    tried.holds(f"drill {number}", "" if is_told else f"status {status}, {shown(out)}, {shown(note)}")


def long_paths(tried, folder):
    """A path of as many bytes as the machine opens, one more, and one of characters of up to four bytes."""
    plate = black_plate(os.path.join(folder, "a.tif"))
    for size, status in ((4095, 0), (4096, 5), (100_000, 5)):
        path = "./" + "/" * (size - len("./a.tif")) + "a.tif"
        line = f"plateroom: shelf: {path}\n".encode() if status else b""
        got = tried.run(["one", path], folder=folder)
        wanted = status, b"" if status else plate, line
        fault = f"status {got[0]}, {shown(got[1])}, {shown(got[2])}"
        tried.holds(f"a path of {size} bytes", "" if got == wanted else fault)
    name = "é\u56fe\U0001f5de.tif"
    shutil.copy(os.path.join(folder, "a.tif"), os.path.join(folder, name))
    tried.answers(["one", name], 0, plate, b"", folder=folder)
    tried.answers(["one", name[1:]], 5, b"", f"plateroom: shelf: {name[1:]}\n".encode(), folder=folder)
    tried.part("long paths")


def trials(tried, folder):
    """In a folder with the files of `answers`."""
    for words in no_commands():
        refused(tried, folder, words, 2, "plateroom: words\n")
    tried.part("words that are no command")
    at_their_limits(tried, folder)
    long_paths(tried, folder)
