#!/usr/bin/env python3
"""Runs the commands of the documents, as a reader pastes them, and compares what they print.

    check/blocks.py PROGRAM [DOCUMENT ..]

A document's blocks fenced as `sh` run in bash, in order, in a folder that is empty at first, with the variables
and jobs that the blocks before them left. Blocks fenced as `text` and others don't run: they are outputs, files or
synopses. A comment of HTML in the line above a block says more of it:

    <!-- fresh -->            the block begins in another empty folder
    <!-- back -->             it begins in the first folder again
    <!-- top -->              it begins at the top of the repository
    <!-- not run: REASON -->  it doesn't run
    <!-- status 1, 8 -->      commands of the block end with these statuses other than 0, in this order
    <!-- prints -->           a text block: what the block before it prints, line by line
    <!-- prints, among others -->  the same, with other lines between them
    <!-- prints, by the job -->    the same of the last block that left a job, in any order
    <!-- until: COMMAND -->   the block waits until this command succeeds, five minutes at most

In a text to compare, `..` matches any characters, and times, dates, sums and seconds for any others. PROGRAM
is the `plateroom` that the blocks call; `pressroom` is this repository's, and EXAMPLES its examples. A document is a file
of DOCUMENTS. The
last line is `N passed, M failed`: a test for each block that runs and each text that is compared.
"""
import importlib.util
import os
import re
import shutil
import signal
import subprocess
import sys
import tempfile
from dataclasses import dataclass, field

sys.dont_write_bytecode = True
from trial import Count

TOP = os.path.abspath(os.path.join(os.path.dirname(os.path.abspath(__file__)), ".."))
DOCUMENTS = "docs/MANUAL.md", "examples/newspaper/README.md", "examples/queue/README.md", "examples/tiles/README.md"
SECONDS = 900
# What the commands of the documents need.
PROGRAMS = "gs", "qpdf", "pdfinfo", "tiffcp", "mutool", "convert", "jq", "make", "bwrap"
LIBRARIES = "PIL", "numpy", "pikepdf"

FENCE = re.compile(r"^( *)```(\w*)$")
COMMENT = re.compile(r"^ *<!-- (fresh|back|top|not run: .*|status [\d, ]+|prints(?:, among others|, by the job)?|until: .*) -->$")
# What differs from run to run: dates with times, sums, seconds.
VARIES = (
    (r"\d{8}\\-\d{6}", r"\\d{8}-\\d{6}"),
    (r"\d+\\\.\d+\\ s\b", r"\\d+\\.\\d+ s"),
    (r"house\\ [0-9a-f]{4}", r"house [0-9a-f]{4}"),
    (r"\\\.\\\.", r".*"),
)


@dataclass
class Block:
    """A fenced block: its line, its language, its text, and what the comments above it say."""

    line: int
    language: str
    text: str
    words: list[str] = field(default_factory=list)

    def word(self, start: str) -> str | None:
        """Returns what follows a word of the comments, or None."""
        for words in self.words:
            if words.startswith(start):
                return words[len(start):].strip(" :")
        return None


def blocks(text: str) -> list[Block]:
    """Returns the fenced blocks of a document."""
    found, words, inside, indent = [], [], None, 0
    for number, line in enumerate(text.split("\n"), 1):
        fence = FENCE.match(line)
        if inside is not None:
            if fence and not fence[2]:
                found.append(inside)
                inside = None
            else:
                inside.text += line[min(indent, len(line) - len(line.lstrip(" "))):] + "\n"
        elif fence:
            inside, indent, words = Block(number, fence[2], "", words), len(fence[1]), []
        elif comment := COMMENT.match(line):
            words.append(comment[1])
        elif line.strip():
            words = []
    return found


def script(runs: list[Block], logs: str, folder: str) -> str:
    """Returns a script of bash that runs the blocks, each with its output and its failures in files of its own."""
    lines = ["set -E", f"cd {folder}"]
    for number, block in enumerate(runs):
        log = os.path.join(logs, str(number))
        if block.word("fresh") is not None:
            lines.append(f"mkdir {folder}/{number} && cd {folder}/{number}")
        if block.word("back") is not None:
            lines.append(f"cd {folder}")
        if block.word("top") is not None:
            lines.append(f"cd {TOP}")
        if (command := block.word("until")) is not None:
            lines.append(f"for turn in $(seq 600); do {{ {command}; }} > {log}.until 2>&1 && break; sleep .5; done")
            lines.append(f"{{ {command}; }} > {log}.until 2>&1 || echo 'never: '{log}.until >> {log}.failed")
        lines.append(f"trap 'echo \"$? $BASH_COMMAND\" >> {log}.failed' ERR")
        lines += ["{", block.text.rstrip("\n"), f"}} > {log} 2>&1 < /dev/null", "trap - ERR", f"touch {log}.ended"]
        if block.word("top") is not None:
            lines.append(f"cd {folder}")
    lines.append("kill $(jobs -p) 2> /dev/null; wait")
    return "\n".join(lines) + "\n"


def read(path: str) -> str:
    """Returns a file's text; empty if it isn't there."""
    try:
        with open(path, encoding="utf-8", errors="replace") as file:
            return file.read()
    except FileNotFoundError:
        return ""


def pattern(line: str) -> str:
    """Returns the regular expression of a line to compare."""
    text = re.escape(line.rstrip())
    for old, new in VARIES:
        text = re.sub(old, new, text)
    return text


def compare(wanted: str, output: str, how: str) -> str:
    """Returns how an output differs from a text, or nothing."""
    lines = [line.rstrip() for line in output.split("\n") if line.strip()]
    at, among = 0, "among" in how
    for line in wanted.split("\n"):
        if not line.strip():
            continue
        if "job" in how:
            if not any(re.fullmatch(pattern(line), one) for one in lines):
                return f"not printed: {line!r}, but {lines[:12]}"
            continue
        begin = at
        while among and at < len(lines) and not re.fullmatch(pattern(line), lines[at]):
            at += 1
        if at >= len(lines) or not re.fullmatch(pattern(line), lines[at]):
            return f"not printed: {line!r}, but {lines[begin:begin + 3]}"
        at += 1
    return f"also printed: {lines[at]!r}" if how == "" and at < len(lines) else ""


def judge(count: Count, name: str, all_blocks: list[Block], runs: list[Block], logs: str) -> None:
    """Counts a test for each block that ran, and for each text that was to be printed."""
    last = job = ""
    for block in all_blocks:
        where = f"{name}:{block.line}"
        if block in runs:
            log = os.path.join(logs, str(runs.index(block)))
            last, job = read(log), log if block.text.rstrip().endswith("&") else job
            failed = read(log + ".failed").split("\n")[:-1]
            wanted = [int(word) for word in re.findall(r"\d+", block.word("status") or "")]
            seen = [int(line.split(" ")[0]) if line.split(" ")[0].isdigit() else -1 for line in failed]
            if not os.path.exists(log + ".ended"):
                count.holds(where, f"it didn't end: {last[-400:]}")
            else:
                count.holds(where, f"{failed}: {last[-600:]}" if seen != wanted else "")
        elif (how := block.word("prints")) is not None:
            output = read(job) if "job" in how else last
            count.holds(where, compare(block.text, output, how))


def see(count: Count, name: str, program: str, room: str) -> None:
    """Runs the blocks of a document."""
    text = read(os.path.join(TOP, name))
    found = blocks(text)
    runs = [block for block in found if block.language == "sh" and block.word("not run") is None]
    for block in found:
        if (reason := block.word("not run")) is not None:
            print(f"{name}:{block.line}: not run: {reason}")
    folder, logs, bin_folder = (os.path.join(room, part) for part in ("work", "logs", "bin"))
    for path in (folder, logs, bin_folder):
        os.makedirs(path)
    os.symlink(os.path.abspath(program), os.path.join(bin_folder, "plateroom"))
    python = os.path.realpath(sys.executable)
    for command, line in ("python3", python), ("pressroom", f'{python} -B "{TOP}/tools/pressroom.py"'):
        with open(os.path.join(bin_folder, command), "w", encoding="utf-8") as file:
            file.write(f'#!/bin/sh\nexec {line} "$@"\n')
        os.chmod(file.name, 0o755)
    environment = {
        **os.environ, "HOME": room, "PATH": f"{bin_folder}:{os.environ['PATH']}", "PLATEROOM": os.path.abspath(program),
        "PYTHONDONTWRITEBYTECODE": "1", "EXAMPLES": os.path.join(TOP, "examples"),
    }
    with subprocess.Popen(["bash", "-c", script(runs, logs, folder)], cwd=folder, env=environment,
                          stdin=subprocess.DEVNULL, start_new_session=True) as process:
        try:
            process.wait(SECONDS)
        except subprocess.TimeoutExpired:
            pass
        try:
            os.killpg(process.pid, signal.SIGKILL)
        except ProcessLookupError:
            pass
    judge(count, name, found, runs, logs)
    count.part(f"{name}: {len(runs)} blocks run, {len(found) - len(runs)} don't")


def main() -> int:
    """Runs the documents that are named, or all."""
    if len(sys.argv) < 2:
        sys.exit(__doc__)
    count = Count()
    programs = [name for name in PROGRAMS if shutil.which(name) is None]
    lacking = programs + [name for name in LIBRARIES if importlib.util.find_spec(name) is None]
    if lacking:
        print(f"skipped: not installed: {', '.join(lacking)}")
        return count.end()
    for name in sys.argv[2:] or DOCUMENTS:
        room = tempfile.mkdtemp(prefix="plateroom-blocks-")
        try:
            see(count, name, sys.argv[1], room)
        finally:
            shutil.rmtree(room, ignore_errors=True)
    return count.end()


if __name__ == "__main__":
    sys.exit(main())
