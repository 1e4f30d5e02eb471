#!/usr/bin/env python3
"""Checks the documents: their words, width, headings and links, and the files that their commands name.

    check/prose.py [FILE ..]

Links are checked in every Markdown file of the repository, and again as the package installs its documents.
The other rules are checked in the files of HELD, or in each FILE. The words are also checked in the heads of
the Python programs of PROGRAMS, which is what their `--help` prints. Fenced and indented code, code spans,
quotations and links' targets aren't prose. Each fault is printed as `FILE:LINE: fault`. The last line is
`N passed, M failed`, counted by file and rule, and the status is 1 if one failed. It needs git and no other
program.
"""
import ast
import fnmatch
import importlib.util
import os
import re
import sys
import tempfile

sys.dont_write_bytecode = True
from trial import Count


TOP = os.path.abspath(os.path.join(os.path.dirname(os.path.abspath(__file__)), ".."))

# The documents that follow the rules, as paths or patterns of paths.
HELD = (
    "README.md",
    "docs/MANUAL.md",
    "docs/FORMATS.md",
    "docs/plateroom.1.scd",
    "docs/pressroom.1.scd",
    "docs/plateroom-plan.5.scd",
    "docs/PROVED.md",
    "docs/ARCHITECTURE.md",
    "docs/DECISIONS.md",
    "docs/EXTENDING.md",
    "docs/EDITORS.md",
    "docs/PROOFS.md",
    "docs/SPEED.md",
    "CHANGELOG.md",
    "CONTRIBUTING.md",
    "bench/README.md",
    "examples/README.md",
    "examples/newspaper/README.md",
    "examples/queue/README.md",
    "examples/tiles/README.md",
    "tools/README.md",
    "check/README.md",
    "crates/*/README.md",
)

# The Python programs whose heads follow the rules on words; `*` also matches folders.
PROGRAMS = "tools/*.py", "check/*.py", "bench/*.py", "package/*.py", "examples/*.py"

# The file whose every line, code and tables too, keeps to the width, and the most lines that it has.
FRONT, FRONT_LINES = "README.md", 120
WIDTH = 100

# Each wording that the documents avoid, what they say instead, and a line in which the pattern must find it.
WORDS = (
    (r"want of memory", "out of memory", "6 | want of memory |"),
    (r"\bgets on\b|\bget on\b", "makes progress", "In each round somebody gets on."),
    (r"\btells? nothing\b", "reports nothing", "The shelf tells nothing."),
    (r"what is neither|^#+ (.*\band )?neither\b", "not claimed", "## Tested, and neither"),
    (r"\b(lies?|stands?) there\b", "is present", "A plate that lies there stays."),
    (r"\bby the clock\b", "wall-clock time", "Seconds by the clock"),
    (r"\bbeside plain C\b", "compared with plain C", "one processor beside plain C"),
    (r"\bbeside \w+ busy loops\b", "on a machine kept busy by N loops", "runs beside twenty busy loops"),
    (r"\bplates? (that (is|are) )?looked at\b", "verified", "Plates that are looked at"),
    (r"\bthe parts are the whole\b", "parts reproduce the full edition", "That the parts are the whole"),
    (r"\bpages? that nothing prints\b", "an unused page", "Pages that nothing prints are in no part."),
    (r"\bwords (are|is) no command\b|\bwords are wrong\b|\bof the same words\b|\bwords of a command line\b",
     "arguments", "2 | the words are no command |"),
    (r"\b(reads|hands|takes) (its|the) words\b", "passes its arguments", "It hands its words to the library."),
    (r"\brows that are drawn together\b", "a block of rows", "rows that are drawn together"),
    (r"\b(may|can|can't|could|be|is|are|was|were|not) (to )?be had\b|\b(is|are|was|were) (not )?to be had\b",
     "is available", "where a form was not to be had"),
    (r"\bof which\b[^.;|]*\b(is|are) (the )?most\b", "mostly ..", "of which the plate is the most"),
    (r"\bhalf as much\s+again\b", "1.5 times", "and half as much again"),
    (r"\b(is|are|stays?|leaves? (it|them)|left) as (it|they) (was|were)\b", "is unchanged",
     "The racks are as they were."),
    (r"\bprocessor time\b|\bseconds of (the )?processors?\b", "CPU time", "seconds of processor time"),
    (r"\b(takes?|taken) away\b", "removes", "when the plates are taken away"),
    (r"\bwithout a word\b", "silently, without a fault", "what it leaves out without a word"),
    (r"\b(lies|lie|lying)\b", "is, is stored, covers", "All pages lie in one file."),
    (r"\b(stands|standing)\b", "is, is stored", "What stands after it"),
    (r"\b(tells|telling)\b", "says, reports, names", "A line tells how many."),
    (r"\b(goes|go|gone) by\b", "uses, follows", "It goes by the definitions."),
    (r"\b(wants|is wanted|are wanted)\b", "needs", "It wants both plans."),
    (r"\bnot believed\b", "is shown by", "is shown, not believed, by two calls"),
    (r"(?<!what )(?<!ever )(?<!thing )\belse\b", "otherwise", "saves the copies that are else thrown away"),
    (r"\bby chance\b", "random, at random", "editions by chance"),
    (r"\bone's own\b", "custom", "A screen of one's own"),
)

# The folders whose files commands name, and what building or an example makes there, which isn't in git.
FOLDERS = "bench", "check", "crates", "docs", "examples", "package", "tools", ".ci"
MADE = (
    r"crates/plateroom/out/plateroom",
    r"package/out(/plateroom_[^/]*_amd64\.deb)?",
    r"examples/newspaper/(art|plates)(/.*)?",
)
# What package/deb.sh makes beside the documents.
MADE_INSTALLED = ("plateroom.spdx.json",)

FENCE = re.compile(r"^\s*(```|~~~)")
HEADING = re.compile(r"^(#+)\s+(.*?)\s*$")
LINK = re.compile(r"!?\[([^\]]*)\]\(([^)\s]*)\)")
# What is no prose: code spans, targets of links, and what a program said, which is quoted.
SPAN = re.compile(r"`[^`]*`")
TARGET = re.compile(r"(?<=\])\([^)\s]*\)")
QUOTED = re.compile(r"\"[^\"]*\"")
PATH = re.compile(r"(?<![\w.$/-])(?:\.\./)*((?:%s)/[\w./*-]*[\w*]|(?:%s)(?=[\s,.;:)`]))"
                  % ("|".join(map(re.escape, FOLDERS)), r"\.ci/run"))
# A path with these names no one file: a pattern, or a name for any.
HOLDER = re.compile(r"\*|/(NAME|CRATE)\b")
INSTALLED = re.compile(r"/usr/share/(doc/plateroom|plateroom)(?:/([\w./-]*[a-zA-Z0-9]))?")


def lines_of(path, top=TOP):
    with open(os.path.join(top, path), encoding="utf-8") as file:
        return file.read().split("\n")


def split(lines):
    """Each line as (number, line, is it code)."""
    within = False
    for number, line in enumerate(lines, 1):
        fence = FENCE.match(line)
        if fence:
            within = not within
        yield number, line, within or bool(fence) or line.startswith(("    ", "\t"))


def prose_of(text):
    """The text with its code spans, quotations and links' targets blanked, each character in its place."""
    for unread in SPAN, TARGET, QUOTED:
        text = unread.sub(lambda found: "`" * len(found[0]), text)
    return text


def paragraphs(lines):
    """Each paragraph as its lines' numbers, with the places at which they begin, and its text on one line."""
    starts, text = [], ""
    for number, line, code in [*split(lines), (0, "", False)]:
        if code or not line.strip() or line.lstrip().startswith("|") or HEADING.match(line):
            if text:
                yield starts, text
            starts, text = [], ""
        if not code and line.strip():
            starts.append((len(text), number))
            text += line.strip() + " "
            if HEADING.match(line) or line.lstrip().startswith("|"):
                yield starts, text
                starts, text = [], ""


def word_faults(path, lines):
    """A wording may be broken between two lines, so whole paragraphs are read."""
    for starts, text in paragraphs(lines):
        for pattern, instead, _ in WORDS:
            for found in re.finditer(pattern, prose_of(text), re.IGNORECASE):
                number = max(line for begin, line in starts if begin <= found.start())
                yield number, f"“{found[0]}”: write “{instead}”"


def head_faults(path, source):
    """The words of the head of a Python program, at their lines."""
    tree = ast.parse(source)
    if not ast.get_docstring(tree):
        return
    begin = tree.body[0].lineno
    for number, fault in word_faults(path, tree.body[0].value.value.split("\n")):
        yield begin + number - 1, fault


def width_faults(path, lines):
    """Rows of tables can't be broken, so they may be longer; not so in the front page."""
    for number, line, code in split(lines):
        if len(line) > WIDTH and (path == FRONT or not code and not line.lstrip().startswith("|")):
            yield number, f"{len(line)} columns, the most is {WIDTH}"
    if path == FRONT and len(lines) - 1 > FRONT_LINES:
        yield len(lines) - 1, f"{len(lines) - 1} lines, the most is {FRONT_LINES}"


def heading_faults(path, lines):
    for number, line, code in split(lines):
        if not code and HEADING.match(line) and "?" in line:
            yield number, "a heading is a noun or an imperative, not a question"


def fragments(lines):
    """The fragments by which the headings of a document are linked, as GitHub forms them."""
    taken = set()
    for _, line, code in split(lines):
        heading = None if code else HEADING.match(line)
        if heading:
            text = re.sub(r"[^\w\- ]", "", LINK.sub(lambda link: link[1], heading[2]).replace("`", ""))
            name, again = text.lower().replace(" ", "-"), 0
            while name + (f"-{again}" if again else "") in taken:
                again += 1
            taken.add(name + (f"-{again}" if again else ""))
    return taken


def link_faults(path, lines, top=TOP):
    for number, line, code in split(lines):
        for link in () if code else LINK.finditer(SPAN.sub("`", line)):
            target, _, fragment = link[2].partition("#")
            if ":" in target:
                continue
            full = os.path.normpath(os.path.join(top, os.path.dirname(path), target)) if target else None
            if full and not os.path.exists(full):
                yield number, f"the link {link[2]} leads nowhere"
            elif fragment and fragment not in fragments(lines if not full else lines_of(full)):
                yield number, f"the link {link[2]} leads to no heading"


def command_faults(path, lines, package):
    """Files of the repository, and files of the installed package, that a line names and that don't exist."""
    for number, line, _ in split(lines):
        for named in PATH.finditer(line):
            name = named[1]
            known = any(re.fullmatch(made, name) for made in MADE)
            if not known and not HOLDER.search(name) and not os.path.exists(os.path.join(TOP, name)):
                yield number, f"there is no file {name}"
        for place, name in INSTALLED.findall(line):
            folder = package if place.startswith("doc") else TOP
            if name and name not in MADE_INSTALLED and not os.path.exists(os.path.join(folder, name)):
                yield number, f"the package has no file /usr/share/{place}/{name}"


# Each rule, lines of a document in which it must find one fault, and lines in which it must find none.
SAMPLES = (
    ("words", word_faults, ["It takes half as", "much again."],
     ["```", "by the clock", "```", "`lies`", '"It', 'lies"']),
    ("width", width_faults, ["a" * 101], ["| " + "a" * 101, "a" * 100, "```", "a" * 101, "```"]),
    ("heading", heading_faults, ["## Is it right?"], ["## Verifying plates", "Is it right?"]),
    ("link", link_faults, ["[it](no-such-file.md)"], ["[it](README.md)", "`[it](no-such-file.md)`"]),
    ("fragment", link_faults, ["# One", "[it](#two)"], ["# One two", "[it](#one-two)"]),
    ("command", lambda path, lines: command_faults(path, lines, TOP), ["`check/no_such_file.py`"],
     ["`check/prose.py`", "`crates/plateroom/out/plateroom`", "../check/prose.py"]),
    ("head", lambda path, lines: head_faults(path, "\n".join(lines)), ['"""What', 'lies here."""'],
     ["x = 1", '"""Plates."""', '# lies', 'y = "lies"']),
)


def try_rules(count):
    """Each rule finds what it is for: a check that finds nothing would pass whatever the documents say."""
    own = "check/prose.py"
    for number, (pattern, instead, sample) in enumerate(WORDS, 1):
        found = re.search(pattern, prose_of(sample), re.IGNORECASE)
        count.rule(own, [] if found else [(number, f"the rule on “{instead}” misses “{sample}”")])
        again = re.search(pattern, prose_of(f"`{sample}`"), re.IGNORECASE)
        count.rule(own, [(number, f"the rule on “{instead}” finds a code span")] if again else [])
    for number, (name, rule, wrong, right) in enumerate(SAMPLES, 1):
        found, spared = list(rule("sample.md", wrong)), list(rule("sample.md", right))
        wanted = len(found) == 1
        count.rule(own, [] if wanted else [(number, f"the rule {name} finds {len(found)} faults, not one")])
        count.rule(own, [(number, f"the rule {name} finds {spared}")] if spared else [])


def documents():
    """The program that lays out the documents of the package."""
    spec = importlib.util.spec_from_file_location("documents", os.path.join(TOP, "package", "documents.py"))
    module = importlib.util.module_from_spec(spec)
    spec.loader.exec_module(module)
    return module


def main():
    count, layout = Count(), documents()
    tracked = layout.tracked()
    held = [os.path.relpath(os.path.abspath(path), TOP) for path in sys.argv[1:]]
    for pattern in () if held else HELD:
        found = fnmatch.filter(tracked, pattern)
        count.rule("check/prose.py", [] if found else [(1, f"HELD names no file by {pattern}")])
    held = held or [path for pattern in HELD for path in fnmatch.filter(tracked, pattern)]
    try_rules(count)
    with tempfile.TemporaryDirectory() as package:
        for place in layout.copy(tracked, package):
            if place.endswith(".md"):
                lines = lines_of(place, package)
                count.rule(f"package: {place}", link_faults(place, lines, package))
        for path in tracked:
            if path.endswith(".md") and os.path.exists(os.path.join(TOP, path)):
                count.rule(path, link_faults(path, lines_of(path)))
        for path in held:
            lines = lines_of(path)
            for rule in word_faults, width_faults, heading_faults:
                count.rule(path, rule(path, lines))
            count.rule(path, command_faults(path, lines, package))
    for path in (path for pattern in PROGRAMS for path in fnmatch.filter(tracked, pattern)):
        if os.path.exists(os.path.join(TOP, path)):
            count.rule(path, head_faults(path, "\n".join(lines_of(path))))
    return count.end()


if __name__ == "__main__":
    sys.exit(main())
