#!/usr/bin/env python3
"""Tests the wrong bodies of check/wrong-bodies: the prover must refuse each.

usage: check/wrong_bodies.py [--jobs N] [--clone FOLDER] [CRATE ..]

They have the form of the gate's own, crates/NAME/must-fail/*.edit, and are kept apart from these so that the
gate takes less time. Without CRATE those of all crates are tested, N crates at a time (as many as there are
processors, with at most two gigabytes of memory for each). The test works on the committed files, in a clone
for each crate at a time, since no crate can be checked while one below it has a wrong body. The clones, of up
to two gigabytes each, are made in FOLDER and kept, so that a second test finds the libraries proved; without
FOLDER they are in a temporary folder. A new clone gets the libraries that this repository built.

A function is proved from the contracts of what it calls, whatever their bodies are. So those wrong bodies of a
crate that change different functions are tried together, in one check: each is refused if the check says so of
the function that it changes. One of which nothing is said there is tried alone, by `rt must-fail`.

It prints a line for each wrong body: where it was refused. "Refused at a clause" means a clause of the
function that it changes, or the condition of a call that this function makes. The others are listed in a
table at the end.

status: 0 each is refused; 1 one isn't, or can't be applied; 2 the arguments are wrong, or the test couldn't
be made
"""
import argparse
import collections
import concurrent.futures
import os
import queue
import re
import shutil
import subprocess
import sys
import tempfile

TOP = os.path.normpath(os.path.join(os.path.dirname(os.path.abspath(__file__)), ".."))
BODIES = os.path.join("check", "wrong-bodies")
ANSWERED = re.compile(r"rt: must-fail \w+/([\w.-]+)\.edit: (.*)")
PLACE = re.compile(r"(?:\./)?(\S+?):(\d+):\d+:")
FUNCTION = re.compile(r"^\s*(?:pub(?:\([\w: ]+\))? )?(?:const )?fn (\w+)")

CLAUSE, CALL, INVARIANT, ELSEWHERE = "a clause", "a call's condition", "an invariant", "elsewhere"


def wrong_bodies(crate):
    """The names of the crate's wrong bodies, without their ending, in order."""
    folder = os.path.join(TOP, BODIES, crate)
    return sorted(name.removesuffix(".edit") for name in os.listdir(folder) if name.endswith(".edit"))


def heads_of(text):
    """The functions of a source text in order: the first line of each, with what stands before it up to the end of
    the item before (the prover's places are those of a function's attributes), and its name."""
    lines, heads = text.split("\n"), []
    for number, line in enumerate(lines, 1):
        found = FUNCTION.match(line)
        if found:
            while number > 1 and lines[number - 2].strip() and lines[number - 2][-1] not in "{};":
                number -= 1
            heads.append((number, found[1]))
    return heads


def function_at(path, line):
    """The function at or before this line of a source file."""
    return next((name for number, name in reversed(heads_of(text_of(path))) if number <= line), "")


def parts_of(edit):
    """The changes of a wrong body: of each the file, the old text and the new one."""
    parts, path, before = [], "", ""
    with open(edit, encoding="utf-8") as file:
        for line in file.read().split("\n"):
            if line.startswith("file: "):
                path = line.removeprefix("file: ").strip()
            elif line.startswith("old: "):
                before = line.removeprefix("old: ")
            elif line.startswith("new:"):
                parts.append((path, before, line.removeprefix("new:").removeprefix(" ")))
    return parts


def text_of(path):
    with open(path, encoding="utf-8") as file:
        return file.read()


def changed_functions(edit, crate_folder):
    """The functions of src/ whose text a wrong body changes; "" means a constant, which any function may read."""
    found = set()
    for path, old, _ in parts_of(edit):
        if path.startswith("src/"):
            source = os.path.join(crate_folder, path)
            found.add(function_at(source, text_of(source).partition(old)[0].count("\n") + 1))
    return found


def function_span(text, line):
    """The lines from the function at or before this line to the next one, or none if there is no function."""
    heads = [number for number, _ in heads_of(text)] + [text.count("\n") + 2]
    begun = [number for number in heads[:-1] if number <= line]
    return (begun[-1], heads[len(begun)]) if begun else None


def is_of_function(text, old):
    """Whether an old text stands in a function, and is neither a constant's nor a use's."""
    return old in text and not re.match(r"(pub )?(const|static|use|type) ", old) \
        and function_span(text, text.partition(old)[0].count("\n") + 1) is not None


def changed_spans(parts, texts):
    """Of each change, its file and the lines of its function in these texts."""
    return {(path, function_span(texts[path], texts[path].partition(new)[0].count("\n") + 1))
            for path, _, new in parts}


def together(crate, folder):
    """Groups of the crate's wrong bodies, each of which changes functions that no other one of its group changes."""
    left, groups = wrong_bodies(crate), []
    while left:
        group, used, texts = [], set(), {}
        for name in list(left):
            parts = parts_of(os.path.join(TOP, BODIES, crate, f"{name}.edit"))
            plain = {path: text_of(os.path.join(folder, path)) for path, _, _ in parts}
            if not all(path.startswith("src/") and is_of_function(plain[path], old) for path, old, _ in parts):
                left.remove(name)
                continue
            functions = {(path, function_span(plain[path], plain[path].partition(old)[0].count("\n") + 1))
                         for path, old, _ in parts}
            if functions & used:
                continue
            now = {path: texts.get(path, plain[path]) for path in plain}
            for path, old, new in parts:
                if now[path].count(old) != 1:
                    break
                now[path] = now[path].replace(old, new)
            else:
                texts.update(now)
                used |= functions
                group.append(name)
        groups.append((group, texts))
        left = [name for name in left if name not in group]
        if not group:
            break
    return [group for group in groups if len(group[0]) > 1]


def tried_together(clone, crate):
    """What a check says of each wrong body at a function that it changes, of those that are tried together."""
    folder, said = os.path.join(clone, "crates", crate), {}
    for names, texts in together(crate, folder):
        plain = {path: text_of(os.path.join(folder, path)) for path in texts}
        for path, text in texts.items():
            with open(os.path.join(folder, path), "w", encoding="utf-8") as file:
                file.write(text)
        ran = subprocess.run(["rt", "check", crate], cwd=clone, capture_output=True, text=True)
        for path, text in plain.items():
            with open(os.path.join(folder, path), "w", encoding="utf-8") as file:
                file.write(text)
        notes = [line for line in (ran.stdout + ran.stderr).split("\n") if "is not proved" in line and PLACE.search(line)]
        for name in names if ran.returncode else ():
            spans = changed_spans(parts_of(os.path.join(TOP, BODIES, crate, f"{name}.edit")), texts)
            for note in notes:
                place = PLACE.search(note)
                if any(path == place[1] and span[0] <= int(place[2]) < span[1] for path, span in spans):
                    said.setdefault(name, note)
    return said


def refused_at(said, crate_folder):
    """Function and kind of the place that the prover's first line names."""
    place = PLACE.search(said)
    if not place:
        return "", ELSEWHERE
    path, line = place[1], int(place[2])
    goal = re.search(r"`([a-z][\w-]*)`", said.partition("error:")[2] or said)
    goal = goal[1] if goal else ""
    if path.startswith("proofs/"):
        function = os.path.basename(os.path.dirname(path))
    else:
        function = function_at(os.path.join(crate_folder, path), line)
    if "what the function ensures" in said or goal.startswith("returns") or "-returns" in goal:
        return function, CLAUSE
    if "invariant" in said or goal.startswith("loop"):
        return function, INVARIANT
    if "requires" in said or "requires" in goal or "may be called" in said:
        return function, CALL
    return function, ELSEWHERE


def run_crate(clone, crate):
    """Tries the wrong bodies of one crate and returns, of each by name: whether it was refused, and what was said."""
    must_fail = os.path.join(clone, "crates", crate, "must-fail")
    shutil.rmtree(must_fail, ignore_errors=True)
    answers = {name: (True, f"refused, as it must be: {said}") for name, said in tried_together(clone, crate).items()}
    alone = [name for name in wrong_bodies(crate) if name not in answers]
    if not alone:
        return answers
    os.mkdir(must_fail)
    for name in alone:
        shutil.copy(os.path.join(TOP, BODIES, crate, f"{name}.edit"), must_fail)
    ran = subprocess.run(["rt", "must-fail", crate], cwd=clone, capture_output=True, text=True)
    said = dict(ANSWERED.findall(ran.stdout))
    missing = f"not tried: {(ran.stderr.strip() or ran.stdout.strip() or 'nothing was said').splitlines()[-1]}"
    for name in alone:
        text = said.get(name, missing)
        answers[name] = text.startswith("refused, as it must be"), text
    return answers


def classified(clone, crate, name, text):
    """Where a refused wrong body was refused: the kind of place, and the function."""
    folder = os.path.join(clone, "crates", crate)
    changed = changed_functions(os.path.join(TOP, BODIES, crate, f"{name}.edit"), folder)
    function, kind = refused_at(text.partition("refused, as it must be")[2], folder)
    return (kind if function in changed or "" in changed else ELSEWHERE), function


def made_clone(folder):
    """Makes a clone of what is committed in this folder, or brings the one that is there up to date, and returns the
    folder."""
    if os.path.isdir(os.path.join(folder, ".git")):
        subprocess.run(["git", "fetch", "-q", TOP, "HEAD"], cwd=folder, check=True)
        subprocess.run(["git", "checkout", "-q", "-f", "--detach", "FETCH_HEAD"], cwd=folder, check=True)
    else:
        subprocess.run(["git", "clone", "-q", TOP, folder], check=True)
        for crate in os.listdir(os.path.join(TOP, "crates")):
            built = os.path.join(TOP, "crates", crate, "out", "rlib")
            if os.path.isdir(built):
                shutil.copytree(built, os.path.join(folder, "crates", crate, "out", "rlib"), symlinks=True)
    return folder


def run_in_one_of(clones, crate):
    """Tries the wrong bodies of one crate in a clone that no other crate uses meanwhile. Returns the clone, and what
    `run_crate` does."""
    clone = clones.get()
    try:
        return clone, run_crate(clone, crate)
    finally:
        clones.put(clone)


def trial(folders, crates):
    """Tries all wrong bodies of these crates in these clones, and returns whether each was refused."""
    kinds, apart, well = collections.Counter(), [], True
    clones = queue.SimpleQueue()
    for folder in folders:
        clones.put(folder)
    with concurrent.futures.ThreadPoolExecutor(len(folders)) as pool:
        running = {pool.submit(run_in_one_of, clones, crate): crate for crate in crates}
        for done in concurrent.futures.as_completed(running):
            crate, (clone, answers) = running[done], done.result()
            for name, (refused, text) in answers.items():
                kind, function = classified(clone, crate, name, text) if refused else ("not refused", "")
                kinds[kind] += 1
                well = well and refused
                place = f"{kind} of {function}" if refused else text
                print(f"{crate}/{name}: {place}", flush=True)
                if kind not in (CLAUSE, CALL):
                    apart.append((crate, name, text.partition("refused, as it must be")[2].lstrip(": ") or text))
    print("\nRefused at " + ", ".join(f"{kind}: {count}" for kind, count in kinds.most_common()))
    for crate, name, text in sorted(apart):
        print(f"  {crate}/{name}: {text}")
    return well


def main():
    parser = argparse.ArgumentParser(description=__doc__, formatter_class=argparse.RawDescriptionHelpFormatter)
    parser.add_argument("crates", metavar="CRATE", nargs="*", help="the crates whose wrong bodies are tested (default: all)")
    parser.add_argument("--jobs", type=int, default=len(os.sched_getaffinity(0)), help="crates at a time")
    parser.add_argument("--clone", metavar="FOLDER", help="a folder for the clones, which are kept")
    words = parser.parse_args()
    known = sorted(os.listdir(os.path.join(TOP, BODIES)))
    unknown = [crate for crate in words.crates if crate not in known]
    if unknown or words.jobs < 1:
        parser.error(f"no wrong bodies of {unknown[0]}" if unknown else "--jobs counts from 1")
    if shutil.which("rt") is None:
        parser.error("rt isn't on the path")
    with tempfile.TemporaryDirectory(prefix="wrong-bodies-") as room:
        folder = os.path.abspath(words.clone) if words.clone else room
        crates = words.crates or known
        try:
            os.makedirs(folder, exist_ok=True)
            clones = [made_clone(os.path.join(folder, str(number))) for number in range(min(words.jobs, len(crates)))]
        except (subprocess.CalledProcessError, OSError) as error:
            parser.error(f"no clone in {folder}: {error}")
        return 0 if trial(clones, crates) else 1


if __name__ == "__main__":
    sys.exit(main())
