#!/usr/bin/env python3
"""Tests the Debian package of the last commit: that two builds are the same, and that all its parts agree.

    check/release.py PROGRAM

The package is made twice, in two clones whose path, times of files, umask, locale, time zone and threads
differ. Then one is unpacked, not installed (check/package.py installs it). It needs git, dpkg-deb, scdoc,
strip, objcopy and Debian's python3, and reports which are missing. It leaves out what needs man, lintian or
bash-completion where they are missing. The last line is `N passed, M failed`, and the status is 1 if one
failed.
"""
import glob
import gzip
import hashlib
import json
import os
import re
import shutil
import subprocess
import sys
import tempfile

sys.dont_write_bytecode = True
from trial import Trial

TOP = os.path.abspath(os.path.join(os.path.dirname(os.path.abspath(__file__)), ".."))
NEEDED = "git", "dpkg-deb", "scdoc", "strip", "objcopy", "/usr/bin/python3"
COMPLETION = "/usr/share/bash-completion/bash_completion"
DOCS = "usr/share/doc/plateroom"
PAGES = "man1/plateroom.1", "man1/pressroom.1", "man5/plateroom-plan.5"
KINDS = "missing", "kind", "range", "unknown", "repeat"

# Where the second build differs from the first.
SECOND = {"TZ": "Pacific/Kiritimati", "LC_ALL": "C.UTF-8", "LANG": "nb_NO.UTF-8", "DPKG_DEB_THREADS_MAX": "1",
          "SOURCE_DATE_EPOCH": "1", "COLUMNS": "40", "GZIP": "", "HOME": "/nonexistent"}


def text_of(path):
    with open(path, encoding="utf-8") as file:
        return file.read()


def said(*words, **how):
    """The standard output of a program, which must succeed."""
    return subprocess.run(words, check=True, capture_output=True, text=True, **how).stdout


def built(commit, folder, program, old=False, **how):
    """The package that a commit makes, in a clone in this folder."""
    said("git", "clone", "-q", "--no-hardlinks", TOP, folder)
    said("git", "-C", folder, "checkout", "-q", commit)
    if old:
        said("find", folder, "-name", ".git", "-prune", "-o", "-exec", "touch", "-d", "2001-02-03", "{}", "+")
    made = said(os.path.join(folder, "package", "deb.sh"), program, cwd="/", **how).strip()
    return os.path.join(folder, made)


def version_in(changelog):
    """The version that a changelog's text begins with."""
    return re.search(r"^## \[(\d[^\]]*)\]", changelog, re.MULTILINE)[1]


def sum_of(path, kind="sha256"):
    with open(path, "rb") as file:
        return hashlib.file_digest(file, kind).hexdigest()


def files_below(root):
    return sorted(os.path.join(folder, name) for folder, _, names in os.walk(root) for name in names)


def loaded(path, folder):
    """The parts of a program that are loaded into memory, without symbols and notes for people."""
    image = os.path.join(folder, "image")
    said("objcopy", "-O", "binary", path, image)
    return sum_of(image)


# Versions.


def try_versions(trial, root, control, version):
    shown = said("/usr/bin/python3", "-B", os.path.join(root, "usr/bin/pressroom"), "--version", cwd="/")
    trial.holds("pressroom --version", shown != f"pressroom {version}\n" and f"it says {shown!r}")
    named = re.search(r"^Version: (.*)$", control, re.MULTILINE)[1]
    trial.holds("the package's version", named != f"{version}-1" and f"it is {named}")
    for page in PAGES:
        with gzip.open(os.path.join(root, "usr/share/man", f"{page}.gz"), "rt") as file:
            fault = f"plateroom {version}" not in file.read() and f"it isn't {version}"
        trial.holds(f"the version of {page}", fault)
    shown = set(re.findall(r"plateroom_([\d.]+)_amd64", text_of(os.path.join(TOP, "README.md"))))
    trial.holds("the version in README.md", shown != {version} and f"it is {shown}")
    with gzip.open(os.path.join(root, DOCS, "changelog.Debian.gz"), "rt") as file:
        first = file.readline()
    fault = not first.startswith(f"plateroom ({version}-1) ") and f"it begins {first!r}"
    trial.holds("changelog.Debian", fault)


# What the package needs and holds.


def try_needs(trial, control):
    """The package names each Debian package that a command of pressroom asks its user to install."""
    fields = re.findall(r"^(?:Depends|Recommends|Suggests): (.*)$", control, re.MULTILINE)
    named = set(re.findall(r"[\w.+-]+", " ".join(fields)))
    folder = os.path.join(TOP, "tools", "pressroom")
    table = text_of(os.path.join(folder, "base", "console.py"))
    told = set(re.findall(r'^    "[\w-]+": "([\w.+-]+)",$', table, re.MULTILINE))
    for path in glob.glob(os.path.join(folder, "**", "*.py"), recursive=True):
        told |= set(re.findall(r"apt-get install ([a-z][\w.+-]*)", text_of(path)))
    for name in sorted(told - {"util-linux"}):
        trial.holds(f"the package {name}", name not in named and "package/control doesn't name it")


def try_files(trial, root, program, folder):
    same = loaded(os.path.join(root, "usr/bin/plateroom"), folder) == loaded(program, folder)
    trial.holds("the program is the one that was built", not same and "it differs")
    for path in files_below(root):
        place = os.path.relpath(path, root)
        if os.path.islink(path):
            there = os.path.realpath(path)
            right = there.startswith(os.path.realpath(root)) and os.path.exists(there)
            trial.holds(place, not right and "the link leads nowhere")
            continue
        with open(path, "rb") as file:
            front = file.read(64).partition(b"\n")[0]
        if front.startswith(b"#!") and place.endswith((".py", ".sh")):
            right = os.access(path, os.X_OK) and b"env" not in front
            trial.holds(place, not right and f"it can't be run, or begins {front!r}")
    for name in "postinst", "prerm", "postrm":
        path = os.path.join(TOP, "package", name)
        asked = subprocess.run(["sh", "-n", path], capture_output=True, text=True)
        trial.holds(name, asked.returncode and asked.stderr)
    for path in said("git", "-C", TOP, "ls-tree", "-r", "-z", "--name-only", "HEAD", "tools").split("\0"):
        # Tests are for a clone, and so is the folder for its path.
        if path.startswith(("tools/tests/", "tools/bin/")):
            continue
        there = os.path.exists(os.path.join(root, "usr/share/plateroom", path))
        trial.holds(path, not there and not path.endswith(".gitignore") and "the package hasn't it")


# Man pages.


def numbers_of(rule):
    """The bounds that a rule of the schema states."""
    items = rule.get("items", [])
    rules = [rule, *(items if isinstance(items, list) else [])]
    names = "minimum", "maximum"
    found = [one[name] for one in rules for name in names if name in one]
    # Of lists of numbers the page shows each item.
    if "$ref" in items:
        found += [rule[name] for name in ("minItems", "maxItems") if name in rule]
    return found


def states(text, rule):
    """Whether a text has all bounds of a rule."""
    return all(re.search(rf"(?<![\d.]){number}\b", text) for number in numbers_of(rule))


def try_plan_page(trial):
    """Each key of the schema is in the page, with its bounds, and as required where it is."""
    page = text_of(os.path.join(TOP, "docs", "plateroom-plan.5.scd"))
    schema = json.loads(text_of(os.path.join(TOP, "docs", "plan.schema.json")))
    entries = re.findall(r"^(\*.+\*)\n((?:\t.*\n)+)", page, re.MULTILINE)
    for name, part in [("plan", schema), *schema["definitions"].items()]:
        for key, rule in part.get("properties", {}).items():
            # What a zone replaces is described with the key *replace*.
            term = "replace" if name == "replace" else key
            fits = any(states(text, rule) and ("equired" in text) == (key in part["required"])
                       for keys, text in entries if f"*{term}*" in keys.split(", "))
            trial.holds(f"plateroom-plan(5) on {key} of {name}", not fits and "it isn't as in the schema")
    for kind in KINDS:
        trial.holds(f"plateroom-plan(5) on {kind}", f"\n*{kind}*\n" not in page and "it isn't there")


def try_pages(trial, root, commands):
    with gzip.open(os.path.join(root, "usr/share/man/man1/pressroom.1.gz"), "rt") as file:
        page = file.read()
    source = text_of(os.path.join(TOP, "docs", "pressroom.1.scd"))
    unknown = set(re.findall(r"^pressroom ([a-z]+)", source, re.MULTILINE)) - set(commands)
    trial.holds("pressroom(1): examples", unknown and f"no commands: {unknown}")
    for name in commands:
        trial.holds(f"pressroom(1) on {name}", f"pressroom-{name}" not in page.replace("\\-", "-") and "it isn't named")
        with gzip.open(os.path.join(root, f"usr/share/man/man1/pressroom-{name}.1.gz"), "rt") as file:
            own = file.read().replace("\\-", "-")
        told = said(os.path.join(root, "usr/bin/pressroom"), name, "--help")
        lacks = [word for word in set(re.findall(r"(?<![\w-])--[a-z][a-z-]*", told)) if word not in own]
        trial.holds(f"pressroom-{name}(1)", lacks and f"it lacks {lacks}")
    for name in PAGES if shutil.which("man") else ():
        path = os.path.join(root, "usr/share/man", f"{name}.gz")
        asked = "man", "--warnings", "-E", "UTF-8", "-l", "-Tutf8", "-Z", path
        seen = subprocess.run(asked, capture_output=True, text=True,
                              env=os.environ | {"LC_ALL": "C.UTF-8", "MANROFFSEQ": ""})
        trial.holds(f"{name} in man", (seen.stderr or seen.returncode) and f"{seen.returncode} {seen.stderr}")


# Completion.


def completed(root, *words):
    """What Tab offers after these arguments, of which the last may be incomplete."""
    script = f"""
        . {COMPLETION}
        . "{root}/usr/share/bash-completion/completions/$1"
        COMP_WORDS=("{root}/usr/bin/$1" "${{@:2}}") COMP_CWORD=$(($# - 1))
        COMP_LINE="${{COMP_WORDS[*]}}" COMP_POINT=${{#COMP_LINE}}
        _"$1" "{root}/usr/bin/$1"
        printf '%s\\n' "${{COMPREPLY[@]}}"
    """
    return said("bash", "-c", script, "bash", *words, cwd=os.path.join(TOP, "examples")).split()


def try_completion(trial, root, commands):
    def offers(wanted, *words):
        got = completed(root, *words)
        fault = set(got) != set(wanted) and f"{got} and not {sorted(wanted)}"
        trial.holds(f"Tab after {' '.join(words)!r}", fault)

    page = text_of(os.path.join(TOP, "docs", "plateroom.1.scd"))
    offers(set(re.findall(r"^\*plateroom (\w+)\*", page, re.MULTILINE)), "plateroom", "")
    offers(["edition.json", "newspaper", "queue", "tiles"], "plateroom", "run", "")
    offers(["newspaper", "queue", "tiles"], "plateroom", "replate", "a.json", "art", "b.json", "")
    offers(["ramp.tif"], "plateroom", "one", "ra")
    offers([], "plateroom", "keys", "a.json", "art", "out", "")
    offers([*commands, "help"], "pressroom", "")
    offers(commands, "pressroom", "help", "")
    offers(["section", "site", "both"], "pressroom", "parts", "--by", "")
    pressroom = os.path.join(root, "usr/bin/pressroom")
    for name in commands:
        told = said(pressroom, name, "--help", env=os.environ | {"COLUMNS": "400"})
        offers(set(re.findall(r"(?<![\w-])--[a-z][a-z-]*", told.partition("\n\n")[0])) | {"--help"},
               "pressroom", name, "--")


# The SPDX file.


def try_sbom(trial, root, version):
    path = os.path.join(root, DOCS, "plateroom.spdx.json")
    told = json.loads(text_of(path))
    heads = {"spdxVersion": "SPDX-2.3", "dataLicense": "CC0-1.0", "SPDXID": "SPDXRef-DOCUMENT",
             "name": f"plateroom-{version}"}
    for key, value in heads.items():
        trial.holds(f"SPDX: {key}", told[key] != value and f"it is {told[key]}")
    elements = [*told["packages"], *told["files"]]
    names = [told["SPDXID"], *(element["SPDXID"] for element in elements)]
    trial.holds("SPDX: identifiers", (len(set(names)) != len(names)) and "one comes twice")
    wrong = [name for name in names if not re.fullmatch(r"SPDXRef-[A-Za-z0-9.-]+", name)]
    trial.holds("SPDX: form of identifiers", wrong)
    lost = [item for item in told["relationships"]
            if item["spdxElementId"] not in names or item["relatedSpdxElement"] not in names]
    trial.holds("SPDX: ends of relations", lost)
    try_sums(trial, root, path, told)
    linked = {item["relatedSpdxElement"] for item in told["relationships"]
              if item["relationshipType"] == "STATIC_LINK"}
    kit = {element["name"] for element in told["packages"] if element["SPDXID"] in linked}
    used = {word for line in text_of(os.path.join(TOP, "crates.txt")).splitlines() if not line.startswith("#")
            for word in re.split(r"[:\s]+", line) if "=" not in word}
    tests = {word for word in used
             if word.endswith("_tests") or word in ("replate_law", "test_room", "worked_files")}
    trial.holds("SPDX: crates", {word for word in used - tests if word} - kit)


def try_sums(trial, root, path, told):
    """Each file of the package is listed, by its sums; and the package's code is that of all of them."""
    listed = {os.path.normpath(os.path.join(root, item["fileName"])): item["checksums"]
              for item in told["files"]}
    there = {name for name in files_below(root) if not os.path.islink(name) and name != path}
    trial.holds("SPDX: files", there ^ set(listed))
    for name in sorted(there & set(listed)):
        wrong = [sum_["algorithm"] for sum_ in listed[name]
                 if sum_of(name, sum_["algorithm"].lower()) != sum_["checksumValue"]]
        trial.holds(f"SPDX: sums of {os.path.relpath(name, root)}", wrong)
    code = hashlib.sha1("".join(sorted(sum_of(name, "sha1") for name in there)).encode()).hexdigest()
    own = told["packages"][0]["packageVerificationCode"]["packageVerificationCodeValue"]
    trial.holds("SPDX: verification code", own != code and f"{own} and not {code}")


def try_twice(trial, folder):
    """The package, made in two ways, and whether both are the same; None if it can't be made."""
    second = os.path.join(folder, "a second place", "of another length")
    try:
        commit = said("git", "-C", TOP, "rev-parse", "HEAD").strip()
        one = built(commit, os.path.join(folder, "one"), trial.program)
        other = built(commit, second, trial.program, old=True, env=os.environ | SECOND, umask=0o077)
    except subprocess.CalledProcessError as error:
        trial.holds("package/deb.sh", f"status {error.returncode}: {error.stderr}")
        return None
    trial.holds("two builds", sum_of(one) != sum_of(other) and f"{sum_of(one)} and {sum_of(other)}")
    print(f"{os.path.basename(one)}: sha256 {sum_of(one)}", flush=True)
    return one


def try_lintian(trial, deb):
    asked = "lintian", "--allow-root", "--fail-on", "error,warning", deb
    seen = subprocess.run(asked, capture_output=True, text=True)
    trial.holds("lintian", seen.returncode and seen.stdout + seen.stderr)


def try_held(trial, deb, folder, version):
    """The files of the package, and its own statements."""
    root = os.path.join(folder, "root")
    said("dpkg-deb", "-x", deb, root)
    control = said("dpkg-deb", "-f", deb)
    front = said("/usr/bin/python3", "-B", os.path.join(root, "usr/bin/pressroom"), "--help")
    commands = re.findall(r"^  ([a-z]+)  ", front, re.MULTILINE)
    try_versions(trial, root, control, version)
    try_needs(trial, control)
    try_files(trial, root, trial.program, folder)
    trial.part("versions and files")
    try_plan_page(trial)
    try_pages(trial, root, commands)
    trial.part("man pages")
    if os.path.exists(COMPLETION):
        try_completion(trial, root, commands)
        trial.part("completion")
    try_sbom(trial, root, version)
    trial.part("SPDX")
    if shutil.which("lintian"):
        try_lintian(trial, deb)
        trial.part("lintian")


def main():
    if len(sys.argv) != 2:
        print("usage: check/release.py PROGRAM", file=sys.stderr)
        return 2
    missing = [name for name in NEEDED if shutil.which(name) is None]
    if missing or not os.path.exists(os.path.join(TOP, ".git")):
        print(f"no package was made, since not installed: {', '.join(missing)}" if missing
              else "no package was made: this is no clone of git")
        return 0
    trial = Trial(sys.argv[1])
    with tempfile.TemporaryDirectory(prefix="plateroom-release-") as folder:
        deb = try_twice(trial, folder)
        trial.part("two builds")
        if deb:
            try_held(trial, deb, folder, version_in(text_of(os.path.join(TOP, "CHANGELOG.md"))))
    left_out = [name for name in ("man", "lintian") if shutil.which(name) is None]
    left_out += [] if os.path.exists(COMPLETION) else ["bash-completion"]
    if left_out:
        print(f"left out, since not installed: {', '.join(left_out)}")
    return trial.end()


if __name__ == "__main__":
    sys.exit(main())
