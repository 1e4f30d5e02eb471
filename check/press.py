"""What the tests of make, late and night share: the newspaper at a quarter of its size, a program that fails
on request, and what READY folders must hold.
"""
import hashlib
import json
import os
import shutil
import subprocess
import sys

TOP = os.path.join(os.path.dirname(os.path.abspath(__file__)), "..")
NEWSPAPER = os.path.join(TOP, "examples", "newspaper")
ENTRY = os.path.join(TOP, "tools", "pressroom.py")
PRESSES = {"north": ["TROMSO"], "south": ["OSLO", "BERGEN"]}
SITES = ["OSLO", "BERGEN", "TROMSO"]

# Replaces the program. The file `fault` says what fails in runs below OUT: a word, and how often.
STAND_IN = """#!/bin/sh
case "$1" in run | keys) out=$4 ;; replate) out=$6 ;; *) exec '{program}' "$@" ;; esac
read -r word times < '{folder}/fault'
case "$out" in /dev/null*) times=0 ;; esac
if [ "$times" -gt 0 ] && grep -q TROMSO "$2"; then
  echo "$word $((times - 1))" > '{folder}/fault'
  case "$word" in
    blocked) mkdir -p "$out" && echo > "$out/TROMSO" ;;
    killed) kill -9 $$ ;;
    spoiled)
      '{program}' "$@"
      status=$?
      printf x | dd of="$out/TROMSO/MORNING-A-001-K.tif" bs=1 seek=200 conv=notrunc status=none
      exit $status ;;
    sums)
      '{program}' "$@"
      status=$?
      mkdir "$out/TROMSO/SHA256SUMS"
      exit $status ;;
  esac
fi
exec '{program}' "$@"
"""


class Paper:
    """The newspaper's images, cut to a quarter of each side, as the plans of two presses."""

    def __init__(self, folder):
        self.folder, self.art = folder, os.path.join(folder, "art")
        self.known, text = {}, os.path.join(folder, "newspaper.json")
        make = [sys.executable, "-B", os.path.join(NEWSPAPER, "make.py"), "--art", self.art, "--plan", text]
        subprocess.run(make, check=True)
        with open(text, encoding="utf-8") as file:
            self.plan = json.load(file) | {"page": [960, 1360], "marks": []}

    def plans(self, edition):
        """The plans of an edition, one for each press."""
        for press, names in PRESSES.items():
            sites = [site for site in self.plan["sites"] if site["name"] in names]
            yield press, self.plan | {"edition": edition, "sites": sites}

    def work(self, folder, edition="MORNING", files=True):
        """A WORK folder: plans, and the files if asked for."""
        os.makedirs(os.path.join(folder, "files"))
        for press, plan in self.plans(edition):
            with open(os.path.join(folder, f"{press}.json"), "w", encoding="utf-8") as file:
                json.dump(plan, file)
        for name in os.listdir(self.art) if files else ():
            shutil.copy2(os.path.join(self.art, name), os.path.join(folder, "files", name))
        return folder

    def plates(self, program, work):
        """The plates of a WORK folder by the program alone, SITE/NAME to SHA-256."""
        paths = sorted(os.path.join(at, name) for at, _, names in os.walk(work) for name in names)
        key = tuple((os.path.relpath(path, work), digest(path)) for path in paths)
        if key not in self.known:
            out = os.path.join(self.folder, "reference")
            shutil.rmtree(out, ignore_errors=True)
            for press in PRESSES:
                words = ["run", os.path.join(work, f"{press}.json"), os.path.join(work, "files"), out]
                subprocess.run([program, *words], check=True, stdout=subprocess.DEVNULL)
            self.known[key] = sums_below(out)
        return self.known[key]


def sums_below(folder):
    """SITE/NAME of each plate below a folder of sites, to its SHA-256."""
    return {
        f"{site}/{name}": digest(os.path.join(folder, site, name))
        for site in SITES
        if os.path.isdir(os.path.join(folder, site))
        for name in os.listdir(os.path.join(folder, site))
        if name.endswith(".tif")
    }


def digest(path):
    with open(path, "rb") as file:
        return hashlib.file_digest(file, "sha256").hexdigest()


def stand_in(program, folder):
    """Writes the program that fails when the file `fault` of this folder says so."""
    path = os.path.join(folder, "plateroom")
    with open(path, "w", encoding="utf-8") as file:
        file.write(STAND_IN.format(program=program, folder=folder))
    os.chmod(path, 0o755)
    with open(os.path.join(folder, "fault"), "w", encoding="utf-8") as file:
        file.write("none 0\n")
    return path


def pressroom(program, *words, **environment):
    """Runs a command of pressroom to its end."""
    return subprocess.run(
        [sys.executable, "-B", ENTRY, *words],
        capture_output=True,
        text=True,
        env=os.environ | {"PLATEROOM": program} | environment,
    )


def sites_ready(version):
    """The sites with a file READY in a version's folder."""
    return [site for site in SITES if os.path.exists(os.path.join(version, site, "READY"))]


def faults_of_ready(version, wanted=None, sites=None):
    """What is wrong with the READY sites of a version: sums, missing or foreign plates, an early READY."""
    faults = []
    for site in sites_ready(version) if sites is None else sites:
        folder = os.path.join(version, site)
        if not os.path.exists(os.path.join(folder, "READY")):
            faults.append(f"{site} isn't READY")
            continue
        checked = subprocess.run(
            ["sha256sum", "--strict", "--quiet", "-c", "SHA256SUMS"],
            cwd=folder,
            text=True,
            capture_output=True,
        )
        if checked.returncode:
            faults.append(f"{site}: sha256sum says {checked.stdout + checked.stderr}")
        with open(os.path.join(folder, "SHA256SUMS"), encoding="utf-8") as file:
            named = dict(reversed(line.split()) for line in file)
        with open(os.path.join(folder, "READY"), encoding="utf-8") as file:
            ready = dict(line.split() for line in file if not line.startswith("made "))
        if int(ready["plates"]) != len(named) or ready["version"] != os.path.basename(
            os.path.realpath(version)
        ):
            faults.append(f"{site}: READY says {ready} of {len(named)} plates")
        right = {path: sha for path, sha in (wanted or {}).items() if path.startswith(f"{site}/")}
        if wanted is not None and {f"{site}/{name}": sha for name, sha in named.items()} != right:
            faults.append(f"{site}: other plates than the program makes")
    return "; ".join(faults)


def faults_of_verify(program, version):
    """What `verify` reports for the READY sites of a version, by its own plans and files."""
    source = os.path.join(version, "made-from")
    for name in sorted(os.listdir(source)):
        if not name.endswith(".json"):
            continue
        with open(os.path.join(source, name), encoding="utf-8") as file:
            plan = json.load(file)
        plan["sites"] = [site for site in plan["sites"] if site["name"] in sites_ready(version)]
        text = os.path.join(version, ".verify.json")
        with open(text, "w", encoding="utf-8") as file:
            json.dump(plan, file)
        if plan["sites"]:
            said = subprocess.run(
                [program, "verify", text, os.path.join(source, "files"), version],
                capture_output=True,
                text=True,
            )
            if not said.stdout.startswith("same plates "):
                return f"{version}, {name}: {said.stdout}{said.stderr}"
        os.remove(text)
    return ""
