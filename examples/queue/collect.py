#!/usr/bin/env python3
"""Joins what the parts of an edition said into one report in the form of `run`'s, and names each part that failed.

usage: collect.py PLAN PARTS [late]

PARTS is the folder of the parts' plans, whose file `list` has the lines of tools/parts.py. A line on standard error
names a part that failed. The status is the highest of a part; 137 is that of one from which nothing came. A site of
which a part says nothing, since it was refused or killed, has no line; the row at which a site left is one of its
part. With `late` the parts were made again by `replate`, and what each said is printed as it is.
"""
import json
import os
import sys


def heard(name, plan):
    """The status of a part, and what it said since its plan is this one."""
    for ending in ("report", "failed"):
        path = f"{name}.{ending}"
        if os.path.exists(path) and os.stat(path).st_mtime_ns >= os.stat(plan).st_mtime_ns:
            with open(path, encoding="utf-8", errors="replace") as file:
                lines = file.read().splitlines()
            return (0, lines) if ending == "report" else (int(lines[0]), lines[1:])
    return 137, ["nothing came of it"]


def joined(ends):
    """How a site ended, by how it ended in each part."""
    plates = sum(int(end.split()[2]) for end in ends)
    left = [end.split(" ", 3)[3] for end in ends if end.startswith("left ")]
    if left:
        return f"left plates {plates} {left[0]}"
    return f"finished plates {plates} rows {sum(int(end.split()[4]) for end in ends)}"


def main():
    plan, folder, *late = sys.argv[1:]
    worst, rows, ends = 0, 0, {}
    with open(os.path.join(folder, "list"), encoding="utf-8") as file:
        parts = [line.split() for line in file]
    for _, name, _, sections, _, sites, _, _, _, its_rows, _, _ in parts:
        text = os.path.join(folder, name)
        status, lines = heard(".".join([text.removesuffix(".json"), *late]), text)
        told = {line.split()[1]: line.split(" ", 2)[2] for line in lines if line.startswith("site ")}
        for site in sites.split(","):
            ends.setdefault(site, []).append(told.get(site))
        if status:
            left = [site for site in told if told[site].startswith("left ")]
            why = [line for line in lines if line.split()[0] not in ("site", "total") or line.split()[1] in left]
            whose = f"sections {sections} sites {','.join(left) or sites}"
            print(f"failed: {whose} status {status}: {'; '.join(why)}", file=sys.stderr)
        if late:
            print(*lines, sep="\n")
        worst, rows = max(worst, status), rows + int(its_rows)
    if not late:
        with open(plan, encoding="utf-8") as file:
            sites = [site["name"] for site in json.load(file)["sites"]]
        for site in sites:
            if None not in ends[site]:
                print(f"site {site} {joined(ends[site])}")
        print(f"total rows {rows} sites {len(sites)}")
    return worst


if __name__ == "__main__":
    sys.exit(main())
