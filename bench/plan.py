"""Writes the largest valid plan, of 16,777,216 bytes, or reads a plan with Python's json module.

usage: plan.py make FILE | plan.py many FILE | plan.py read FILE
"""
import json
import resource
import sys
import time

SIZE, PAGES, LAYERS, SECTIONS, SECTION_PAGES, SITES = 16777216, 2048, 32, 8, 128, 16


def name(p):
    return f"PAGE_{p:04}_INNER"


def layer(p, l, padding):
    kind, paint = ("line", "overprint") if l % 2 else ("contone", "knockout")
    return (
        f'{{"kind":"{kind}","file":"pages/{p:04}/{l:02}{padding}.tif","x":{1000 + 31 * l},"y":{20000 + 17 * l},'
        f'"scale":{1 + l % 4},"crop":[10,20,{3000 + l},{4000 + p}],"mask":"pages/{p:04}/{l:02}-mask.tif",'
        f'"paint":"{paint}","ink":[{l},0,255,{p % 256},128]}}'
    )


def plan(padding):
    """The text of a plan whose layer number i, counted over all pages, has padding(i) letters in its file's name."""
    pages = ",".join(
        f'{{"name":"{name(p)}","inks":"CMYKS","layers":['
        + ",".join(layer(p, l, "a" * padding(LAYERS * p + l)) for l in range(LAYERS))
        + "]}"
        for p in range(PAGES)
    )
    sections = ",".join(
        f'{{"name":"S{s}","pages":['
        + ",".join(f'"{name(SECTION_PAGES * s + p)}"' for p in range(SECTION_PAGES))
        + "]}"
        for s in range(SECTIONS)
    )
    # Each zone replaces each page of each section, by another page than all other zones do.
    zones = ",".join(
        f'{{"name":"Z{z}","replace":['
        + ",".join(
            f'{{"section":"S{s}","page":{p + 1},"with":"{name((SECTION_PAGES * s + p + 17 * z) % PAGES)}"}}'
            for s in range(SECTIONS)
            for p in range(SECTION_PAGES)
        )
        + "]}"
        for z in range(SITES)
    )
    sites = ",".join(f'{{"name":"SITE{z}","zone":"Z{z}"}}' for z in range(SITES))
    return (
        f'{{"plan":2,"edition":"LARGEST","dpi":1200,"page":[32767,65535],"pages":[{pages}],'
        f'"sections":[{sections}],"zones":[{zones}],"sites":[{sites}]}}'
    )


def make(path):
    rest = SIZE - len(plan(lambda i: 0))
    each, more = divmod(rest, PAGES * LAYERS)
    text = plan(lambda i: each + (i < more))
    with open(path, "w") as file:
        file.write(text)


def many(path):
    """A list of numbers of one digit, which is no plan: no text of this length has more values."""
    with open(path, "w") as file:
        file.write("[" + "0," * ((SIZE - 3) // 2) + "0]")


def read(path):
    with open(path, "rb") as file:
        data = file.read()
    before = resource.getrusage(resource.RUSAGE_SELF).ru_maxrss
    start = time.process_time()
    value = json.loads(data)
    took = time.process_time() - start
    after = resource.getrusage(resource.RUSAGE_SELF).ru_maxrss
    print(f"json.loads {took * 1000:.0f} milliseconds, {len(value)} items, {after - before} KiB more than before, {after} KiB in all")


{"make": make, "many": many, "read": read}[sys.argv[1]](sys.argv[2])
