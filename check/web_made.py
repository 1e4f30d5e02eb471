"""What `pressroom web` makes, shares and refuses, and what the page says of damaged plates."""
import functools
import http.server
import json
import os
import re
import shutil
import threading

from two_sites import plates_of
from web_plates import MIDDLES, composite, tool


def see_tool(results, folder, plan, plates):
    """What the command makes, shares and refuses."""
    out = os.path.join(folder, "web")
    with open(os.path.join(plates, "OSLO", "E1-A-009-K.tif.part"), "wb") as file:
        file.write(b"half a plate")
    status, said, error = tool(
        plates, out, "--plan", plan, "--spot", "18,120,60", "--keys", 8, "--keys", 5, "--jobs", 2
    )
    results.see((status, error) == (0, ""), f"web ends with {status}: {said}{error}")
    files = [
        os.path.join(at, name) for at, _, names in os.walk(plates) for name in names if name.endswith(".tif")
    ]
    contents = {open(path, "rb").read() for path in files}
    tiles = os.listdir(os.path.join(out, "plates"))
    results.see(
        len(tiles) == len(contents) < len(files), f"{len(tiles)} plates are cut, of {len(contents)} contents"
    )
    text = open(os.path.join(out, "proof.js"), encoding="ascii").read()
    results.see("A-009" not in text, "a .tif.part is read")
    results.see(
        os.path.getsize(os.path.join(out, "leaflet", "LICENCE.txt")) > 500, "Leaflet's licence isn't there"
    )
    outside = [
        line
        for name in os.listdir(out)
        if name.endswith((".html", ".js", ".css")) and name != "proof.js"
        for line in open(os.path.join(out, name), encoding="utf-8")
        if re.search(r"(src|href)=.?https?:|@import|url\(.?http", line)
    ]
    results.see(not outside, f"the page loads from outside: {outside}")
    return out


def see_refusals(results, folder, plan, plates, out):
    """Wrong arguments and failing programs leave OUT and its surroundings unchanged."""
    before = sorted(os.listdir(folder))
    kept = os.path.join(folder, "kept")
    os.mkdir(kept)
    open(os.path.join(kept, "letter.txt"), "w").close()
    empty = os.path.join(folder, "empty")
    os.mkdir(empty)
    for words, said in (
        ((plates, kept), "other than a proof"),
        ((plates, os.path.join(kept, "letter.txt")), "not a folder"),
        ((empty, out), "no plates"),
        ((os.path.join(folder, "away"), out), "No such file"),
        ((plates, out, "--old", empty), "no plates"),
        ((plates, out, "--plan", os.path.join(out, "page.js")), "not an edition plan"),
        ((plates, out, "--keys", 65), "1 to 64"),
        ((plates, out, "--house", os.path.join(out, "page.js")), "not TOML"),
    ):
        text = open(os.path.join(out, "proof.js"), encoding="ascii").read()
        status, _, error = tool(*words)
        results.see(status == 2 and said in error, f"web {words[1:]}: {status}, {error}")
        results.see(
            text == open(os.path.join(out, "proof.js"), encoding="ascii").read(), f"{said}: OUT was changed"
        )
    results.see(os.listdir(kept) == ["letter.txt"], "a folder that is no proof was changed")
    left = sorted(set(os.listdir(folder)) - set(before))
    results.see(left == ["empty", "kept"], f"runs that failed leave {left}")
    status, said, _ = tool(
        plates, out, "--plan", plan, "--spot", "18,120,60", "--keys", 8, "--keys", 5, "--json"
    )
    event = json.loads(said.splitlines()[-1])
    results.see(
        status == 0 and event["event"] == "done" and event["damaged"] == 0,
        f"an earlier proof isn't replaced: {said}",
    )


def see_damage(results, page, folder, plan, plates):
    """A damaged plate is named, and the others are shown."""
    hurt, out = os.path.join(folder, "hurt"), os.path.join(folder, "web-hurt")
    shutil.copytree(plates, hurt)
    path = os.path.join(hurt, "OSLO", "E1-A-001-M.tif")
    with open(path, "rb") as file:
        data = file.read()
    with open(path, "wb") as file:
        file.write(data[:8] + bytes([128]) * 3000 + data[3008:])
    with open(os.path.join(hurt, "OSLO", "E1-A-002-K.tif"), "r+b") as file:
        file.write(b"II*\0\0\0\0\0")
    status, _, said = tool(hurt, out, "--plan", plan, "--spot", "18,120,60", "--jobs", 2)
    faults = [line for line in said.splitlines() if line.startswith("fault: ")]
    results.see(status == 1 and len(faults) == 2, f"damaged plates: {status}, {said}")
    results.see(
        any(line.startswith(f"fault: {path}: strip ") for line in faults), f"the first isn't named: {faults}"
    )
    results.see(
        any("A-002-K.tif: begun and not finished" in line for line in faults),
        f"the second isn't named: {faults}",
    )
    page.address = "file://" + os.path.join(out, "index.html")
    page.open()
    lines = [line.text for line in page.driver.find_elements("css selector", "#damaged li")]
    results.see(len(lines) == 2 and any(path in line for line in lines), f"the page names {lines}")
    read, (x, y) = plates_of(os.path.join(plates, "OSLO"), "A-001"), MIDDLES[1]
    page.open(f"#pair=A-001&site=OSLO&x={x}&y={y}&z=0")
    part, picture = page.seen(x, y)
    wrong = int((picture != composite(read, "CYKS")[part]).any(axis=2).sum())
    results.see(
        wrong == 0 and not page.find("#switch-M").is_enabled(),
        f"with a damaged plate {wrong} pixels differ",
    )
    results.see(
        "Magenta is damaged" in page.find("#pair-damage").text,
        f"the pair says {page.find('#pair-damage').text!r}",
    )
    page.open(f"#pair=A-001&site=BERGEN&x={x}&y={y}&z=0")
    part, picture = page.seen(x, y)
    results.see((picture == composite(read, "CMYKS")[part]).all(), "the other site's plates aren't shown")
    page.driver.get("about:blank")
    page.driver.get(page.address + "#pair=A-002&site=OSLO")
    results.see("Black is damaged" in page.find("#pair-damage").text, "a pair without a plate says nothing")


def see_server(results, page, out):
    """A web server has each file that the page asks for."""
    asked = []

    class Handler(http.server.SimpleHTTPRequestHandler):
        def log_request(self, code="-", size="-"):
            asked.append((int(code), self.path))

    handler = functools.partial(Handler, directory=out)
    with http.server.ThreadingHTTPServer(("127.0.0.1", 0), handler) as server:
        threading.Thread(target=server.serve_forever, daemon=True).start()
        page.address = f"http://127.0.0.1:{server.server_port}/index.html"
        page.open()
        page.open("#pair=A-001&site=OSLO&show=keys")
        for key in "18":
            page.press(key)
            page.settle()
        server.shutdown()
    lost = [path for code, path in asked if code >= 400]
    results.see(not lost and len(asked) > 20, f"of {len(asked)} files these aren't there: {lost}")
