#!/usr/bin/env python3
"""Tests `pressroom web` in a real browser: compares what the screen shows with the bits of the plates.

    python3 check/web.py PROGRAM

Plates are read by check/tiff.py, which shares no code with the tools. It names what is missing of
Leaflet, numpy, Pillow, selenium, chromium and chromedriver, and skips the tests that need it. The last line
is `N passed, M failed`, and the status is 1 if one failed.
"""
import os
import shutil
import sys
import tempfile
import time

sys.dont_write_bytecode = True
import web_counts
import web_made
import web_shown
import web_tone
import web_trust
from browser import Page
from newspaper import missing
from trial import Count
from two_sites import earlier, edition, run
from web_plates import tool

LEAFLET = "/usr/share/javascript/leaflet/leaflet.min.js"


def lacking():
    """What the tests need and isn't installed."""
    found = [name for name in ("chromium", "chromedriver") if shutil.which(name) is None]
    found += [] if os.path.exists(LEAFLET) else ["libjs-leaflet"]
    library = missing("numpy", "PIL", "selenium")
    return found + ([library] if library else [])


def see_one(results, page, program, folder, plan, plates, out):
    """The proof of one edition."""
    for see, words in (
        (web_shown.see_index, ()),
        (web_shown.see_native, (plates,)),
        (web_tone.see_tone, (plates,)),
        (web_tone.see_means, (plates,)),
        (web_tone.see_enlarged, (plates,)),
        (web_shown.see_switches, (plates,)),
        (web_shown.see_moves, ()),
        (web_shown.see_pairs, ()),
        (web_shown.see_links, ()),
        (web_counts.see_measures, (plates,)),
        (web_shown.see_places, ()),
        (web_counts.see_keys, (program, folder, plan)),
        (web_counts.see_limit, (plates,)),
        (web_trust.see_harms, (out, folder, plates)),
        (web_trust.see_alone, (out, folder)),
        (web_trust.see_unfinished, (out, folder)),
    ):
        begun = time.monotonic()
        page.address = "file://" + os.path.join(out, "index.html")
        see(results, page, *words)
        print(f"{see.__name__}: {time.monotonic() - begun:.0f} s", flush=True)


def main():
    if len(sys.argv) != 2:
        sys.exit(__doc__.splitlines()[2].strip())
    results, lacks = Count(), lacking()
    if lacks:
        print(f"skipped: the proof in the browser ({', '.join(lacks)} isn't installed)")
        sys.exit(results.end())
    with tempfile.TemporaryDirectory(prefix="plateroom-web-") as folder:
        plan, plates = run(sys.argv[1], folder, "new", edition())
        _, old = run(sys.argv[1], folder, "old", earlier())
        out = web_made.see_tool(results, folder, plan, plates)
        web_made.see_refusals(results, folder, plan, plates, out)
        page = Page("file://" + os.path.join(out, "index.html"))
        try:
            see_one(results, page, sys.argv[1], folder, plan, plates, out)
            page.complaints()
            both = os.path.join(folder, "web-both")
            status, said, error = tool(plates, both, "--plan", plan, "--old", old, "--spot", "18,120,60")
            results.see(
                status == 0 and "3 of 4 views changed" in said, f"with --old: {status}, {said}{error}"
            )
            page.address = "file://" + os.path.join(both, "index.html")
            page.whole_window()
            web_counts.see_changes(results, page, plates, old)
            web_counts.see_differences(results, page, plates, old)
            web_made.see_damage(results, page, folder, plan, plates)
            web_made.see_server(results, page, out)
            complaints = page.complaints()
            results.see(not complaints, f"the browser complains: {complaints[:3]}")
        finally:
            page.driver.quit()
    sys.exit(results.end())


if __name__ == "__main__":
    main()
