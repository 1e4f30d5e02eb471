#!/usr/bin/env python3
"""Drives the board in Chromium over a night in which each state of a page and a pair is so: a real journal behind the
service's real sockets, without jobs (tools/tests/board/stage.py).

    check/board.py [PROGRAM]

PROGRAM isn't used: no plates are made. It skips and reports what isn't installed. The last line is `N passed, M failed`,
and the status is 1 if one failed.
"""
import http.client
import http.server
import importlib.util
import os
import shutil
import socket
import subprocess
import sys
import tempfile
import threading
import time

sys.dont_write_bytecode = True

import trial

TOOLS = os.path.join(os.path.dirname(os.path.abspath(__file__)), "..", "tools")
PYTHON = "/usr/bin/python3"
PAIR = "/edition/MORNING/pair/A-006"
SIZES = {390: 844, 1024: 800, 1440: 900}
SECONDS = 5.0
# The least contrast of each text with what is behind it (WCAG 2.1, 1.4.3), computed in the page.
CONTRAST = """
const parse = c => (c.match(/[\\d.]+/g) || []).map(Number);
const light = c => c.slice(0, 3).map(v => v / 255).map(v => v <= .03928 ? v / 12.92 : ((v + .055) / 1.055) ** 2.4)
  .reduce((sum, v, i) => sum + v * [.2126, .7152, .0722][i], 0);
const behind = e => { for (; e; e = e.parentElement) { const c = parse(getComputedStyle(e).backgroundColor);
  if (c.length === 3 || c[3] > 0) return c; } return [255, 255, 255]; };
let least = [99, ''], count = 0;
for (const e of document.querySelectorAll('body *')) {
  if (![...e.childNodes].some(n => n.nodeType === 3 && n.data.trim()) || !e.getClientRects().length) continue;
  if (e.closest('.hidden, .skip, svg')) continue;
  const [a, b] = [light(parse(getComputedStyle(e).color)), light(behind(e))];
  const ratio = (Math.max(a, b) + .05) / (Math.min(a, b) + .05);
  count++; if (ratio < least[0]) least = [ratio, e.textContent.trim().slice(0, 40)];
}
return [least[0], least[1], count];
"""


class Unix(http.client.HTTPConnection):
    """A connection to a UNIX socket."""

    def __init__(self, path):
        super().__init__("board", timeout=30)
        self.path = path

    def connect(self):
        self.sock = socket.socket(socket.AF_UNIX)
        self.sock.settimeout(30)
        self.sock.connect(self.path)


def proxy(path, user):
    """Starts a reverse proxy to the board's socket that names a user. Returns its address."""

    class Handler(http.server.BaseHTTPRequestHandler):
        def pass_on(self):
            size = int(self.headers.get("Content-Length") or 0)
            body = self.rfile.read(size) if size else None
            headers = {name: value for name, value in self.headers.items() if name.lower() != "connection"}
            board = Unix(path)
            try:
                board.request(self.command, self.path, body, headers | {"X-Forwarded-User": user})
                answer = board.getresponse()
                data = answer.read()
            except OSError:
                self.send_error(502)
                return
            self.send_response(answer.status)
            for name, value in answer.getheaders():
                if name.lower() not in ("connection", "content-length"):
                    self.send_header(name, value)
            self.send_header("Content-Length", str(len(data)))
            self.end_headers()
            self.wfile.write(data)

        do_GET = do_POST = pass_on

        def log_message(self, *words):
            pass

    server = http.server.ThreadingHTTPServer(("127.0.0.1", 0), Handler)
    threading.Thread(target=server.serve_forever, daemon=True).start()
    return f"http://127.0.0.1:{server.server_port}"


class Night:
    """The stage, the board at a socket with actions, and a browser."""

    def __init__(self, folder):
        self.folder, self.spool = folder, os.path.join(folder, "spool")
        self.environment = os.environ | {"PRESSROOM_RUN": "", "PYTHONDONTWRITEBYTECODE": "1"}
        self.stage = self.board = self.browser = None

    def begin(self):
        words = [PYTHON, "-B", os.path.join(TOOLS, "tests", "board", "stage.py"), self.spool]
        pipe = subprocess.PIPE
        self.stage = subprocess.Popen(words, stdin=pipe, stdout=pipe, text=True, env=self.environment)
        assert self.stage.stdout.readline() == "ready\n"

    def begin_board(self):
        path = os.path.join(self.folder, "board.sock")
        words = [PYTHON, "-B", os.path.join(TOOLS, "pressroom.py"), "board", self.spool, "--socket", path]
        self.board = subprocess.Popen([*words, "--actions"], env=self.environment, stdout=subprocess.DEVNULL)
        until(lambda: os.path.exists(path), 60)
        self.address = proxy(path, "eva")

    def happens(self, line):
        self.stage.stdin.write(line + "\n")
        self.stage.stdin.flush()
        assert self.stage.stdout.readline().startswith("done"), line

    def end(self):
        if self.browser is not None:
            self.browser.quit()
        for process in (self.board, self.stage):
            if process is not None:
                process.terminate()
                process.wait(30)


def until(so, seconds):
    """Waits until something is so. Returns whether it was within these seconds."""
    end = time.monotonic() + seconds
    while time.monotonic() < end:
        if so():
            return True
        time.sleep(0.1)
    return False


def driver():
    """Returns a Chromium without a window."""
    from selenium import webdriver
    from selenium.webdriver.chrome.service import Service

    options = webdriver.ChromeOptions()
    for word in ("--headless=new", "--no-sandbox", "--disable-gpu", "--disable-dev-shm-usage"):
        options.add_argument(word)
    options.set_capability("goog:loggingPrefs", {"browser": "ALL"})
    return webdriver.Chrome(options=options, service=Service(shutil.which("chromedriver")))


def see_sizes(tried, night):
    """At each size, light and dark: nothing scrolls sideways, each text has its contrast, and the log is empty."""
    browser = night.browser
    for width, height in SIZES.items():
        for scheme in ("light", "dark"):
            metrics = {"width": width, "height": height, "deviceScaleFactor": 1, "mobile": False}
            browser.execute_cdp_cmd("Emulation.setDeviceMetricsOverride", metrics)
            media = {"features": [{"name": "prefers-color-scheme", "value": scheme}]}
            browser.execute_cdp_cmd("Emulation.setEmulatedMedia", media)
            for path in ("/", PAIR):
                browser.get(night.address + path)
                what = f"{path} at {width}, {scheme}"
                wide = browser.execute_script("return document.documentElement.scrollWidth")
                tried.holds(f"{what}: no sideways scroll", "" if wide <= width else f"{wide} pixels")
                ratio, text, count = browser.execute_script(CONTRAST)
                right = ratio >= 4.5 and count > 20
                tried.holds(f"{what}: contrast", "" if right else f"{ratio:.2f} of {text!r}, {count} texts")
    tried.holds("the browser's log", browser.get_log("browser"))
    tried.part("sizes")


def words_of(night, name):
    """The class of a cell, or nothing."""
    script = "return document.getElementById(arguments[0])?.className || ''"
    return night.browser.execute_script(script, name)


def see_events(tried, night):
    """What happens is seen within five seconds, without losing focus, what is typed, or the place of the page."""
    browser = night.browser
    browser.get(night.address + "/")
    browser.execute_script("document.getElementById('MORNING-A07').focus()")
    for line, name, wanted in (
        ("page MORNING A01 hello", "MORNING-A01", "is-approval"),
        ("refuse MORNING A13 wrong", "MORNING-A13", "is-refused"),
        ("make MA4", "MORNING-A04", "is-arrived"),
        ("acks", "MORNING-A-003-OSLO", "is-acknowledged"),
    ):
        night.happens(line)
        seen = until(lambda: wanted in words_of(night, name), SECONDS)
        tried.holds(f"{line} is seen within {SECONDS:.0f} s", "" if seen else words_of(night, name))
    focus = browser.execute_script("return document.activeElement.id")
    tried.holds("the focus stays", "" if focus == "MORNING-A07" else focus)
    browser.get(night.address + PAIR)
    browser.execute_script("document.querySelector('[id^=word-]').value = 'wrong pict'")
    night.happens("page MORNING A11 third")
    seen = until(lambda: not browser.execute_script("return document.getElementById('newer').hidden"), SECONDS)
    tried.holds("a newer file is announced", "" if seen else "it isn't")
    typed = browser.execute_script("return document.querySelector('[id^=word-]').value")
    tried.holds("what is typed stays", "" if typed == "wrong pict" else typed)
    tried.part("events")


def see_actions(tried, night):
    """A form that is too old is refused, by mouse; approve by keyboard and hold change the journal."""
    from selenium.webdriver.common.by import By
    from selenium.webdriver.common.keys import Keys

    browser = night.browser
    browser.find_element(By.CSS_SELECTOR, "form[action='/act/approve'] button").click()
    told = browser.find_element(By.ID, "told").text
    right = "Not done" in told and "it isn't what you saw" in told and "You saw file 2" in told
    tried.holds("an approval of an older file is refused", "" if right else told)
    browser.get(night.address + PAIR)
    body = browser.find_element(By.TAG_NAME, "body")
    body.send_keys("a")
    browser.switch_to.active_element.send_keys(Keys.ENTER)
    told = browser.find_element(By.ID, "told").text
    tried.holds("A and Enter approve", "" if "A11 approved" in told and "Not done" not in told else told)
    browser.get(night.address + "/edition/MORNING/pair/A-004")
    browser.find_element(By.CSS_SELECTOR, "[id^=more-] summary").click()
    field = browser.find_element(By.CSS_SELECTOR, "form[action='/act/hold'] [name=word]")
    field.send_keys("<script>document.title='x'</script>", Keys.ENTER)
    told, facts = browser.find_element(By.ID, "told").text, browser.find_element(By.ID, "facts").text
    right = " held; " in told and "<script>document.title='x'</script>" in facts and browser.title != "x"
    tried.holds("a hold with markup is text", "" if right else f"{told} {facts}")
    words = [PYTHON, "-B", os.path.join(TOOLS, "pressroom.py"), "status", night.spool]
    said = subprocess.run(words, capture_output=True, text=True, env=night.environment).stdout
    right = "? A11" not in said and "<script>" in said
    tried.holds("the journal has both", "" if right else said[:300])
    tried.part("actions")


def see_service(tried, night):
    """A service that says half a status, or is gone, is told; when it is back, the page lives again."""
    browser = night.browser
    browser.get(night.address + "/")
    stale = lambda: browser.execute_script("return document.getElementById('not-live') !== null")
    night.happens("cut")
    tried.holds("a status that is cut is told", "" if until(stale, 20) else "it isn't")
    right = words_of(night, "MORNING-A10").endswith("is-refused")
    tried.holds("the last status stays", "" if right else words_of(night, "MORNING-A10"))
    night.happens("plain")
    tried.holds("a whole one is live", "" if until(lambda: not stale(), 20) else "it isn't")
    night.stage.kill()
    night.stage.wait()
    tried.holds("a service that is gone is told", "" if until(stale, 20) else "it isn't")
    tried.part("service")


def main():
    tried = trial.Count()
    missing = [name for name in ("flask", "waitress", "selenium") if importlib.util.find_spec(name) is None]
    missing += [name for name in ("chromium", "chromedriver") if shutil.which(name) is None]
    if missing:
        print(f"skipped: the board ({missing[0]} isn't installed)")
        return tried.end()
    with tempfile.TemporaryDirectory(prefix="pressroom-board-") as folder:
        night = Night(folder)
        try:
            night.begin()
            night.begin_board()
            night.browser = driver()
            for part in (see_sizes, see_events, see_actions, see_service):
                part(tried, night)
        finally:
            night.end()
    return tried.end()


if __name__ == "__main__":
    sys.exit(main())
