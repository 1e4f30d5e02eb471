"""The proof in a real browser: opens links, takes screenshots of the plates, presses keys and drags."""
import io
import shutil
import time
from urllib.parse import parse_qs

from two_sites import LENGTH, WIDTH

try:
    import numpy
    from PIL import Image
    from selenium import webdriver
    from selenium.webdriver.chrome.options import Options
    from selenium.webdriver.chrome.service import Service
    from selenium.webdriver.common.action_chains import ActionChains
    from selenium.webdriver.common.actions.action_builder import ActionBuilder
    from selenium.webdriver.common.actions.pointer_input import PointerInput
    from selenium.webdriver.common.keys import Keys
except ImportError:
    numpy = Keys = None

WAIT = 60
# The middle of the window when whole blocks are compared.
MIDDLE = 752, 552
ARGUMENTS = (
    "--headless=new",
    "--no-sandbox",
    "--disable-gpu",
    "--disable-dev-shm-usage",
    "--window-size=1850,1320",
    "--force-prefers-reduced-motion",
    "--hide-scrollbars",
    "--force-color-profile=srgb",
    "--force-device-scale-factor=1",
)
LOADED = """
return document.body.dataset.ready && !document.querySelector('.leaflet-tile:not(.leaflet-tile-loaded)')
"""
DRAWN = "setTimeout(arguments[0], 150)"
BOX = """
const box = document.getElementById('map').getBoundingClientRect();
return [box.left, box.top, box.width, box.height];
"""


class Page:
    """The proof in a browser."""

    def __init__(self, address):
        options = Options()
        for word in ARGUMENTS:
            options.add_argument(word)
        options.set_capability("goog:loggingPrefs", {"browser": "ALL"})
        self.driver = webdriver.Chrome(service=Service(shutil.which("chromedriver")), options=options)
        self.driver.set_script_timeout(2 * WAIT)
        self.address = address

    def script(self, text, *words):
        return self.driver.execute_script(text, *words)

    def find(self, name):
        return self.driver.find_element("css selector", name)

    def settle(self):
        """Waits until the data of the pair and all tiles are loaded. A screenshot then draws them."""
        end = time.monotonic() + WAIT
        while time.monotonic() < end:
            if self.script(LOADED):
                break
            time.sleep(0.05)
        else:
            raise TimeoutError("tiles didn't load")
        self.driver.execute_async_script(DRAWN)

    def open(self, link="", anew=False):
        """Goes to a link, in the page that is open already or in a new one."""
        if anew or not link or self.driver.current_url.split("#")[0] != self.address:
            self.driver.get("about:blank")
            self.driver.get(self.address + link)
        else:
            self.script("history.replaceState(null, '', '#'); location.hash = arguments[0]", link)
            time.sleep(0.05)
        if "pair=" in link:
            self.settle()

    def resize(self, width, height, mobile=False):
        """Gives the window this size in pixels."""
        size = {"width": width, "height": height, "deviceScaleFactor": 1, "mobile": mobile}
        self.driver.execute_cdp_cmd("Emulation.setDeviceMetricsOverride", size)
        time.sleep(0.2)

    def whole_window(self):
        """Gives the window the size that it had at first."""
        self.driver.execute_cdp_cmd("Emulation.clearDeviceMetricsOverride", {})
        time.sleep(0.2)

    def wait(self, script):
        """Waits until a script returns something true."""
        end = time.monotonic() + WAIT
        while not self.script(script):
            if time.monotonic() > end:
                raise TimeoutError(script)
            time.sleep(0.05)

    def box(self):
        """The map's box: left, top, width, height."""
        return [round(value) for value in self.script(BOX)]

    def picture(self):
        """The pixels of the map on the screen, without the cross in its middle."""
        self.script("document.querySelectorAll('.cross').forEach(cross => cross.style.display = 'none')")
        picture = Image.open(io.BytesIO(self.driver.get_screenshot_as_png())).convert("RGB")
        left, top, width, height = self.box()
        return numpy.asarray(picture.crop((left, top, left + width, top + height))).astype(numpy.int16)

    def seen(self, x, y):
        """The part of the plate that is on the screen at one pixel a plate pixel, whose middle is (x, y):
        its place, and its pixels on the screen."""
        _, _, width, height = self.box()
        left, top = x - width // 2, y - height // 2
        picture = self.picture()
        x0, y0, x1, y1 = max(0, left), max(0, top), min(WIDTH, left + width), min(LENGTH, top + height)
        return (slice(y0, y1), slice(x0, x1)), picture[y0 - top : y1 - top, x0 - left : x1 - left]

    def whole(self, side):
        """All whole blocks of so many plate pixels, each one pixel on the screen; the view's middle is
        MIDDLE."""
        picture = self.picture()
        left, top = (picture.shape[1 - i] // 2 - MIDDLE[i] // side for i in (0, 1))
        return picture[top : top + LENGTH // side, left : left + WIDTH // side]

    def on_screen(self, pixel, middle):
        """The position of a plate pixel on the screen at one to one, when another is in the middle of the map."""
        left, top, width, height = self.box()
        return left + width // 2 + pixel[0] - middle[0], top + height // 2 + pixel[1] - middle[1]

    def point(self, place):
        """Moves the mouse to a position on the screen."""
        actions = ActionBuilder(self.driver)
        actions.pointer_action.move_to_location(*place)
        actions.perform()

    def press(self, *keys):
        ActionChains(self.driver).send_keys(*keys).perform()

    def complaints(self):
        return [line["message"] for line in self.driver.get_log("browser") if line["level"] == "SEVERE"]

    def hash(self):
        return {
            key: values[0] for key, values in parse_qs(self.script("return location.hash.slice(1)")).items()
        }


def touch(page, start, end):
    """Drags a finger over the screen."""

    actions = ActionBuilder(page.driver, mouse=PointerInput("touch", "finger"))
    finger = actions.pointer_action
    finger.move_to_location(*start)
    finger.pointer_down()
    for part in range(1, 9):
        finger.move_to_location(*(a + (b - a) * part // 8 for a, b in zip(start, end)))
    finger.pause(0.4)
    finger.pointer_up()
    actions.perform()


def drag(page, start, end, shift=False):
    """Drags from one position on the screen to another."""

    if shift:
        ActionChains(page.driver).key_down(Keys.SHIFT).perform()
    actions = ActionBuilder(page.driver)
    mouse = actions.pointer_action
    mouse.move_to_location(*start)
    mouse.pointer_down()
    mouse.move_to_location(*((a + b) // 2 for a, b in zip(start, end)))
    mouse.move_to_location(*end)
    mouse.pointer_up()
    actions.perform()
    if shift:
        ActionChains(page.driver).key_up(Keys.SHIFT).perform()
