"""The pages in headless Chromium, over the webdriver's HTTP protocol: overview, zoom, click, a replaced file.

What the page shows is compared with the formulas: values of a click, and pixels of a screenshot. With --screenshots the
pictures of examples/viewer/README.md are written.
"""
import base64
import contextlib
import http.client
import io
import json
import re
import shutil
import subprocess
import time

import numpy
from PIL import Image

from served import Formula, replace, until

WIDTH, HEIGHT = 1200, 800


class Waves(Formula):
    """A texture that is good to look at: coloured waves, and a grid of lines each 64 texels."""

    def samples(self, level, x, y, w, h):
        scale = 2 ** level
        i = (numpy.arange(x, x + w)[None, :, None] + 0.5) * scale
        j = (numpy.arange(y, y + h)[:, None, None] + 0.5) * scale
        c = numpy.arange(self.channels)
        found = 128 + 60 * numpy.sin(i / (90 + 20 * c) + self.seed) + 60 * numpy.cos(j / (70 + 25 * c) + i / 400)
        noise = (numpy.floor(i) * 7 + numpy.floor(j) * 13) % 16
        line = (numpy.floor(i) % 256 < scale) | (numpy.floor(j) % 256 < scale)
        found = numpy.where(line, 30, found + noise)
        return numpy.clip(found, 0, 255).astype(int) * (1 if self.depth == 8 else 257)


WALL = Waves("wall.tif", 4096, 2048, 3, 8, 64)


class Browser:
    """A session of chromedriver."""

    def __init__(self, room):
        self.driver = subprocess.Popen(["chromedriver", "--port=0", f"--log-path={room / 'driver.log'}"], stdout=subprocess.PIPE,
                                       stderr=subprocess.STDOUT, text=True)
        self.port = None
        for line in self.driver.stdout:
            found = re.search(r"started successfully on port (\d+)", line)
            if found:
                self.port = int(found[1])
                break
        # as root Chromium has no sandbox; all pages are of this machine
        options = {"args": ["--headless=new", "--no-sandbox", "--disable-gpu", "--disable-dev-shm-usage", "--hide-scrollbars",
                            f"--window-size={WIDTH},{HEIGHT}", f"--user-data-dir={room / 'chromium'}"]}
        self.path = ""
        found = self.call("POST", "/session", {"capabilities": {"alwaysMatch": {"goog:chromeOptions": options,
                                                                                "goog:loggingPrefs": {"browser": "ALL"}}}})
        self.path = f"/session/{found['sessionId']}"

    def call(self, method, path, facts=None):
        connection = http.client.HTTPConnection("127.0.0.1", self.port, timeout=120)
        connection.request(method, self.path + path, None if facts is None else json.dumps(facts))
        found = json.loads(connection.getresponse().read())["value"]
        connection.close()
        if isinstance(found, dict) and found.get("error"):
            raise ValueError(f"{path}: {found['error']}: {found['message'][:500]}")
        return found

    def open(self, address):
        self.call("POST", "/url", {"url": address})

    def run(self, script):
        return self.call("POST", "/execute/sync", {"script": f"return {script}", "args": []})

    def text(self, name):
        return self.run(f"document.getElementById('{name}').textContent")

    def click(self, x, y):
        where = {"type": "pointer", "id": "mouse", "parameters": {"pointerType": "mouse"}}
        move = {"type": "pointerMove", "duration": 0, "x": int(x), "y": int(y)}
        self.call("POST", "/actions", {"actions": [{**where, "actions": [move, {"type": "pointerDown", "button": 0},
                                                                         {"type": "pointerUp", "button": 0}]}]})

    def screenshot(self):
        return Image.open(io.BytesIO(base64.b64decode(self.call("GET", "/screenshot")))).convert("RGB")

    def faults(self):
        """What the browser's console has of errors."""
        return [it["message"] for it in self.call("POST", "/se/log", {"type": "browser"}) if it["level"] == "SEVERE"]

    def end(self):
        with contextlib.suppress(OSError, ValueError, http.client.HTTPException):
            self.call("DELETE", "")
        self.driver.terminate()
        self.driver.wait(20)


def are_loaded(browser):
    """Whether all tiles of the page are there."""
    return browser.run("(() => { const all = [...document.querySelectorAll('img.tile')]; return all.length > 0 && "
                       "all.every((it) => it.complete && it.naturalWidth > 0); })()")


def shot(tests, browser, name):
    if tests.screenshots:
        tests.screenshots.mkdir(exist_ok=True)
        # few colours: the pictures are in the repository
        browser.screenshot().quantize(128).save(tests.screenshots / name, optimize=True)


def overview(tests, viewer, browser):
    browser.open(f"http://{viewer.host}:{viewer.port}/")
    took = until(lambda: browser.run("document.body.dataset.ready") == "yes" and browser.run(
        "[...document.images].every((it) => it.complete && it.naturalWidth > 0)"), 60)
    tests.say(took is not None, "the first page has all thumbnails", browser.text("files"))
    cards = browser.run("[...document.querySelectorAll('.card')].map((it) => it.textContent)")
    tests.say(len(cards) == len(list(tests.folder.iterdir())), "a card for each file", cards)
    tests.say(any("wall.tif4096 x 2048, 8 bits, 3 channels13 levels; generation 1" in it for it in cards), "facts on a card", cards)
    tests.say(any("not a TIFF" in it and "What helps" in it for it in cards), "a refused file, in words", cards)
    took = until(lambda: "reads" in browser.text("live") and browser.run("document.querySelectorAll('.bars i').length") == 32, 10)
    tests.say(took is not None, "the live panel", browser.text("live"))
    time.sleep(2)
    shot(tests, browser, "overview.png")


def place_of(browser, x, y):
    """The place in the window of a texel of level 0."""
    return browser.run(f"(() => {{ const p = map.latLngToContainerPoint([{y}, {x}]), r = map.getContainer()"
                       ".getBoundingClientRect(); return [p.x + r.left, p.y + r.top]; })()")


def click(tests, browser, texture, generation):
    """Clicks on the middle of the map, and compares what is shown with the formula and with the pixel there."""
    x, y = browser.run("(() => { const r = map.getContainer().getBoundingClientRect(); "
                       "return [r.left + r.width / 2 + 20, r.top + r.height / 2 + 12]; })()")
    picture = browser.screenshot()
    level = int(browser.text("level"))
    browser.run("document.getElementById('value-texel').textContent = ''")
    browser.click(x, y)
    until(lambda: browser.text("value-texel"), 10)
    texel = [int(it) for it in browser.text("value-texel").split(",")]
    samples = [int(it) for it in re.findall(r"\d+", browser.text("value-samples").partition("(")[0])]
    wanted = texture.samples(level, *texel, 1, 1)[0, 0].tolist()
    s, t = (float(it) for it in browser.text("value-st").split(","))
    w, h = texture.sizes[level]
    is_there = abs(s * w - texel[0] - 0.5) <= 0.51 and abs(t * h - texel[1] - 0.5) <= 0.51
    tests.say(samples == wanted and is_there, f"a click in level {level} shows the texel's values", (texel, samples, wanted, s, t))
    found = picture.getpixel((int(x), int(y)))
    near = [texture.narrow(texture.samples(level, texel[0] + i, texel[1] + j, 1, 1))[0, 0] for i in (-1, 0, 1) for j in (-1, 0, 1)]
    # a pixel in a small zoom may be of the next texel
    is_so = any(abs(it.astype(int) - found).max() <= 1 for it in near)
    tests.say(is_so, "the pixel on the screen has these values", (found, near))
    tests.say(int(browser.text("value-generation")) == generation, "and their generation", browser.text("value-generation"))


def file_page(tests, viewer, browser):
    browser.open(f"http://{viewer.host}:{viewer.port}/file/wall.tif")
    tests.say(until(lambda: are_loaded(browser), 60) is not None, "the page of a file has all tiles")
    first = int(browser.text("level"))
    tests.say(first > 0, "a large file begins in a small level", first)
    click(tests, browser, WALL, 1)
    zooms = 0
    while browser.run("map.getZoom()") < 6 and zooms < 20:
        before, zooms = browser.run("map.getZoom()"), zooms + 1
        button = browser.run("(() => { const r = document.querySelector('.leaflet-control-zoom-in').getBoundingClientRect(); "
                             "return [r.left + r.width / 2, r.top + r.height / 2]; })()")
        browser.click(*button)
        until(lambda: browser.run("map.getZoom()") > before, 10)
        if browser.run("map.getZoom()") in (-1, 2, 6):
            tests.say(until(lambda: are_loaded(browser), 30) is not None, f"tiles at zoom {before + 1}")
            click(tests, browser, WALL, 1)
        if browser.run("map.getZoom()") == 4:
            until(lambda: are_loaded(browser), 30)
            click(tests, browser, WALL, 1)
            time.sleep(1.5)
            shot(tests, browser, "texels.png")
    tests.say(browser.run("map.getZoom()") == 6, "zoom down to single texels", browser.run("map.getZoom()"))


def choose(browser, name, value):
    browser.run(f"(() => {{ const it = document.getElementById('{name}'); it.value = '{value}'; "
                "it.dispatchEvent(new Event('change')); })()")


def switches(tests, browser):
    browser.run("void map.fitBounds(bounds(0))")
    until(lambda: are_loaded(browser), 30)
    choose(browser, "channel", "1")
    time.sleep(0.2)
    until(lambda: are_loaded(browser), 30)
    at = place_of(browser, 1300, 700)
    pixel = browser.screenshot().getpixel(tuple(map(int, at)))
    tests.say(len(set(pixel)) == 1, "one channel is grey", pixel)
    choose(browser, "channel", "rgb")
    choose(browser, "wrap", "mirror")
    browser.run("void map.setZoom(map.getZoom() - 1)")
    time.sleep(0.2)
    tests.say(until(lambda: are_loaded(browser), 30) is not None, "the wrap preview")
    picture = browser.screenshot()
    one, other = (picture.getpixel(tuple(map(int, place_of(browser, it, 1100)))) for it in (600, -600))
    tests.say(max(abs(a - b) for a, b in zip(one, other)) < 40, "a mirrored place has the colour of the original", (one, other))
    shot(tests, browser, "mirror.png")
    choose(browser, "wrap", "none")
    browser.run("void map.fitBounds(bounds(0))")
    until(lambda: are_loaded(browser), 30)


def replaced(tests, browser):
    newer = Waves("wall.tif", 4096, 2048, 3, 8, 64, seed=2)
    replace(tests.folder, newer)
    took = until(lambda: browser.text("generation") == "2", 10)
    tests.say(took is not None and took < 2.5, f"the page shows the new generation after {took or 99:.1f} s")
    is_new = "[...document.querySelectorAll('img.tile')].every((it) => it.dataset.generation === '2')"
    tests.say(until(lambda: are_loaded(browser) and browser.run(is_new), 20) is not None, "all tiles are of it")
    click(tests, browser, newer, 2)
    (tests.folder / "wall.tif").write_bytes(b"no image any more")
    took = until(lambda: "not a TIFF" in browser.text("trouble"), 10)
    tests.say(took is not None, "a file that is refused now says why", browser.text("trouble"))
    replace(tests.folder, WALL)
    generation = "Number(document.getElementById('generation').textContent)"
    took = until(lambda: not browser.text("trouble") and browser.run(generation) > 2 and are_loaded(browser), 20)
    tests.say(took is not None, "and is shown again when it is good", browser.text("trouble"))
    shot(tests, browser, "file.png")


def run(tests):
    for it in (WALL, Waves("stone.tif", 1024, 1024, 3, 16, 64, seed=1), Waves("mask.tif", 300, 200, 1, 8, 32, seed=3),
               Waves("leaf.tif", 512, 512, 4, 8, 64, seed=4), Waves("one_level.tif", 512, 384, 3, 8, 64, levels=1, seed=5)):
        it.write(tests.folder)
    (tests.folder / "notes.tif").write_text("this is no image")
    if not shutil.which("chromedriver"):
        raise SystemExit("chromedriver is not installed")
    with tests.viewer("--budget", "64") as viewer:
        browser = Browser(tests.room)
        try:
            overview(tests, viewer, browser)
            file_page(tests, viewer, browser)
            switches(tests, browser)
            replaced(tests, browser)
            faults = [it for it in browser.faults() if "422" not in it]
            tests.say(not faults, "the browser has no errors", faults[:3])
        finally:
            browser.end()
