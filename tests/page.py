#!/usr/bin/env python3
"""Looks at pages that `mcslab draw --format html` wrote, in a headless Chromium (Debian's package
`chromium`), at widths from 600 to 1,920 pixels, light and dark: the panel and the picture do not
overlap, each lane can be scrolled into sight, the heads stay in sight, the page begins at its first
step, a click on a row selects it, the arrow keys up and down step, and those to the sides scroll.

    python3 tests/page.py PAGE.html.. [--shots FOLDER]
"""
import base64
import json
import os
import subprocess
import sys
import tempfile

WIDTHS = (600, 900, 961, 1280, 1920)
HEIGHT = 800


class Browser:
    """A Chromium that is asked by its debugging pipe."""

    def __init__(self, folder):
        asked, ask = os.pipe()
        tell, told = os.pipe()
        # the browser reads questions on 3 and answers on 4
        self.process = subprocess.Popen(
            ["sh", "-c", f'exec chromium "$@" 3<&{asked} 4>&{told}', "chromium", "--headless",
             "--no-sandbox", "--disable-gpu", "--remote-debugging-pipe", "--hide-scrollbars=0",
             "--user-data-dir=" + folder, "about:blank"],
            pass_fds=(asked, told), stdout=subprocess.DEVNULL, stderr=subprocess.DEVNULL)
        os.close(asked)
        os.close(told)
        self.ask_end, self.tell_end = ask, os.fdopen(tell, "rb")
        self.last, self.session = 0, None
        target = self.ask("Target.createTarget", url="about:blank")["targetId"]
        self.session = self.ask("Target.attachToTarget", targetId=target, flatten=True)["sessionId"]

    def message(self):
        text = b""
        while not text.endswith(b"\0"):
            byte = self.tell_end.read(1)
            if not byte:
                sys.exit("the browser ended")
            text += byte
        return json.loads(text[:-1])

    def ask(self, method, **params):
        self.last += 1
        question = {"id": self.last, "method": method, "params": params}
        if self.session:
            question["sessionId"] = self.session
        os.write(self.ask_end, json.dumps(question).encode() + b"\0")
        while True:
            heard = self.message()
            if heard.get("id") == self.last:
                if "error" in heard:
                    sys.exit(f"{method}: {heard['error']}")
                return heard["result"]

    def value(self, text):
        result = self.ask("Runtime.evaluate", expression=text, returnByValue=True,
                          awaitPromise=True)
        if "exceptionDetails" in result:
            sys.exit(f"{text}: {result['exceptionDetails']}")
        return result["result"].get("value")

    def press(self, key):
        code = {"ArrowRight": 39, "ArrowDown": 40, "ArrowUp": 38, "Home": 36, "End": 35}[key]
        for kind in ("rawKeyDown", "keyUp"):
            self.ask("Input.dispatchKeyEvent", type=kind, key=key, code=key,
                     windowsVirtualKeyCode=code)
        if key == "ArrowRight":
            # scrolling is done by frames
            self.value("new Promise(done => setTimeout(done, 400))")

    def click(self, x, y):
        for kind in ("mousePressed", "mouseReleased"):
            self.ask("Input.dispatchMouseEvent", type=kind, x=x, y=y, button="left", clickCount=1)

    def shoot(self, path):
        with open(path, "wb") as to:
            to.write(base64.b64decode(self.ask("Page.captureScreenshot")["data"]))


BOX = """(name => { const box = document.querySelector(name).getBoundingClientRect();
return [box.left, box.top, box.right, box.bottom]; })"""


class Page:
    """A page at a width."""

    def __init__(self, browser, path, width, scheme):
        self.browser, self.name = browser, f"{path}, {width} pixels, {scheme}"
        browser.ask("Emulation.setDeviceMetricsOverride", width=width, height=HEIGHT,
                    deviceScaleFactor=1, mobile=False)
        browser.ask("Emulation.setEmulatedMedia",
                    features=[{"name": "prefers-color-scheme", "value": scheme}])
        browser.ask("Page.navigate", url="file://" + os.path.abspath(path))
        while browser.value("document.readyState") != "complete":
            pass
        self.width = width

    def want(self, holds, what):
        if not holds:
            sys.exit(f"{self.name}: {what}")

    def box(self, name):
        return self.browser.value(f"{BOX}({json.dumps(name)})")

    def line(self):
        return int(self.browser.value("document.getElementById('slider').value"))

    def test(self):
        value = self.browser.value
        main, side = self.box("main"), self.box("#side")
        self.want(main[2] <= side[0] or main[3] <= side[1], "the panel is on the picture")
        self.want(side[2] <= self.width and side[3] <= HEIGHT, "the panel is not in the window")
        self.want(main[2] - main[0] >= 300 and main[3] - main[1] >= 300, "the picture is small")
        self.want((side[0] == 0) == (self.width <= 960), "the panel is on the wrong side")
        self.want(value("document.documentElement.scrollWidth <= innerWidth"), "the page is wider")
        first = int(value("document.getElementById('slider').min"))
        last = int(value("document.getElementById('slider').max"))
        self.want(self.line() == min(first + 1, last), "it does not begin at the first step")
        self.want(value("document.title.length > 0 && document.title === "
                        "document.querySelector('h1').textContent"), "it has no title")
        self.want(value("document.getElementById('step').ariaLive === 'polite'"), "no live step")
        self.want(value("document.activeElement.matches('main:not(:focus-visible)')"),
                  "the picture has no focus, or a ring before a key is pressed")
        self.scrolls(main)
        self.steps(main, first, last)

    def scrolls(self, main):
        value = self.browser.value
        value("document.querySelector('main').scrollTo(1e9, 1e9)")
        lane = value("(() => { const all = document.querySelectorAll('#heads rect.head');"
                     "const box = all[all.length - 1].getBoundingClientRect();"
                     "return [box.left, box.top, box.right, box.bottom]; })()")
        self.want(main[0] <= lane[0] and lane[2] <= main[2], "the last lane is out of sight")
        self.want(main[1] <= lane[1] and lane[3] <= main[3], "the heads of lanes are out of sight")
        value("document.querySelector('main').scrollTo(0, 0)")

    def steps(self, main, first, last):
        browser, value = self.browser, self.browser.value
        if value("document.querySelector('main').scrollWidth > "
                 "document.querySelector('main').clientWidth"):
            for _ in range(3):
                browser.press("ArrowRight")
            at = value("document.querySelector('main').scrollLeft")
            self.want(at > 0, "the arrow to the right does not scroll")
            self.want(self.line() == min(first + 1, last), "the arrow to the right steps")
            browser.press("ArrowDown")
            self.want(value("document.querySelector('main').scrollLeft") == at,
                      "a step scrolls sideways")
            browser.press("ArrowUp")
        for key, line in (("End", last), ("Home", first), ("ArrowDown", first + 1)):
            browser.press(key)
            self.want(self.line() == line, f"{key} does not lead to line {line}")
            row = self.box("g.row.here")
            head = self.box("#heads")
            self.want(head[3] <= row[1] and row[3] <= main[3], f"{key}: the row is out of sight")
        line = min(first + 2, last)
        row = self.box(f'g.row[data-line="{line}"]')
        browser.click(main[2] - 40, (row[1] + row[3]) / 2)
        self.want(self.line() == line, "a click on a row does not select it")
        self.want(value("document.getElementById('step').textContent.length > 0"), "no step")


def look_at(browser, path, shots):
    """Tests a page at each width, and takes its pictures where a folder for them is named."""
    name = os.path.splitext(os.path.basename(path))[0]
    for width in WIDTHS:
        for scheme in ("light", "dark"):
            page = Page(browser, path, width, scheme)
            if shots:
                browser.shoot(os.path.join(shots, f"{name}-{width}-{scheme}.png"))
            page.test()
            if shots and scheme == "light":
                browser.shoot(os.path.join(shots, f"{name}-{width}-after.png"))
    print(f"{path}: clear at {', '.join(str(width) for width in WIDTHS)} pixels")


def main(words):
    shots = None
    if "--shots" in words:
        at = words.index("--shots")
        shots = words[at + 1]
        del words[at:at + 2]
    with tempfile.TemporaryDirectory(ignore_cleanup_errors=True) as folder:
        browser = Browser(folder)
        try:
            for path in words:
                look_at(browser, path, shots)
        finally:
            browser.process.terminate()
            browser.process.wait()


if __name__ == "__main__":
    main(sys.argv[1:])
