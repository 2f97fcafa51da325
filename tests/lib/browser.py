"""A browser without a window, driven over pipes by the DevTools protocol: chromium, where that is."""

import base64
import json
import os
import select
import shutil
import subprocess
import tempfile
import time

NAMES = ("chromium", "chromium-browser", "google-chrome")
SECONDS = 120  # for one call
KEYS = {"Tab": 9, "Enter": 13, "Escape": 27, "End": 35, "Home": 36, "ArrowLeft": 37, "ArrowUp": 38, "ArrowRight": 39, "ArrowDown": 40}
COMPLAINTS = ("Runtime.exceptionThrown", "Runtime.consoleAPICalled", "Log.entryAdded", "Page.javascriptDialogOpening")


def found():
    """The browser's path, or None."""
    return next(filter(None, map(shutil.which, NAMES)), None)


def wired(reads, writes):
    """Has the child read and write where the protocol does: 3 and 4."""
    reads, writes = os.dup2(os.dup(reads), 100), os.dup2(os.dup(writes), 101)
    for at, it in ((3, reads), (4, writes)):
        os.dup2(it, at)
        os.set_inheritable(at, True)


class Browser:
    """One page. What it complains of, and what it loads, is kept since it was last opened."""

    def __init__(self):
        self.room = tempfile.TemporaryDirectory()
        (theirs, self.writes), (self.reads, answers) = os.pipe(), os.pipe()
        words = ["--headless=new", "--no-sandbox", "--disable-gpu", "--no-first-run", "--disable-extensions", "--hide-scrollbars"]
        words += ["--remote-debugging-pipe", f"--user-data-dir={self.room.name}", "about:blank"]
        self.child = subprocess.Popen([found(), *words], stdin=subprocess.DEVNULL, stdout=subprocess.DEVNULL, stderr=subprocess.DEVNULL,
                                      close_fds=False, preexec_fn=lambda: wired(theirs, answers))
        os.close(theirs)
        os.close(answers)
        self.count, self.rest, self.told, self.session = 0, b"", [], None
        targets = self.call("Target.getTargets")["targetInfos"]
        page = next(it["targetId"] for it in targets if it["type"] == "page")
        self.session = self.call("Target.attachToTarget", targetId=page, flatten=True)["sessionId"]
        for it in ("Page", "Runtime", "Log", "Network"):
            self.call(f"{it}.enable")

    def message(self):
        """The next message, which ends with an octet 0."""
        while b"\0" not in self.rest:
            if not select.select([self.reads], [], [], SECONDS)[0]:
                raise TimeoutError("the browser says nothing")
            if not (octets := os.read(self.reads, 1 << 20)):
                raise EOFError("the browser has ended")
            self.rest += octets
        one, _, self.rest = self.rest.partition(b"\0")
        return json.loads(one)

    def call(self, method, **how):
        """What a call of the protocol answers."""
        self.count += 1
        asked = {"id": self.count, "method": method, "params": how, **({"sessionId": self.session} if self.session else {})}
        os.write(self.writes, json.dumps(asked).encode() + b"\0")
        while (it := self.message()).get("id") != self.count:
            self.told.append(it)
        if "error" in it:
            raise ValueError(f"{method}: {it['error']}")
        return it["result"]

    def open(self, path, width=1400, height=900, dark=False, touch=False, scale=1, anchor=""):
        """Opens a file of this machine in a window of this size."""
        self.call("Page.navigate", url="about:blank")
        self.call("Emulation.setDeviceMetricsOverride", width=width, height=height, deviceScaleFactor=scale, mobile=touch)
        self.call("Emulation.setTouchEmulationEnabled", enabled=touch)
        self.call("Emulation.setEmulatedMedia", features=[{"name": "prefers-color-scheme", "value": "dark" if dark else "light"}])
        self.told.clear()
        self.call("Page.navigate", url=f"file://{path}{anchor}")
        end = time.monotonic() + SECONDS
        while self.js("document.readyState") != "complete" or self.js("location.protocol") != "file:":
            if time.monotonic() > end:
                raise TimeoutError(path)

    def complaints(self):
        """What was said of errors, and what was loaded but for the page itself."""
        loaded = [it["params"] for it in self.told if it.get("method") == "Network.requestWillBeSent"]
        other = [it["params"] for it in self.told if it.get("method") in COMPLAINTS]
        return other + [it["request"]["url"] for it in loaded if it["type"] != "Document"]

    def js(self, code):
        """The value of an expression in the page."""
        ended = self.call("Runtime.evaluate", expression=code, returnByValue=True, awaitPromise=True)
        if "exceptionDetails" in ended:
            raise ValueError(ended["exceptionDetails"])
        return ended["result"].get("value")

    def key(self, name):
        for kind in ("rawKeyDown", "keyUp"):
            self.call("Input.dispatchKeyEvent", type=kind, key=name, code=name, windowsVirtualKeyCode=KEYS[name])

    def middle(self, selector):
        """The middle of the first such element, which is brought into sight."""
        self.js(f"document.querySelector({json.dumps(selector)}).scrollIntoView({{ block: 'center', behavior: 'instant' }})")
        return self.js(f"(() => {{ const at = document.querySelector({json.dumps(selector)}).getBoundingClientRect();"
                       "return [at.x + at.width / 2, at.y + at.height / 2] })()")

    def click(self, selector):
        x, y = self.middle(selector)
        for kind in ("mousePressed", "mouseReleased"):
            self.call("Input.dispatchMouseEvent", type=kind, x=x, y=y, button="left", clickCount=1)

    def hover(self, selector):
        x, y = self.middle(selector)
        self.call("Input.dispatchMouseEvent", type="mouseMoved", x=x, y=y)

    def tap(self, selector):
        x, y = self.middle(selector)
        self.call("Input.dispatchTouchEvent", type="touchStart", touchPoints=[{"x": x, "y": y}])
        self.call("Input.dispatchTouchEvent", type="touchEnd", touchPoints=[])

    def picture(self):
        """What the window shows, as PNG."""
        return base64.b64decode(self.call("Page.captureScreenshot", format="png")["data"])

    def close(self):
        self.session = None
        try:
            self.call("Browser.close")
        except (EOFError, OSError, TimeoutError):
            pass
        try:
            self.child.wait(20)
        except subprocess.TimeoutExpired:
            self.child.kill()
            self.child.wait()
        os.close(self.reads)
        os.close(self.writes)
        self.room.cleanup()
