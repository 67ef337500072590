"""Drives a page in headless Chromium over --remote-debugging-pipe, with no package but Python's."""
import base64
import json
import os
import select
import shutil
import subprocess
import tempfile
import time

NAMES = ("chromium", "chromium-browser", "google-chrome", "chrome")


def found():
    """Returns the browser's path, or None."""
    return next((shutil.which(it) for it in NAMES if shutil.which(it)), None)


class Browser:
    """One tab of a browser of its own."""

    def __init__(self, url, dark=False, size=(1366, 768)):
        self.home = tempfile.mkdtemp(prefix="roundc-lab-browser-")
        to_read, self.out = os.pipe()
        self.into, from_write = os.pipe()
        words = [found(), "--headless=new", "--no-sandbox", "--disable-gpu", "--hide-scrollbars",
                 "--no-first-run", "--disable-background-networking", "--remote-debugging-pipe",
                 f"--user-data-dir={self.home}", f"--window-size={size[0]},{size[1]}",
                 "about:blank"]

        def place_ends():
            """The browser reads descriptor 3 and writes 4."""
            ends = os.dup(to_read), os.dup(from_write)
            os.dup2(ends[0], 3)
            os.dup2(ends[1], 4)

        self.ran = subprocess.Popen(words, preexec_fn=place_ends, close_fds=False,
                                    stdin=subprocess.DEVNULL, stdout=subprocess.DEVNULL,
                                    stderr=subprocess.DEVNULL)
        os.close(to_read)
        os.close(from_write)
        self.left, self.last, self.events, self.session = b"", 0, [], None
        try:
            self.begin(url, dark, size)
        except BaseException:
            self.close()
            raise

    def begin(self, url, dark, size):
        target = self.ask("Target.createTarget", url="about:blank")["targetId"]
        self.session = self.ask("Target.attachToTarget", targetId=target, flatten=True)["sessionId"]
        for part in ("Page", "Runtime", "Log"):
            self.ask(f"{part}.enable")
        self.resize(*size)
        self.ask("Emulation.setEmulatedMedia", features=[
            {"name": "prefers-color-scheme", "value": "dark" if dark else "light"}])
        self.go(url)

    def resize(self, width, height):
        self.ask("Emulation.setDeviceMetricsOverride", width=width, height=height,
                 deviceScaleFactor=1, mobile=False)

    def go(self, url):
        self.ask("Page.navigate", url=url)

    def ask(self, method, seconds=60, **params):
        """Calls a method of the browser, and keeps the events that come meanwhile."""
        self.last += 1
        message = {"id": self.last, "method": method, "params": params}
        if self.session:
            message["sessionId"] = self.session
        os.write(self.out, json.dumps(message).encode() + b"\0")
        ends = time.monotonic() + seconds
        while True:
            while b"\0" not in self.left:
                if not select.select([self.into], [], [], max(0, ends - time.monotonic()))[0]:
                    raise TimeoutError(method)
                more = os.read(self.into, 1 << 20)
                if not more:
                    raise EOFError("the browser has ended")
                self.left += more
            one, self.left = self.left.split(b"\0", 1)
            told = json.loads(one)
            if told.get("id") == self.last:
                if "error" in told:
                    raise RuntimeError(f"{method}: {told['error']}")
                return told["result"]
            self.events.append(told)

    def run(self, code):
        """Returns the value of an expression in the page."""
        got = self.ask("Runtime.evaluate", expression=code, awaitPromise=True, returnByValue=True)
        if "exceptionDetails" in got:
            raise RuntimeError(f"{code}: {got['exceptionDetails']}")
        return got["result"].get("value")

    def until(self, code, seconds=20):
        """Waits until an expression is true; one that fails isn't."""
        ends = time.monotonic() + seconds
        safe = f"(() => {{ try {{ return !!({code}); }} catch {{ return false; }} }})()"
        while not self.run(safe):
            if time.monotonic() > ends:
                raise TimeoutError(code)
            time.sleep(0.01)

    def point(self, selector):
        """Returns the middle of an element, which is scrolled into sight."""
        return self.run(
            f"(() => {{ const one = document.querySelector({json.dumps(selector)});"
            "one.scrollIntoView({block: 'nearest', inline: 'nearest'});"
            "const box = one.getBoundingClientRect();"
            "return [box.x + box.width / 2, box.y + box.height / 2]; })()")

    def press(self, selector):
        """A click with the mouse in the middle of an element."""
        x, y = self.point(selector)
        for kind in ("mousePressed", "mouseReleased"):
            self.ask("Input.dispatchMouseEvent", type=kind, x=x, y=y, button="left", clickCount=1)

    def hover(self, selector):
        x, y = self.point(selector)
        self.ask("Input.dispatchMouseEvent", type="mouseMoved", x=x, y=y)

    def key(self, key, code=None, control=False, text=None):
        """A key that is pressed and let go."""
        text = key if text is None and len(key) == 1 and not control else text
        for kind in ("keyDown" if text else "rawKeyDown", "keyUp"):
            params = {"type": kind, "key": key, "code": code or key, "modifiers": 2 * control}
            if text and kind == "keyDown":
                params["text"] = text
            numbers = {"Tab": 9, "Enter": 13, "Escape": 27, " ": 32, "End": 35, "Home": 36,
                       "ArrowLeft": 37, "ArrowUp": 38, "ArrowRight": 39, "ArrowDown": 40}
            if key in numbers:
                params["windowsVirtualKeyCode"] = numbers[key]
            self.ask("Input.dispatchKeyEvent", **params)

    def type(self, text):
        self.ask("Input.insertText", text=text)

    def picture(self, path):
        with open(path, "wb") as out:
            out.write(base64.b64decode(self.ask("Page.captureScreenshot", format="png")["data"]))

    def troubles(self):
        """Returns the page's errors, and what its policy has forbidden."""
        return [it["params"] for it in self.events
                if it["method"] in ("Runtime.exceptionThrown", "Log.entryAdded")]

    def close(self):
        self.ran.terminate()
        self.ran.wait()
        os.close(self.out)
        os.close(self.into)
        shutil.rmtree(self.home, ignore_errors=True)
