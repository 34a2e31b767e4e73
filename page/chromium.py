"""Drives a headless Chromium by its debugging pipe, for the tools that try the page. Only the standard library is used."""
import base64
import json
import os
import select
import shutil
import subprocess
import tempfile
import time


def installed():
    """Returns the command of a Chromium that is installed; None where none is."""
    return next((it for it in ("chromium", "chromium-browser", "google-chrome") if shutil.which(it)), None)


class PageError(Exception):
    """What a script of a page threw, or what the browser refused."""


class Browser:
    """A browser with one page, to be used by `with`. `size` is the page's width and height in pixels."""

    def __init__(self, size=(1280, 900), is_dark=False):
        self.size, self.is_dark = size, is_dark
        self.last_id, self.pending = 0, b""

    def __enter__(self):
        self.folder = tempfile.mkdtemp(prefix="page-")
        to_read, self.to_write = os.pipe()
        self.to_read, to_write = os.pipe()
        # The browser reads its handle 3 and writes its handle 4: a shell puts the pipes there.
        script = f'exec "$@" 3<&{to_read} 4>&{to_write}'
        words = [installed(), "--headless=new", "--no-sandbox", "--disable-gpu", "--remote-debugging-pipe", "--no-first-run", f"--user-data-dir={self.folder}"]
        with open(f"{self.folder}/log", "wb") as log:
            self.process = subprocess.Popen(["bash", "-c", script, "bash", *words, "about:blank"], pass_fds=(to_read, to_write), stdout=log, stderr=log)
        os.close(to_read)
        os.close(to_write)
        self.session = None
        target = next(it for it in self.call("Target.getTargets")["targetInfos"] if it["type"] == "page")
        self.session = self.call("Target.attachToTarget", targetId=target["targetId"], flatten=True)["sessionId"]
        self.resize(*self.size)
        if self.is_dark:
            self.call("Emulation.setEmulatedMedia", features=[{"name": "prefers-color-scheme", "value": "dark"}])
        return self

    def __exit__(self, *_):
        self.process.terminate()
        self.process.wait()
        os.close(self.to_read)
        os.close(self.to_write)
        shutil.rmtree(self.folder, ignore_errors=True)

    def message(self, until):
        """Returns the next message of the browser."""
        while b"\0" not in self.pending:
            if not select.select([self.to_read], [], [], max(0, until - time.monotonic()))[0]:
                raise PageError("the browser did not answer in time")
            piece = os.read(self.to_read, 1 << 20)
            if not piece:
                raise PageError("the browser has ended")
            self.pending += piece
        text, _, self.pending = self.pending.partition(b"\0")
        return json.loads(text)

    def call(self, method, seconds=120, **params):
        """Calls the browser, and returns its result."""
        self.last_id += 1
        asked = {"id": self.last_id, "method": method, "params": params}
        if self.session:
            asked["sessionId"] = self.session
        self.write(json.dumps(asked).encode() + b"\0")
        until = time.monotonic() + seconds
        while True:
            came = self.message(until)
            if came.get("id") == self.last_id:
                if "error" in came:
                    raise PageError(f"{method}: {came['error']['message']}")
                return came["result"]

    def write(self, text):
        while text:
            text = text[os.write(self.to_write, text):]

    def resize(self, width, height):
        self.call("Emulation.setDeviceMetricsOverride", width=width, height=height, deviceScaleFactor=1, mobile=False)

    def open(self, address):
        self.call("Page.enable")
        self.call("Page.navigate", url=address)

    def value(self, script, seconds=120):
        """Returns the value of an expression of the page, which may be a promise."""
        came = self.call("Runtime.evaluate", seconds, expression=script, awaitPromise=True, returnByValue=True, userGesture=True)
        if "exceptionDetails" in came:
            thrown = came["exceptionDetails"]
            raise PageError(thrown.get("exception", {}).get("description") or thrown["text"])
        return came["result"].get("value")

    def wait(self, script, seconds=60):
        """Waits until an expression of the page is true, and returns its value."""
        until = time.monotonic() + seconds
        while time.monotonic() < until:
            found = self.value(script)
            if found:
                return found
            time.sleep(0.05)
        raise PageError(f"never came true: {script}")

    def press(self, key, modifiers=0):
        """Presses a key as a user does. `modifiers` is 2 with Ctrl, 8 with Shift."""
        codes = {"Tab": 9, "Enter": 13, " ": 32, "ArrowLeft": 37, "ArrowRight": 39, "Home": 36, "End": 35, "Backspace": 8, "a": 65}
        text = {"Enter": "\r", " ": " "}.get(key, "") if not modifiers else ""
        named = {"key": key, "code": {" ": "Space", "a": "KeyA"}.get(key, key), "windowsVirtualKeyCode": codes[key], "modifiers": modifiers}
        self.call("Input.dispatchKeyEvent", type="keyDown", text=text, **named)
        self.call("Input.dispatchKeyEvent", type="keyUp", **named)

    def type(self, text):
        """Puts a text at the cursor."""
        self.call("Input.insertText", text=text)

    def click(self, selector):
        """Clicks the middle of an element, which is scrolled into view first."""
        place = self.value(
            f"(() => {{ const it = document.querySelector({json.dumps(selector)}); it.scrollIntoView({{block: 'center'}});"
            " const box = it.getBoundingClientRect(); return [box.x + box.width / 2, box.y + box.height / 2]; })()"
        )
        for kind in ("mousePressed", "mouseReleased"):
            self.call("Input.dispatchMouseEvent", type=kind, x=place[0], y=place[1], button="left", clickCount=1)

    def picture(self, file, is_whole=True):
        """Writes a picture of the page, of its whole height or of what a window shows."""
        params = {"captureBeyondViewport": True}
        if is_whole:
            box = self.call("Page.getLayoutMetrics")["cssContentSize"]
            params["clip"] = {"x": 0, "y": 0, "width": self.size[0], "height": box["height"], "scale": 1}
        with open(file, "wb") as out:
            out.write(base64.b64decode(self.call("Page.captureScreenshot", format="png", **params)["data"]))
