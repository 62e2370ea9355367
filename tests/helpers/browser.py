"""A headless Chromium, driven by its DevTools protocol over a pipe, with Python's standard library alone."""
import base64
import json
import os
import select
import shutil
import subprocess
import sys
import tempfile
import time

# Becomes the browser, with two descriptors as its 3 and 4.
BEGIN = """\
import fcntl, os, sys
down, up = (fcntl.fcntl(int(it), fcntl.F_DUPFD, 10) for it in sys.argv[1:3])
os.dup2(down, 3)
os.dup2(up, 4)
os.execvp(sys.argv[3], sys.argv[3:])
"""
NAMES = ("chromium", "chromium-browser", "google-chrome", "google-chrome-stable")


CODES = {"ArrowLeft": 37, "ArrowRight": 39, "ArrowUp": 38, "ArrowDown": 40, "Home": 36, "End": 35, "Tab": 9, "Enter": 13, "Escape": 27, " ": 32, "Backspace": 8, "PageUp": 33, "PageDown": 34}
CTRL = 2
# What a browser may take to begin or to answer, since other work may have the processors.
MOST_SECONDS = 300


class Broken(Exception):
    """What the browser refused, or didn't answer."""


def command():
    """Where a browser is, or None."""
    return next((found for it in NAMES if (found := shutil.which(it))), None)


class Browser:
    """A browser with one page. What the page's scripts throw, and the console's errors, are in `errors`."""

    has_media = has_folders = has_drops = True
    command = staticmethod(command)

    def __init__(self, seconds=MOST_SECONDS):
        self.seconds, self.last, self.held, self.errors = seconds, 0, b"", []
        # Inputs for files that the page has opened.
        self.choosers = []
        self.room = tempfile.TemporaryDirectory(prefix="y86-browser-", ignore_cleanup_errors=True)
        down, self.down = os.pipe()
        self.up, up = os.pipe()
        # The browser reads commands at 3, and writes answers at 4.
        words = [command(), "--headless", "--no-sandbox", "--disable-gpu", "--disable-dev-shm-usage", "--hide-scrollbars", f"--user-data-dir={self.room.name}"]
        begin = [sys.executable, "-c", BEGIN, str(down), str(up), *words, "--remote-debugging-pipe", "about:blank"]
        quiet = {"stdin": subprocess.DEVNULL, "stdout": subprocess.DEVNULL, "stderr": subprocess.DEVNULL}
        self.process = subprocess.Popen(begin, pass_fds=(down, up), **quiet)
        os.close(down)
        os.close(up)
        self.session = None
        target = self.call("Target.createTarget", url="about:blank")["targetId"]
        self.session = self.call("Target.attachToTarget", targetId=target, flatten=True)["sessionId"]
        for it in ("Page", "Runtime", "Log"):
            self.call(f"{it}.enable")

    def __enter__(self):
        return self

    def __exit__(self, *_):
        self.process.kill()
        self.process.wait()
        os.close(self.down)
        os.close(self.up)
        self.room.cleanup()

    def message(self, until):
        """The next message of the browser."""
        while b"\0" not in self.held:
            if not select.select([self.up], [], [], max(until - time.monotonic(), 0))[0]:
                raise Broken("the browser doesn't answer")
            more = os.read(self.up, 1 << 16)
            if not more:
                raise Broken("the browser ended")
            self.held += more
        text, _, self.held = self.held.partition(b"\0")
        return json.loads(text)

    def call(self, method, **parameters):
        self.last += 1
        asked = {"id": self.last, "method": method, "params": parameters, **({"sessionId": self.session} if self.session else {})}
        os.write(self.down, json.dumps(asked).encode() + b"\0")
        until = time.monotonic() + self.seconds
        while True:
            got = self.message(until)
            self.hear(got)
            if got.get("id") == self.last:
                if "error" in got:
                    raise Broken(f"{method}: {got['error']['message']}")
                return got["result"]

    def hear(self, got):
        if got.get("method") == "Runtime.exceptionThrown":
            details = got["params"]["exceptionDetails"]
            self.errors.append(details.get("exception", {}).get("description") or details["text"])
        if got.get("method") == "Log.entryAdded" and got["params"]["entry"]["level"] == "error":
            self.errors.append(got["params"]["entry"]["text"])
        if got.get("method") == "Page.fileChooserOpened":
            self.choosers.append(got["params"]["backendNodeId"])

    def value(self, script):
        """The value of a script's last expression in the page."""
        got = self.call("Runtime.evaluate", expression=script, returnByValue=True)
        if "exceptionDetails" in got:
            raise Broken(got["exceptionDetails"]["text"])
        return got["result"].get("value")

    def open(self, path, fragment=""):
        """Opens a file's page anew, and waits until it is there."""
        self.call("Page.navigate", url="about:blank")
        self.call("Page.navigate", url=f"file://{path}{fragment}")
        until = time.monotonic() + self.seconds
        while self.value("document.readyState + location.protocol") != "completefile:":
            if time.monotonic() > until:
                raise Broken("the page doesn't load")
            time.sleep(0.05)

    def evaluate(self, before, script):
        """The value of an expression in the page, awaited; `before` are declarations that it may use."""
        got = self.call("Runtime.evaluate", expression=before + script, returnByValue=True, awaitPromise=True, userGesture=True)
        if "exceptionDetails" in got:
            details = got["exceptionDetails"]
            raise Broken(details.get("exception", {}).get("description") or details["text"])
        return got["result"].get("value")

    def mouse(self, x, y):
        """Clicks at a place."""
        for kind in ("mousePressed", "mouseReleased"):
            self.call("Input.dispatchMouseEvent", type=kind, x=x, y=y, button="left", clickCount=1)

    def press_key(self, key, is_ctrl):
        """Presses a key and lets it go."""
        text = None if is_ctrl else key if len(key) == 1 else "\r" if key == "Enter" else None
        more = {"key": key, "windowsVirtualKeyCode": CODES.get(key, ord(key[0].upper())), "modifiers": CTRL if is_ctrl else 0}
        self.call("Input.dispatchKeyEvent", type="keyDown" if text else "rawKeyDown", **more, **({"text": text} if text else {}))
        self.call("Input.dispatchKeyEvent", type="keyUp", **more)

    def close_list(self):
        """Keys reach the rows of a list, open or not."""

    def give(self, asks, path):
        """Does something that asks for a file or a folder, and gives this one."""
        self.choosers.clear()
        self.call("Page.setInterceptFileChooserDialog", enabled=True)
        asks()
        until = time.monotonic() + self.seconds
        while not self.choosers:
            if time.monotonic() > until:
                raise Broken("no file is asked for")
            self.value("1")
        self.call("DOM.setFileInputFiles", files=[path], backendNodeId=self.choosers.pop())

    def save_into(self, folder):
        """What the page saves goes into this folder."""
        self.call("Page.setDownloadBehavior", behavior="allow", downloadPath=folder)

    def drop(self, x, y, path):
        """Drops a file at a place."""
        for kind in ("dragEnter", "dragOver", "drop"):
            self.call("Input.dispatchDragEvent", type=kind, x=x, y=y, data={"items": [], "files": [path], "dragOperationsMask": 1})

    def insert(self, text):
        self.call("Input.insertText", text=text)

    def picture(self):
        """The page as it can be seen, a PNG."""
        return base64.b64decode(self.call("Page.captureScreenshot")["data"])

    def paper(self):
        """The page on paper, a PDF."""
        return base64.b64decode(self.call("Page.printToPDF", landscape=True, printBackground=True)["data"])

    def media(self, **features):
        """What a system asks for: prefers_color_scheme, prefers_reduced_motion."""
        self.call("Emulation.setEmulatedMedia", features=[{"name": name.replace("_", "-"), "value": it} for name, it in features.items()])

    def gather(self):
        """Adds what the console says to `errors`: here `hear` has done so."""

    def press(self, key):
        for kind in ("keyDown", "keyUp"):
            self.call("Input.dispatchKeyEvent", type=kind, key=key, code=key)

    def size(self, width, height, is_dark=False):
        self.call("Emulation.setDeviceMetricsOverride", width=width, height=height, deviceScaleFactor=1, mobile=width < 600)
        scheme = "dark" if is_dark else "light"
        self.call("Emulation.setEmulatedMedia", features=[{"name": "prefers-color-scheme", "value": scheme}])
