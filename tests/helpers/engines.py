"""Firefox and WebKit (Safari's engine) with one page each, driven by what they bring: Marionette, and WebKitWebDriver.

They do what helpers/browser.py does with Chromium, so the tests of the workbench run in them too (docs/TESTING.md). Python's standard library alone.
"""
import base64
import contextlib
import glob
import json
import os
import shutil
import signal
import socket
import subprocess
import tempfile
import time
import urllib.request

from helpers.browser import MOST_SECONDS, Broken, Browser

# What WebDriver calls keys that aren't letters.
KEYS = {
    "ArrowLeft": "\ue012", "ArrowUp": "\ue013", "ArrowRight": "\ue014", "ArrowDown": "\ue015", "Home": "\ue011", "End": "\ue010", "Tab": "\ue004",
    "Enter": "\ue007", "\n": "\ue007", "Escape": "\ue00c", "Backspace": "\ue003", "PageUp": "\ue00e", "PageDown": "\ue00f",
}
CTRL = "\ue009"
# The screen of a browser that needs one.
SCREEN = 1600, 1200
# The value of an expression in the page, awaited.
ASYNC = """const done = arguments[arguments.length - 1];
(async () => { %s })().then((value) => done({ value: value ?? null }), (fault) => done({ fault: `${fault}\n${fault.stack ?? ""}` }));"""


def free_port():
    with socket.socket() as it:
        it.bind(("127.0.0.1", 0))
        return it.getsockname()[1]


class Driven:
    """A browser that takes WebDriver's commands, by `ask`. It has no errors to tell unless `gather` finds some."""

    # Whether colours and motion can be asked for as a system would; whether a folder can be given, and a file dropped.
    has_media = has_folders = has_drops = False

    def __init__(self):
        self.errors = []
        self.room = tempfile.TemporaryDirectory(prefix="y86-browser-", ignore_cleanup_errors=True)
        self.process = None

    def __enter__(self):
        return self

    def __exit__(self, *_):
        try:
            os.killpg(self.process.pid, signal.SIGTERM)
            self.process.wait(20)
        except subprocess.TimeoutExpired:
            os.killpg(self.process.pid, signal.SIGKILL)
            self.process.wait()
        self.room.cleanup()

    def begin_process(self, words, **more):
        quiet = {"stdin": subprocess.DEVNULL, "stdout": subprocess.DEVNULL, "stderr": subprocess.DEVNULL}
        self.process = subprocess.Popen(words, start_new_session=True, **{**quiet, **more})

    def ask(self, what, **more):
        """What the browser answers to a command of WebDriver, by its name in Marionette."""
        raise NotImplementedError

    def evaluate(self, before, script):
        """The value of an expression in the page, awaited; `before` are declarations that it may use."""
        got = self.ask("ExecuteAsyncScript", script=ASYNC % f"{before} return ({script.strip().rstrip(';')});", args=[])
        if "fault" in got:
            raise Broken(got["fault"])
        return got["value"]

    def open(self, path, fragment=""):
        for url in ("about:blank", f"file://{path}{fragment}"):
            self.ask("Navigate", url=url)

    def actions(self, kind, steps, **more):
        self.ask("PerformActions", actions=[{"type": kind, "id": kind, "actions": steps, **more}])

    def mouse(self, x, y):
        move = {"type": "pointerMove", "duration": 0, "x": int(x), "y": int(y), "origin": "viewport"}
        self.actions("pointer", [move, {"type": "pointerDown", "button": 0}, {"type": "pointerUp", "button": 0}], parameters={"pointerType": "mouse"})

    def press_key(self, key, is_ctrl):
        keys = [CTRL, KEYS.get(key, key)] if is_ctrl else [KEYS.get(key, key)]
        down = [{"type": "keyDown", "value": it} for it in keys]
        self.actions("key", [*down, *[{"type": "keyUp", "value": it} for it in reversed(keys)]])

    def insert(self, text):
        self.actions("key", [{"type": kind, "value": KEYS.get(it, it)} for it in text for kind in ("keyDown", "keyUp")])

    def paper(self):
        """The page on paper, a PDF; None where the driver can't print."""
        return None

    def picture(self):
        """The page as it can be seen, a PNG."""
        return base64.b64decode(self.ask("TakeScreenshot", full=False))

    def size(self, width, height, is_dark=False):
        """Makes the page so large."""
        raise NotImplementedError

    def close_list(self):
        """Closes the rows of a list that has the focus, where the driver's keys don't reach them: they then go to the list."""

    def give(self, asks, path):
        """Does something that asks for a file or a folder, and gives this one."""
        raise NotImplementedError

    def save_into(self, folder):
        """What the page saves goes into this folder."""
        raise NotImplementedError

    def gather(self):
        """Adds what the console says to `errors`."""


class Firefox(Driven):
    """A headless Firefox, which Marionette drives over a socket."""

    has_media = has_folders = True
    # What a system asks for, as Firefox's preferences have it.
    MEDIA = {
        ("prefers_color_scheme", "dark"): ("layout.css.prefers-color-scheme.content-override", 0),
        ("prefers_color_scheme", "light"): ("layout.css.prefers-color-scheme.content-override", 1),
        ("prefers_reduced_motion", "reduce"): ("ui.prefersReducedMotion", 1),
    }
    # Errors of scripts of files; the lines about a page's fonts and the like are no errors.
    ERRORS = """return Services.console.getMessageArray().filter((it) => it instanceof Ci.nsIScriptError && !(it.flags & 1)
        && it.sourceName.startsWith("file:")).map((it) => it.errorMessage);"""

    # In place of the system's window that asks for a file or a folder: it gives one at once.
    PICKER = """const path = %s, name = "@mozilla.org/filepicker;1", registrar = Components.manager.QueryInterface(Ci.nsIComponentRegistrar);
        const old = registrar.contractIDToCID(name), id = Services.uuid.generateUUID(), file = Cc["@mozilla.org/file/local;1"].createInstance(Ci.nsIFile);
        file.initWithPath(path);
        const picker = { QueryInterface: ChromeUtils.generateQI(["nsIFilePicker"]), init() {}, appendFilter() {}, appendFilters() {}, appendRawFilter() {}, file,
            get files() { return [file][Symbol.iterator](); },
            open(it) { registrar.registerFactory(old, "", name, null); Services.tm.dispatchToMainThread(() => it.done(Ci.nsIFilePicker.returnOK)); } };
        registrar.registerFactory(id, "", name, { createInstance: (it) => picker.QueryInterface(it) });"""

    # A page may read a folder that is given. (Firefox would ask first; the answer can't be pressed for a second, and Marionette then waits without an end.)
    MAY_READ = """ChromeUtils.importESModule("resource:///modules/PromptCollection.sys.mjs").PromptCollection.prototype.confirmFolderUpload = () => true;"""

    def __init__(self):
        super().__init__()
        port, self.number = free_port(), 0
        with open(f"{self.room.name}/user.js", "w", encoding="utf-8") as it:
            it.write(f'user_pref("marionette.port", {port});\nuser_pref("datareporting.policy.dataSubmissionEnabled", false);\n')
        self.begin_process([self.command(), "--headless", "--marionette", "--remote-allow-system-access", "--no-remote", "--profile", self.room.name])
        end = time.monotonic() + MOST_SECONDS
        while True:
            try:
                self.socket = socket.create_connection(("127.0.0.1", port))
                break
            except OSError:
                if time.monotonic() > end:
                    raise Broken("Firefox doesn't begin") from None
                time.sleep(0.2)
        self.lines = self.socket.makefile("rb")
        self.answer()
        self.ask("NewSession", capabilities={})
        self.ask("SetTimeouts", script=600000, pageLoad=600000)

    @staticmethod
    def command():
        return shutil.which("firefox-esr") or shutil.which("firefox")

    def __exit__(self, *_):
        self.socket.close()
        super().__exit__()

    def answer(self):
        digits = b""
        while (it := self.lines.read(1)) != b":":
            if not it:
                raise Broken("Firefox ended")
            digits += it
        return json.loads(self.lines.read(int(digits)))

    def send(self, what, more):
        self.number += 1
        text = json.dumps([0, self.number, what, more]).encode()
        self.socket.sendall(str(len(text)).encode() + b":" + text)
        _, _, fault, result = self.answer()
        if fault:
            raise Broken(f"{what}: {fault['message']}")
        return result["value"] if list(result or {}) == ["value"] else result

    def ask(self, what, **more):
        if what == "ExecuteAsyncScript":
            more["sandbox"] = None
        return self.send(f"WebDriver:{what}", more)

    def chrome(self, script):
        """Runs a script in the browser's own window."""
        self.send("Marionette:SetContext", {"value": "chrome"})
        try:
            return self.send("WebDriver:ExecuteScript", {"script": script, "args": []})
        finally:
            self.send("Marionette:SetContext", {"value": "content"})

    def size(self, width, height, is_dark=False):
        """As for a phone: the page in the window is so large, since the window can't be that narrow."""
        self.ask("SetWindowRect", width=max(width, 600), height=height + 150)
        self.chrome(f"""const it = gBrowser.selectedBrowser.style;
            for (const [name, size] of [["width", {width}], ["height", {height}]])
                for (const most of ["", "min-", "max-"]) it.setProperty(most + name, size + "px");""")
        time.sleep(0.5)

    def media(self, **features):
        for it in features.items():
            name, value = self.MEDIA[it]
            self.chrome(f"Services.prefs.setIntPref({json.dumps(name)}, {value});")
        if "prefers_reduced_motion" not in features:
            self.chrome('Services.prefs.clearUserPref("ui.prefersReducedMotion");')
        time.sleep(0.3)

    def close_list(self):
        self.chrome("for (const it of document.querySelectorAll('menupopup')) if (it.state !== 'closed') it.hidePopup();")

    def give(self, asks, path):
        self.chrome(self.PICKER % json.dumps(path))
        self.ask("ExecuteScript", script=self.MAY_READ, args=[], sandbox="system")
        asks()

    def press_key(self, key, is_ctrl):
        super().press_key(key, is_ctrl)
        if key == "Tab" and not self.evaluate("", "document.hasFocus()"):
            # (the focus is in the browser's own buttons, which come between the page's last stop and its first)
            self.chrome("gBrowser.selectedBrowser.focus();")

    def paper(self):
        return base64.b64decode(self.ask("Print", orientation="landscape", background=True))

    def save_into(self, folder):
        os.makedirs(folder, exist_ok=True)
        self.chrome(f"""Services.prefs.setStringPref("browser.download.dir", {json.dumps(folder)});
            Services.prefs.setIntPref("browser.download.folderList", 2);""")

    def gather(self):
        self.errors += self.chrome(self.ERRORS)
        self.chrome("Services.console.reset();")


class WebKit(Driven):
    """WebKitGTK's small browser, which WebKitWebDriver drives; it needs a display, so it begins under xvfb-run where there is none.

    It knows what a system asks for only as it begins: `is_dark` asks for dark colours and no motion.
    """

    # (so it has no toolbar, and can be as narrow as a phone)
    WORDS = ["--automation", "--full-screen"]
    # (without a graphics card, drawing by OpenGL takes more time than all the rest)
    DRAWING = {"WEBKIT_DISABLE_COMPOSITING_MODE": "1", "WEBKIT_SKIA_ENABLE_CPU_RENDERING": "1"}
    # What an element is called in WebDriver's answers.
    ELEMENT = "element-6066-11e4-a52e-4f735466cecf"
    PATHS = {
        "Navigate": ("POST", "url"), "ExecuteAsyncScript": ("POST", "execute/async"), "PerformActions": ("POST", "actions"),
        "TakeScreenshot": ("GET", "screenshot"), "GetWindowRect": ("GET", "window/rect"), "SetWindowRect": ("POST", "window/rect"), "SetTimeouts": ("POST", "timeouts"),
        "ExecuteScript": ("POST", "execute/sync"),
    }

    def __init__(self, is_dark=False):
        super().__init__()
        port, room = free_port(), self.room.name
        self.top = f"http://127.0.0.1:{port}/session"
        self.settings(is_dark)
        words = ["WebKitWebDriver", f"--port={port}"]
        if not os.environ.get("DISPLAY"):
            words = ["xvfb-run", "-a", "-s", f"-screen 0 {SCREEN[0]}x{SCREEN[1]}x24", *words]
        folders = {f"XDG_{it}_HOME": room for it in ("CACHE", "DATA", "CONFIG")}
        more = {**self.DRAWING, "HOME": room, "GTK_THEME": "Adwaita:dark" if is_dark else "Adwaita"}
        self.begin_process(words, env={**os.environ, **folders, **more})
        options = {"binary": self.command(), "args": self.WORDS}
        end = time.monotonic() + MOST_SECONDS
        while True:
            try:
                began = self.http("POST", "", {"capabilities": {"alwaysMatch": {"webkitgtk:browserOptions": options}}})
                break
            except OSError:
                if time.monotonic() > end:
                    raise Broken("WebKit doesn't begin") from None
                time.sleep(0.3)
        self.top += f"/{began['sessionId']}"
        self.ask("SetTimeouts", script=600000, pageLoad=600000)

    def settings(self, is_dark):
        """Writes what the browser reads as it begins."""
        os.makedirs(f"{self.room.name}/gtk-3.0")
        with open(f"{self.room.name}/gtk-3.0/settings.ini", "w", encoding="utf-8") as it:
            it.write(f"[Settings]\ngtk-enable-animations={0 if is_dark else 1}\n")
        with open(f"{self.room.name}/user-dirs.dirs", "w", encoding="utf-8") as it:
            it.write('XDG_DOWNLOAD_DIR="$HOME/saved"\n')

    @staticmethod
    def command():
        found = sorted(glob.glob("/usr/lib/*/webkit2gtk-4.*/MiniBrowser"))
        return found[-1] if found and shutil.which("WebKitWebDriver") and (os.environ.get("DISPLAY") or shutil.which("xvfb-run")) else None

    def http(self, method, path, more=None):
        data = None if more is None else json.dumps(more).encode()
        request = urllib.request.Request(f"{self.top}/{path}".rstrip("/"), data, {"Content-Type": "application/json"}, method=method)
        try:
            with urllib.request.urlopen(request, timeout=700) as it:
                return json.load(it)["value"]
        except urllib.error.HTTPError as it:
            raise Broken(f"{path}: {it.read().decode(errors='replace')[:400]}") from None

    def ask(self, what, **more):
        method, path = self.PATHS[what]
        return self.http(method, path, more if method == "POST" else None)

    def size(self, width, height, is_dark=False):
        """Makes the page so large, where the pointer is: without a manager of windows, the window under it has the focus."""
        for _ in range(3):
            inner = self.evaluate("", "[innerWidth, innerHeight]")
            if inner == [width, height]:
                break
            now = self.ask("GetWindowRect")
            wide, high = now["width"] + width - inner[0], now["height"] + height - inner[1]
            x, y = (max(0, (most - part) // 2) for most, part in zip(SCREEN, (width, height)))
            self.ask("SetWindowRect", width=wide, height=high, x=x, y=y)
            time.sleep(0.3)

    def give(self, asks, path):
        """Gives a file. The input that asks doesn't open the system's window, which no driver reaches."""
        self.evaluate("", "(HTMLInputElement.prototype.click = function () { window.asked = this; }, 0)")
        asks()
        end = time.monotonic() + MOST_SECONDS
        while not self.evaluate("", "Boolean(window.asked)"):
            if time.monotonic() > end:
                raise Broken("no file is asked for")
            time.sleep(0.05)
        element = self.ask("ExecuteScript", script="const it = asked; delete window.asked; delete HTMLInputElement.prototype.click; return it;", args=[])
        self.http("POST", f"element/{element[self.ELEMENT]}/value", {"text": path})

    def save_into(self, folder):
        os.makedirs(folder, exist_ok=True)
        with contextlib.suppress(FileNotFoundError):
            os.remove(f"{self.room.name}/saved")
        os.symlink(folder, f"{self.room.name}/saved")


ENGINES = {"chromium": Browser, "firefox": Firefox, "webkit": WebKit}
