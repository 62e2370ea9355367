"""The workbench in a browser: what a reader does, and what the page then shows."""
import json
import os
import re
import time

import pytest

from helpers.browser import MOST_SECONDS, Broken
from helpers.engines import ENGINES

# A screen, a tablet and a phone.
WIDE = (1440, 900)
WIDTHS = [WIDE, (820, 1180), (390, 844)]

# For scripts in the page.
SHORT = """
var el = (id) => document.getElementById(id), one = (it) => document.querySelector(it), every = (it) => [...document.querySelectorAll(it)];
"""
# The middle of an element, and whether a click there meets it.
CLICKED = """(() => {
  const it = one(%s);
  it.scrollIntoView({ block: 'nearest', inline: 'nearest' });
  const r = it.getBoundingClientRect(), x = r.x + r.width / 2, y = r.y + r.height / 2, hit = document.elementFromPoint(x, y);
  return [x, y, Boolean(hit) && it.contains(hit)];
})()"""
SETTLED = "!one('.stale') && !one('.busy')"


def engine():
    """The browser of these tests; skips where it isn't there."""
    found = ENGINES[os.environ.get("Y86_BROWSER", "chromium")]
    if not found.command():
        pytest.skip(f"{found.__name__} isn't here, so the page wasn't opened")
    return found


def said(at, id, *wanted):
    """Fails where the element of this id doesn't say each of these."""
    text = re.sub(r"\s+", " ", at.text(id))
    for it in wanted:
        assert it in text, f"{id} says {text!r}, and not {it!r}"


class Workbench:
    """A page of the workbench in a browser. `do` runs a script; `text` says what is there."""

    def __init__(self, browser):
        self.browser = browser

    @property
    def errors(self):
        """What the page's scripts threw, and the console's errors."""
        self.browser.gather()
        return self.browser.errors

    def do(self, script):
        """The value of an expression in the page, awaited."""
        return self.browser.evaluate(SHORT, script)

    def until(self, condition, seconds=MOST_SECONDS):
        """Waits until a condition holds in the page."""
        end = time.monotonic() + seconds
        while not self.do(f"Boolean({condition})"):
            if time.monotonic() > end:
                raise Broken(f"never: {condition}")
            time.sleep(0.03)

    def begin(self, path, fragment=""):
        """Opens the page as for the first time."""
        self.browser.open(path, fragment)
        self.until("window.ready === true")
        self.settle()

    def renew(self):
        """The page as it is at first: the book's pipeline and the array sum, on a screen."""
        self.size(*WIDE)
        self.do("(() => { if (el('dialog').open) el('dialog').close(); el('full').checked = false; localStorage.clear(); })()")
        self.choose("yss", "asum.ys")
        self.choose("hcls", "std.hcl")
        self.do("el('tab-run').click(), el('first').click()")
        self.leave()

    def settle(self):
        """Waits until the answers are those of the texts. (An edit is answered after a pause.)"""
        time.sleep(0.34)
        self.until(SETTLED)

    def click(self, selector):
        """Clicks at the middle of an element, as a mouse does. Nothing may lie over it."""
        x, y, is_there = self.do(CLICKED % json.dumps(selector))
        if not is_there:
            raise Broken(f"{selector} can't be clicked: something lies over it")
        self.browser.mouse(x, y)

    def key(self, key, is_ctrl=False):
        """Presses a key and lets it go."""
        self.browser.press_key(key, is_ctrl)

    def type(self, text):
        self.browser.insert(text)

    def choose(self, which, name):
        """Chooses an example of the list `hcls` or `yss`."""
        self.do(f"(() => {{ const it = el({json.dumps(which)}); it.value = {json.dumps(name)}; it.dispatchEvent(new Event('change')); }})()")
        self.settle()

    def write(self, which, text):
        """Puts a text in place of what is in the editor `hcl` or `ys`, as by paste."""
        self.do(f"(() => {{ const it = one('#{which} textarea'); it.focus(); it.value = {json.dumps(text)}; it.dispatchEvent(new Event('input', {{ bubbles: true }})); }})()")
        self.settle()

    def source(self, which):
        return self.do(f"one('#{which} textarea').value")

    def text(self, id):
        return self.do(f"el({json.dumps(id)}).innerText")

    def cycle(self):
        return self.do("workbench.cycle")

    def leave(self):
        """Leaves the text, for the keys of the result. (WebKit would bring the result into view some time later, as a click is under way.)"""
        self.do("document.activeElement.blur(), el('result').focus({ preventScroll: true })")

    def size(self, width, height):
        """Makes the page so large, and returns how wide it is: WebKitGTK's window can't be narrower than a phone."""
        self.browser.size(width, height)
        return self.do("innerWidth") if isinstance(self.browser, ENGINES["webkit"]) else width

    def scheme(self, name):
        """Makes the page light or dark: as a system asks for it, or by the button where the browser can't be told."""
        if self.browser.has_media:
            self.browser.media(prefers_color_scheme=name)
        elif self.do("workbench.theme") != name:
            self.do(f"(() => {{ while (workbench.theme !== '{name}') el('theme').click(); }})()")
        self.until(f"document.documentElement.dataset.theme === '{name}'")

    def media(self, **features):
        """What a system asks for; skips where the browser can't be told."""
        if not self.browser.has_media:
            pytest.skip("this browser can't be told what a system asks for")
        self.browser.media(**features)

    def saved(self, does):
        """The files that are saved while something is done: name and text each."""
        self.do("(() => { window.kept = []; window.madeURL ??= URL.createObjectURL; URL.createObjectURL = (it) => { kept.push(it); return madeURL.call(URL, it); };"
                " HTMLAnchorElement.prototype.click = function () { kept.push(this.download); }; })()")
        does()
        self.until("kept.some((it) => typeof it === 'string')")
        blob_and_name = self.do("(async () => { const at = kept.findIndex((it) => typeof it === 'string'); return [kept[at], await kept[at - 1].text()]; })()")
        self.do("delete HTMLAnchorElement.prototype.click, URL.createObjectURL = madeURL, 0")
        return tuple(blob_and_name)
