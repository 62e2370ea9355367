#!/usr/bin/env python3
"""by_hand.py OUT.html [BROWSER..]: a page that makes some 300 calls in the browser that opens it, and says how many gave the answers of the native programs.

It opens the page itself in the browsers that are named: chromium, firefox, webkit (Safari's engine). docs/TESTING.md says what they need.
It needs a Python with pytest: $(tests/interpreter) tests/browser/by_hand.py calls.html firefox webkit.
"""
import os
import sys

TOP = os.path.dirname(os.path.dirname(os.path.dirname(os.path.realpath(__file__))))
sys.dont_write_bytecode = True
sys.path[:0] = [f"{TOP}/{it}" for it in ("web", "tests", "tools", "launch")]
import tempfile
import time

import build
from helpers.browser_build import programs
from helpers.engines import ENGINES
from helpers.programs import Program, program_path
from test_browser_calls import of_designs, of_programs, of_runs

SHARE = 8
# A browser that takes longer is stopped.
MOST_SECONDS = 900
PAGE = """<!DOCTYPE html><html lang="en"><meta charset="utf-8"><title>y86: calls by hand</title>
<p id="said">…</p><pre id="wrong"></pre>
<script type="application/json" id="data">{data}</script><script type="text/plain" id="worker">{worker}</script><script type="module">{app}</script></html>"""


def sum_of(data):
    """A sum of bytes, as web/src/by_hand.mjs has it."""
    found = 0x811C9DC5
    for byte in data:
        found = (found ^ byte) * 0x01000193 & 0xFFFFFFFF
    return found


def opened(name, path):
    """Opens the page in a browser. Returns whether all calls gave the same."""
    if not ENGINES[name].command():
        print(f"{name} isn't here")
        return False
    begun = time.monotonic()
    with ENGINES[name]() as browser:
        browser.open(os.path.abspath(path))
        while not (is_ready := browser.evaluate("", "window.ready === true")) and time.monotonic() < begun + MOST_SECONDS:
            time.sleep(0.3)
        said, wrong = browser.evaluate("", "['said', 'wrong'].map((it) => document.getElementById(it).textContent)")
    after = f"after {time.monotonic() - begun:.0f} s{'' if is_ready else ', when it was stopped'}"
    print(f"{name}: {said}, {after}", wrong, sep="\n" if wrong else "", flush=True)
    return is_ready and not wrong


def main(words):
    if not words or not set(words[1:]) <= set(ENGINES):
        print(__doc__, file=sys.stderr)
        return 2
    calls = [*of_programs(), *of_designs(), *of_runs()][::SHARE]
    native = {it: program_path(it) for it in {call.crate for call in calls}}
    with tempfile.TemporaryDirectory() as room:
        asked = []
        for call in calls:
            answer = Program(native[call.crate], room)(*call.words, files=call.files)
            files = {name: text.decode() for name, text in call.files.items()}
            sums = [answer.status, sum_of(answer.out), sum_of(answer.err)]
            asked.append({"program": call.crate.replace("_", "-"), "words": call.words, "files": files, "answer": sums})
    packed = {it.name: build.packed(it.file) for it in programs()}
    data = build.as_json({"programs": packed, "calls": asked, "examples": {}, "texts": {}, "about": {}})
    with open(words[0], "w", encoding="utf-8") as it:
        it.write(PAGE.format(data=data, worker=build.script("worker"), app=build.script("by_hand")))
    print(f"{words[0]} makes {len(asked)} calls: open it in each browser", flush=True)
    return 0 if all([opened(it, words[0]) for it in words[1:]]) else 1


if __name__ == "__main__":
    sys.exit(main(sys.argv[1:]))
