"""Each thing that the workbench offers, once by mouse and once by keys alone, on a screen, a tablet and a phone. Needs a browser, as test_browser_page.py.

A row says what is done, where the mouse clicks, which keys do the same, and what the page then shows.
"""
import json
import os
import re
import time

import pytest

from helpers.browser import MOST_SECONDS, Broken
from helpers.cases import same
from helpers.designs import example
from helpers.workbench_page import WIDTHS, said

pytestmark = pytest.mark.xdist_group("browser hands")
STD = example("std")
MOST_STOPS = 60


def says(id, words):
    """Whether an element says this, blanks aside."""
    return f"el('{id}').textContent.replace(/\\s+/g, ' ').includes({json.dumps(words)})"


def tab_to(at, selector):
    """Goes on by Tab until this is reached."""
    for _ in range(MOST_STOPS):
        if at.do(f"document.activeElement.matches({selector!r})"):
            return
        at.key("Tab")
    raise Broken(f"Tab never reaches {selector}")


class Mouse:
    """Clicks at what is there, and nothing may lie over it."""

    def __init__(self, at):
        self.at = at

    def use(self, place, _):
        self.at.click(place)

    def choose(self, which, name):
        """A click opens a list; the list itself is the browser's, so its rows are chosen by keys."""
        self.at.click(f"#{which}")
        self.at.browser.close_list()
        chosen(self.at, which, name)
        self.at.key("Enter")

    def write(self, which, text):
        """Clicks into a text's second line, and writes a line after it."""
        self.at.click(f"#{which} textarea")
        write_after(self.at, which, text)


class Keys:
    """Keys that work everywhere outside of the texts (`^` is Ctrl, `@` goes to a place by Tab); else Tab goes to a place, and Enter does it."""

    def __init__(self, at):
        self.at = at

    def use(self, place, keys):
        for it in keys or (f"@{place}", "Enter"):
            if it[0] == "@":
                tab_to(self.at, it[1:])
            elif it[0] == "^":
                self.at.key(it[1:], is_ctrl=True)
            else:
                self.at.key(it)

    def choose(self, which, name):
        tab_to(self.at, f"#{which}")
        chosen(self.at, which, name)

    def write(self, which, text):
        tab_to(self.at, f"#{which} textarea")
        write_after(self.at, which, text)


def chosen(at, which, name):
    """Moves in a list that has the focus."""
    now, to = at.do(f"(() => {{ const it = el('{which}'); return [it.selectedIndex, [...it.options].findIndex((one) => one.value === {name!r})]; }})()")
    assert to >= 0, name
    for _ in range(abs(to - now)):
        at.key("ArrowDown" if to > now else "ArrowUp")


def write_after(at, which, text):
    """Writes a line after the second one, letter by letter."""
    at.do(f"(() => {{ const it = one('#{which} textarea'), end = it.value.split('\\n').slice(0, 2).join('\\n').length; it.setSelectionRange(end, end); }})()")
    at.key("Enter")
    at.type(text)


HANDS = [Mouse, Keys]
EACH = [pytest.param(hand, size, id=f"{hand.__name__.lower()}, {size[0]} by {size[1]}") for size in WIDTHS for hand in HANDS]


def does(at, hand, rows):
    """Does what the rows say, one after another."""
    for what, place, keys, then in rows:
        if place:
            hand.use(place, keys)
        try:
            at.until(then)
        except Broken as it:
            raise Broken(f"{what}: {it}") from it


def begin(hand, size, at, design="", program=""):
    """The page at this width, with these texts."""
    at.size(*size)
    if program:
        at.choose("yss", program)
    if design:
        at.choose("hcls", design)
    at.leave()
    return hand(at)


# ---- a yes: the verdict, the run by cycles, what it saves

ACTS, TIPS = "every('#path .act').map((it) => it.textContent).join()", "every('#path .tip text').map((it) => it.textContent).join()"
TABLE = "every('#stages .act').map((it) => it.textContent).join()"
CYCLE = "workbench.run.cycles[workbench.cycle - 1]"
# Play stops where the fifth instruction is fetched.
ROW = "#grid .row:nth-child(5) .name"
RUN = [
    ("a verdict", "", (), says("verdict", "Right for every program")),
    ("the settings", "", (), says("verdict", "Jumps predicted as taken: all. A mispredicted jump costs two bubbles, a return three. A word that is just loaded is waited for.")),
    ("this program", "", (), says("outcome", "This program comes out right") + " && " + says("outcome", "Ends at a halt. 50 cycles, 34 retired")),
    ("colours", "", (), "['comment', 'word', 'defined', 'given', 'constant', 'number'].every((it) => one(`#hcl .colours .${it}`)) && one('#ys .colours .label')"),
    ("a cycle on", "#on", ["ArrowRight"], "workbench.cycle === 2"),
    ("a cycle back", "#back", ["ArrowLeft"], "workbench.cycle === 1"),
    ("the last", "#end", ["End"], "workbench.cycle === 50"),
    ("the first", "#first", ["Home"], "workbench.cycle === 1"),
    ("the slider", "#slider", ["@#slider", "PageUp"], "workbench.cycle > 5"),
    ("the first again", "#first", ["@#first", "Enter"], "workbench.cycle === 1"),
    ("the next hazard", "#hazard", ["n"], says("told", "Load/use: addq %r10, %rax waits in D for %r10")),
    ("stalls and a bubble", "", (), f"{ACTS} === 'stall,stall,bubble' && {TABLE} === 'stalls,stalls,bubble next,,'"),
    ("it waits in the diagram", "", (), "every('#grid .row').some((row) => [...row.querySelectorAll('.box')].map((it) => it.textContent).join('') === 'FDDEMW')"),
    ("a word is forwarded", "#on", ["ArrowRight"], f"/m_valM 0x/.test({TIPS}) && " + says("told", "forwarded as valA from m_valM")),
    ("its line in the diagram", "", (), "one('#grid path.forward.is')"),
    ("in the table, too", "", (), says("stages", "valA = 0xd000d000d from m_valM")),
    ("the hazard before", "#first", ["N"], "workbench.cycle === 1 || " + says("told", "Load/use")),
    ("a cell of the diagram", "#grid .box[data-cycle='6']", ["Home", *["ArrowRight"] * 5], "workbench.cycle === 6"),
    ("what the cycle before changed", "", (), "one('#registers .new').textContent === '%rsp0x200' || one('#memory .new')"),
    ("where the source is", "", (), "one('#ys .gutter .here')"),
    ("words in decimal", "#base", ["@#base", "Enter"], "one('#registers').textContent.includes('%rsp512') || one('#registers').textContent.includes('%rsp504')"),
    ("words in hex", "#base", [" "], "el('base').textContent === '0x'"),
    ("the first once more", "#first", ["Home"], "workbench.cycle === 1"),
    ("a breakpoint", ROW, ["@#grid", *["ArrowDown"] * 6, "ArrowUp", "Enter"], "workbench.breaks.size === 1 && every('#ys .gutter .break').length === 1"),
    ("play to it", "#play", ["@#play", " "], f"!workbench.playing && workbench.breaks.has(parseInt({CYCLE}.stages.F.at, 16))"),
    ("no breakpoint", "#ys .gutter .break", ["@#grid", "b"], "workbench.breaks.size === 0"),
    ("play", "#play", [" "], "workbench.playing"),
    ("pause", "#play", [" "], "!workbench.playing"),
    ("by instructions", "#tab-steps", ["w"], "every('#panel-steps tbody tr').length === 34 && " + says("panel-steps", "The processor’s run is the same.")),
    ("this run", "#tab-run", ["w"], "!el('panel-run').hidden && workbench.tab === 'run'"),
]


@pytest.mark.parametrize("hand, size", EACH)
def test_run(hand, size, at):
    at.do("el('speed').value = '15'")
    does(at, begin(hand, size, at), RUN)


# ---- pictures, files, links, paper, the class

# A button, and the name and the text of what it saves.
SAVED = [
    ("#save-cert", r"std\.crt", r"^y86 certificate|^\S"),
    ("#save-aig", r"std\.aag", r"^aag \d+ \d+ 0 \d+ \d+\n"),
    ("#save-path", r"asum-cycle1\.svg", r"^<svg .*--ink:#"),
    ("#save-diagram", r"asum-diagram\.svg", r"^<svg .*--ink:#"),
    ("[data-save=hcl]", r"std\.hcl", r"^# PIPE"),
    ("[data-save=ys]", r"asum\.ys", r"^# The sum of an array"),
]


@pytest.mark.parametrize("hand, size", EACH)
def test_saved(hand, size, at):
    it = begin(hand, size, at)
    for place, name, text in SAVED:
        saved = at.saved(lambda place=place: it.use(place, ()))
        assert re.fullmatch(name, saved[0]), saved[0]
        assert re.match(text, saved[1], re.S), (place, saved[1][:90])


OFFERED = [
    ("iaddq", "#full", ["@#full", " "], says("verdict", "no: O2 Not right for every program")),
    ("no iaddq", "#full", [" "], says("verdict", "Right for every program")),
    ("a link", "#link", (), "location.hash.startsWith('#w=') && el('dialog').open === false"),
    ("paper", "#print", (), "window.printed === 1"),
    ("dark", "#theme", (), "document.documentElement.dataset.theme === 'light'"),
    ("light", "#theme", ["Enter"], "document.documentElement.dataset.theme === 'dark'"),
    ("as the system", "#theme", ["Enter"], "workbench.theme === 'auto'"),
    ("help", "#help", ["?"], "el('dialog').open && " + says("dialog", "next hazard")),
    ("closed", "#dialog .primary", ["Escape"], "!el('dialog').open"),
    ("a class", "#class", (), "el('dialog').open && el('class-pick') && el('class-csv').disabled"),
    ("closed again", "#dialog form button", ["@#dialog form button", "Enter"], "!el('dialog').open"),
]


@pytest.mark.parametrize("hand, size", EACH)
def test_offered(hand, size, at):
    at.do("Object.assign(window, { printed: 0, print: () => window.printed++ }), 0")
    it = begin(hand, size, at)
    does(at, it, OFFERED)
    at.do("(() => { history.replaceState(null, '', location.href.split('#')[0]); localStorage.clear(); })()")


# ---- examples, the tutorial, writing

@pytest.mark.parametrize("hand, size", EACH)
def test_examples(hand, size, at):
    """Lists of examples, with the steps of the tutorial."""
    it = begin(hand, size, at)
    it.choose("yss", "jump.ys")
    at.settle()
    said(at, "outcome", "comes out right", "10 cycles, 4 retired")
    it.choose("hcls", "tutorial 2")
    at.settle()
    said(at, "verdict", "no: O")
    same(at.do("el('yss').value"), "sort.ys")
    at.leave()
    at.do("scrollTo(0, 0)")
    it.choose("hcls", "tutorial 11")
    at.settle()
    said(at, "verdict", "Right for every program")


# The note's line, and whether it lies between that line and the next one, in view of the text.
NOTE = """(() => {
  const lines = every('#WHICH .gutter span'), note = one('#WHICH .note').getBoundingClientRect(), bad = lines.findIndex((it) => it.classList.contains('bad'));
  const box = el('WHICH').getBoundingClientRect(), [over, under] = [bad, bad + 1].map((it) => lines[it].getBoundingClientRect());
  return [bad + 1, note.top >= over.bottom - 1 && note.bottom <= under.top + 1, note.top >= box.top && note.bottom <= box.bottom + 1];
})()"""


@pytest.mark.parametrize("hand, size", EACH)
def test_faults(hand, size, at):
    """A fault is under its line as it is written, and the verdict is back as it is mended; the other text has its own."""
    it = begin(hand, size, at)
    it.write("hcl", "bool mine = 1;")
    assert at.do("el('verdict').classList.contains('stale')")
    at.settle()
    same(at.do(NOTE.replace("WHICH", "hcl")), [3, True, True])
    said(at, "hcl-strip", "line 3, column 6", "mine is neither a signal nor a constant of PIPE")
    said(at, "verdict", "no answer", "The processor has a fault in line 3, column 6")
    said(at, "outcome", "It assembles; the processor has a fault")
    for _ in "\nbool mine = 1;":
        at.key("Backspace")
    at.settle()
    same(at.source("hcl"), STD)
    said(at, "verdict", "Right for every program")
    same(at.do("every('#hcl .note, #hcl .bad').length"), 0)
    at.leave()
    it.write("ys", "    adq %rax, %rbx")
    at.settle()
    same(at.do(NOTE.replace("WHICH", "ys")), [3, True, True])
    said(at, "outcome", "The program has a fault in line 3", "adq is no mnemonic")
    said(at, "verdict", "Right for every program")
    it.use("#ys-strip button", ["@#ys-strip button", "Enter"])
    assert at.do("document.activeElement === one('#ys textarea')")


# ---- a no: the situation, the marks in the file, a program that runs into it

NO = [
    ("a refusal", "", (), says("verdict", "no: O10 Not right for every program") + " && " + says("verdict", "d_valA picks M_valE; e_valE is wanted")),
    ("it is shown at once", "", (), "workbench.tab === 'no'"),
    ("the situation", "", (), "every('#no-path .wire.bad').length === 1 && every('#no-path .wire.want').length === 1"),
    ("in words", "", (), says("panel-no", "It reads D_icode = IRRMOVQ") + " && " + says("panel-no", "d_srcA == M_dstE : M_valE; ← is taken")),
    ("the stages as a table", "", (), "every('#panel-no .stages tr').map((it) => it.firstElementChild.textContent).join('') === 'FDEMW'"),
    ("the case in the file", "", (), "every('#hcl .gutter .case').map((it) => it.textContent).join() === '50' && one('#hcl .note')"),
    ("another obligation", "#panel-no [data-rule=O11]", (), "workbench.verdict.rule === 'O11' && every('#hcl .gutter .case').map((it) => it.textContent).join() === '54'"),
    ("the first obligation", "#panel-no [data-rule=O10]", (), "workbench.verdict.rule === 'O10'"),
    ("the line", "#goto", (), "document.activeElement === one('#hcl textarea')"),
    ("no note", "#hcl .note button", (), "!one('#hcl .note')"),
    ("out of the text", "#tab-run", ["^Enter", "w"], "workbench.tab === 'run'"),
    ("why", "#why", (), "workbench.tab === 'no'"),
    ("it comes out wrong", "", (), says("outcome", "This program comes out wrong") + " && " + says("outcome", "First wrong: instruction 3")),
    ("by instructions", "#tab-steps", ["@#tab-no", "ArrowLeft"], "one('#panel-steps .wrong') && " + says("panel-steps", "differs first at instruction 3")),
    ("its cycle", "#panel-steps [data-record]", (), "workbench.tab === 'run' && workbench.cycle > 1"),
    ("the wrong row", "#wrong-at", (), "every('#grid .row.wrong').length === 1"),
]


@pytest.mark.parametrize("hand, size", EACH)
def test_refused(hand, size, at):
    it = begin(hand, size, at, "mistake: memory before execute")
    does(at, it, NO)
    it.use("#tab-no", ["@[role=tab][tabindex='0']", "ArrowLeft"])
    name, drawing = at.saved(lambda: it.use("#save-no", ()))
    assert (name, drawing[:4]) == ("O10.svg", "<svg") and "e_valE wanted" in drawing
    at.choose("yss", "add.ys")
    at.leave()
    does(at, it, [
        ("another program comes out right", "", (), says("outcome", "comes out right") + " && " + says("outcome", "Another may not.")),
        ("a program that doesn't", "#find", (), says("outcome", "comes out wrong") + " && el('yss').value === 'abs.ys' && !one('.stale')"),
    ])
    at.leave()
    does(at, it, [("to play", "#on", ["ArrowRight"], "workbench.cycle === 2")])


# ---- what is cancelled; SEQ and SEQ+

@pytest.mark.parametrize("hand, size", EACH)
def test_cancelled(hand, size, at):
    it = begin(hand, size, at, program="jump.ys")
    does(at, it, [
        ("a jump", "#hazard", ["n"], says("told", "Mispredicted: jne 0x016 in E isn’t taken")),
        ("what is cancelled", "", (), "every('#grid .row.cancelled .ins').map((it) => it.textContent).join('|').startsWith('rmmovq %rcx, 0x100(%rbx)|halt')"),
        ("crossed out", "", (), "getComputedStyle(one('#grid .row.cancelled .ins')).textDecorationLine === 'line-through'"),
        ("bubbles come", "#on", ["ArrowRight"], "every('#stages .what').map((it) => it.textContent).join() === 'halt,bubble,bubble,jne 0x016,xorq %rax, %rax'"),
        ("the other way", "", (), f"/f_pc = M_valA 0x015/.test({TIPS})"),
        ("in the diagram", "", (), "every('#grid .row.bubble').length >= 2"),
    ])


SEQ = [
    ("a cycle on", "#on", ["ArrowRight"], "workbench.cycle === 2 && one('#path svg.seq')"),
    ("in words", "", (), says("told", "call 0x014: %rsp becomes 0xf8, the word at 0x0f8 becomes 0x13")),
    ("what comes", "", (), "every('#registers .comes').map((it) => it.textContent).join() === '%rsp0x100' && one('#memory .comes')"),
    ("what has come", "#on", ["ArrowRight"], "one('#registers .new').textContent === '%rsp0xf8' && one('#memory .new').textContent === '0x0f80x13'"),
    ("its stages", "", (), "every('#stages tr').length === 6"),
    ("by instructions", "#tab-steps", ["w"], says("panel-steps", "The processor’s run is the same.")),
    ("back", "#tab-run", ["w"], "workbench.tab === 'run'"),
]


@pytest.mark.parametrize("hand, size", EACH)
def test_sequential(hand, size, at):
    for design, name in (("seq.hcl", "SEQ"), ("seq_plus.hcl", "SEQ+")):
        it = begin(hand, size, at, design, "call.ys")
        at.do("el('first').click()")
        does(at, it, [("a verdict", "", (), says("verdict", f"{name}: right for every program")), *SEQ])


# ---- files, as the system gives and takes them

TINY = "    nop\n    halt\n"


def write(path, text):
    os.makedirs(os.path.dirname(path), exist_ok=True)
    with open(path, "w", encoding="utf-8") as it:
        it.write(text)


def saved_in(folder, name):
    """The text of a file that the browser saves. (Firefox makes an empty one first.)"""
    end = time.monotonic() + MOST_SECONDS
    while not (os.path.isfile(f"{folder}/{name}") and os.path.getsize(f"{folder}/{name}")):
        if time.monotonic() > end:
            raise Broken(f"{name} isn't saved")
        time.sleep(0.05)
    with open(f"{folder}/{name}", encoding="utf-8") as it:
        return it.read()


@pytest.mark.parametrize("hand, size", EACH)
def test_files(hand, size, at, folder):
    """Files that are opened, dropped and saved, and the folder of a class. (No driver of Firefox drops a file; none of WebKit gives a folder.)"""
    write(f"{folder}/tiny.ys", TINY)
    write(f"{folder}/class/ann/pipe.hcl", STD.replace(" d_srcA == e_dstE : e_valE;", ""))
    at.browser.save_into(f"{folder}/saved")
    it = begin(hand, size, at)
    at.browser.give(lambda: it.use("[data-open=ys]", ()), f"{folder}/tiny.ys")
    at.until(f"one('#ys textarea').value === {json.dumps(TINY)}")
    at.settle()
    said(at, "outcome", "comes out right")
    at.leave()
    it.use("[data-save=ys]", ())
    same(saved_in(f"{folder}/saved", "tiny.ys"), TINY)
    refused = f"{folder}/class/ann/pipe.hcl"
    if at.browser.has_drops:
        at.do("el('hcl').scrollIntoView({ block: 'nearest' })")
        at.browser.drop(*at.do("(() => { const r = el('hcl').getBoundingClientRect(); return [r.x + 60, r.y + 40]; })()"), refused)
    else:
        at.browser.give(lambda: it.use("[data-open=hcl]", ()), refused)
    at.until("workbench.names.hcl === 'pipe.hcl'")
    at.settle()
    said(at, "verdict", "no: O10")
    at.leave()
    if not at.browser.has_folders:
        return
    it.use("#class", ())
    at.browser.give(lambda: it.use("#class-pick", ()), f"{folder}/class")
    at.until("!el('class-csv').disabled")
    said(at, "class-said", "1 file: 0 yes, 1 no")
    name, text = at.saved(lambda: it.use("#class-csv", ()))
    same((name, text.split("\n")[1]), ("class.csv", "class/ann/pipe.hcl,PIPE,no,O10,,,"))
    if at.browser.has_drops:
        place = at.do("(() => { el('class-rows').replaceChildren(); const r = el('class-said').getBoundingClientRect(); return [r.x + 9, r.y + 9]; })()")
        at.browser.drop(*place, f"{folder}/class")
        at.until("one('#class-rows tr') && !el('class-csv').disabled")
        same(at.do("every('#class-rows td').slice(0, 3).map((it) => it.textContent)"), ["class/ann/pipe.hcl", "PIPE", "no"])
    it.use("#class-rows button", ())
    at.until("!el('dialog').open && workbench.names.hcl === 'pipe.hcl'")
