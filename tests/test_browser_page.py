"""The workbench in a headless Chromium, opened from a file: what a student and a teacher do with it. Needs Chromium.

With Y86_BROWSER=firefox or Y86_BROWSER=webkit in the environment these tests run in that browser (docs/TESTING.md).
"""
import base64
import hashlib
import json
import os
import re
import zlib

import pytest

from helpers.both_ways import comes_out_wrong
from helpers.browser_build import is_proved, page, page_without_solutions
from helpers.cases import cases, same
from helpers.designs import example
from helpers.programs import Program
from helpers.workbench_page import WIDTHS, said

pytestmark = pytest.mark.xdist_group("browser page")
STD = example("std")


# ---- what is there at once

def test_first_screen(at):
    said(at, "verdict", "Right for every program", "Jumps predicted as taken: all.", "two bubbles, a return three")
    said(at, "outcome", "This program comes out right", "Ends at a halt.")
    inside = "['verdict', 'outcome', 'path', 'grid', 'registers'].filter((id) => { const r = el(id).getBoundingClientRect(); return !(r.top >= 0 && r.bottom <= innerHeight + 1 && r.height > 30); })"
    same(at.do(inside), [])


def test_what_is_proved(at):
    same(at.do("Boolean(el('unproved'))"), not is_proved())
    said(at, "made", "rattle-kit", "Nothing leaves this page", "were proved" if is_proved() else "Nothing in it was proved")


# ---- the run by cycles

def test_buttons(at):
    last = at.do("workbench.run.cycles.length")
    for selector, wanted in (("#on", 2), ("#on", 3), ("#back", 2), ("#end", last), ("#first", 1)):
        at.click(selector)
        same((selector, at.cycle()), (selector, wanted))
    assert at.do("el('back').disabled && !el('on').disabled")
    at.do("(() => { el('slider').value = 20; el('slider').dispatchEvent(new Event('input')); })()")
    same(at.cycle(), 20)
    at.click("#grid .heads button:nth-of-type(18)")
    same(at.cycle(), 18)
    at.click("#grid .box[data-cycle='17']")
    same(at.cycle(), 17)


def test_keys(at):
    last = at.do("workbench.run.cycles.length")
    for key, wanted in (("ArrowRight", 2), ("End", last), ("ArrowLeft", last - 1), ("Home", 1)):
        at.key(key)
        same((key, at.cycle()), (key, wanted))
    at.do("el('base').focus()")
    at.key("ArrowRight")
    same(at.cycle(), 2)
    at.do("el('grid').focus()")
    at.key("ArrowRight")
    same(at.cycle(), 3)


# The boxes of the cycle that is shown at which the lines of forwarded words begin and end: the instruction and the stage.
ENDS_OF_LINES = """(() => {
  const boxes = every('#grid .box.is').map((it) => [it.getBoundingClientRect(), `${it.parentElement.querySelector('.ins')?.textContent ?? 'bubble'} ${it.textContent}`]);
  const svg = one('#grid .lines').getBoundingClientRect();
  const at = (y) => boxes.find(([r]) => Math.abs(r.top + r.height / 2 - svg.top - y) < 4)?.[1];
  return every('#grid path.forward.is:not(.head)').map((it) => /^M[\\d.]+ ([\\d.]+)C.* ([\\d.]+)$/.exec(it.getAttribute('d'))).map(([, from, to]) => [at(Number(from)), at(Number(to))]);
})()"""


def test_hazards(at):
    at.key("n")
    first = at.cycle()
    said(at, "told", "Load/use: addq %r10, %rax waits in D for %r10")
    same(at.do("every('#path .act').map((it) => it.textContent)"), ["stall", "stall", "bubble"])
    assert not at.do("one('#path .tip')"), "an instruction that waits takes no word"
    at.key("ArrowRight")
    said(at, "told", "gets %r10 = 0xd000d000d forwarded as valA from m_valM")
    assert at.do("every('#path .tip text').some((it) => /^m_valM 0x/.test(it.textContent))")
    same(at.do(ENDS_OF_LINES), [["mrmovq (%rdi), %r10 M", "addq %r10, %rax D"]])
    at.key("n")
    second = at.cycle()
    assert second > first
    at.key("N")
    assert at.cycle() < second
    at.key("Home")
    at.click("#hazard")
    same(at.cycle(), first)


def test_play(at):
    at.do("el('speed').value = '15'")
    at.key(" ")
    at.until("workbench.cycle > 3")
    at.key(" ")
    paused = at.cycle()
    at.do("new Promise((done) => setTimeout(done, 250))")
    same(at.cycle(), paused)


def test_breakpoints(at):
    at.click("#grid .row:nth-child(5) .name")
    (place,) = at.do("[...workbench.breaks]")
    same(at.do("every('#ys .gutter .break').length"), 1)
    at.do("el('speed').value = '15'")
    at.click("#play")
    at.until("!workbench.playing")
    same(at.do("parseInt(workbench.run.cycles[workbench.cycle - 1].stages.F.at, 16)"), place)
    at.click("#ys .gutter .break")
    same(at.do("workbench.breaks.size"), 0)
    at.leave()
    at.key("b")
    same(at.do("workbench.breaks.size"), 1)


def test_state(at):
    at.click("#grid .heads button:nth-of-type(6)")
    same(at.do("every('#registers .new').map((it) => it.textContent)"), ["%rsp0x200"])
    at.click("#base")
    same(at.do("every('#registers .new').map((it) => it.textContent)"), ["%rsp512"])
    at.click("#base")


def test_decimal_words(at):
    """A word in decimal is a signed number of 64 bits. A long one is shown without its middle, and its title has it whole."""
    at.write("ys", "    irmovq $0x4000000000000000, %rax\n    irmovq $0x8000000000000000, %rbx\n    irmovq $-1, %rcx\n    halt\n")
    at.click("#end")
    at.click("#base")
    same(at.do("every('#registers div').map((it) => it.textContent)"), ["%rax461168…87904", "%rcx-1", "%rbx-92233…75808"])
    titles = at.do("every('#registers div').map((it) => it.title.split(',')[0])")
    same(titles, ["%rax = 0x4000000000000000 = 4611686018427387904", "%rcx = 0xffffffffffffffff = -1", "%rbx = 0x8000000000000000 = -9223372036854775808"])
    at.click("#base")


# ---- a refusal

# A mistake, the obligation, what the card says, and its program.
REFUSED = [
    ("memory before execute", "O10", "d_valA picks M_valE; e_valE is wanted", "call.ys"),
    ("no stall for load/use", "O10", "has to wait for the load in E", "load_use.ys"),
    ("a ret isn't waited for", "O25", "", "call.ys"),
    ("the wrong path isn't cancelled", "O25", "", "jump.ys"),
]


@cases(REFUSED)
def test_refused(row, at, programs, folder):
    title, rule, brief, program = row
    at.choose("hcls", f"mistake: {title}")
    said(at, "verdict", f"no: {rule}", "Not right for every program", brief)
    same(at.do("el('yss').value"), program)
    said(at, "outcome", "This program comes out wrong", "First wrong: instruction")
    same(at.do("workbench.tab"), "no")
    assert at.do("every('#hcl .gutter .no, #hcl .gutter .case').length > 0")
    assert at.do("Boolean(one('#hcl .note'))")
    # (what y86-tell says of the obligation, to its last word)
    answer = Program(programs("y86_tell"), folder)("check", "pipe", "a.hcl", "--json", files={"a.hcl": at.source("hcl")})
    told = next(it["obligation"] for it in json.loads(answer.out)["refuted"] if it["obligation"]["label"] == rule)
    said(at, "panel-no", *[told[it].replace("`", "") for it in ("demand", "reason", "book")])


def test_why_no(at):
    at.choose("hcls", "mistake: memory before execute")
    same(at.do("[every('#no-path .wire.bad').length, every('#no-path .wire.want').length]"), [1, 1])
    said(at, "panel-no", "e_valE is wanted", "is taken", "It reads D_icode = IRRMOVQ, d_srcA = %rax", "not a cycle of your program")
    same(at.do("every('#panel-no [data-rule]').map((it) => [it.textContent, it.ariaPressed])"), [["O10", "true"], ["O11", "false"]])
    at.do("one('#panel-no [data-rule=O11]').focus()")
    at.key("Enter")
    same(at.do("document.activeElement.dataset.rule"), "O11")
    said(at, "verdict", "no: O11", "d_valB picks M_valE; e_valE is wanted", "Refuted too: O10")
    name, drawing = at.saved(lambda: at.click("#save-no"))
    same((name, re.findall(r"counterexample to (O\d+)", drawing)), ("O11.svg", ["O11"]))
    assert at.saved(lambda: at.click("#save-aig"))[0].endswith(".aag"), "the card of another obligation saves nothing"
    # (of a text that has changed no obligation is looked at)
    stale = "one('#hcl textarea').value += ' ', one('#hcl textarea').dispatchEvent(new Event('input')), one('#panel-no [data-rule=O10]').click()"
    same(at.do(f"({stale}, workbench.verdict.rule)"), "O11")
    at.choose("hcls", "mistake: memory before execute")
    at.click("#panel-no [data-rule=O10]")
    same(at.do("every('#hcl .gutter .case').map((it) => it.textContent)"), ["50"])
    at.click("#goto")
    assert at.do("document.activeElement === one('#hcl textarea')")
    same(at.do(f"({CARET})"), [50, 0])
    assert at.do("(() => { const r = one('#hcl .gutter .case').getBoundingClientRect(), all = el('hcl').getBoundingClientRect(); return r.top >= all.top && r.bottom <= all.bottom; })()")
    at.leave()
    at.key("w")
    same(at.do("workbench.tab"), "run")
    at.click("#wrong-at")
    same(at.do("every('#grid .row.wrong').length"), 1)
    assert at.cycle() > 1
    at.click("#tab-no")
    name, drawing = at.saved(lambda: at.click("#save-no"))
    same(name, "O10.svg")
    assert "e_valE wanted" in drawing


def test_witness(at, programs, folder):
    """A program that comes out right under a refused processor; an example that doesn't is found, and one is drawn where no example does.

    The programs of the repository say that both come out wrong.
    """
    y86 = Program(programs("y86"), folder)
    at.choose("hcls", "mistake: memory before execute")
    at.choose("yss", "add.ys")
    said(at, "outcome", "comes out right", "Another may not.")
    at.click("#find")
    at.until("/comes out wrong/.test(el('outcome').textContent)")
    same(at.do("el('yss').value"), "abs.ys")
    assert comes_out_wrong(y86, at.source("hcl"), at.source("ys"))
    at.choose("hcls", "mistake: E_dstE in place of e_dstE")
    own = "    irmovq $7, %rax\n    halt\n"
    at.write("ys", own)
    at.do("el('find').focus()")
    at.key("Enter")
    at.until("/comes out wrong/.test(el('outcome').textContent)")
    at.settle()
    same(at.do("document.activeElement.id"), "result")
    said(at, "outcome", "First wrong")
    drawn = at.source("ys")
    assert len(drawn.split("\n")) < 20, "the program wasn't shortened"
    assert comes_out_wrong(y86, at.source("hcl"), drawn)
    for value, text in [("", own), ("found", drawn)]:
        at.choose("yss", value)
        same(at.source("ys"), text)


def test_by_instructions(at):
    at.click("#tab-steps")
    rows = at.do("every('#panel-steps tbody tr').length")
    same(rows, at.do("workbench.compared.right.steps"))
    said(at, "panel-steps", "The processor’s run is the same.", "irmovq $512, %rsp")
    at.write("ys", "    irmovq $7, %rax\n    halt\n")
    same(at.do("every('#panel-steps tbody tr').map((it) => it.children[2].textContent)"), ["irmovq $7, %rax", "halt"])
    at.choose("hcls", "mistake: memory before execute")
    at.click("#tab-steps")
    said(at, "panel-steps", "differs first at instruction 3", "%rsp")
    at.click("#panel-steps [data-record]")
    same(at.do("[workbench.tab, document.activeElement.id]"), ["run", "result"])


def test_steps_past_the_limit_of_the_pipeline(at):
    """The pipeline is at its limit of cycles before the program's end: what it did until then is listed."""
    at.write("ys", "    irmovq $1, %rbx\n    irmovq $1200, %rax\nloop:\n    subq %rbx, %rax\n    je end\n    nop\n    nop\n    nop\n    nop\n    jmp loop\nend:\n    halt\n")
    at.click("#tab-steps")
    said(at, "panel-steps", "What each instruction does", "irmovq $1200, %rax")


def test_steps_without_solutions(at, folder):
    """That page has no pipeline with iaddq. It lists what the reader's own did, as far as it is right; on SEQ it says why there is no list."""
    count = "    irmovq $5, %rcx\n    xorq %rax, %rax\nloop:\n    addq %rcx, %rax\n    iaddq $-1, %rcx\n    jne loop\n    halt\n"
    page_without_solutions(f"{folder}/without.html")
    try:
        at.begin(f"{folder}/without.html")
        at.do("el('full').click()")
        at.write("ys", count)
        at.write("hcl", example("with_iaddq"))
        said(at, "outcome", "comes out right")
        at.click("#tab-steps")
        said(at, "panel-steps", "The processor’s run is the same.", "iaddq $-1, %rcx")
        same(at.do("every('#panel-steps tbody tr').length"), at.do("workbench.compared.right.steps"))
        at.write("hcl", example("std"))
        said(at, "panel-steps", "differs first at instruction 4")
        same(at.do("every('#panel-steps tbody tr:not(.differs)').length"), 4)
        at.write("hcl", example("seq"))
        said(at, "panel-steps", "none has iaddq")
    finally:
        at.begin(at.path)


def test_steps_by_keys(at):
    """The list of instructions scrolls by the keys that scroll a page."""
    at.click("#tab-steps")
    at.do("el('panel-steps').focus()")
    at.key("PageDown")
    at.until("el('panel-steps').scrollTop > 0")
    same(at.do("document.activeElement.id"), "panel-steps")


def test_steps_while_writing(at):
    """On a phone the page doesn't go from the text that is written to the instruction that differs."""
    at.size(*WIDTHS[-1])
    at.choose("hcls", "mistake: memory before execute")
    at.do("el('tab-steps').click(), scrollTo(0, 0), one('#ys textarea').focus()")
    before = at.do("scrollY")
    at.type("#")
    at.settle()
    said(at, "panel-steps", "differs first")
    same(at.do("scrollY"), before)


# ---- faults

# A text that is refused, the first faulty line, and what the page says, among what y86-tell says of it.
HCL_FAULTS = [
    ("a case without its end", STD.replace("1 : f_valP; ];", "1 : f_valP ];"), 29, "Put one after f_valP in line 29"),
    ("= for ==", STD.replace("E_icode == IOPQ : E_ifun", "E_icode = IOPQ : E_ifun"), 68, "Write == to compare"),
    ("& for &&", STD.replace("&& !e_Cnd", "& !e_Cnd", 1), 77, "Write && for"),
    ("a set in parentheses", STD.replace("in { IJXX, ICALL }", "in ( IJXX, ICALL )", 1), 29, "x in { a, b }"),
    ("a comment of C", STD + "\n// end\n", STD.count("\n") + 2, "A comment begins with #"),
    ("a signal of SEQ", STD.replace("d_srcA == e_dstE", "srcA == e_dstE"), 49, "srcA is neither a signal nor a constant of PIPE"),
    ("a misspelled signal", STD.replace("d_srcB == W_dstM", "d_srcB == W_dstm"), 55, "W_dstm is neither a signal nor a constant of PIPE"),
    ("a definition that is missing", re.sub(r"bool set_cc[^;]*;", "", STD), 0, "set_cc has no definition"),
    ("several", STD.replace("d_srcA == e_dstE", "srcA == e_dstE").replace("d_srcB == W_dstM", "d_srcB == W_dstm"), 49, "and 1 more"),
]
ASM_FAULTS = [
    ("movq %rax, %rbx", "four moves"),
    ("adq %rax, %rbx", "adq is no mnemonic"),
    ("addq $1, %rax", "works on two registers"),
    ("addq %rax %rbx", "is missing before %rbx"),
    ("addq %rax, %ebx", "names 32 bits"),
    ("rrmovq %rax, %r15", "Y86-64 has no %r15"),
    ("iaddq $1, %rax", "the box “iaddq” at the top"),
    ("jmp nowhere", "No line defines the label nowhere"),
]


def faults_told(programs, folder, name, text, *words):
    """The lines of the faults that y86-tell reports, and its sentences as the page shows them."""
    told = json.loads(Program(programs("y86_tell"), folder)("fault", name, *words, "--json", files={name: text.encode()}).out)["faults"]
    return [it["line"] for it in told], [it["sentence"].replace("`", "") for it in told]


@cases(HCL_FAULTS)
def test_hcl_fault(row, at, programs, folder):
    """Each fault is under its line, in the words of y86-tell."""
    _, text, line, words = row
    at.write("hcl", text)
    lines, sentences = faults_told(programs, folder, "a.hcl", text, "pipe")
    same(lines[0], line)
    same([sentence in note for sentence, note in zip(sentences, at.do("every('#hcl .note').map((it) => it.textContent)"))], [True] * len(sentences))
    same(at.do("every('#hcl .gutter .bad').map((it) => Number(it.textContent))"), [it for it in lines if it])
    said(at, "hcl-strip", sentences[0])
    said(at, "verdict", "no answer", "The processor has a fault", sentences[0])
    assert words in at.text("hcl-strip")
    assert at.do("el('shown').hidden && el('tab-no').hidden && el('controls').hidden")
    assert "Did you mean" not in at.do("document.body.textContent")
    same(at.do("[one('#hcl textarea').getAttribute('aria-invalid'), every('#hcl .note').length]"), ["true", len(sentences)])


@cases(ASM_FAULTS)
def test_asm_fault(row, at, programs, folder):
    text = f"    {row[0]}\n    halt\n"
    at.write("ys", text)
    lines, sentences = faults_told(programs, folder, "a.ys", text)
    same(lines, [1])
    said(at, "ys-strip", row[1], sentences[0])


# What is below the program where its caret is in the second line.
BELOW = "(() => { const it = one('#ys textarea'), at = it.value.indexOf('halt'); it.focus(); it.setSelectionRange(at, at); it.dispatchEvent(new Event('keyup')); return el('ys-strip').textContent; })()"


def test_listing_beside_a_fault(at):
    """The bytes of a line are those of the program that is there, also where the processor has a fault."""
    at.choose("yss", "call.ys")
    at.write("hcl", "word f_pc = ;")
    at.write("ys", "    nop\n    halt\n")
    same(at.do(BELOW), "call.ys, line 2: 0x001: 00")
    at.click("#ys .gutter [data-line='2']")
    same(at.do("[...workbench.breaks]"), [1])
    at.write("ys", "    nop\n    halt\n    nope\n")
    same(at.do("[...workbench.breaks].map((it) => workbench.lines.lineOf[it] ?? 0)"), [0])


# The lines that a note lies over; and where the textarea has the caret's line, beside where it is drawn.
COVERED = """(() => {
  const notes = every('#hcl .note').map((it) => it.getBoundingClientRect());
  return every('#hcl .gutter span').filter((it) => { const r = it.getBoundingClientRect(); return notes.some((n) => n.top < r.bottom - 1 && n.bottom > r.top + 1); })
    .map((it) => it.textContent);
})()"""
CARET = """(() => {
  const area = one('#hcl textarea'), line = area.value.slice(0, area.selectionEnd).split('\\n').length, lines = every('#hcl .gutter span');
  const tall = lines[1].getBoundingClientRect().height, top = lines[line - 1].getBoundingClientRect().top - area.getBoundingClientRect().top;
  return [line, Math.round(parseFloat(area.style.paddingTop) + (line - 1) * tall - area.scrollTop - top)];
})()"""


def test_notes(at):
    """A note lies between two lines, and over none; a click below it meets the line that is clicked, and so do the keys."""
    at.choose("hcls", "mistake: memory before execute")
    assert at.do("every('#hcl .note').length")
    same(at.do(COVERED), [])
    (note,) = at.do("every('#hcl .note').slice(0, 1).map((it) => it.getBoundingClientRect().bottom)")
    below = at.do(f"every('#hcl .gutter span').filter((it) => it.getBoundingClientRect().top > {note} - 2).slice(0, 3).map((it) => [Number(it.textContent), it.getBoundingClientRect().top + 9])")
    left = at.do("one('#hcl .paper').getBoundingClientRect().left + 30")
    for line, y in [*below, *reversed(below)]:
        at.browser.mouse(left, y)
        same(at.do(CARET), [line, 0])
    first = below[0][0]
    for line in (first - 1, first - 2, first - 1, first, first + 1):
        at.key("ArrowUp" if line < at.do(CARET)[0] else "ArrowDown")
        same(at.do(CARET), [line, 0])
    at.key("End")
    at.type("#")
    assert at.do("every('#hcl .note.old').length"), "the note doesn't wait for the next answer"
    at.settle()
    at.write("hcl", STD.replace("1 : f_valP; ];", "1 : f_valP ];"))
    same(at.do(COVERED), [])


def test_names_are_completed(at):
    at.do("(() => { const it = one('#hcl textarea'); it.focus(); it.setSelectionRange(it.value.length, it.value.length); })()")
    at.type("\nbool W_bubble = E_ds")
    same(at.do("every('#hcl-names li').map((it) => it.textContent)"), ["E_dstE", "E_dstM"])
    at.key("ArrowDown")
    at.key("Tab")
    assert at.source("hcl").endswith("bool W_bubble = E_dstM")
    at.type(" == Xy")
    assert at.do("el('hcl-names').hidden"), "a name was offered for what no name begins with"


def test_undo(at):
    """The browser's undo takes back what is typed, what is completed, and the blanks that a new line begins with."""
    before = at.source("ys")
    at.do("(() => { const it = one('#ys textarea'), end = it.value.indexOf('call main') + 9; it.focus(); it.setSelectionRange(end, end); })()")
    at.key("Enter")
    at.type("irm")
    at.key("Tab")
    assert "call main\n    irmovq\n    halt" in at.source("ys")
    for _ in range(9):
        if at.source("ys") != before:
            at.do("document.execCommand('undo')")
    same(at.source("ys"), before)


def test_iaddq(at):
    at.choose("hcls", "with_iaddq.hcl")
    assert at.do("el('full').checked")
    at.write("ys", "    iaddq $1, %rax\n    halt\n")
    said(at, "verdict", "Right for every program")
    said(at, "outcome", "comes out right")
    at.click("#full")
    at.settle()
    said(at, "verdict", "iaddq wasn’t checked")


# ---- answers that belong to the texts

def test_stale(at):
    at.do("(() => { const it = one('#hcl textarea'); it.value += '#'; it.dispatchEvent(new Event('input', { bubbles: true })); })()")
    assert at.do("['verdict', 'outcome', 'shown', 'panel-no', 'panel-steps'].every((id) => el(id).classList.contains('stale'))")
    at.settle()
    assert not at.do("Boolean(one('.stale'))")


def test_stale_after_a_change_of_the_program(at):
    """A refusal doesn't depend on the program; the list of steps does."""
    at.do("(() => { const it = one('#ys textarea'); it.value += '#'; it.dispatchEvent(new Event('input', { bubbles: true })); })()")
    same(at.do("['panel-no', 'panel-steps'].map((id) => el(id).classList.contains('stale'))"), [False, True])
    at.settle()
    assert not at.do("Boolean(one('.stale'))")


# Workers whose answers can be held back: of each worker the one of this number since the round began. (A run has seven.)
HOLDING = """
window.holds = { round: 0, at: -1, kept: [] };
window.Worker = class extends Worker {
  set onmessage(does) {
    super.onmessage = (event) => {
      if (this.round !== holds.round) Object.assign(this, { round: holds.round, seen: 0 });
      if (this.seen++ === holds.at) holds.kept.push([event.data, () => does(event)]);
      else does(event);
    };
  }
};
"""
HELD = """(async () => {
  const area = one('#hcl textarea'), wrong = [], texts = [%s, %s], said = [['no: O10', 'differs'], ['yes', 'same report']], cards = ['verdict', 'outcome'];
  const isStale = (id) => el(id).classList.contains('stale'), wait = (ms) => new Promise((done) => setTimeout(done, ms)), from = FROM;
  let now = 1;
  const put = (which) => {
    now = which;
    area.value = `${texts[which]}# HELD`;
    area.dispatchEvent(new Event('input', { bubbles: true }));
  };
  const look = () => cards.forEach((id, at) => {
    const badge = el(id).querySelector('.badge')?.textContent;
    if (!isStale(id) && badge !== said[now][at]) wrong.push([id, now, badge]);
  });
  const watch = new MutationObserver(look);
  for (const id of cards) watch.observe(el(id), { childList: true, subtree: true, attributes: true });
  Object.assign(holds, { round: holds.round + 1, at: HELD, kept: [] });
  put(from);
  while (holds.kept.length < cards.filter(isStale).length) await wait(5);
  holds.at = -1;
  put(1 - from);
  for (const [, answer] of holds.kept) answer();
  while (cards.some(isStale)) await wait(5);
  look();
  watch.disconnect();
  return wrong;
})()"""
REFUSED_TEXT = STD.replace(" d_srcA == e_dstE : e_valE;", "")


def changed(at, folder, *changes):
    """A copy of the page in which each of these texts, which is there once, is another one."""
    with open(at.path, encoding="utf-8") as it:
        text = it.read()
    for old, new in changes:
        same((old, text.count(old)), (old, 1))
        text = text.replace(old, new)
    with open(f"{folder}/changed.html", "w", encoding="utf-8") as it:
        it.write(text)
    return it.name


@pytest.fixture
def held(at, folder):
    """The page with answers that can be held back, by a script before its own."""
    digest, module = base64.b64encode(hashlib.sha256(HOLDING.encode()).digest()).decode(), '<script type="module">'
    at.begin(changed(at, folder, ("script-src '", f"script-src 'sha256-{digest}' '"), (module, f"<script>{HOLDING}</script>{module}")))
    yield at
    at.do("localStorage.clear()")
    at.begin(at.path)


@cases([("from a no to a yes", 0), ("from a yes to a no", 1)])
def test_other_text(row, held):
    """An answer that comes just after the text was changed isn't shown as one to the text that is there: each card that isn't grey belongs to that."""
    held.choose("yss", "swap.ys")
    for number in (0, 1, 6):
        script = HELD.replace("FROM", str(row[1])).replace("HELD", str(number))
        same(held.do(script % (json.dumps(REFUSED_TEXT), json.dumps(STD))), [])


def answered_late(held, text, number):
    """Writes a text in HCL, and lets the answer of the run through before that of the check. `number` counts these calls from 1."""
    held.do(f"Object.assign(holds, {{ round: {number}, at: 0, kept: [] }}), 0")
    held.do(f"(() => {{ const it = one('#hcl textarea'); it.value = {json.dumps(text)}; it.dispatchEvent(new Event('input', {{ bubbles: true }})); }})()")
    held.until("holds.kept.length === 2")
    held.do("holds.at = -1, holds.kept.find(([it]) => !/^(yes|no)/.test(it.out))[1](), 0")
    held.until("!el('outcome').classList.contains('stale')")
    assert "Another may not." not in held.text("outcome")
    held.do("holds.kept.find(([it]) => /^(yes|no)/.test(it.out))[1](), 0")
    held.settle()


def test_late_verdict(held):
    """A program that comes out right is told from its processor's verdict, also where that comes later, and not from the verdict of the text before."""
    held.choose("yss", "add.ys")
    answered_late(held, REFUSED_TEXT, 1)
    said(held, "verdict", "no: O10")
    said(held, "outcome", "comes out right", "Another may not.")
    answered_late(held, STD, 2)
    said(held, "verdict", "Right for every program")


def test_stopped(held):
    """A check and a run that give no answer are stopped by their buttons, and asked again by others."""
    held.do("Object.assign(holds, { round: 1, at: 0, kept: [] }), 0")
    held.do("(() => { const it = one('#hcl textarea'); it.value += '#'; it.dispatchEvent(new Event('input', { bubbles: true })); })()")
    held.until("holds.kept.length === 2")
    held.do("holds.at = -1, 0")
    for id, again in (("verdict", "again"), ("outcome", "rerun")):
        held.until(f"one('#{id} .busy button')")
        held.click(f"#{id} .busy button")
        held.until(f"!one('#{id}.stale')")
        said(held, id, "stopped")
        held.click(f"#{again}")
    held.settle()
    said(held, "verdict", "Right for every program")
    said(held, "outcome", "comes out right")


# The most memory of a call, the texts, and what the cards say. (An answer needs from 1.4 MB, a verdict from 9.)
LITTLE = [
    ("none runs", 1.3, "std.hcl", "The check ran out of memory.", "The run ran out of memory."),
    ("a run alone", 4, "std.hcl", "The check ran out of memory.", "This program comes out right"),
    ("a run alone, refused or not", 6, "mistake: nothing from execute", "The check ran out of memory.", "This program comes out wrong"),
    ("both", 40, "mistake: memory before execute", "no: O10", "This program comes out wrong"),
]


@cases(LITTLE)
def test_little_memory(row, at, folder):
    """A program that lacks memory gives no answer, and none is shown."""
    _, most, design, verdict, outcome = row
    at.begin(changed(at, folder, ("MOST_MEMORY = 1 << 30", f"MOST_MEMORY = {int(most * 2**20)}")))
    at.choose("hcls", design)
    for id, wanted in (("verdict", verdict), ("outcome", outcome)):
        said(at, id, wanted)
        if "memory" in wanted:
            same(at.do(f"[el('{id}').className, el('{id}').querySelector('.badge').textContent]"), ["answer ", "no answer"])
    at.do("localStorage.clear()")
    at.begin(at.path)


def test_stop(at):
    """A check without an end is stopped, the run doesn't wait for it, and the next check answers."""
    bits = [f"E_ds{x}" for x in ("tE", "tM")]
    guards = " && ".join(f"(f_valC < {a} || {b} < E_val{c})" for a in ("E_valA", "E_valB", "D_valP", "M_valA", "W_valE") for b in ("W_valM", "d_rvalA", "M_valE", "d_rvalB") for c in "ABC")
    assert bits
    at.do(f"(() => {{ const it = one('#hcl textarea'); it.value = {json.dumps(STD.replace('bool M_bubble = ', f'bool M_bubble = {guards} && '))}; it.dispatchEvent(new Event('input', {{ bubbles: true }})); }})()")
    at.until("one('#verdict .busy button') || !one('#verdict.stale')")
    if at.do("Boolean(one('#verdict .busy button'))"):
        at.until("!one('#outcome.stale')")
        at.click("#verdict .busy button")
        at.settle()
        said(at, "verdict", "stopped")
    at.choose("hcls", "std.hcl")
    said(at, "verdict", "Right for every program")


def test_endless(at):
    at.write("ys", "loop:\n    jmp loop\n")
    said(at, "outcome", "no end within the limit")
    said(at, "now", "cycle 1 of 2000+")


def test_other_ends(at):
    at.choose("yss", "fault.ys")
    said(at, "outcome", "ADR", "comes out right")
    at.write("ys", "")
    assert "undefined" not in at.text("outcome")
    at.choose("hcls", "stall_and_bubble.hcl")
    said(at, "verdict", "no: O23")
    said(at, "outcome", "PIP")


def test_which_to_mend_first(at):
    """Of several obligations that are refuted, the one whose signal the others go by."""
    at.choose("hcls", "mistake: a bad address changes nothing")
    said(at, "verdict", "no: O20", "m_stat is SAOK; SADR is wanted", "Refuted too: O15, O25")


def test_sequential(at):
    """SEQ and SEQ+ by cycles: an instruction each."""
    at.choose("yss", "call.ys")
    for name, path in (("seq.hcl", "SEQ"), ("seq_plus.hcl", "SEQ+")):
        at.choose("hcls", name)
        said(at, "verdict", f"{path}: right for every program")
        said(at, "outcome", "comes out right")
        if at.do("workbench.run === null"):
            # (a y86-stages that doesn't know SEQ)
            said(at, "blank", f"There is no drawing of {path}", "Stopped in 4 steps")
            continue
        same(at.do("[workbench.run.cycles.length, every('#path svg.seq').length]"), [4, 1])
        at.do("document.activeElement.blur(), el('first').click()")
        at.key("ArrowRight")
        said(at, "told", "call 0x014", "%rsp becomes 0xf8", "the word at 0x0f8 becomes 0x13")
        same(at.do("every('#registers .comes').map((it) => it.textContent)"), ["%rsp0x100"])
    at.write("hcl", example("seq").replace("1 : valP;", "1 : valC;"))
    said(at, "verdict", "no: S16", "new_pc picks valC; valP is wanted")
    said(at, "panel-no", "What the file says there", "1 : valC; ← is taken")
    same(at.do("[every('#no-path svg.seq').length, every('#no-path .cell.bad').length]"), [1, 1])


def test_examples(at):
    """No example breaks the page. (One of three is shown, since each takes a second.)"""
    for which in ("yss", "hcls"):
        for name in at.do(f"every('#{which} option').map((it) => it.value).filter(Boolean)")[1::3]:
            at.choose(which, name)
            shown = at.do("document.body.innerText")
            assert not re.search(r"undefined|NaN|\[object", shown), name


# ---- files, links, pictures, paper

def test_own_text(at):
    """What is written comes back after an example, also where the browser was closed meanwhile."""
    at.write("hcl", f"{STD}\n# mine\n")
    at.choose("hcls", "no_bypassing.hcl")
    at.until("(localStorage.getItem('y86-workbench') ?? '').includes('no_bypassing.hcl')")
    at.begin(at.path)
    same(at.do("el('hcls').value"), "no_bypassing.hcl")
    at.choose("hcls", "")
    assert at.source("hcl").endswith("# mine\n")


def test_kept(at):
    """The browser keeps both texts, the examples' names, the box, and the theme."""
    at.write("hcl", f"{STD}\n# mine\n")
    at.choose("yss", "swap.ys")
    at.click("#full")
    at.click("#theme")
    kept = "JSON.parse(localStorage.getItem('y86-workbench') ?? '{}')"
    at.until(f"({kept}.h ?? '').endsWith('# mine\\n') && {kept}.e[1] === 'swap.ys'")
    at.settle()
    shown = "[one('#hcl textarea').value, one('#ys textarea').value, el('hcls').value, el('yss').value, el('full').checked, el('verdict').textContent, workbench.theme]"
    before = at.do(shown)
    at.begin(at.path)
    same(at.do(shown), before)
    at.do("(() => { while (workbench.theme !== 'auto') el('theme').click(); localStorage.clear(); })()")
    at.begin(at.path)


def link(texts):
    """A link that carries texts, made as the page makes it."""
    packed = zlib.compressobj(9, zlib.DEFLATED, -15)
    data = packed.compress(json.dumps(texts).encode()) + packed.flush()
    return "#w=" + base64.urlsafe_b64encode(data).decode().rstrip("=")


def test_link(at):
    at.write("ys", "    irmovq $7, %rax\n    halt\n")
    at.leave()
    at.click("#full")
    at.click("#link")
    at.until("location.hash.startsWith('#w=')")
    said(at, "toast", "The link is copied")
    fragment = at.do("location.hash")
    at.do("localStorage.clear()")
    at.begin(at.path, fragment)
    same(at.source("ys"), "    irmovq $7, %rax\n    halt\n")
    same(at.source("hcl"), STD)
    said(at, "verdict", "no: O2")
    at.begin(at.path, "#w=AAAA")
    said(at, "toast", "The link is damaged")


HOSTILE = "</script><img src=x onerror=\"window.hit=1\"><svg onload='window.hit=1'>`${window.hit=1}` $& $' ]]> &lt;b&gt; <b id=hit>"


def test_hostile_texts(at):
    """What a link carries is text: it becomes no element, and no script of it runs."""
    for texts in (
        {"h": HOSTILE, "p": HOSTILE, "f": 1, "n": [HOSTILE, HOSTILE]},
        {"h": f"{STD}\n# {HOSTILE}\n", "p": f"a: halt # {HOSTILE}\n", "f": 0, "n": ["a.hcl", "b.ys"]},
        {"h": STD.replace("1 : d_rvalA;", f"1 : d_rvalB; # {HOSTILE}\n"), "p": "    .quad 1 # <b id=hit>\n    halt\n", "n": {"0": HOSTILE}},
        {"h": {"toString": 1}, "p": [HOSTILE], "n": [["<b id=hit>"]]},
    ):
        at.begin(at.path, link(texts))
        for tab in ("run", "steps", "no"):
            at.do(f"el('tab-{tab}').click()")
            same(at.do("[window.hit, every('#hit, img, [onerror], [onload], body script:not(#data, #worker, [type=module])').length]"), [None, 0])
    at.do("localStorage.clear()")
    at.begin(at.path)


def test_policy(at):
    """The page runs its own script alone, and loads nothing."""
    at.do("(window.refused = [], addEventListener('securitypolicyviolation', (it) => refused.push(it.effectiveDirective.split('-')[0])), 0)")
    at.do("(() => { const it = document.createElement('script'); it.textContent = 'window.hit = 1'; document.body.append(it); it.remove(); })()")
    at.do("(() => { const it = document.createElement('b'); it.setAttribute('onclick', 'window.hit = 1'); document.body.append(it); it.click(); it.remove(); })()")
    assert at.do("fetch('data:text/plain,1').then(() => 'loaded', () => 'refused')") == "refused"
    same(at.do("window.hit ?? 0"), 0)
    at.until("refused.length === 3")
    same(at.do("refused"), ["script", "script", "connect"])
    # (a console of WebKit's can't be read)
    errors = list(at.errors)
    at.browser.errors.clear()
    assert all("Content Security Policy" in it or "Content-Security-Policy" in it for it in errors), errors
    with open(at.path, encoding="utf-8") as it:
        text = it.read()
    shell = re.sub(r'<script type="(?:application/json|text/plain)".*?</script>', "", text, flags=re.S)
    same(re.findall(r"\bsrc=\"|<link\b|@import|url\((?!#)|https?://(?!www\.w3\.org/2000/svg)", shell), [])


def test_drop(at):
    at.do("(() => { const d = new DataTransfer(); d.items.add(new File(['    halt\\n'], 'tiny.ys')); el('hcl-file').dispatchEvent(new DragEvent('drop', { dataTransfer: d, bubbles: true, cancelable: true })); })()")
    at.until("one('#ys textarea').value === '    halt\\n'")
    at.settle()
    same(at.saved(lambda: at.click("[data-save=ys]")), ("tiny.ys", "    halt\n"))
    at.do("(() => { const d = new DataTransfer(); d.items.add(new File(['x'.repeat(70000)], 'long.hcl')); el('hcl-file').dispatchEvent(new DragEvent('drop', { dataTransfer: d, bubbles: true, cancelable: true })); })()")
    said(at, "toast", "too long")


# How wide a picture is where it is shown by itself, and whether it has many colours.
SHOWN = """(async () => {
  const it = new Image();
  it.src = URL.createObjectURL(new Blob([%s], { type: "image/svg+xml" }));
  await it.decode();
  const canvas = document.createElement("canvas"), board = canvas.getContext("2d");
  [canvas.width, canvas.height] = [it.naturalWidth, it.naturalHeight];
  board.drawImage(it, 0, 0);
  const { data } = board.getImageData(0, 0, canvas.width, canvas.height), colours = new Set(new Uint32Array(data.buffer));
  return [it.naturalWidth > 300, colours.size > 20];
})()"""


def test_pictures(at):
    at.key("n")
    for selector, ending in (("#save-path", r"asum-cycle\d+\.svg"), ("#save-diagram", r"asum-diagram\.svg")):
        name, text = at.saved(lambda selector=selector: at.click(selector))
        assert re.fullmatch(ending, name)
        same(at.do(f"new DOMParser().parseFromString({json.dumps(text)}, 'image/svg+xml').querySelector('parsererror')"), None)
        assert "var(--" in text and re.search(r"--ink:#\w+", text), "the picture has no colours of its own"
        same(at.do(SHOWN % json.dumps(text)), [True, True])


def test_certificate(at, programs, folder):
    y86, files = Program(programs("y86"), folder), {"std.hcl": STD}
    name, text = at.saved(lambda: at.click("#save-cert"))
    same((name, text.encode()), ("std.crt", y86("check", "pipe", "std.hcl", "--cert", files=files).out))
    name, text = at.saved(lambda: at.click("#save-aig"))
    same((name, text.encode()), ("std.aag", y86("aig", "std.hcl", files=files).out))


def test_print(at):
    """On paper are the cycle that is shown and the whole diagram, in parts that fit, in light colours; afterwards the page is as it was."""
    at.scheme("dark")
    at.do("dispatchEvent(new Event('beforeprint'))")
    same(at.do("[document.documentElement.dataset.theme, every('#paper svg').length, every('#paper h3').map((it) => it.textContent)]"),
         ["light", 3, ["Cycle 1", "Instructions by cycles"]])
    said(at, "paper", "asum.ys under std.hcl", "This program comes out right. Right for every program", "50 cycles, 34 retired, HLT.")
    at.do("dispatchEvent(new Event('afterprint'))")
    same(at.do("[document.documentElement.dataset.theme, el('paper').childNodes.length]"), ["dark", 0])
    at.scheme("light")


def test_pdf(at):
    pdf = at.browser.paper()
    if pdf is None:
        pytest.skip("this browser doesn't print into a file")
    assert len(pdf) > 8000 and pdf.startswith(b"%PDF")
    same(at.do("el('paper').childNodes.length"), 0)


# The rows of a class's table: the file, its datapath, its verdict, what is said of it.
CLASS_ROWS = "every('#class-rows tr').map((it) => [...it.children].slice(0, 4).map((cell) => cell.textContent))"


def give_class(at, files):
    """Gives the folder of a class."""
    if not at.do("el('dialog').open"):
        at.click("#class")
    given = json.dumps([[name, text] for name, text in files.items()])
    at.do(f"(() => {{ const files = {given}.map(([name, text]) => {{ const it = new File([text], name.split('/').pop()); Object.defineProperty(it, 'webkitRelativePath', {{ value: name }}); return it; }});"
          " const pick = el('pick-folder'); Object.defineProperty(pick, 'files', { value: files, configurable: true }); pick.onchange(); })()")


def test_class(at):
    """A folder of a class: each file's verdict, a CSV, and a file to open."""
    give_class(at, {"ann/pipe.hcl": STD, "bob, jr/pipe.hcl": REFUSED_TEXT, "cy/=x.hcl": "word f_pc = ;", "dee/seq.hcl": example("seq"), "dee/notes.txt": "no"})
    at.until("!el('class-csv').disabled")
    rows = [it[:3] for it in at.do(CLASS_ROWS)]
    same(rows, [["ann/pipe.hcl", "PIPE", "yes"], ["bob, jr/pipe.hcl", "PIPE", "no"], ["cy/=x.hcl", "PIPE", "fault"], ["dee/seq.hcl", "SEQ", "yes"]])
    said(at, "class-said", "4 files: 2 yes, 1 no, 1 with a fault.")
    name, text = at.saved(lambda: at.click("#class-csv"))
    same(name, "class.csv")
    same(text.split("\n")[:3], ["file,datapath,verdict,obligation,fault,settings,note", "ann/pipe.hcl,PIPE,yes,,,pt=1111111 pb=1111111 tv=0 lf=0 je=0 rm=0,", '"bob, jr/pipe.hcl",PIPE,no,O10,,,'])
    at.click("#class-rows tr:nth-child(2) button")
    at.settle()
    said(at, "verdict", "no: O10")


def test_two_classes(at):
    """A folder that is given while another one is checked takes its place; a table that was closed is made no further."""
    many, two = ({f"{name}{number}.hcl": STD for number in range(count)} for name, count in (("a", 5), ("b", 2)))
    give_class(at, many)
    give_class(at, two)
    at.until("!el('class-csv').disabled")
    same([it[0] for it in at.do(CLASS_ROWS)], list(two))
    give_class(at, many)
    at.do("el('dialog').close(), el('help').click()")
    at.do("new Promise((done) => setTimeout(done, 3000))")
    at.do("el('dialog').close()")


def test_class_with_iaddq(at):
    """The box at the top counts for a class, too."""
    at.click("#full")
    at.settle()
    give_class(at, {"a.hcl": STD, "b.hcl": example("with_iaddq")})
    at.until("!el('class-csv').disabled")
    refused, accepted = [it[2:] for it in at.do(CLASS_ROWS)]
    same((refused[0], refused[1].split(":")[0]), ("no", "O2"))
    same(accepted, ["yes", "pt=1111111 pb=1111111 tv=0 lf=0 je=0 rm=0"])
    at.do("el('dialog').close()")


def test_class_in_little_memory(at, folder):
    """A check of a class that lacks memory gives no answer."""
    at.begin(changed(at, folder, ("MOST_MEMORY = 1 << 30", "MOST_MEMORY = 4 << 20")))
    give_class(at, {"a.hcl": STD, "b.hcl": "word f_pc = ;"})
    at.until("!el('class-csv').disabled")
    same(at.do(CLASS_ROWS)[0][2:], ["none", "ran out of memory"])
    said(at, "class-said", "2 files: 0 yes, 0 no, 1 with a fault, 1 without an answer.")
    at.do("localStorage.clear()")
    at.begin(at.path)


# The limits of time of a class's checks that are still under way: none is over by itself.
LIMITS = """(() => {
  const { setTimeout: begin, clearTimeout: end } = window;
  window.limits = new Map();
  window.setTimeout = (does, ms, ...more) => (ms === 60000 ? (limits.set(-1 - limits.size, does), -limits.size) : begin(does, ms, ...more));
  window.clearTimeout = (number) => limits.delete(number) || end(number);
})()"""


def test_class_in_little_time(held):
    """A check of a class that takes too long gives no answer, and the ones before and after it have theirs."""
    held.do(LIMITS)
    held.do("Object.assign(holds, { round: 1, at: 1, kept: [] }), 0")
    give_class(held, {"a.hcl": STD, "b.hcl": STD, "c.hcl": REFUSED_TEXT})
    held.until("holds.kept.length === 1")
    same(held.do("limits.size"), 1)
    held.do("[...limits.values()][0](), 0")
    held.until("!el('class-csv').disabled")
    rows = held.do(CLASS_ROWS)
    same(([it[2] for it in rows], rows[1][3]), (["yes", "none", "no"], "no answer in 60 s"))
    said(held, "class-said", "3 files: 1 yes, 1 no, 0 with a fault, 1 without an answer.")
    same(held.do("limits.size"), 0)


def test_size():
    assert os.path.getsize(page()) < 2_000_000
