"""The workbench for everybody: keys alone, names, contrast, places to click, on a screen, a tablet and a phone. Needs a browser, as test_browser_page.py."""
import pytest

from helpers.browser_build import page
from helpers.cases import cases, same
from helpers.workbench_page import WIDTHS, Workbench, engine, said

pytestmark = pytest.mark.xdist_group("browser access")
SIZES = [(f"{width} by {height}", width, height) for width, height in WIDTHS]
# What is shown: a processor and a program.
RIGHT, REFUSED, FAULTY, SEQUENTIAL = ("std.hcl", "jump.ys"), ("mistake: memory before execute", "call.ys"), ("mistake: a signal is misspelled", "asum.ys"), ("seq.hcl", "call.ys")


def show(at, design, program):
    at.choose("hcls", design)
    at.choose("yss", program)
    at.do("document.activeElement.blur()")


# ---- keys alone

STOPS = {
    "full", "class", "link", "print", "theme", "help", "hcls", "yss", "Processor, in HCL", "Program, in Y86-64 assembly", "on", "play", "slider", "hazard", "speed",
    "grid", "tab-run", "save-path", "save-diagram", "base", "save-cert", "save-aig", "hcl", "ys",
}
# What has the focus: its name, whether it can be seen where it is, and whether a line is drawn around it.
FOCUSED = """(() => {
  // (a browser's own buttons come in between)
  if (!document.hasFocus()) return ['', true, true];
  const it = document.activeElement, r = it.getBoundingClientRect(), box = it.closest('.paper') ?? it, style = getComputedStyle(it);
  const name = it.id || it.dataset.save || it.dataset.open || it.getAttribute('aria-label') || '';
  const isSeen = it === document.body || (r.bottom > 0 && r.right > 0 && r.top < innerHeight && r.left < innerWidth);
  const isMarked = it === document.body || (style.outlineStyle !== 'none' && parseFloat(style.outlineWidth) >= 1) || getComputedStyle(box).boxShadow !== 'none';
  return [name, isSeen, isMarked];
})()"""


@cases(SIZES)
def test_tab_order(row, at):
    """Tab reaches everything; what it reaches can be seen, and has a line around it; and it leaves the texts."""
    at.size(*row[1:])
    at.do("document.activeElement.blur(), scrollTo(0, 0)")
    seen = set()
    for _ in range(60):
        at.key("Tab")
        name, is_seen, is_marked = at.do(FOCUSED)
        same((name, is_seen, is_marked), (name, True, True))
        seen.add(name)
    same(STOPS - seen, set())
    at.do("one('#hcl textarea').focus()")
    at.key("Enter", is_ctrl=True)
    same(at.do("document.activeElement.id"), "result")
    at.do("el('tab-run').focus()")
    at.key("ArrowRight")
    same(at.do("[workbench.tab, document.activeElement.id]"), ["steps", "tab-steps"])


@cases(SIZES)
def test_a_note_by_keys(row, at):
    """The button of a note that is out of view comes into view with the focus, and the numbers stay beside their lines."""
    at.size(*row[1:])
    at.write("hcl", at.source("hcl") + "bool W_bubbl = 0;\n")
    at.do("(() => { const it = one('#hcl textarea'); it.focus(); it.scrollTop = 0; })()")
    at.key("Tab")
    inside = """(() => {
      const it = document.activeElement.getBoundingClientRect(), box = one('#hcl .paper').getBoundingClientRect();
      const line = one('#hcl .mark.bad').getBoundingClientRect(), number = one('#hcl .gutter .bad').getBoundingClientRect();
      return [document.activeElement.getAttribute('aria-label'), it.top >= box.top && it.bottom <= box.bottom, Math.round(line.top - number.top)];
    })()"""
    same(at.do(inside), ["Hide this note", True, 0])


def test_rows_by_keys(at):
    """Up and down go through the instructions of the diagram, in view, and left and right still go through the cycles."""
    at.do("el('grid').focus()")
    lost = "(() => { const it = document.activeElement, r = it.getBoundingClientRect(), g = el('grid').getBoundingClientRect(); return it.className !== 'name' || r.top < g.top + 19 || r.bottom > g.bottom + 1; })()"
    for key in ["ArrowDown"] * 16 + ["ArrowUp"] * 15:
        at.key(key)
        assert not at.do(lost)
    same(at.do("document.activeElement.dataset.row"), "0")
    at.key("ArrowUp")
    at.key("ArrowRight")
    same([at.cycle(), at.do("document.activeElement.dataset.row")], [2, "0"])


def test_help(at):
    at.key("?")
    assert at.do("el('dialog').open")
    said(at, "dialog", "next hazard")
    at.key("Escape")
    assert not at.do("el('dialog').open")


# ---- names and structure

NAMELESS = """every('button, select, input, textarea, a, [role]:not([role=status])').filter((it) => it.getClientRects().length)
    .filter((it) => !(it.textContent.trim() || it.getAttribute('aria-label') || it.labels?.length || it.title)).map((it) => it.outerHTML.slice(0, 90))"""
POINTS_NOWHERE = """every('[aria-controls], [aria-labelledby], [aria-describedby]').flatMap((it) => ['aria-controls', 'aria-labelledby', 'aria-describedby']
    .map((name) => it.getAttribute(name)).filter((id) => id && !el(id)))"""
TWICE = "Object.entries(every('[id]').reduce((all, it) => ({ ...all, [it.id]: (all[it.id] ?? 0) + 1 }), {})).filter(([, n]) => n > 1).map(([id]) => id)"
# Headings that leave out a level.
HEADINGS = "every('h1, h2, h3, h4').filter((it) => it.getClientRects().length).map((it) => Number(it.tagName[1])).filter((it, at, all) => it > (all[at - 1] ?? 0) + 1).length"


@cases(SIZES)
def test_names(row, at):
    """Each control has a name, each reference leads somewhere, no id is there twice, and no level of headings is left out."""
    at.size(*row[1:])
    for shown in (RIGHT, REFUSED, FAULTY, SEQUENTIAL):
        show(at, *shown)
        same(at.do(NAMELESS), [])
        same([it for it in at.do(POINTS_NOWHERE) if it != "dialog-title"], [])
        same(at.do(TWICE), [])
        same(at.do(HEADINGS), 0)
    same(at.do("every('img:not([alt]), svg[role=img]:not([aria-label])').length"), 0)


def test_structure(at):
    """One heading of the first level, a language, a title, landmarks, a type for each button, and one tab that is chosen."""
    same(at.do("[document.documentElement.lang, document.title, every('h1').length, every('main').length, every('header').length, every('footer').length]"), ["en", "Y86-64 workbench", 1, 1, 1, 1])
    same(at.do("every('body > :not(dialog) button:not([type])').length"), 0)
    same(at.do("every('[role=tab][aria-selected=true]').map((it) => it.id)"), ["tab-run"])
    same(at.do("every('[role=tab]').filter((it) => !it.hidden).map((it) => [it.tabIndex, el(it.getAttribute('aria-controls')).getAttribute('role')])"), [[0, "tabpanel"], [-1, "tabpanel"]])
    same(at.do("every('th:not([scope])').length"), 0)


def test_stages_as_a_table(at):
    """What the drawing shows is a table, too."""
    rows = at.do("every('#stages tr').map((it) => [it.children[0].textContent, it.querySelector('.what').textContent])")
    same([it for it, _ in rows], list("FDEMW"))
    same(rows[0][1], at.do("workbench.run.cycles[0].stages.F.text"))
    same(at.do("(() => { const r = el('told').getBoundingClientRect(); return el('told').contains(document.elementFromPoint(r.x + 20, r.y + 12)); })()"), True)


# ---- contrast, motion, colours

# The contrast of each text that can be seen with what is behind it, where it is below 4.5. (The table of the stages can be seen on a phone alone.)
CONTRAST = """(() => {
  const canvas = document.createElement("canvas").getContext("2d", { willReadFrequently: true });
  const rgb = (it) => { canvas.clearRect(0, 0, 1, 1); canvas.fillStyle = "#000"; canvas.fillStyle = it; canvas.fillRect(0, 0, 1, 1); return [...canvas.getImageData(0, 0, 1, 1).data]; };
  const part = (it) => ((it /= 255) <= 0.03928 ? it / 12.92 : ((it + 0.055) / 1.055) ** 2.4);
  const light = ([r, g, b]) => 0.2126 * part(r) + 0.7152 * part(g) + 0.0722 * part(b);
  const behind = (it) => {
    const svg = it.closest("svg");
    for (const shape of [it.closest("g")?.querySelector(":scope > rect, :scope > path"), it.closest(".bar")?.querySelector(".frame")])
      if (svg && shape && getComputedStyle(shape).fill !== "none") return rgb(getComputedStyle(shape).fill);
    for (let at = svg ? svg.parentElement : it; at; at = at.parentElement) { const found = rgb(getComputedStyle(at).backgroundColor); if (found[3] > 250) return found; }
    return [255, 255, 255, 255];
  };
  const low = {};
  for (const it of every("body *")) {
    if (!it.getClientRects().length || (innerWidth > 700 && it.closest(".stages")) || it.tagName === "TEXTAREA" || it.disabled) continue;
    if (![...it.childNodes].some((node) => node.nodeType === 3 && node.data.trim())) continue;
    const style = getComputedStyle(it), [dark, bright] = [light(rgb(it.closest("svg") ? style.fill : style.color)), light(behind(it))].sort((a, b) => a - b);
    if ((bright + 0.05) / (dark + 0.05) < 4.5) low[it.outerHTML.slice(0, 70)] = ((bright + 0.05) / (dark + 0.05)).toFixed(2);
  }
  return low;
})()"""


@cases([(f"{scheme}, {width}", scheme, width, height) for scheme in ("light", "dark") for width, height in WIDTHS])
def test_contrast(row, at):
    _, scheme, *size = row
    at.size(*size)
    at.scheme(scheme)
    for shown in (RIGHT, REFUSED, FAULTY, SEQUENTIAL):
        show(at, *shown)
        for _ in range(8 if shown is RIGHT else 2):
            same(at.do(CONTRAST), {})
            at.do("el('on').click()")
        at.do("el('tab-steps').click()")
        same(at.do(CONTRAST), {})
        at.do("el('tab-run').click()")
    at.scheme("light")


# Whether something moves, and whether something would as the page plays.
MOTION = "[document.getAnimations().length, every('.wire.lit, .toast, .answer.stale > *').filter((it) => getComputedStyle(it).animationName !== 'none').length]"


def test_dark_system():
    """A system that asks for dark colours and no motion has both from the first moment. (Other browsers are told later, in test_theme.)"""
    found = engine()
    if found.has_media:
        pytest.skip("this browser is told while it runs")
    with found(is_dark=True) as browser:
        at = Workbench(browser)
        at.begin(page())
        same(at.do("[document.documentElement.dataset.theme, matchMedia('(prefers-reduced-motion: reduce)').matches]"), ["dark", True])
        at.do("el('play').click()")
        at.until("workbench.cycle > 1")
        same(at.do(MOTION), [0, 0])


def test_theme(at):
    at.media(prefers_color_scheme="dark", prefers_reduced_motion="reduce")
    at.until("document.documentElement.dataset.theme === 'dark'")
    at.do("el('play').click()")
    at.until("workbench.cycle > 1")
    same(at.do(MOTION), [0, 0])
    at.do("el('play').click()")
    at.click("#theme")
    same(at.do("document.documentElement.dataset.theme"), "light")
    at.click("#theme")
    at.click("#theme")
    at.media(prefers_color_scheme="light")


# ---- widths

# What a finger may miss: below 24 by 24. (A link within a sentence, and what lies in the diagram's rows of 22, may be smaller.)
SMALL = """every('button, select, input, [role=tab]').filter((it) => it.getClientRects().length && !it.closest('.grid') && !it.closest('.saves, .strip, .note'))
    .map((it) => [it.closest('label') ?? it, it]).map(([box, it]) => [it.id || it.outerHTML.slice(0, 70), box.getBoundingClientRect()])
    .filter(([, r]) => r.width < 24 || r.height < 24).map(([name]) => name)"""
# What lies between the texts and the answers where these are below.
BETWEEN = "el('verdict').getBoundingClientRect().top - el('ys-file').getBoundingClientRect().bottom"
BROKEN = "every('#registers span, #memory span, #grid .name, [role=tab]').filter((it) => getComputedStyle(it).whiteSpace !== 'nowrap').length"


@cases([*SIZES, ("1024 by 768", 1024, 768), ("320 by 640", 320, 640)])
def test_widths(row, at):
    """At each width nothing is cut off at the side, no name breaks within a word, and the controls can be reached."""
    _, width, height = row
    width = at.size(width, height)
    for shown in (RIGHT, REFUSED, FAULTY, SEQUENTIAL):
        show(at, *shown)
        # (a bar to scroll by may take some of it)
        same(at.do("[innerWidth, document.documentElement.scrollWidth - document.documentElement.clientWidth]"), [width, 0])
        same(at.do(SMALL), [])
        if width < 1180:
            assert at.do(BETWEEN) < 16, shown
    show(at, "std.hcl", "sort.ys")
    at.click("#on")
    same(at.cycle(), 2)
    same(at.do(BROKEN), 0)
    if width < 700:
        same(at.do("every('#stages tr').filter((it) => it.getBoundingClientRect().height > 20).length"), 5)
