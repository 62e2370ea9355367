"""The pages of `y86-lab page`, opened in a headless Chromium: they show what the programs print, at both widths, light and dark."""
import os
import re
import shutil
import subprocess
from xml.etree import ElementTree

import pytest

from helpers.cases import cases, same
from helpers.designs import changed, design
from helpers.paths import DESIGNS, PROGRAMS, TOP
from helpers.programs import put

pytestmark = pytest.mark.xdist_group("browser")
BOXES = """[...document.querySelectorAll("#stages tr")].map((it) => {
    const [at] = it.querySelector("small").textContent.split(" ");
    return it.cells[0].textContent + " " + it.querySelector(".what").textContent + (at.startsWith("0x") ? " at " + at : "");
})"""
TOLD = '[...document.querySelectorAll("#told li")].map((it) => it.textContent)'
# Registers and words by their titles, which have them whole, and flags.
STATE = """Object.fromEntries([...document.querySelectorAll(".pairs div")].map((it) => it.title.split(" = ").slice(0, 2))
    .concat([...document.querySelectorAll("#flags span")].map((it) => it.textContent.split(" "))))"""
# The load/use hazard, by hand: CS:APP 3e, section 4.5.5 (figure 4.54).
LOAD_USE = {
    3: ["F halt at 0x00c", "D addq %rax, %rax at 0x00a", "E mrmovq 16(%rdi), %rax at 0x000", "M bubble", "W bubble"],
    4: ["F halt at 0x00c", "D addq %rax, %rax at 0x00a", "E bubble", "M mrmovq 16(%rdi), %rax at 0x000", "W bubble"],
    5: ["F halt at 0x00d", "D halt at 0x00c", "E addq %rax, %rax at 0x00a", "M bubble", "W mrmovq 16(%rdi), %rax at 0x000"],
}
WAITS = "Load/use: addq %rax, %rax waits in D for %rax, which mrmovq 16(%rdi), %rax in E has still to load. A bubble goes into E."
# What D picks there, once the load is in M.
FORWARDED = ["addq %rax, %rax gets %rax = 0x5 forwarded as valA and valB from m_valM, of mrmovq 16(%rdi), %rax in M."]


class Made:
    """A page: the call that made it, where it is, and what lies beside it."""

    def __init__(self, call, path):
        self.call, self.path, self.beside = call, path, os.listdir(os.path.dirname(path))


@pytest.fixture(scope="session")
def make(programs, tmp_path_factory):
    """Makes a page: `make(HCL, OBJ)`."""

    def made(*words):
        path = f"{tmp_path_factory.mktemp('page')}/page.html"
        environment = {**os.environ, "Y86": programs("y86"), "Y86_STAGES": programs("y86_stages"), "Y86_TELL": programs("y86_tell")}
        return Made(subprocess.run([f"{TOP}/y86-lab", "page", *words, "-o", path], env=environment, capture_output=True, text=True, check=False), path)

    return made


def of(hcl, program):
    return f"{DESIGNS}/{hcl}.hcl", f"{PROGRAMS}/{program}.yo"


@pytest.fixture(scope="session")
def pages(make, tmp_path_factory):
    """The pages, each made once."""
    room = str(tmp_path_factory.mktemp("files"))
    put(room, {"broken.hcl": changed(design("std"), D_stall="0"), "listed.yo": f"0x000: 10 | {TEXT}\n0x001: 00 |\n"})
    words = {
        "a no": (f"{room}/broken.hcl",),
        "load/use": of("std", "load_use"),
        "listed": (f"{DESIGNS}/std.hcl", f"{room}/listed.yo"),
        "sort under std": of("std", "sort"),
        "asum under std": of("std", "asum"),
        "jump under no_bypassing": of("no_bypassing", "jump"),
    }
    found = {}

    def page(name):
        if name not in found:
            found[name] = make(*words[name])
        return found[name]

    return page


NAMES = ("a no", "load/use", "listed", "sort under std", "asum under std", "jump under no_bypassing")
# A text of an object file that looks like HTML.
TEXT = "</script><b>get</b> &amp; \"it\" `${1}` \\u003c -->"


@pytest.mark.parametrize("name", NAMES)
def test_made(name, pages):
    made = pages(name)
    same((made.call.returncode, made.call.stderr, made.beside), (0, "", ["page.html"]))


@pytest.mark.parametrize("name", NAMES)
def test_no_other_file_and_no_network(name, pages):
    with open(pages(name).path, encoding="utf-8") as it:
        same(re.findall(r"https?:(?!//www\.w3\.org/2000/svg)|\bsrc=|\bhref=|@import|url\((?!#)", it.read()), [])


@pytest.mark.parametrize("is_dark", (False, True), ids=("light", "dark"))
@pytest.mark.parametrize("width", (1280, 400))
@pytest.mark.parametrize("name", NAMES[:2])
def test_width(name, width, is_dark, pages, browser):
    """Nothing is cut off."""
    browser.size(width, 900, is_dark)
    browser.open(pages(name).path)
    same(browser.value("document.documentElement.scrollWidth"), width)


@pytest.mark.parametrize("name", NAMES[:2])
def test_light_and_dark(name, pages, browser):
    papers = set()
    for is_dark in (False, True):
        browser.size(1280, 900, is_dark)
        browser.open(pages(name).path)
        papers.add(browser.value("getComputedStyle(document.body).backgroundColor"))
    same(len(papers), 2)


# ---- the load/use hazard

@pytest.mark.parametrize("cycle", LOAD_USE)
def test_boxes(cycle, pages, browser):
    browser.open(pages("load/use").path, f"#cycle={cycle}")
    same(browser.value(BOXES), LOAD_USE[cycle])


@pytest.mark.parametrize("cycle", LOAD_USE)
def test_told(cycle, pages, browser):
    browser.open(pages("load/use").path, f"#cycle={cycle}")
    told = browser.value(TOLD)
    same((WAITS in told, [it for it in told if it in FORWARDED]), (cycle == 3, FORWARDED if cycle == 4 else []))


def at_cycle(browser, pages, cycle):
    browser.open(pages("load/use").path, f"#cycle={cycle}")


def test_the_slider_moves(pages, browser):
    at_cycle(browser, pages, 5)
    browser.value("document.getElementById('slider').value = 4; document.getElementById('slider').dispatchEvent(new Event('input'))")
    same(browser.value(BOXES), LOAD_USE[4])


def test_a_button_moves(pages, browser):
    at_cycle(browser, pages, 4)
    browser.value("document.getElementById('back').click()")
    same((browser.value(BOXES), browser.value("location.hash")), (LOAD_USE[3], "#cycle=3"))


def test_a_click_on_the_diagram_moves(pages, browser):
    at_cycle(browser, pages, 3)
    browser.value("document.querySelector('.box[data-cycle=\"5\"]').click()")
    same(browser.value(BOXES), LOAD_USE[5])


def test_the_arrow_keys_move_after_a_button(pages, browser):
    at_cycle(browser, pages, 5)
    browser.value("document.getElementById('base').focus(); document.getElementById('base').click()")
    browser.press("ArrowLeft")
    same(browser.value("document.querySelector('#now b').textContent"), "4")


def test_the_last_cycle_says_how_it_ends(pages, browser):
    at_cycle(browser, pages, 3)
    browser.press("End")
    same(browser.value(TOLD)[-1], "halt in W has the status HLT, and stops the machine.")


# ---- what is listed, and whole runs

def test_what_is_listed(pages, browser):
    """A row has the text of the object file at its address."""
    browser.open(pages("listed").path)
    same(browser.value('[...document.querySelectorAll("#grid .name")].map((it) => it.textContent)')[:2], [f"0x000 {TEXT}", "0x001 halt"])


def test_it_is_a_text(pages, browser):
    browser.open(pages("listed").path)
    same(browser.value('document.querySelectorAll(".name b, .name script, h1 b").length'), 0)


@pytest.mark.parametrize("width", (1280, 400))
def test_negative_words(width, pages, browser):
    """A word of 16 digits breaks no name of a register or an address."""
    browser.size(width, 900)
    browser.open(pages("sort under std").path, "#cycle=200")
    broken = """[...document.querySelectorAll(".pairs div")].map((it) => it.firstChild)
        .filter((it) => it.offsetHeight > 30).map((it) => it.textContent)"""
    same(browser.value(broken), [])



def cycles(said):
    """What the program says of each cycle: the boxes, and the registers, flags and memory, so far as they were written."""
    found, written = [], {}
    for it in re.split(r"^cycle \d+\n", said, flags=re.M)[1:]:
        boxes = re.findall(r"^([FDEMW]) row \d+ at (\S+) .* \| (.*)$", it, re.M)
        flags = re.search(r"^flags ZF (\d) SF (\d) OF (\d)$", it, re.M)
        state = {**written, **dict(zip(("ZF", "SF", "OF"), flags.groups()))}
        found.append(([f"{name} {text}" + ("" if text == "bubble" else f" at {at}") for name, at, text in boxes], state))
        written |= dict(re.findall(r"^(?:write|store) (\S+) (\S+)$", it, re.M))
    return found


RUNS = [("asum under std", "std", "asum"), ("jump under no_bypassing", "no_bypassing", "jump")]


@cases(RUNS)
def test_whole_run(row, pages, browser, y86_stages):
    """By its keys: each cycle shows what the program says."""
    name, hcl, program = row
    browser.open(pages(name).path)
    shown, wanted = [], cycles(y86_stages(*of(hcl, program)).out.decode())
    for _, state in wanted:
        now = browser.value(STATE)
        shown.append((browser.value(BOXES), {it: now.get(it) for it in state}))
        browser.press("ArrowRight")
    same(shown, wanted)


@cases(RUNS)
def test_what_a_run_leaves(row, pages, browser, y86):
    """The last cycle shows the words that `psim` ends with."""
    name, hcl, program = row
    browser.open(pages(name).path)
    browser.press("End")
    now, ended = browser.value(STATE), y86("psim", *of(hcl, program)).out.decode()
    left = {at: hex(int(word, 16)) for at, word in re.findall(r"^(\S+):\t\S+\t(\S+)$", ended, re.M)}
    same({at: now.get(at) or next((word for it, word in now.items() if it.startswith("0x") and int(it, 16) == int(at, 16)), None) for at in left}, left)


# ---- the situation of a no

def test_the_stages_of_a_no(pages, browser):
    browser.open(pages("a no").path)
    drawn = browser.value("document.querySelector('#no-path svg').getAttribute('aria-label')")
    same(re.findall(r"\b([FDEMW]): (\w+)", drawn), [("F", "halt"), ("D", "rrmovq"), ("E", "mrmovq"), ("M", "bubble"), ("W", "bubble")])


def test_the_title_and_the_words_of_a_no(pages, browser):
    browser.open(pages("a no").path)
    same(browser.value("document.title + '; ' + document.querySelector('#panel-no .told .both').textContent"),
        "broken.hcl: no, O24 doesn't hold; The instruction in D doesn't go on to E, and D doesn't keep it: it is lost.")


# Of a page of a run and one of a no: what its help says, and what it doesn't, since it has no texts.
HELPS = [("load/use", "next hazard", "On the left"), ("a no", "smallest counterexample", "next hazard")]


@cases(HELPS)
def test_help(row, pages, browser):
    """And no key fails where there is no run."""
    name, wanted, other = row
    browser.open(pages(name).path)
    for key in ("ArrowRight", "End", "n", "N", "b", " ", "w", "?"):
        browser.press_key(key, False)
    text = browser.value("document.getElementById('dialog').innerText")
    same((wanted in text, other in text, "Ctrl" in text), (True, False, False))


# ---- pictures

def drawn(programs, folder, *words):
    """A call of `y86-lab draw`, and the picture that it made."""
    if not (shutil.which("node") or shutil.which("nodejs")):
        pytest.skip("Node isn't here, so no picture was drawn")
    environment = {**os.environ, "Y86": programs("y86"), "Y86_STAGES": programs("y86_stages"), "Y86_TELL": programs("y86_tell")}
    made = subprocess.run([f"{TOP}/y86-lab", "draw", *words, "-o", f"{folder}/it.svg"], env=environment, capture_output=True, text=True, check=False)
    return made, ElementTree.parse(f"{folder}/it.svg").getroot() if made.returncode == 0 else None


def texts_of(picture):
    return [it.text for it in picture.iter("{http://www.w3.org/2000/svg}text")]


def test_diagram(programs, folder):
    """The rows and letters are those of the book's figure 4.54, and one word is forwarded."""
    made, picture = drawn(programs, folder, *of("std", "load_use"))
    same((made.returncode, made.stderr), (0, ""))
    rows = "".join(it for it in texts_of(picture) if it in "FDEMW")
    assert rows.startswith("FDEMW" + "FDDEMW" + "FFDEMW"), rows
    same(len(picture.findall(".//{http://www.w3.org/2000/svg}path[@class='forward']")), 1)


def test_datapath(programs, folder):
    _, picture = drawn(programs, folder, *of("std", "load_use"), "--cycle", "4")
    assert "m_valM 0x5 → %rax" in texts_of(picture)


def test_no_such_cycle(programs, folder):
    made, _ = drawn(programs, folder, *of("std", "load_use"), "--cycle", "40")
    same(made.returncode != 0 and made.stderr.strip().endswith("the run has 8 cycles"), True)
