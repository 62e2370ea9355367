"""The files for editors: what VS Code reads is well formed, its patterns find the places, and vim and emacs go to them where they are there."""
import json
import os
import re
import shutil
import subprocess

import pytest

from helpers.cases import same
from helpers.designs import example
from helpers.paths import TOP
from helpers.programs import put

EDITORS = f"{TOP}/tools/editors"


def read(name):
    with open(f"{EDITORS}/textmate/{name}", encoding="utf-8") as file:
        return json.load(file)


def test_extension_names_its_files():
    has = read("package.json")["contributes"]
    paths = [each["path"] for each in has["grammars"] + has["snippets"]] + [each["configuration"] for each in has["languages"] if "configuration" in each]
    same([path for path in paths if not isinstance(read(path), dict)], [])
    matchers = {f"${each['name']}" for each in has["problemMatchers"]}
    same([each["label"] for each in read("tasks.json")["tasks"] if not set(each["problemMatcher"]) <= matchers], [])


PLACES = [
    ("f.hcl:1:18: Syntax", ("f.hcl", "1", "18", "Syntax")),
    ("a b/f.hcl:121:1: O23: D is stalled and bubbled at once.", ("a b/f.hcl", "121", "1", "O23: D is stalled and bubbled at once.")),
    ("p.ys:12: LabelTwice", ("p.ys", "12", None, "LabelTwice")),
    ("f.hcl: yes", None),
    ("f.hcl: `aluB` has no definition: every file for PIPE defines it.", None),
    ("    f.hcl:49: word d_valA = [", None),
]


@pytest.mark.parametrize("line,place", PLACES, ids=[line for line, _ in PLACES])
def test_problem_matcher(line, place):
    for matcher in read("package.json")["contributes"]["problemMatchers"]:
        match = re.search(matcher["pattern"]["regexp"], line)
        same(match and match.groups(), place)


def test_watch_begins_and_ends():
    background = read("package.json")["contributes"]["problemMatchers"][1]["background"]
    assert re.search(background["beginsPattern"], "-- my file.hcl at 05:38:29")
    assert re.search(background["endsPattern"], "-- again at the next save; Ctrl-C ends it")


def test_snippets_are_hcl(y86):
    """A file that a snippet makes is read."""
    snippets = read("snippets/y86hcl.json")
    texts = {name: re.sub(r"\$\{\d:([^}]*)\}", r"\1", "\n".join(each["body"])) for name, each in snippets.items()}
    files = {"a.hcl": "".join(texts[name] + "\n" for name in ("Word", "Boolean", "Cases"))}
    files["a.hcl"] += "".join(f"bool x{number} = {texts[name]};\n" for number, name in enumerate(("Load/use", "Mispredicted jump", "Return")))
    files["a.hcl"] += "word y = [\n" + texts["Forwarding"].replace("$1", "d_srcA") + "\n];\n"
    same(y86("hcl", "a.hcl", files=files)[0], 0)


def test_snippets_are_assembly(y86):
    for name, each in read("snippets/ys.json").items():
        text = re.sub(r"\$\{\d:([^}]*)\}", r"\1", "\n".join(each["body"])).replace("$0", "nop").replace("$$", "$")
        same((name, y86("yas", "a.ys", files={"a.ys": text + "\n"})[0]), (name, 0))


@pytest.fixture
def mistakes(folder):
    put(folder, {"no.hcl": example("stall_and_bubble"), "name.hcl": re.sub("^word aluB =", "word e_valE =", example("std"), flags=re.M),
        "other.hcl": 'resource "a" {\n}\n', "p.ys": "halt\n  movq %rax\n"})
    return folder


NO_MOVQ = "Y86-64 has no `movq`, but four moves: `rrmovq rA, rB`, `irmovq V, rB`, `rmmovq rA, D(rB)` and `mrmovq D(rB), rA`."
VIM = """\
set rtp^={editors}/vim
let g:y86_folder = '{top}'
filetype plugin on
for name in ['no.hcl', 'name.hcl', 'other.hcl', 'p.ys']
  exe 'edit ' . name
  call writefile([name . ' ' . &filetype], 'said', 'a')
  if &filetype ==# 'y86hcl' || &filetype ==# 'ys'
    silent! make!
    for each in getqflist()
      if each.valid
        call writefile([bufname(each.bufnr) . ':' . each.lnum . ':' . each.col . ': ' . each.text], 'said', 'a')
      endif
    endfor
  endif
endfor
qa!
"""


def test_vim(mistakes, programs):
    if not shutil.which("vim") or "+quickfix" not in subprocess.run(["vim", "--version"], capture_output=True, text=True, check=False).stdout:
        pytest.skip("there is no vim that goes to places")
    put(mistakes, {"said.vim": VIM.format(editors=EDITORS, top=mistakes)})
    os.symlink(programs("y86_tell"), f"{mistakes}/y86-tell")
    os.symlink(f"{TOP}/y86-lab", f"{mistakes}/y86-lab")
    subprocess.run(["vim", "-es", "-u", "NONE", "-S", "said.vim"], cwd=mistakes, env={**os.environ, "Y86": programs("y86"), "Y86_TELL": programs("y86_tell")}, stdin=subprocess.DEVNULL,
        stdout=subprocess.DEVNULL, stderr=subprocess.DEVNULL, timeout=120, check=False)
    with open(f"{mistakes}/said", encoding="utf-8") as file:
        said = file.read().splitlines()
    same([line for line in said if not line.startswith("other.hcl")], ["no.hcl y86hcl", "no.hcl:124:1: O23: D is stalled and bubbled at once. Inverting D_bubble repairs it.",
        "name.hcl y86hcl", "name.hcl:64:6: `e_valE` cannot be defined: it is a constant of PIPE, or the hardware computes it.", "p.ys ys", f"p.ys:2:3: {NO_MOVQ}"])
    assert "other.hcl y86hcl" not in said


EMACS = """\
(add-to-list 'load-path "{editors}/emacs")
(require 'y86)
(setq y86-folder "{top}/")
(dolist (name '("no.hcl" "other.hcl" "p.ys"))
  (with-current-buffer (find-file-noselect name)
    (princ (format "%s %s\\n" name major-mode))))
(with-current-buffer (find-file-noselect "no.hcl")
  (font-lock-ensure)
  (search-forward "bool D_stall")
  (princ (format "%s\\n" (get-text-property (- (point) 1) 'face)))
  (princ (format "%s\\n" compile-command)))
"""


def test_emacs(mistakes):
    if not shutil.which("emacs"):
        pytest.skip("there is no emacs")
    put(mistakes, {"said.el": EMACS.format(editors=EDITORS, top=mistakes)})
    done = subprocess.run(["emacs", "--batch", "-Q", "-l", "said.el"], cwd=mistakes, stdin=subprocess.DEVNULL, capture_output=True, text=True, timeout=120, check=False)
    same(done.stdout.splitlines(), ["no.hcl y86-hcl-mode", "other.hcl fundamental-mode", "p.ys y86-assembly-mode", "font-lock-function-name-face",
        f"{mistakes}/y86-lab explain --places no.hcl"])
