"""The processors and programs that the workbench offers: the files of examples/, mistakes made of the book's pipeline, and the tutorial's steps."""
import glob
import os
import re
from typing import TypedDict


class Example(TypedDict, total=False):
    """A text to choose: its name, which is its file's, its title, and the program that goes with it."""

    name: str
    title: str
    file: str
    text: str
    program: str


Groups = list[tuple[str, list[Example]]]

# What a design does, by its file's name; a file that isn't listed is offered by its name alone.
TOLD = {
    "std": "the book's pipeline",
    "with_iaddq": "with iaddq",
    "no_bypassing": "no forwarding",
    "one_at_a_time": "one instruction at a time",
    "load_forwarding": "load forwarding",
    "not_taken": "jumps predicted as not taken",
    "backward_taken": "backward jumps predicted as taken",
    "early_jumps": "jumps repaired from execute",
    "early_returns": "returns go on from memory",
    "all_shortcuts": "all that saves cycles",
    "seq": "SEQ",
    "seq_plus": "SEQ+",
}
SEQUENTIAL = ("seq", "seq_plus")
BOTH = "stall_and_bubble"
# The tutorial's parts: where each begins, the folder of its steps, and a program to run.
SEQ_PART = ("designs/seq.hcl", "tutorial/seq", "tutorial seq", "count.ys")
PIPE_PART = ("designs/no_bypassing.hcl", "tutorial", "tutorial", "sort.ys")
HAZARD = "E_icode in { IMRMOVQ, IPOPQ } && E_dstM in { d_srcA, d_srcB }"
LATE = [(f" d_src{x} == e_dstE : e_valE;", "") for x in "AB"] + [(f"d_src{x} == W_dstM", f"d_src{x} == e_dstE : e_valE; d_src{x} == W_dstM") for x in "AB"]
# A title, the changes of std.hcl, and a program of the examples that comes out wrong, if there is one.
MISTAKES: list[tuple[str, list[tuple[str, str]], str]] = [
    (
        "no stall for load/use",
        [
            (f"bool D_stall = {HAZARD};", "bool D_stall = 0;"),
            (f"bool F_stall = {HAZARD}\n  || ", "bool F_stall = "),
            (f"\n  || {HAZARD};", ";"),
            (f"\n  || !({HAZARD})\n     && ", "\n  || "),
        ],
        "load_use",
    ),
    ("memory before execute", LATE, "call"),
    ("nothing from execute", [(" d_srcA == e_dstE : e_valE;", "")], "swap"),
    ("E_dstE in place of e_dstE", [("d_srcA == e_dstE : e_valE", "d_srcA == E_dstE : e_valE")], ""),
    ("valE before valM (popq %rsp)", [("d_srcA == M_dstM : m_valM; d_srcA == M_dstE : M_valE;", "d_srcA == M_dstE : M_valE; d_srcA == M_dstM : m_valM;")], "stack_pointer"),
    (
        "the wrong path isn't cancelled",
        [("bool D_bubble = E_icode == IJXX && !e_Cnd\n  || ", "bool D_bubble = "), ("bool E_bubble = E_icode == IJXX && !e_Cnd\n  || ", "bool E_bubble = ")],
        "jump",
    ),
    ("a ret isn't waited for", [("IRET in { D_icode, E_icode, M_icode }", "IRET in { D_icode, E_icode }")], "call"),
    ("a bad address changes nothing", [("dmem_error : SADR;", "")], "fault"),
    ("a semicolon is missing", [("1 : f_valP; ];", "1 : f_valP ];")], ""),
    ("a signal is misspelled", [("d_srcB == W_dstM : W_valM", "d_srcB == W_dstm : W_valM")], ""),
]
DEFINITION = re.compile(r"^(?:word|bool|int) (\w+) = (?:[^;\[]|\[[^\]]*\])*;", re.M)


class Changed(Exception):
    """An example that isn't as the workbench takes it to be."""


def read(path: str) -> str:
    """Returns the text of a file."""
    with open(path, encoding="utf-8") as it:
        return it.read()


def stem(path: str) -> str:
    """Returns a file's name without its folder and ending."""
    return os.path.splitext(os.path.basename(path))[0]


def changed(text: str, pairs: list[tuple[str, str]]) -> str:
    """Returns a text with changes, each of which must be possible."""
    for before, after in pairs:
        if before not in text:
            raise Changed(f"std.hcl has no {before!r}")
        text = text.replace(before, after)
    return text


def swapped(text: str, step: str) -> str:
    """Returns a design with the definitions of a step in place of its own."""
    for it in DEFINITION.finditer(step):
        was = re.search(rf"^(?:word|bool|int) {it[1]} = (?:[^;\[]|\[[^\]]*\])*;", text, re.M)
        if not was:
            raise Changed(f"no definition of {it[1]}")
        text = text[: was.start()] + it[0] + text[was.end() :]
    return text


def design(path: str) -> Example:
    """Returns a design to choose."""
    name = os.path.basename(path)
    told = TOLD.get(stem(path))
    return {"name": name, "title": f"{name}: {told}" if told else name, "file": name, "text": read(path)}


def mistakes(std: str, both: Example) -> list[Example]:
    """Returns the book's pipeline with a mistake each."""
    found: list[Example] = []
    for title, pairs, program in MISTAKES:
        it: Example = {"name": f"mistake: {title}", "title": title, "file": "mistake.hcl", "text": changed(std, pairs)}
        if program:
            it["program"] = f"{program}.ys"
        found.append(it)
    both["title"], both["program"] = "stalled and bubbled at once", f"{BOTH}.ys"
    return [*found, both]


def steps(here: str, start: str, folder: str, kind: str, program: str, without: frozenset[str]) -> list[Example]:
    """Returns a processor after each of the tutorial's steps in a folder, or none if a step isn't to be offered."""
    beginning, all_steps = listed(here, start, frozenset()), listed(here, f"{folder}/*.hcl", frozenset())
    if not all_steps or any(os.path.relpath(it, here) in without for it in (*beginning, *all_steps)):
        return []
    text, told = read(beginning[0]), f"the start: {TOLD[stem(start)]}"
    found: list[Example] = [{"name": f"{kind} 0", "title": told, "file": "mine.hcl", "text": text, "program": program}]
    for it in sorted(all_steps, key=lambda it: int(stem(it))):
        step = read(it)
        text = swapped(text, step)
        said = re.match(r"# (.*)", step)
        title = f"step {stem(it)}" + (f": {said[1].rstrip('.')}" if said else "")
        found.append({"name": f"{kind} {stem(it)}", "title": title, "file": "mine.hcl", "text": text, "program": program})
    return found


def programs(here: str, folder: str, without: frozenset[str]) -> list[Example]:
    """Returns the programs of a folder, each with what its first comment says."""
    found: list[Example] = []
    for path in listed(here, f"{folder}/*.ys", without):
        name, text = os.path.basename(path), read(path)
        said = re.match(r"\s*# ?(.{3,60}?)[.:]?\s*(?:\n|$)", text)
        found.append({"name": name, "title": f"{name}: {said[1][0].lower() + said[1][1:]}" if said else name, "file": name, "text": text})
    return found


def listed(here: str, pattern: str, without: frozenset[str]) -> list[str]:
    """Returns the files of examples/ of a pattern, without those that aren't to be offered."""
    return [it for it in sorted(glob.glob(f"{here}/examples/{pattern}")) if os.path.relpath(it, here) not in without]


def order(path: str) -> tuple[int, str]:
    """Puts the designs that are told first, in that order."""
    names = list(TOLD)
    return (names.index(stem(path)) if stem(path) in names else len(names), path)


def examples(here: str, without: frozenset[str] = frozenset()) -> dict[str, Groups]:
    """Returns the groups of processors and of programs. `without` are files, as `examples/copy/ncopy_tree.ys`, that aren't offered."""
    by_name = {stem(it): design(it) for it in sorted(listed(here, "designs/*.hcl", without), key=order)}
    pipes = [it for name, it in by_name.items() if name not in (*SEQUENTIAL, BOTH)]
    sequential = [by_name[it] for it in SEQUENTIAL if it in by_name]
    groups: Groups = [
        ("Pipelines", pipes),
        ("Mistakes", mistakes(by_name["std"]["text"], by_name[BOTH])),
        ("Tutorial: PIPE", steps(here, *PIPE_PART, without)),
        ("Sequential", sequential),
        ("Tutorial: SEQ", steps(here, *SEQ_PART, without)),
    ]
    sources = [("Programs", "programs"), ("Copy loops", "copy"), ("Tutorial", "tutorial/programs")]
    offered = [(name, programs(here, folder, without)) for name, folder in sources]
    return {"hcl": [it for it in groups if it[1]], "ys": [it for it in offered if it[1]]}
