"""What the pages in docs/ say of obligations and signals, as data for the workbench."""
import os
import re

# What the tables of docs/HCL.md leave out: the words that the machine gives.
GIVEN = {
    "F_predPC": "the predicted PC, in the register of F",
    "imem_icode": "the icode at f_pc",
    "imem_ifun": "the ifun at f_pc",
    "imem_error": "the fetch failed",
    "f_valC": "the constant of the fetched instruction",
    "f_valP": "the address after the fetched instruction",
    "d_rvalA": "the register file's word of d_srcA",
    "d_rvalB": "the register file's word of d_srcB",
    "e_valE": "the ALU's result",
    "e_Cnd": "the condition of the instruction in E holds",
    "m_valM": "the word that is read from memory",
    "dmem_error": "the access to memory failed",
}
FIELDS = {
    "D": "stat icode ifun rA rB valC valP",
    "E": "stat icode ifun valC valA valB dstE dstM srcA srcB",
    "M": "stat icode ifun Cnd valE valA dstE dstM",
    "W": "stat icode valE valM dstE dstM",
}
# As many as the program's own tables have.
RULES = 44

Rule = dict[str, str]


class Changed(Exception):
    """A page that doesn't say what the workbench takes from it."""


def page(here: str, name: str) -> str:
    """Returns the text of a page of docs/."""
    with open(os.path.join(here, "docs", name), encoding="utf-8") as it:
        return it.read()


def one_line(text: str) -> str:
    """Returns the text with one space for each run of white space."""
    return re.sub(r"\s+", " ", text).strip()


def rules(text: str) -> dict[str, Rule]:
    """Returns what each obligation asks, why, and the first sentence of what it asks."""
    found: dict[str, Rule] = {}
    for name, asks, why in re.findall(r"^### ([OS]\d+(?: of SEQ\+)?)\n\n(.*?)\n\n\*Why\.\*(.*?)\n\n", text, re.S | re.M):
        found[name] = {"asks": one_line(asks), "why": one_line(why), "short": one_line(asks).partition(". ")[0].rstrip(".")}
    if len(found) < RULES:
        raise Changed(f"docs/OBLIGATIONS.md: {len(found)} obligations")
    return found


def cells(text: str) -> list[list[str]]:
    """Returns the cells of all rows of tables."""
    rows = [it for it in text.splitlines() if it.startswith("| ")]
    return [[cell.strip().replace("\\|", "|") for cell in re.split(r"(?<!\\)\|", it.strip("|\n "))] for it in rows]


def is_signal(name: str) -> bool:
    """Returns whether a name of a table is a signal's, and not a reason's."""
    return name == "Stat" or not re.match(r"^[A-Z][a-z]+[A-Z]?\w*$", name)


def signals(text: str) -> dict[str, str]:
    """Returns what each signal is for. A later table, that of the pipeline, is taken over an earlier one."""
    found = {}
    for row in cells(text):
        if len(row) >= 2 and row[0].startswith("`") and not row[0].startswith("`word") and "hcl" not in row[0]:
            for name in re.findall(r"`(\w+)`", row[0]):
                if is_signal(name):
                    found[name] = row[1]
    for name in ("f_pc", "d_valA", "set_cc", "D_stall", "Stat", "new_pc"):
        if name not in found:
            raise Changed(f"docs/HCL.md: no row of {name}")
    return found


def given() -> dict[str, str]:
    """Returns what each word is that the machine gives."""
    fields = {f"{stage}_{it}": f"{it} of the instruction in {stage}" for stage, names in FIELDS.items() for it in names.split()}
    return {**GIVEN, **fields}


def texts(here: str) -> dict[str, object]:
    """Returns all of it."""
    return {
        "rules": rules(page(here, "OBLIGATIONS.md")),
        "names": {**given(), **signals(page(here, "HCL.md"))},
    }
