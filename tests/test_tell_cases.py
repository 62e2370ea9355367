"""Which case of a definition `y86-tell check` names, where it is, and its text: with lists of cases in cases.

The cases are counted by hand: those of the outermost list, from 1.
"""
import json

from helpers.cases import cases, same
from helpers.designs import changed, design

# A datapath and its design, a signal and its body, the number of the case that is taken where it is wrong, and its text.
NESTED = [
    # the stack goes down at a ret
    ("behind a list in a case", "pipe", "std", "aluA",
        "[ E_icode in { IIRMOVQ, IRMMOVQ, IMRMOVQ } : E_valC; E_icode in { IRRMOVQ, IOPQ } : [ E_icode == IOPQ : E_valA; 1 : E_valA; ]; 1 : -8; ]",
        3, "1 : -8;"),
    ("behind a list in a guard", "pipe", "std", "aluA",
        "[ E_icode in { IIRMOVQ, IRMMOVQ, IMRMOVQ } : E_valC; E_icode == [ E_icode == IOPQ : IOPQ; 1 : IRRMOVQ; ] : E_valA; E_icode == IHALT : 0; 1 : -8; ]",
        4, "1 : -8;"),
    ("the list is the case", "pipe", "std", "aluA",
        "[ E_icode in { IIRMOVQ, IRMMOVQ, IMRMOVQ } : E_valC; E_icode in { IRRMOVQ, IOPQ } : E_valA; 1 : [ E_icode == IHALT : 0; 1 : -8; ]; ]",
        3, "1 : [ E_icode == IHALT : 0; 1 : -8; ];"),
    ("lists in a list", "pipe", "std", "aluA",
        "[ E_icode in { IIRMOVQ, IRMMOVQ, IMRMOVQ } : [ 1 : [ 1 : E_valC; ]; ]; E_icode in { IRRMOVQ, IOPQ } : [ 1 : [ 1 : E_valA; ]; ]; 1 : -8; ]",
        3, "1 : -8;"),
    ("on two lines", "pipe", "std", "aluA",
        "[ E_icode in { IIRMOVQ, IRMMOVQ, IMRMOVQ } : E_valC;\n  E_icode in { IRRMOVQ, IOPQ } : E_valA;\n"
        "  E_icode in { ICALL, IPUSHQ,\n    IRET, IPOPQ } : -8; ]",
        3, "E_icode in { ICALL, IPUSHQ,\n    IRET, IPOPQ } : -8;"),
    # a call goes on behind itself
    ("SEQ", "seq", "seq", "new_pc", "[ icode == IRET : valM; icode == IJXX : [ Cnd : valC; 1 : valP; ]; 1 : [ 1 : valP; ]; ]", 3, "1 : [ 1 : valP; ];"),
    ("SEQ+", "seqplus", "seq_plus", "pc",
        "[ pIcode == IRET : pValM; pIcode == IJXX : [ pCnd : pValC; 1 : pValP; ]; 1 : pValP; ]", 3, "1 : pValP;"),
]


@cases(NESTED)
def test_nested(row, y86_tell):
    _, path, name, signal, body, number, case = row
    text = changed(design(name), **{signal: body})
    before = text[: text.rindex(case, 0, text.index(body) + len(body))]
    line, column = before.count("\n") + 1, len(before) - before.rfind("\n")
    status, out, err = y86_tell("check", path, "d.hcl", files={"d.hcl": text}).text()
    same((status, err), (1, ""))
    wanted = f"\n           It takes case {number} of its definition, at line {line}, column {column}:\n               {' '.join(case.split())}\n"
    assert wanted in out, out
    found = json.loads(y86_tell("check", path, "d.hcl", "--json").out)["refuted"][0]["signals"]
    same([(it["signal"], it["case"]) for it in found if not it["right"]], [(signal, {"number": number, "line": line, "column": column, "text": case})])


# A signal of SEQ, its body, which takes no case where it is wrong, and what is said of it.
NO_CASE = [
    ("no list", "mem_read", "icode in { IMRMOVQ, IPOPQ }", "mem_read is 0. It has to be 1."),
    ("no guard holds", "aluB",
        "[ icode in { IMRMOVQ, IOPQ, ICALL, IPUSHQ, IRET, IPOPQ } : valB; icode in { IRRMOVQ, IIRMOVQ } : 0; ]", "aluB is 0. It has to be valB."),
    ("a list that is compared", "mem_read", "[ icode == IRET : 0; icode in { IMRMOVQ, IPOPQ } : 1; ] == 1", "mem_read is 0. It has to be 1."),
]


@cases(NO_CASE)
def test_no_case(row, y86_tell):
    _, signal, body, said = row
    out = y86_tell("check", "seq", "d.hcl", files={"d.hcl": changed(design("seq"), **{signal: body})}).text()[1]
    assert f"\n    WRONG  {said}\n           It reads icode = " in out, out
    found = json.loads(y86_tell("check", "seq", "d.hcl", "--json").out)["refuted"][0]["signals"]
    same([(it["signal"], it["case"]) for it in found if not it["right"]], [(signal, None)])
