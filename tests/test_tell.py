"""What `y86-tell` says: of each file of rows/obligations.txt the obligation, the wrong signals with what is wanted, and the repairs; of changed designs what
goes wrong in motion, the next cycle, and which obligation to mend first. test_tell_pages.py has the pages line by line.

The expected values are worked out by hand, from the situations in the rows and from CS:APP 3e, figures 4.18 to 4.21 and sections 4.5.5 and 4.5.8.
"""
import json
import re

import pytest

from helpers.cases import cases, same
from helpers.designs import changed, design, example, replaced
from helpers.rows import broken

# The obligation, then its wrong signals as the page of a refusal says them.
SIGNALS = [
    # a failed fetch counts as a nop, whose code is 1
    ("O1", ["f_icode is 0 (IHALT). It has to be 1 (INOP)."]),
    ("O2", ["f_stat is 1 (SAOK). It has to be 3 (SADR)."]),
    ("O3", ["need_regids is 0. It has to be 1."]),
    ("O4", ["need_valC is 0. It has to be 1."]),
    ("O5", ["f_predPC is f_valP. It has to be f_valC."]),
    ("O6", ["d_srcA is 0 (%rax). It has to be 4 (%rsp)."]),
    ("O7", ["d_srcB is 15 (RNONE). It has to be 4 (%rsp)."]),
    ("O8", ["d_dstE is 15 (RNONE). It has to be 4 (%rsp)."]),
    ("O9", ["d_dstM is 15 (RNONE). It has to be 0 (%rax)."]),
    # popq %rsp in M: the loaded word wins
    ("O10", ["d_valA is M_valE. It has to be m_valM."]),
    ("O11", ["d_valB is d_rvalB. It has to be e_valE."]),
    # -8 as an unsigned word
    ("O12", ["aluA is 18446744073709551608. It has to be 8."]),
    ("O13", ["aluB is 0. It has to be E_valB."]),
    ("O14", ["alufun is 1. It has to be 0."]),
    ("O15", ["set_cc is 1. It has to be 0."]),
    ("O16", ["e_valA is E_valB. It has to be E_valA."]),
    ("O17", ["e_dstE is 0 (%rax). It has to be 15 (RNONE)."]),
    ("O18", ["mem_addr is M_valE. It has to be M_valA."]),
    ("O19", ["mem_write is 0. It has to be 1."]),
    ("O20", ["m_stat is 1 (SAOK). It has to be 3 (SADR)."]),
    ("O21", ["w_valE is W_valM. It has to be W_valE."]),
    ("O22", ["Stat is 0 (SBUB). It has to be 1 (SAOK)."]),
]
# The obligation, what goes wrong, and the signals of which each, inverted alone, repairs it.
MOTION = [
    # D waits for the load, so its bubble is the wrong one of the two
    ("O23", ["D is stalled and bubbled at once."], ["D_bubble"]),
    # the instruction that D keeps goes on to E too
    ("O24", ["D keeps an instruction that goes on to E: it is done twice."], ["E_bubble"]),
    # the jump in E is mispredicted: what is fetched now must not enter D, which has a bubble and may keep it
    ("O25", ["An instruction on the wrong path enters D, and nothing ahead of it will cancel it."], ["D_stall", "D_bubble"]),
    # it takes two: D has to go on, and E to load
    ("O26", ["Nothing is ahead of the instruction in D, and it doesn't go on to E."], []),
    ("O27", ["The pipeline is empty, and D doesn't load."], ["D_bubble"]),
]


def broken_file(label):
    """The file of rows/obligations.txt that breaks the obligation."""
    _, base, definitions, _ = next(row for row in broken() if row[0] == label)
    return replaced(design(base), definitions)


def flat(text):
    return " ".join(text.split())


@cases(SIGNALS)
def test_signals(row, y86_tell):
    label, wanted = row
    status, out, err = y86_tell("check", "pipe", "d.hcl", files={"d.hcl": broken_file(label)}).text()
    assert (status, err) == (1, "")
    assert out.startswith(f"no: {label} is false somewhere.\n")
    first = out.split("\nAlso false somewhere")[0].split("\nAll other obligations")[0]
    said = re.findall(r"^    WRONG  (.*?\.)(?=\n           [A-Z]|\n    |\n\n|\n\Z)", first, flags=re.M | re.S)
    assert [flat(it) for it in said] == wanted


@cases(MOTION)
def test_motion(row, y86_tell):
    label, faults, repairs = row
    status, out, err = y86_tell("check", "pipe", "d.hcl", "--json", files={"d.hcl": broken_file(label)}).text()
    assert (status, err) == (1, "")
    first = json.loads(out)["refuted"][0]
    assert first["obligation"]["label"] == label
    assert first["signals"] == []
    motion = first["motion"]
    same((motion["faults"], motion["invert"], motion["f_pc"]), (faults, repairs, []))


LOAD_USE = "E_icode in { IMRMOVQ, IPOPQ } && E_dstM in { d_srcA, d_srcB }"
WAITS = {"F_stall": "@ || D_icode == IOPQ", "E_bubble": "@ || D_icode == IOPQ"}
KEPT = {"F_stall": "@ || M_icode == IJXX && !M_Cnd", "D_bubble": "@ || M_icode == IJXX && !M_Cnd"}
JUMP_TWICE = {"E_stall": "E_icode == IJXX && !e_Cnd", "E_bubble": LOAD_USE}
LOST = "The instruction in D doesn't go on to E, and D doesn't keep it: it is lost."
ENTERS = "An instruction on the wrong path enters D, and nothing ahead of it will cancel it."
SKIPPED = "D doesn't load the program's next instruction, and F goes on: that instruction is skipped."
# A design, its changes, an obligation that is false somewhere, what goes wrong there, and what repairs it alone: signals, and choices of `f_pc`.
MOVES = [
    # an empty F may be bubbled while a ret is in D, or stalled
    ("F is stalled and bubbled", "std", {"F_bubble": "D_icode == IRET"}, "O23", ["F is stalled and bubbled at once."], ["F_stall", "F_bubble"], []),
    ("E is stalled and bubbled", "std", {"E_stall": LOAD_USE}, "O23", ["E is stalled and bubbled at once."], ["E_stall"], []),
    ("M is stalled and bubbled", "std", {"M_stall": "M_stat == SHLT"}, "O23", ["M is stalled and bubbled at once."], ["M_stall"], []),
    ("W is stalled and bubbled", "std", {"W_stall": "@ || W_icode == IOPQ", "W_bubble": "W_icode == IOPQ"}, "O23",
        ["W is stalled and bubbled at once."], ["W_stall"], []),
    ("W keeps what it has", "std", {"W_stall": "@ || W_icode == IOPQ"}, "O24",
        ["The instruction in W retires, and W keeps it: it retires again."], ["W_stall"], []),
    ("M loses what it has", "std", {"W_bubble": "M_icode == IOPQ"}, "O24", ["W doesn't load the instruction in M: it is lost."], ["W_bubble"], []),
    ("M keeps what it has", "std", {"M_stall": "M_icode == IOPQ"}, "O24", ["M keeps an instruction that goes on to W: it is done twice."], ["M_stall"], []),
    ("E loses what it has", "std", {"M_bubble": "@ || E_icode == IOPQ"}, "O24", ["M doesn't load the instruction in E: it is lost."], ["M_bubble"], []),
    ("E keeps what it has", "std", {"E_stall": "E_icode == IOPQ"}, "O24", ["E keeps an instruction that goes on to M: it is done twice."], ["E_stall"], []),
    ("D loses what it has", "std", {"D_stall": "0"}, "O24", [LOST], ["D_stall"], []),
    # D_stall would break O26: nothing is ahead of D, so it would wait forever
    ("a wait that never ends is no repair", "std", WAITS, "O24", [LOST], ["E_bubble"], []),
    ("M isn't bubbled", "std", {"M_bubble": "0"}, "O25", ["An instruction on the wrong path reaches M, where it changes something."], ["M_bubble"], []),
    ("E isn't bubbled behind a mispredicted jump", "std", {"E_bubble": LOAD_USE}, "O25",
        ["An instruction on the wrong path is in E, and nothing ahead of it will cancel it."], ["E_bubble"], []),
    ("the right path comes after the wrong one", "early_jumps", {"E_bubble": LOAD_USE}, "O25",
        ["An instruction of the program follows one on the wrong path."], ["E_bubble"], []),
    ("F isn't stalled", "std", {"F_stall": "0"}, "O25", [SKIPPED], ["F_stall"], []),
    ("F is stalled for a nop", "std", {"F_stall": "@ || f_icode == INOP"}, "O25",
        ["The fetched instruction enters D, and F doesn't load the address after it: it is fetched again."], ["F_stall"], []),
    # D would load a halt then, after which F may have any address
    ("F keeps a wrong address", "std", KEPT, "O25",
        ["F keeps an address at which the program doesn't go on, and nothing ahead repairs it."], ["D_bubble"], []),
    # the load in E stops the machine, so D is on the wrong path, and E has the load once more
    ("E keeps what stops the machine", "std", {"E_stall": LOAD_USE}, "O25",
        ["An instruction stops the machine, and one that counts as the program's follows it."], ["E_stall"], []),
    ("E keeps a mispredicted jump", "early_returns", JUMP_TWICE, "O25",
        ["An instruction that counts as the program's follows a mispredicted jump."], ["E_stall"], []),
    ("M keeps a ret", "early_jumps", {"M_stall": "M_icode == IRET"}, "O25", ["An instruction that counts as the program's follows a ret."], ["M_stall"], []),
    # the names that f_pc may pick
    ("f_pc is F_predPC or E_valC", "std", {"f_pc": "[ E_icode == IJXX && e_Cnd : M_valA; @ ]"}, "O25", [ENTERS, SKIPPED], [], ["F_predPC", "E_valC"]),
    ("f_pc is E_valC", "not_taken_early_jumps", {"f_pc": "[ E_icode == IJXX && E_ifun == 1 : F_predPC; @ ]"}, "O25",
        [ENTERS], ["D_stall", "D_bubble"], ["E_valC"]),
    ("f_pc is E_valA", "early_jumps", {"f_pc": "[ E_icode == IJXX && E_ifun == 1 : F_predPC; @ ]"}, "O25", [ENTERS], ["D_stall", "D_bubble"], ["E_valA"]),
    ("f_pc is M_valE", "not_taken", {"f_pc": "[ W_icode == IRET : W_valM; 1 : F_predPC; ]"}, "O25", [ENTERS, SKIPPED], [], ["M_valE"]),
    ("f_pc is M_valA", "std", {"f_pc": "[ W_icode == IRET : W_valM; 1 : F_predPC; ]"}, "O25", [ENTERS, SKIPPED], [], ["M_valA"]),
    ("f_pc is m_valM", "early_returns", {"f_pc": "[ M_icode == IRET && W_stat != SBUB : F_predPC; @ ]"}, "O25", [ENTERS], ["D_stall", "D_bubble"], ["m_valM"]),
    ("f_pc is W_valM", "std", {"f_pc": "[ M_icode == IJXX && !M_Cnd : M_valA; 1 : F_predPC; ]"}, "O25", [ENTERS, SKIPPED], [], ["W_valM"]),
]


def refuted(y86_tell, path, text):
    """What the JSON says of each obligation that is false somewhere, by its label."""
    answer = y86_tell("check", path, "d.hcl", "--json", files={"d.hcl": text})
    return {it["obligation"]["label"]: it for it in json.loads(answer.out)["refuted"]}


@cases(MOVES)
def test_moves(row, y86_tell):
    _, base, bodies, label, *wanted = row
    motion = refuted(y86_tell, "pipe", changed(design(base), **bodies))[label]["motion"]
    same([motion[it] for it in ("faults", "invert", "f_pc")], wanted)


WITHOUT_WAIT = {"D_stall": "0", "E_bubble": "E_icode == IJXX && !e_Cnd"}
# An obligation, a design and its changes; the kinds of what D to W have; whether the fetch is right; of F to W whether they are stalled (S) and bubbled (B);
# and of D to W what they have in the next cycle.
NEXT = [
    ("O23", "std", {"D_bubble": "E_icode == IJXX && !e_Cnd || IRET in { D_icode, E_icode, M_icode }"}, ["program", "program", "bubble", "bubble"], False,
        ["S-", "SB program", "-B bubble", "-- program", "-- bubble"]),
    ("O25", "early_jumps", {"E_bubble": LOAD_USE}, ["wrong path", "program", "bubble", "bubble"], True,
        ["--", "-- program", "-- wrong path", "-- program", "-- bubble"]),
    # F waits, and the instruction leaves D without the word that it waits for
    ("O10", "std", WITHOUT_WAIT, ["program", "program", "bubble", "bubble"], True, ["S-", "-- program", "-- program", "-- program", "-- bubble"]),
    ("O11", "std", WITHOUT_WAIT, ["program", "program", "bubble", "bubble"], True, ["S-", "-- program", "-- program", "-- program", "-- bubble"]),
]


@cases(NEXT)
def test_next_cycle(row, y86_tell):
    label, base, bodies, *wanted = row
    said = refuted(y86_tell, "pipe", changed(design(base), **bodies))[label]
    kinds = [said["counterexample"][it]["kind"] for it in "DEMW"]
    moves = []
    for stage in "FDEMW":
        it = said["motion"][stage]
        moves.append(f"{'S' if it['stall'] else '-'}{'B' if it['bubble'] else '-'} {it.get('next', '')}".strip())
    same([kinds, said["motion"]["fetch_is_right"], moves], wanted)


def test_waits(y86_tell):
    """Where an instruction has to wait no value is right, and the pair that lets it wait is named. Another obligation on signals says nothing of motion."""
    said = refuted(y86_tell, "pipe", changed(design("std"), **WITHOUT_WAIT, Stat="W_stat"))
    for label, signal in (("O10", "d_valA"), ("O11", "d_valB")):
        found, motion = said[label]["signals"][0], said[label]["motion"]
        same((found["signal"], found["right"], found["wanted"]), (signal, False, None))
        same([motion[it] for it in ("faults", "invert", "f_pc", "invert_both", "invert_and_f_pc")], [[], [], [], [["D_stall", "E_bubble"]], []])
    same(said["O22"]["motion"], None)


# A changed definition of std.hcl, the obligation that it breaks, and the comparison there.
COMPARISONS = [
    ("a jump goes backward", {"f_stat": "[ f_icode == IJXX && f_valC < f_valP : SINS; @ ]"}, "O2", ("f_valC", "<", "f_valP", True)),
    ("a jump goes forward", {"f_stat": "[ f_icode == IJXX && f_valC >= f_valP : SINS; @ ]"}, "O2", ("f_valC", "<", "f_valP", False)),
    ("two words are alike", {"set_cc": "@ && E_valA != E_valB"}, "O15", ("E_valA", "==", "E_valB", True)),
    ("two words differ", {"set_cc": "@ && E_valA == E_valB"}, "O15", ("E_valA", "==", "E_valB", False)),
    ("a word and a number", {"set_cc": "@ && E_valB == 3"}, "O15", ("E_valB", "==", 3, False)),
]


@cases(COMPARISONS)
def test_comparisons(row, y86_tell):
    _, bodies, label, wanted = row
    said = refuted(y86_tell, "pipe", changed(design("std"), **bodies))[label]
    same(said["counterexample"]["comparisons"], [dict(zip(("left", "sign", "right", "holds"), wanted))])


# A change of std.hcl, the obligations that are false somewhere, and the one to mend first.
OTHERS = [
    # set_cc and M_bubble read m_stat
    ("m_stat without dmem_error", "word m_stat = M_stat;", ["O15", "O20", "O25"], "O20"),
    ("Stat of a bubble", "word Stat = W_stat;", ["O22"], "O22"),
    # an instruction in D is lost, and its place in the next cycle is taken
    ("D never stalls", "bool D_stall = 0;", ["O24", "O25"], "O24"),
    # need_valC reads F_stall, which reads D_stall, which reads d_srcA
    ("need_valC by way of two signals", """word d_srcA = [ D_icode in { IRRMOVQ, IRMMOVQ, IOPQ, IPUSHQ, IPOPQ } : D_rA; D_icode == IRET : RRSP; 1 : RNONE; ];
bool F_stall = D_stall || IRET in { D_icode, E_icode, M_icode };
bool need_valC = f_icode in { IIRMOVQ, IRMMOVQ, IMRMOVQ, IJXX, ICALL } && !F_stall;""", ["O4", "O6"], "O6"),
    # f_ifun reads f_icode, but both are wrong signals of O1
    ("two signals of one obligation", """word f_icode = [ imem_error : IHALT; 1 : imem_icode; ];
word f_ifun = [ imem_error && f_icode == IHALT : 1; imem_error : FNONE; 1 : imem_ifun; ];
word Stat = W_stat;""", ["O1", "O22"], "O1"),
    # F_stall and D_stall repair O24 together, and need_valC reads F_stall
    ("one of a pair", """bool F_stall = IRET in { D_icode, E_icode, M_icode };
bool D_stall = 0;
bool need_valC = f_icode in { IIRMOVQ, IRMMOVQ, IMRMOVQ, IJXX, ICALL }
  && (F_stall || !(E_icode in { IMRMOVQ, IPOPQ } && E_dstM in { d_srcA, d_srcB }));""", ["O4", "O24", "O25"], "O24"),
    # f_pc alone repairs O25, and need_regids reads it
    ("f_pc", """word f_pc = [ M_icode == IJXX && !M_Cnd : M_valA; 1 : F_predPC; ];
bool need_regids = f_icode in { IRRMOVQ, IOPQ, IPUSHQ, IPOPQ, IIRMOVQ, IRMMOVQ, IMRMOVQ } && f_pc == F_predPC;""", ["O3", "O25"], "O25"),
    # D_bubble repairs O25 together with f_pc, and need_valC reads it
    ("one of a pair with f_pc", """word f_pc = [ M_icode == IJXX && !M_Cnd : M_valA; 1 : F_predPC; ];
bool D_bubble = W_icode == IRET || E_icode == IJXX && !e_Cnd
  || !(E_icode in { IMRMOVQ, IPOPQ } && E_dstM in { d_srcA, d_srcB }) && IRET in { D_icode, E_icode, M_icode };
bool need_valC = f_icode in { IIRMOVQ, IRMMOVQ, IMRMOVQ, IJXX, ICALL } && !(W_icode == IRET && D_bubble);""", ["O4", "O25"], "O25"),
]


@cases(OTHERS)
def test_others(row, y86_tell):
    _, change, labels, first = row
    answer = y86_tell("check", "pipe", "d.hcl", "--json", files={"d.hcl": replaced(design("std"), change)})
    said = json.loads(answer.out)
    assert [it["obligation"]["label"] for it in said["refuted"]] == labels
    assert said["mend_first"] == first


DRAINED = "E_stat == SBUB && M_stat == SBUB && W_stat == SBUB"
# A change of std.hcl that leaves two signals wrong at once, and what repairs them: the pairs of signals, then a signal with a choice of `f_pc`.
TWO = [
    # Figure 4.66, load/use: F and D have to stall while E is bubbled. If D alone does, F goes on and the instruction that F fetched is skipped.
    ("load/use stalls neither F nor D", {"F_stall": "IRET in { D_icode, E_icode, M_icode }", "D_stall": "0"}, "O24", [["F_stall", "D_stall"]], []),
    # The ret in W: its target is W_valM, which only f_pc picks, and D has to load what is fetched there.
    (
        "f_pc without the ret, and D bubbled there",
        {"f_pc": "[ M_icode == IJXX && !M_Cnd : M_valA; 1 : F_predPC; ]", "D_bubble": "W_icode == IRET || (@)"},
        "O25",
        [],
        [{"invert": "D_bubble", "f_pc": "W_valM"}],
    ),
    # D has a halt and all others have bubbles: the halt leaves only if D doesn't stall and E loads.
    ("an empty pipeline stalls a halt", {it: f"@ || D_icode == IHALT && {DRAINED}" for it in ("F_stall", "D_stall", "E_bubble")}, "O26",
        [["D_stall", "E_bubble"]], []),
    # One alone repairs it: D_stall inverted, D keeps the instruction that waits for the load. Pairs aren't named then.
    ("D never stalls", {"D_stall": "0"}, "O24", [], []),
    # F_predPC is right for a jump in M that was predicted right. (A bubble in D and a stall in F would do it too.)
    ("f_pc takes each jump for mispredicted", {"f_pc": "[ M_icode == IJXX : M_valA; @ ]"}, "O25", [], []),
]


@cases(TWO)
def test_two_changes(row, y86_tell):
    """Where no change alone repairs the motion, the pairs that do are named, and they are the definitions of std.hcl that were changed."""
    _, bodies, label, both, with_pc = row
    answer = y86_tell("check", "pipe", "d.hcl", "--json", files={"d.hcl": changed(design("std"), **bodies)})
    first = json.loads(answer.out)["refuted"][0]
    assert first["obligation"]["label"] == label
    motion = first["motion"]
    assert (motion["invert_both"], motion["invert_and_f_pc"]) == (both, with_pc)
    assert (motion["invert"] == [] and motion["f_pc"] == []) == bool(both or with_pc)


@cases(TWO)
def test_two_changes_in_words(row, y86_tell):
    _, bodies, _, both, with_pc = row
    out = y86_tell("check", "pipe", "d.hcl", files={"d.hcl": changed(design("std"), **bodies)}).text()[1]
    _, found, after = out.partition("\nA repair: no single change does it, but each of these pairs makes O10, O11 and O23 to O27 hold\nin this situation.\n")
    pairs = [f"    Invert {one} and {two}." for one, two in both] + [f"    Invert {it['invert']}, and let f_pc be {it['f_pc']}." for it in with_pc]
    same((found != "", after.partition("\n\n")[0]), (pairs != [], "\n".join(pairs)))


def test_yes(y86_tell):
    status, out, err = y86_tell("check", "pipe", "d.hcl", files={"d.hcl": example("std")}).text()
    assert (status, err) == (0, "")
    assert out.startswith("yes: all 27 obligations hold.\n")
    assert "Forward jumps that it predicts as taken: jmp, jle, jl, je, jne, jge, jg." in out


def test_verdicts_agree(y86, y86_tell):
    """The settings of a yes are those that `y86` prints."""
    files = {"d.hcl": example("std")}
    settings = dict(it.split("=") for it in y86("check", "pipe", "d.hcl", files=files).out.decode().split()[1:])
    said = json.loads(y86_tell("check", "pipe", "d.hcl", "--json", files=files).out)["settings"]
    bits = {name: "".join(str(int(it)) for it in (value if isinstance(value, list) else [value])) for name, value in said.items()}
    assert bits == settings


@pytest.mark.parametrize("word", ["O1", "O27", "S1", "S16", "d_valA", "new_pc"])
def test_show(word, y86_tell):
    status, out, err = y86_tell("show", word).text()
    assert (status, err) == (0, "")
    assert out.startswith(word)


def test_unknown_word(y86_tell):
    assert y86_tell("show", "O28").status == 1


def test_faults(y86_tell):
    status, out, err = y86_tell("check", "pipe", "d.hcl", files={"d.hcl": "word f_pc = ;\n"}).text()
    assert (status, out) == (5, "")
    assert err.startswith("d.hcl:1:13: ")
    assert y86_tell("check", "pipe", "no.hcl").status == 3
    assert y86_tell("check").status == 2
    assert y86_tell("--help").status == 0
