"""`y86-lab grade` and `try`: the grades of examples/class, worked out by hand, the forms of grades, and hand-ins that try to do harm."""
import csv
import html
import io
import json
import os
import re
import shutil
import subprocess
import sys
import xml.etree.ElementTree as tree

import pytest

from helpers.cases import cases, same
from helpers.designs import changed, design, example
from helpers.paths import TOP
from helpers.programs import put
from y86lab.calls import Programs
from y86lab.commands.run_both import other_words
from y86lab.errors import LabError
from y86lab.grading.formats import as_csv, as_gradescope, as_json, as_junit
from y86lab.grading.grader import Grade, Report, Score, words
from y86lab.grading.handins import hand_ins
from y86lab.output import plain_name
from y86lab.tell import Table
from y86lab.grading.rubric import Cycles, Item, Obligations, Program, Rubric, Run, Size, read_rubric, rubric_of

LAB, CLASS = f"{TOP}/y86-lab", f"{TOP}/examples/class"
pytestmark = pytest.mark.skipif(sys.version_info < (3, 11), reason="a rubric needs Python 3.11 or later")


@pytest.fixture
def lab(programs, folder):
    def call(*words, files=None, tell=None):
        put(folder, files or {})
        tell = tell or stand_in(folder, programs("y86_tell"), "exit 6")
        done = subprocess.run([LAB, *words], cwd=folder, stdin=subprocess.DEVNULL, capture_output=True, text=True, timeout=600, check=False,
            env={**os.environ, "Y86": programs("y86"), "Y86_TELL": tell})
        return done.returncode, done.stdout, done.stderr

    return call


# The class of examples/. Where y86-tell gives no answer, an obligation after the first false one counts as one that doesn't hold.
PROGRAMS = """\
name,points,of,sum,rsum,copy
ann,30,30,10,10,10
bob,10,30,10,0,0
cy,0,30,0,0,0
Ελένη,10,30,10,0,0
"""
# False of Bob's is S11, the last of the four of execute. Cy's is without iaddq: two of the three of fetch (S2, S3) are false, two of the four of decode (S5, S6),
# three of the four of execute (S8, S9, S11), and one of the five others (S15). Dee's isn't HCL.
SEQ = """\
name,points,of,fetch,decode,execute,memory and the rest
ann,20,20,5,5,5,5
bob,18.75,20,5,5,3.75,5
cy,9.42,20,1.67,2.5,1.25,4
dee,0,20,0,0,0,0
"""
# Ann's loop takes 8.48 cycles per element (60 (10.5 - 8.48) / 3) and 488 bytes (10 (1000 - 488) / 800). Bob: O10, and more. Dee: O22.
PIPE = """\
name,points,of,stages,forwarding,hazards and exceptions,cycles of the copy loop,bytes of the copy loop
ann,86.71,110,15,10,15,40.31,6.4
bob,22.03,110,5.36,6.67,0,0,10
cy,10,110,0,0,0,0,10
dee,37.14,110,15,10,2.14,0,10
"""


@pytest.mark.parametrize("part,grades", [("programs", PROGRAMS), ("seq", SEQ), ("pipe", PIPE)], ids=("programs", "seq", "pipe"))
def test_class_of_the_examples(part, grades, lab):
    same(lab("grade", f"{CLASS}/hand_ins/{part}", "--rubric", f"{CLASS}/{part}.toml"), (0, grades, ""))


def stand_in(folder, program, check):
    """A y86-tell whose check is this script; for all else it asks the program."""
    put(folder, {"tell": f'#!/bin/sh\n[ "$1" = check ] || exec {program} "$@"\n{check}\n'})
    os.chmod(f"{folder}/tell", 0o755)
    return f"{folder}/tell"


def said_false(*labels):
    """A script that says these obligations are false."""
    said = json.dumps({"verdict": "no", "refuted": [{"obligation": {"label": label}} for label in labels]})
    return f"cat <<'END'\n{said}\nEND\nexit 1"


def test_all_false_obligations_count(lab, folder, programs):
    """Bob's file, with a stand-in that says O10, O11, O16 and O25."""
    tell = stand_in(folder, programs("y86_tell"), said_false("O10", "O11", "O16", "O25"))
    shutil.copytree(f"{CLASS}/hand_ins/pipe/bob", f"{folder}/in/bob")
    status, out, _ = lab("grade", "in", "--rubric", f"{CLASS}/pipe.toml", "--format", "json", tell=tell)
    items = json.loads(out)["grades"][0]["items"]
    same((status, [item["points"] for item in items]), (0, [round(15 * 13 / 14, 2), round(10 * 4 / 6, 2), round(15 * 6 / 7, 2), 0.0, 10.0]))
    same([item["reason"] for item in items[:3]], ["false: O16", "false: O10, O11", "false: O25"])


def test_y86_tell_says_all(lab, programs):
    """The program itself: of Bob's file O10, O11 and O16 are false (a value is taken before it is loaded), since nothing is lost or done twice; of Dee's O22."""
    status, out, _ = lab("grade", f"{CLASS}/hand_ins/pipe", "--rubric", f"{CLASS}/pipe.toml", tell=programs("y86_tell"))
    rows = {row["name"]: row for row in csv.DictReader(io.StringIO(out))}
    same((status, [rows["bob"][name] for name in ("stages", "forwarding", "hazards and exceptions")]), (0, ["13.93", "6.67", "15"]))
    same([rows["dee"][name] for name in ("stages", "forwarding", "hazards and exceptions")], ["15", "10", "12.86"])


def test_y86_tell_says_all_of_seq(lab, programs):
    """The same grades as above, where y86 alone was asked again and again."""
    same(lab("grade", f"{CLASS}/hand_ins/seq", "--rubric", f"{CLASS}/seq.toml", tell=programs("y86_tell")), (0, SEQ, ""))


def items_of(lab, folder, rubric, *words):
    status, out, err = lab("grade", folder, "--single", "--rubric", rubric, "--format", "json", *words)
    same((status, err), (0, ""))
    return json.loads(out)["grades"][0]


def test_a_reference_that_is_wrong_itself(lab, folder):
    """Then y86 never comes to a yes, and what comes after the first false obligation counts as false: of Cy's, S2 of the three of fetch, and S3."""
    os.mkdir(f"{folder}/references")
    put(folder, {"references/seq.hcl": example("seq")})
    shutil.copy(f"{CLASS}/seq.toml", folder)
    items = items_of(lab, f"{CLASS}/hand_ins/seq/cy", "seq.toml")["items"]
    same([item["points"] for item in items], [1.67, 0.0, 0.0, 0.0])
    same({item["reason"] for item in items}, {"S2 is false; later ones weren't decided"})


def test_a_reference_that_is_not_there(lab, folder):
    """That is the teacher's fault, and ends the command."""
    shutil.copy(f"{CLASS}/programs.toml", folder)
    status, out, err = lab("grade", f"{CLASS}/hand_ins/programs", "--rubric", "programs.toml")
    same((status, out, err.partition(": ")[0]), (2, "", "the reference references/sum.ys"))


def test_cycles_of_all_lengths_are_kept(lab):
    """Ann's mean is that of lengths 1 to 64, whose points the row above has."""
    cycles = {int(length): number for length, number in items_of(lab, f"{CLASS}/hand_ins/pipe/ann", f"{CLASS}/pipe.toml")["cycles"].items()}
    same(list(cycles), [*range(65), 128, 192, 256])
    same(f"{sum(cycles[length] / length for length in range(1, 65)) / 64:.2f}", "8.48")


def test_limits_of_time_and_memory(lab, folder):
    """A file whose diagrams grow without end (docs/HCL.md, Limits) ends at the one or the other."""
    pairs = "".join(f" || D_valC == {number} && E_valC == {number}" for number in range(1, 31))
    words = "".join(f" || D_valC == {number}" for number in range(1, 31))
    text = re.sub(r"^bool F_stall = ", f"bool F_stall = 0 && (0{words}) || ", design("std"), flags=re.M)
    os.mkdir(f"{folder}/in")
    put(folder, {"in/pipe.hcl": re.sub(r"^bool F_bubble = 0", f"bool F_bubble = 0{pairs}", text, flags=re.M),
        "r.toml": 'name = "Hazards"\n[[item]]\nname = "hazards"\npoints = 6\nfile = "pipe.hcl"\nobligations = ["hazards"]\n'})
    for words, reason in ((["--seconds", "1"], "the check gave no answer in time"), (["--megabytes", "16"], "the check ran out of memory")):
        same([item["reason"] for item in items_of(lab, "in", "r.toml", *words)["items"]], [reason])


# Rubrics.


@pytest.fixture(scope="session")
def groups(programs):
    """The groups of the obligations, as y86-tell shows them."""
    return Table(Programs(TOP, {"Y86_TELL": programs("y86_tell")})).groups()


def test_rubric_of_the_examples(groups):
    rubric = read_rubric(f"{CLASS}/pipe.toml", groups)
    same((rubric.full, rubric.most, rubric.files()), (True, 110.0, ["pipe.hcl", "ncopy.ys"]))
    same([type(item.task) for item in rubric.items], [Obligations, Obligations, Obligations, Cycles, Size])
    same(rubric.items[1].task.labels, ("O6", "O7", "O8", "O9", "O10", "O11", "S4", "S5", "S6", "S7"))
    same(read_rubric(f"{CLASS}/programs.toml", groups).items[2].task, Program("copy.ys", "references/copy.ys", ("%rax",), (("dest", 3),)))


def test_every_obligation_is_in_one_group(groups):
    rubric = rubric_of("r", {"name": "all", "item": [{"name": name, "points": 1, "file": "a.hcl", "obligations": [name]} for name in
        ("fetch", "decode and forwarding", "execute", "memory", "write-back", "hazards", "exceptions", "next address")]}, groups)
    labels = [label for item in rubric.items for label in item.task.labels]
    same(sorted(labels), sorted([f"O{number}" for number in range(1, 28)] + [f"S{number}" for number in range(1, 17)]))


def item(**entries):
    return {"name": "x", "points": 1, "file": "a.hcl", "obligations": ["O1"], **entries}


def program(**entries):
    return {"name": "x", "points": 1, "file": "a.ys", "reference": "r.ys", **entries}


LABELS = ("`obligations` is to be labels such as O10, or of these groups: "
    "fetch, decode and forwarding, execute, memory, exceptions, next address, write-back, hazards")
WRONG = [
    ({"item": [item()]}, "r: `name` is to be a text"),
    ({"name": "n"}, "r: the rubric has no [[item]]"),
    ({"name": "n", "full": 1, "item": [item()]}, "r: `full` is to be true or false"),
    ({"name": "n", "ful": True, "item": [item()]}, "r: there is no entry `ful`"),
    ({"name": "n", "item": [item(points=0)]}, "r: item 1: `points` is to be above 0"),
    ({"name": "n", "item": [item(points="1")]}, "r: item 1: `points` is to be a number"),
    ({"name": "n", "item": [item(file="../a.hcl")]}, "r: item 1: `file` is to be the name of a file, without a folder"),
    ({"name": "n", "item": [item(file="..")]}, "r: item 1: `file` is to be the name of a file, without a folder"),
    ({"name": "n", "item": [item(on="b.hcl")]}, "r: item 1: an item with `obligations` has no `on`"),
    ({"nmae": "n", "item": [item(points=0)]}, "r: there is no entry `nmae`"),
    ({"name": "n", "item": [{"name": "y", "points": 0, "file": "a.hcl", "obligatoins": ["S1"]}]}, "r: item 1: there is no entry `obligatoins`"),
    ({"name": "n", "item": [item(), {"name": "y", "points": 1, "file": "a.ys", "refrence": "r.ys"}]}, "r: item 2: there is no entry `refrence`"),
    ({"name": "n", "item": [item(item=[])]}, "r: item 1: there is no entry `item`"),
    ({"name": "n", "item": [{"name": "y", "points": 1, "file": "a.hcl"}]}, "r: item 1: it needs `obligations`, `reference`, `on` or `bytes`"),
    ({"name": "n", "item": [{"name": "y", "points": 1, "file": "a.ys", "registers": ["%rax"]}]}, "r: item 1: it needs `obligations`, `reference`, `on` or `bytes`"),
    ({"name": "n", "item": [{"name": "y", "points": 1, "file": "a.ys", "on": "a.hcl", "words": {"dest": 3}}]}, "r: item 1: an item with `on` has no `words`"),
    ({"name": "n", "item": [item(obligations=["S28"])]}, "r: item 1: there is no obligation `S28`"),
    ({"name": "n", "item": [item(obligations=["S16", "S17"])]}, "r: item 1: there is no obligation `S17`"),
    ({"name": "n", "item": [item(obligations=["O27", "O28"])]}, "r: item 1: there is no obligation `O28`"),
    ({"name": "n", "item": [item(obligations=["S0", "S1", "O1"])]}, "r: item 1: there is no obligation `S0`"),
    ({"name": "n", "item": [item(obligations=["fetch", "O01"])]}, "r: item 1: there is no obligation `O01`"),
    ({"name": "n", "item": [item(obligations=["S1", "S2", "O3"])]}, "r: item 1: `obligations`: no processor has `S1` and `O3`"),
    ({"name": "n", "item": [item(obligations=["hazards", "S1"])]}, "r: item 1: `obligations`: no processor has `S1` and `hazards`"),
    ({"name": "n", "item": [item(obligations=["next address", "O5"])]}, "r: item 1: `obligations`: no processor has `O5` and `next address`"),
    ({"name": "n", "item": [item(obligations=["hazard"])]}, f"r: item 1: {LABELS}"),
    ({"name": "n", "item": [item(obligations=[])]}, f"r: item 1: {LABELS}"),
    ({"name": "n", "item": [program(registers=["%rax", "rbx"])]}, "r: item 1: `registers`: there is no `rbx`; write `%rbx`"),
    ({"name": "n", "item": [program(registers=["%rxa"])]}, "r: item 1: `registers`: there is no `%rxa`"),
    ({"name": "n", "item": [program(registers=["%r14", "%r15"])]}, "r: item 1: `registers`: there is no `%r15`"),
    ({"name": "n", "item": [program(words={"dest": True})]}, "r: item 1: `words` is to be a table of labels with a number of words each"),
    ({"name": "n", "item": [program(reference="")]}, "r: item 1: `reference` is to be a path from the rubric's folder"),
    ({"name": "n", "item": [item(), {"name": "y", "points": 1, "file": "a.ys", "on": "a.hcl", "cycles": [9, 9]}]},
        "r: item 2: `cycles` is to be two numbers, the better one first"),
    ({"name": "n", "item": [{"name": "y", "points": 1, "file": "a.ys", "reference": "r.ys", "words": {"dest": "3"}}]},
        "r: item 1: `words` is to be a table of labels with a number of words each"),
]


@pytest.mark.parametrize("table,told", WRONG, ids=[told[3:40] for _, told in WRONG])
def test_wrong_rubrics(table, told, groups):
    with pytest.raises(LabError) as fault:
        rubric_of("r", table, groups)
    same((str(fault.value), fault.value.status), (told, 2))


def test_a_label_picks_the_processor(groups):
    """A group beside it has its obligations of that processor alone; S16 is one of SEQ, and of SEQ+."""
    rubric = rubric_of("r", {"name": "n", "item": [item(obligations=["fetch", "S9", "S16"]), item(obligations=["O27", "fetch"]), item(obligations=["fetch"])]}, groups)
    same([it.task.labels for it in rubric.items], [("S1", "S2", "S3", "S9", "S16"), ("O27", "O1", "O2", "O3", "O4", "O5"), ("O1", "O2", "O3", "O4", "O5", "S1", "S2", "S3")])


def test_all_registers(groups):
    names = ("%rax", "%rcx", "%rdx", "%rbx", "%rsp", "%rbp", "%rsi", "%rdi", "%r8", "%r9", "%r10", "%r11", "%r12", "%r13", "%r14")
    same(rubric_of("r", {"name": "n", "item": [program(registers=[*names])]}, groups).items[0].task.registers, names)


# A rubric's `words`, and what is said of a hand-in. The reference is STORE, and each hand-in another program.
STORE = "irmovq $42, %rax\nirmovq dest, %rbx\nrmmovq %rax, (%rbx)\nhalt\n.align 8\ndest: .quad 0\n"
WORDS = [
    ("as the reference", "{ dest = 1 }", STORE, (0, 5.0, "it ends as the reference does", "")),
    ("a space before the colon", "{ dest = 1 }", STORE.replace("dest:", "dest :"), (0, 5.0, "it ends as the reference does", "")),
    ("another word", "{ dest = 1 }", STORE.replace("42", "43"), (0, 0.0, "the words at dest: 0x2b in place of 0x2a", "")),
    ("the hand-in lacks the label", "{ dest = 1 }", STORE.replace("dest", "dst"), (0, 0.0, "the words at dest: no label dest in place of 0x2a", "")),
    ("the reference lacks the label", "{ dst = 1 }", STORE, (2, None, None, "the reference right.ys: it defines no label `dst`\n")),
    ("both have the label in a comment alone", "{ dst = 1 }", STORE.replace("halt", "halt # | dst: 1"), (2, None, None, "the reference right.ys: it defines no label `dst`\n")),
    ("the second label", "{ dest = 1, dst = 1 }", STORE, (2, None, None, "the reference right.ys: it defines no label `dst`\n")),
]


@cases(WORDS)
def test_labels_of_words(row, lab, folder):
    _, words_of_rubric, hand_in, wanted = row
    os.makedirs(f"{folder}/in/ann")
    right = hand_in if "# | dst" in hand_in else STORE
    rubric = f'name = "n"\n[[item]]\nname = "x"\npoints = 5\nfile = "a.ys"\nreference = "right.ys"\nwords = {words_of_rubric}\n'
    status, out, err = lab("grade", "in", "--rubric", "r.toml", "--format", "json", files={"in/ann/a.ys": hand_in, "right.ys": right, "r.toml": rubric})
    score = json.loads(out)["grades"][0]["items"][0] if out else {"points": None, "reason": None}
    same((status, score["points"], score["reason"], err), wanted)


def test_two_items_of_one_reference(lab, folder):
    """Each item's labels are looked up."""
    os.makedirs(f"{folder}/in/ann")
    rubric = 'name = "n"\n' + "".join(f'[[item]]\nname = "x"\npoints = 5\nfile = "a.ys"\nreference = "right.ys"\nwords = {{ {label} = 1 }}\n' for label in ("dest", "dst"))
    same(lab("grade", "in", "--rubric", "r.toml", files={"in/ann/a.ys": STORE, "right.ys": STORE, "r.toml": rubric}),
        (2, "", "the reference right.ys: it defines no label `dst`\n"))


def test_wrong_arguments(lab, folder):
    rubric = f"{CLASS}/seq.toml"
    same(lab("grade", "nowhere", "--rubric", rubric)[::2], (2, "nowhere: no such folder\n"))
    same(lab("grade", ".", "--rubric", "nowhere.toml")[::2], (2, "nowhere.toml: No such file or directory\n"))
    same(lab("grade", ".", "--rubric", "a.toml", files={"a.toml": "name = \n"})[0], 2)
    same(lab("grade", ".", "--rubric", rubric, "--format", "gradescope")[::2], (2, "Gradescope's results are of one hand-in: --single\n"))
    os.mkdir(f"{folder}/none")
    same(lab("grade", "none", "--rubric", rubric)[::2], (2, "none: it has no hand-in\n"))


# Hand-ins.


def test_flat_hand_ins(folder):
    """Files that begin with a name; others are passed over, which is said."""
    put(folder, {name: "" for name in ("ann_pipe.hcl", "ann-ncopy.ys", "bob pipe.hcl", "cy_pipe-1.hcl", "d.e.pipe.hcl", "pipe.hcl")})
    notes = []
    found = {each.name: (sorted(each.files), each.missing) for each in hand_ins(folder, ["pipe.hcl", "ncopy.ys"], note=notes.append)}
    missing = {"ncopy.ys": "it is missing"}
    same(notes, [f"{name}: passed over, for its name ends in none of pipe.hcl, ncopy.ys" for name in ("cy_pipe-1.hcl", "pipe.hcl")])
    same(found, {"ann": (["ncopy.ys", "pipe.hcl"], {}), "bob": (["pipe.hcl"], missing), "d.e": (["pipe.hcl"], missing)})


def test_flat_hand_ins_of_one_file(folder):
    put(folder, {name: "" for name in ("ann.hcl", "bob_pipe.hcl", "x.ys")})
    same([each.name for each in hand_ins(folder, ["pipe.hcl"])], ["ann", "bob"])


def test_a_folder_of_a_version_control_is_no_hand_in(folder):
    """So that the files beside it are graded."""
    put(folder, {"ann.hcl": "", ".DS_Store": ""})
    os.mkdir(f"{folder}/.git")
    same([each.name for each in hand_ins(folder, ["pipe.hcl"])], ["ann"])


def test_two_files_of_one_name(folder):
    """The first counts, which is said."""
    put(folder, {name: "" for name in ("ann_pipe.hcl", "ann-pipe.hcl", "ann.hcl", "bob.hcl")})
    notes = []
    same([each.files for each in hand_ins(folder, ["pipe.hcl"], note=notes.append)], [{"pipe.hcl": f"{folder}/ann-pipe.hcl"}, {"pipe.hcl": f"{folder}/bob.hcl"}])
    same(notes, ["ann.hcl: passed over, for ann-pipe.hcl is graded", "ann_pipe.hcl: passed over, for ann-pipe.hcl is graded"])


# Where files of the hand-in `ann` are, those that are graded, and what is said.
BELOW = [
    ("one folder", ["a/seq.hcl", "b/x.ys"], {"seq.hcl": "a/seq.hcl", "x.ys": "b/x.ys"}, []),
    ("two folders", ["b/seq.hcl", "a/seq.hcl"], {"seq.hcl": "a/seq.hcl"}, ["ann: seq.hcl is in a/ and in b/; a/seq.hcl is graded"]),
    ("three folders", ["c/seq.hcl", "a/x.ys", "b/seq.hcl", "d/seq.hcl"], {"seq.hcl": "b/seq.hcl", "x.ys": "a/x.ys"},
        ["ann: seq.hcl is in b/, in c/ and in d/; b/seq.hcl is graded"]),
    ("both files", ["a/seq.hcl", "b/seq.hcl", "b/x.ys", "c/x.ys"], {"seq.hcl": "a/seq.hcl", "x.ys": "b/x.ys"},
        ["ann: seq.hcl is in a/ and in b/; a/seq.hcl is graded", "ann: x.ys is in b/ and in c/; b/x.ys is graded"]),
    ("the folder itself", ["seq.hcl", "a/seq.hcl", "b/seq.hcl"], {"seq.hcl": "seq.hcl"}, []),
    ("two folders below", ["a/a/seq.hcl", "b/seq.hcl"], {"seq.hcl": "b/seq.hcl"}, []),
]


@cases(BELOW)
def test_files_in_folders_below(row, folder):
    _, places, graded, told = row
    for place in places:
        os.makedirs(os.path.dirname(f"{folder}/in/ann/{place}"), exist_ok=True)
    put(folder, {f"in/ann/{place}": "" for place in places})
    for top, is_single in ((f"{folder}/in", False), (f"{folder}/in/ann", True)):
        notes = []
        found = [each.files for each in hand_ins(top, ["seq.hcl", "x.ys"], is_single, notes.append)]
        same((found, notes), ([{file: f"{folder}/in/ann/{place}" for file, place in graded.items()}], told))


def test_two_folders_below_are_told_on_standard_error(lab, folder):
    """The grades are on standard output, as they would be without the second folder."""
    for name in ("new", "old"):
        os.makedirs(f"{folder}/in/ann/{name}")
    rubric = 'name = "n"\n[[item]]\nname = "x"\npoints = 5\nfile = "a.ys"\nreference = "right.ys"\nregisters = ["%rax"]\n'
    files = {"in/ann/new/a.ys": STORE, "in/ann/old/a.ys": "halt\n", "right.ys": STORE, "r.toml": rubric}
    same(lab("grade", "in", "--rubric", "r.toml", files=files), (0, "name,points,of,x\nann,5,5,5\n", "ann: a.ys is in new/ and in old/; new/a.ys is graded\n"))


def test_links_out_of_the_folder(folder):
    """None is followed, of a file or of a folder; one inside is."""
    for name in ("in/ann", "in/bob", "in/cy", "out"):
        os.makedirs(f"{folder}/{name}")
    put(folder, {"out/pipe.hcl": "secret", "in/cy/mine.hcl": "mine"})
    os.symlink("../../out/pipe.hcl", f"{folder}/in/ann/pipe.hcl")
    os.symlink("mine.hcl", f"{folder}/in/cy/pipe.hcl")
    os.symlink("../../out", f"{folder}/in/bob/more")
    os.symlink("../out", f"{folder}/in/dee")
    os.mkfifo(f"{folder}/in/eve")
    notes = []
    found = {each.name: (each.files, each.missing) for each in hand_ins(f"{folder}/in", ["pipe.hcl"], note=notes.append)}
    same(notes, ["eve: passed over, for the hand-ins are the folders beside it"])
    out = {"pipe.hcl": "it is a link out of the folder"}
    same(found, {"ann": ({}, out), "bob": ({}, {"pipe.hcl": "it is missing"}), "cy": ({"pipe.hcl": f"{folder}/in/cy/pipe.hcl"}, {}), "dee": ({}, out)})


def test_hand_ins_that_try_to_do_harm(lab, folder):
    """A FIFO, a file that is huge, one that is no text, a loop without end, and a name that is a formula: each gets its line."""
    names = ["=cmd|' calc'!A0", "<script>", "fifo", "huge", "loop", "noise"]
    for name in names:
        os.makedirs(f"{folder}/in/{name}")
    os.mkfifo(f"{folder}/in/fifo/sum.ys")
    with open(f"{folder}/in/huge/sum.ys", "wb") as file:
        file.truncate(1 << 32)
    put(folder, {"in/loop/sum.ys": "loop: jmp loop\n", "in/noise/sum.ys": bytes(range(256)), "in/<script>/sum.ys": "<script>alert(1)</script>\n",
        "in/=cmd|' calc'!A0/sum.ys": "irmovq $0xcba, %rax\nhalt\n"})
    status, out, err = lab("grade", "in", "--rubric", f"{CLASS}/programs.toml", "--feedback", "pages", "--jobs", "2")
    same((status, err), (0, ""))
    same([row[:4] for row in csv.reader(io.StringIO(out))][1:],
        [["<script>", "0", "30", "0"], ["'=cmd|' calc'!A0", "10", "30", "10"], *[[name, "0", "30", "0"] for name in names[2:]]])
    pages = sorted(os.listdir(f"{folder}/pages"))
    same(pages, ["cmd_calc_A0.html", "fifo.html", "huge.html", "loop.html", "noise.html", "script.html"])
    for page in pages:
        with open(f"{folder}/pages/{page}", encoding="utf-8") as file:
            text = file.read()
        assert "<script" not in text and "30 points" in text, page
    with open(f"{folder}/pages/huge.html", encoding="utf-8") as file:
        assert "the source is too long" in file.read()


def test_names_of_pages():
    taken = set()
    same([plain_name(name, taken) for name in ("ann", "Ann", "../etc", "-rf", "a/b", "Ελένη", "...", "x" * 300)],
        ["ann", "Ann-2", "etc", "rf", "a_b", "Ελένη", "hand-in", "x" * 100])


# Of y86-tell's check: the program itself, and one that gives no answer. And what a page has then.
FEEDBACK = [
    ("y86-tell", None, ("no: O10 is false somewhere.", " of the program, and does it wrong:\n", "3 of 6 points")),
    ("no answer", "exit 6", ("pipe.hcl: the check ended without an answer", "O10 is false; later ones weren't decided", "3 of 6 points")),
]


@cases(FEEDBACK)
def test_feedback_shows_the_mistake(row, lab, folder, programs):
    """The page has what y86-tell says, and a program that shows it; what isn't known is said."""
    _, check, texts = row
    tell = stand_in(folder, programs("y86_tell"), check) if check else programs("y86_tell")
    wrong = changed(design("std"), d_valA="[ D_icode in { ICALL, IJXX } : D_valP; d_srcA == M_dstE : M_valE; @ ]")
    os.mkdir(f"{folder}/in")
    put(folder, {"in/ann.hcl": wrong, "in/bob.hcl": example("std"),
        "r.toml": 'name = "Forwarding"\n[[item]]\nname = "forwarding"\npoints = 6\nfile = "pipe.hcl"\nobligations = ["O6", "O10"]\n'})
    status, out, err = lab("grade", "in", "--rubric", "r.toml", "--feedback", "pages", "-o", "grades.csv", tell=tell)
    same((status, out, err), (0, "", ""))
    with open(f"{folder}/grades.csv", encoding="utf-8") as file:
        same(file.read(), "name,points,of,forwarding\nann,3,6,3\nbob,6,6,6\n")
    with open(f"{folder}/pages/ann.html", encoding="utf-8") as file:
        page = html.unescape(re.sub("<[^>]*>", "", file.read()))
    for text in texts:
        assert text in page, page
    assert folder not in page
    with open(f"{folder}/pages/bob.html", encoding="utf-8") as file:
        assert "<pre>" not in file.read()


# The forms of grades.

RUBRIC = Rubric("=Lab & co", False, (Item("one", 2, Run("a.ys", "b.hcl")), Item("-two", 3, Run("a.ys", "b.hcl"))))
GRADES = [Grade("@ann <x>", (Score("one", 2.0, 2, "all hold"), Score("-two", 0.75, 3, "a < b & \0c")), {1: 33}), Grade("bob", (Score("one", 0.0, 2, ""), Score("-two", 3.0, 3, "")), {})]


def test_csv():
    same(as_csv(RUBRIC, GRADES), "name,points,of,one,'-two\n'@ann <x>,2.75,5,2,0.75\nbob,3,5,0,3\n")


def test_json():
    data = json.loads(as_json(RUBRIC, GRADES))
    same((data["rubric"], data["of"], data["grades"][0]["cycles"]), ("=Lab & co", 5, {"1": 33}))
    same(data["grades"][0]["items"][1], {"name": "-two", "points": 0.75, "of": 3, "reason": "a < b & \0c"})


def test_junit():
    top = tree.fromstring(as_junit(RUBRIC, GRADES))
    same([(suite.get("name"), suite.get("tests"), suite.get("failures")) for suite in top], [("@ann <x>", "2", "1"), ("bob", "2", "1")])
    failure = top[0][1][0]
    same((failure.tag, failure.get("message"), failure.text), ("failure", "0.75 of 3", "a < b & \ufffdc"))


def test_gradescope():
    data = json.loads(as_gradescope(RUBRIC, GRADES))
    same((data["score"], [(each["name"], each["score"], each["max_score"], each["status"]) for each in data["tests"]]),
        (2.75, [("one", 2.0, 2, "passed"), ("-two", 0.75, 3, "failed")]))


def test_gradescope_of_a_hand_in(lab):
    status, out, err = lab("grade", f"{CLASS}/hand_ins/programs/bob", "--single", "--rubric", f"{CLASS}/programs.toml", "--format", "gradescope")
    data = json.loads(out)
    same((status, err, data["score"], [each["score"] for each in data["tests"]]), (0, "", 10.0, [10.0, 0.0, 0.0]))


def test_scripts_for_course_systems():
    for name in ("setup.sh", "run_autograder"):
        assert os.access(f"{CLASS}/gradescope/{name}", os.X_OK), name
        same(subprocess.run(["bash", "-n", f"{CLASS}/gradescope/{name}"], capture_output=True, check=False).stderr, b"")


def test_words_after_a_label():
    """What the run didn't change is as the object file has it."""
    listing = "0x000: 00                   | halt\n0x008:                      | dest:\n0x008: 0a00000000000000     |     .quad 10\n0x010: 0b00000000000000     |     .quad 11\n"
    report = "Stopped in 1 steps at PC = 0x0.  Status 'HLT', CC Z=1 S=0 O=0\nChanges to memory:\n0x0010:\t0x000000000000000b\t0x00000000000000ff\n"
    same((words(Report(listing, report), "dest", 2), words(Report(listing, report), "nowhere", 1)), ("0xa 0xff", "no label nowhere"))


# `try`.


def test_try(lab, programs):
    """A program on a right pipeline, and on one without the load/use hazard: with 0x0 the old word was right too."""
    program = "irmovq word, %rdi\nmrmovq (%rdi), %rax\naddq %rax, %rax\nhalt\n.align 8\nword:\n.quad 0\n"
    wrong = re.sub(r"bool ([DF])_stall =[^;]*;", r"bool \1_stall = 0;", re.sub(r"bool E_bubble =[^;]*;", "bool E_bubble = 0;", design("std")))
    files = {"p.ys": program, "std.hcl": example("std"), "wrong.hcl": wrong}
    tell = programs("y86_tell")
    same(lab("try", "p.ys", "std.hcl", files=files, tell=tell), (0, "p.ys comes out right on std.hcl with each of 20 inputs.\n", ""))
    status, out, err = lab("try", "p.ys", "wrong.hcl", tell=tell)
    same((status, err), (1, ""))
    lines = out.splitlines()
    assert re.fullmatch(r"The \.quad lines were: -?\d+", lines[0]), out
    # irmovq is fetched in cycle 1, mrmovq in cycle 2, and addq in cycle 3: it retires in cycle 7
    same(lines[2:5], ["In cycle 7 the pipeline retires instruction 3 of the program, and does it wrong:", "", "    0x014: addq %rax, %rax"])
    same(lines[-1], "The theorem doesn't cover this run: it needs a yes from the check.")
    same(lab("try", "p.ys", "wrong.hcl", "--inputs", "1", tell=tell)[:2], (0, "p.ys comes out right on wrong.hcl.\n"))


@pytest.mark.parametrize("line", ["a: .quad 0", "a:.quad $0", "a : .quad 0x0 // x", "a:\n.quad 0 /* x */", "a:\n.quad$0 # x"])
def test_try_changes_each_word(line, lab, programs):
    """A label, a `$` or a comment may be on the line of the word."""
    program = f"irmovq a, %rdi\nmrmovq (%rdi), %rax\nhalt\n.align 8\n{line}\n"
    files = {"p.ys": program, "std.hcl": example("std")}
    same(lab("try", "p.ys", "std.hcl", files=files, tell=programs("y86_tell")), (0, "p.ys comes out right on std.hcl with each of 20 inputs.\n", ""))


def test_try_with_inputs_without_an_end(lab, programs):
    """A word counts the turns of a loop. A pipeline isn't wrong because the loop doesn't end."""
    program = "irmovq n, %rdi\nmrmovq (%rdi), %rcx\nirmovq $1, %r8\nloop:\nsubq %r8, %rcx\njne loop\nhalt\n.align 8\nn:\n.quad 5\n"
    ends = 1 + sum(0 < int(word) < 100 for turn in range(1, 20) for word in other_words(turn, 1))
    assert 5 < ends < 20
    same(lab("try", "p.ys", "std.hcl", files={"p.ys": program, "std.hcl": example("std")}, tell=programs("y86_tell")), (0,
        f"p.ys comes out right on std.hcl with each of {ends} inputs. With {20 - ends} others it is right up to the limit of cycles, and doesn't end.\n", ""))


def test_try_on_seq(lab):
    """On SEQ the reports are compared: subq the other way round."""
    program = "irmovq $3, %rax\nirmovq $5, %rbx\nsubq %rax, %rbx\nhalt\n"
    files = {"p.ys": program, "seq.hcl": changed(design("seq"), aluB="[ icode == IOPQ : 0; @ ]")}
    same(lab("try", "p.ys", "seq.hcl", files=files), (1, """\
The processor ends otherwise than the instructions say.

by the instructions:
    Stopped in 4 steps at PC = 0x16.  Status 'HLT', CC Z=0 S=0 O=0
    %rbx:\t0x0000000000000000\t0x0000000000000002

on the processor:
    Stopped in 4 steps at PC = 0x16.  Status 'HLT', CC Z=0 S=1 O=0
    %rbx:\t0x0000000000000000\t0xfffffffffffffffd
""", ""))


def test_try_of_an_object_file(lab):
    files = {"std.hcl": example("std"), "seq.hcl": example("seq"), "p.yo": "0x000: 00 |\n", "q.ys": "movq\n"}
    same(lab("try", "p.yo", "seq.hcl", files=files), (0, "p.yo comes out right on seq.hcl.\n", ""))
    moves = "four moves: `rrmovq rA, rB`, `irmovq V, rB`, `rmmovq rA, D(rB)` and `mrmovq D(rB), rA`."
    same(lab("try", "q.ys", "std.hcl"), (5, "", f"q.ys:1:1: Y86-64 has no `movq`, but {moves}\n"))
    same(lab("try", "none.ys", "std.hcl")[0], 3)
