"""HCL files as `y86` reads, prints, binds and orders them.

Each fault of a text with its place and reason; the limits; the one form that is printed, which reads as the same file again; the first fault of a file
that doesn't bind, and the cycle of one that has no order. Each wanted text was worked out by hand from the rules of the language and the tables of signals.
"""
import re

import pytest

from helpers.cases import cases, same
from helpers.designs import design, example, without

# ---- texts that are refused, with the place and the reason

FAULTS = [
    (b"word f_pc = 9223372036854775808;", "1:13: NumberTooWide"),
    (b"word f_pc = -9223372036854775809;", "1:13: NumberTooWide"),
    (b"word f_pc = 1", "1:14: Syntax"),
    (b"bool F_stall = 1 == 1 == 1;", "1:23: Syntax"),
    (b"wor", "1:1: Syntax"),
    (b"bool a = b & c;", "1:12: Syntax"),
    (b"bool a = b & \x80;", "1:12: Syntax"),
    (b"quote 'it\n\x80", "1:7: Syntax"),
    (b"word a = - 1;", "1:10: Syntax"),
    (b"word a = 1 # one\n", "2:1: Syntax"),
    (b"word a = 1 # one ", "1:18: Syntax"),
    (b"# \x80\nquote '\x80' \t\r\n  \x80", "3:3: BadByte"),
    (b"word 9223372036854775808 = 1;", "1:6: Syntax"),
    (b"bool a = b ! c;", "1:12: Syntax"),
    (b"bool in = 1;", "1:6: Syntax"),
    (b"word a = [ ];", "1:12: Syntax"),
    (b"word a = [ b : c; d ; ];", "1:21: Syntax"),
    (b"bool a = b in { };", "1:17: Syntax"),
    (b"bool a = b in { c } in { d };", "1:21: Syntax"),
    (b"word a = 12b;", "1:12: Syntax"),
    (b"intsig a 'b' 'c'", "1:14: Syntax"),
    (b"wordsig 'a' 'b'", "1:9: Syntax"),
    (b"word a = (b;", "1:12: Syntax"),
    (b"bool a = b =< c;", "1:12: Syntax"),
    # 64 levels: a `!` is open around its operand and no further; `in` may stand on the last level, the set behind it may not
    (b"bool a = " + b"(" * 65 + b"1" + b")" * 65 + b";", "1:74: DepthOver64"),
    (b"bool a = " + b"!" * 65 + b"1;", "1:74: DepthOver64"),
    (b"bool a = " + b"(" * 64 + b"1 in {", "1:79: DepthOver64"),
    (b"bool a = " + b"(" * 63 + b"!a in {", "1:79: DepthOver64"),
    (b"bool a = " + b"[" * 65527, "1:74: DepthOver64"),
    (b"!" * 65536, "1:1: Syntax"),
]

# ---- texts that are read, with the form in which they are printed

NAMES = b"".join(b"wordsig n%03d 'x'\n" % at for at in range(256))
PRINTED = [
    # where parentheses stand, and where they don't
    (b"bool a = (b || c) || d || (e || f);", b"bool a = (b || c) || d || (e || f);\n"),
    (b"bool a = (b && c) || (!d) || (e == f);", b"bool a = b && c || !d || e == f;\n"),
    (b"bool a=(b||c)&&(d&&e)&&(!f)&&(g in {h});", b"bool a = (b || c) && (d && e) && !f && g in { h };\n"),
    (b"bool a = !(b || c) && !(d && e) && !(!f);", b"bool a = !(b || c) && !(d && e) && !!f;\n"),
    (b"bool a = !(b == c) || !(d in { e }) || !(1);", b"bool a = !b == c || !d in { e } || !1;\n"),
    (b"bool a = (b == c) != (!d) || (e) <= ([1:f;]);", b"bool a = (b == c) != (!d) || e <= [ 1 : f; ];\n"),
    (b"bool a = (b||c) in {(d||e),(!f)} || (g in{h}) in{(i)};", b"bool a = (b || c) in { d || e, !f } || (g in { h }) in { i };\n"),
    (b"word a=[(b||c):(d);(1):[e&&f:-1;];];", b"word a = [ b || c : d; 1 : [ e && f : -1; ]; ];\n"),
    # words, numbers and items
    (b"", b""),
    (b" \t\r\n# nothing", b""),
    (b"bool set_cc=E_icode==IOPQ&&!m_stat in{SADR};", b"bool set_cc = E_icode == IOPQ && !m_stat in { SADR };\n"),
    (b"bool a=b<c||d>e||f<=g||h>=i||j==k||l!=m;", b"bool a = b < c || d > e || f <= g || h >= i || j == k || l != m;\n"),
    (b"int a = -0008;word b=-0;int c=0012;", b"word a = -8;\nword b = 0;\nword c = 12;\n"),
    (
        b"word a = 9223372036854775807; word b = -9223372036854775808;",
        b"word a = 9223372036854775807;\nword b = -9223372036854775808;\n",
    ),
    (b"quote'x  # y'intsig a''boolsig b'(b)' # c", b"quote 'x  # y'\nwordsig a ''\nboolsig b '(b)'\n"),
    (b"wordsig in2'w'word wordsig_=inn;", b"wordsig in2 'w'\nword wordsig_ = inn;\n"),
    # 64 levels of parentheses are left out, and 64 of `!` stand
    (b"bool F_bubble = " + b"(" * 64 + b"1" + b")" * 64 + b";", b"bool F_bubble = 1;\n"),
    (b"bool a = " + b"!" * 64 + b"1;\n", b"bool a = " + b"!" * 64 + b"1;\n"),
    # the limits: levels, one byte over and over, names
    (b"bool a = " + b"(" * 64 + b"1" + b")" * 64 + b";", b"bool a = 1;\n"),
    (b"bool a = " + b"!" * 64 + b"1;", b"bool a = " + b"!" * 64 + b"1;\n"),
    (b"bool a = " + b"(" * 62 + b"!a in { b } && ((c))" + b")" * 62 + b";", b"bool a = !a in { b } && c;\n"),
    (b" " * 65536, b""),
    (NAMES + b"word n000 = n255;\n", NAMES + b"word n000 = n255;\n"),
    # each form of item and expression
    (
        b"quote 'it # is'\nintsig x '' boolsig b 'q'# one\nint w=[b&&!c||d:-8;1:(x);];\n"
        b"bool t = (a || (b || c)) && a in { 0, x >= 9223372036854775807 };\nbool u = !!a <= -0;",
        b"quote 'it # is'\nwordsig x ''\nboolsig b 'q'\nword w = [ b && !c || d : -8; 1 : x; ];\n"
        b"bool t = (a || (b || c)) && a in { 0, x >= 9223372036854775807 };\nbool u = !!a <= 0;\n",
    ),
]

# ---- files that don't bind: std.hcl with a text behind it, and the first fault

ADDED = [
    ("word foo = 1;", "Unknown foo"),
    ("word Stat = 1;", "Twice Stat"),
    ("word E_valA = 1;", "Redefines E_valA"),
    ("boolsig E_icode 'x'", "KindMismatch E_icode"),
    ("bool IHALT = foo;", "Redefines IHALT"),
    ("wordsig foo 'x' word bar = 1;", "Unknown foo"),
]
# the same without its definition of W_bubble
IN_PLACE = [
    ("", "Missing W_bubble"),
    ("word Stat = foo;", "Twice Stat"),
    ("bool W_bubble = !bar || foo;", "Unknown bar"),
    ("word W_bubble = 1;", "KindMismatch W_bubble"),
    ("bool W_bubble = 2;", "KindMismatch W_bubble"),
    ("bool W_bubble = FNONE;", "KindMismatch W_bubble"),
    ("bool W_bubble = !W_icode;", "KindMismatch W_bubble"),
    ("bool W_bubble = M_Cnd && W_icode;", "KindMismatch W_bubble"),
    ("bool W_bubble = 1 || W_icode;", "KindMismatch W_bubble"),
    ("bool W_bubble = M_Cnd == 1;", "KindMismatch W_bubble"),
    ("bool W_bubble = 1 == M_Cnd;", "KindMismatch W_bubble"),
    ("bool W_bubble = M_Cnd in { 0 };", "KindMismatch W_bubble"),
    ("bool W_bubble = W_icode in { 0, M_Cnd };", "KindMismatch W_bubble"),
    ("bool W_bubble = [ 1 : 1; ];", "KindMismatch W_bubble"),
    ("bool W_bubble = [ W_icode : 1; ] == 1;", "KindMismatch W_bubble"),
    ("bool W_bubble = [ 1 : M_Cnd; ] == 1;", "KindMismatch W_bubble"),
    ("bool W_bubble = 0; wordsig M_Cnd 'x'", "KindMismatch M_Cnd"),
    ("bool W_bubble = 0; boolsig IHALT 'x'", "KindMismatch IHALT"),
    ("boolsig W_bubble 'x' wordsig W_bubble 'x'", "KindMismatch W_bubble"),
]
# the same with another definition of w_valM: it is a word, and a Boolean is none
WORDS = [
    "bool w_valM = 1;",
    "bool w_valM = M_Cnd;",
    "word w_valM = M_Cnd;",
    "word w_valM = !M_Cnd;",
    "word w_valM = 1 && 1;",
    "word w_valM = 0 || 1;",
    "word w_valM = W_valM == 1;",
    "word w_valM = W_valM in { 1 };",
]
# declarations that change nothing: one that is repeated, and one of a constant
DECLARED = "boolsig E_stall 'a' boolsig E_stall 'b' wordsig IHALT 'c' quote 'd'"

# ---- files without an order: definitions where all others are 0, and the cycle from its first row in the order of the table

CYCLES = [
    ("bool D_stall = D_bubble; bool D_bubble = D_stall;", "D_stall D_bubble"),
    # f_valC is read with need_regids, as the table says
    ("bool need_regids = f_valC == 0;", "f_valC need_regids"),
    # of two cycles the one through the first row
    (
        "bool M_stall = M_bubble; bool M_bubble = M_stall; bool F_stall = F_bubble; bool F_bubble = F_stall;",
        "F_stall F_bubble",
    ),
    ("word f_pc = [ f_pc == 0 : 1; ];", "f_pc"),
    # shorter ways come first
    (
        "bool F_stall = F_bubble || D_stall; bool F_bubble = D_bubble; bool D_bubble = F_stall; bool D_stall = F_stall;",
        "F_stall D_stall",
    ),
    # of ways as short the first by table order
    ("bool F_stall = E_stall || D_stall; bool E_stall = F_stall; bool D_stall = F_stall;", "F_stall D_stall"),
    # a name counts in a branch that is never taken too
    ("word f_pc = [ 1 : 0; 1 : f_predPC; ]; word f_predPC = f_valP;", "f_valP f_pc f_predPC"),
    ("word f_pc = imem_icode;", "imem_icode f_pc"),
]

HALT = b"0x000: 00 | halt\n"
REPORT = b"Stopped in 1 steps at PC = 0x0.  Status 'HLT', CC Z=1 S=0 O=0\nChanges to registers:\n\nChanges to memory:\n"
# what a halt comes to on the datapaths: fetched in the first cycle, it is in W in the fifth
STOPPED = {"psim": b"Ran 5 cycles, retired 1 instructions\n" + REPORT, "ssim": REPORT}


def zeros(text, definitions):
    """These definitions, and 0 for each other name that a design defines."""
    rest = [f"{kind} {name} = 0;" for kind, name in re.findall(r"^(word|bool) (\w+) =", text, flags=re.M) if f" {name} =" not in definitions]
    return " ".join([*rest, definitions])


def bound(std):
    """The rows of binding and order: a command, a file, and what the command says of it."""
    for text, fault in ADDED:
        yield "psim", f"{std}{text}", fault
    for text, fault in IN_PLACE:
        yield "psim", without(std, ["W_bubble"]) + text, fault
    for text in WORDS:
        yield "psim", f"{text}\n" + without(std, ["w_valM"]), "KindMismatch w_valM"
    for definitions, cycle in CYCLES:
        yield "psim", zeros(std, definitions), f"Cycle {cycle}"
    yield "psim", f"{std}{DECLARED}", None
    for name in ("std", "no_bypassing", "load_forwarding", "not_taken", "backward_taken", "with_iaddq"):
        yield "psim", design(name), None
    yield "ssim", design("seq"), None
    yield "ssim", "", "Missing icode"


REFUSED = [*FAULTS, (NAMES + b"wordsig n256 'x'\n", "257:9: NamesOver256"), (NAMES + b"word n000 = n255;\nn256", "258:1: Syntax")]


def printed(y86, text):
    return y86("hcl", "h.hcl", files={"h.hcl": text})


@cases(((text[:80], text, fault) for text, fault in REFUSED))
def test_refused(row, y86):
    _, text, fault = row
    same(printed(y86, text), (5, b"", f"h.hcl:{fault}\n".encode()))


@cases(((text[:80], text, wanted) for text, wanted in PRINTED))
def test_printed(row, y86):
    _, text, wanted = row
    same(printed(y86, text), (0, wanted, b""))


@cases(((wanted[:80], wanted) for _, wanted in PRINTED))
def test_printed_again(row, y86):
    _, wanted = row
    same(printed(y86, wanted), (0, wanted, b""))


BOOK = ("std", "no_bypassing", "load_forwarding", "not_taken", "backward_taken", "with_iaddq", "seq")


@pytest.mark.parametrize("name", BOOK)
def test_design_is_printed(name, y86):
    status, out, err = printed(y86, example(name))
    same((status, len(out) > 1000, err), (0, True, b""))


@pytest.mark.parametrize("name", BOOK)
def test_printed_design_is_printed_again(name, y86):
    first = printed(y86, example(name))
    same(printed(y86, first.out), first)


@cases(((f"{command} {text[-80:]}", command, text, fault) for command, text, fault in bound(design("std"))))
def test_bound(row, y86):
    _, command, text, fault = row
    wanted = (5, b"", f"d.hcl: {fault}\n".encode()) if fault else (0, STOPPED[command], b"")
    same(y86(command, "d.hcl", "p.yo", files={"d.hcl": text, "p.yo": HALT}), wanted)
