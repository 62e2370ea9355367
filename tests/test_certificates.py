"""Certificates: those of every design are right, by `recheck` and by the script that was written from docs/CERTIFICATES.md alone.

Broken ones, in each way that the page names, are refused at the line and for the reason that the page asks for. Where the fault doesn't depend on the
net's gates, the script has to find the same one.
"""
import importlib.machinery
import importlib.util
import random
import subprocess

import pytest

from helpers.cases import cases, same
from helpers.designs import example
from helpers.paths import DESIGNS, TOP, pipeline_designs

HEAD = b"y86cert 1\nyes pt=1111111 pb=1111111 tv=0 lf=0 je=0 rm=0\n"
OF_THE_TEXT = ("Syntax", "Number", "Claim")
# The net of std.hcl has these many: the bits of a situation, since the file makes no comparison of words.
VARIABLES = 107

# Lines behind the head, and the line and the reason of the first fault, over std.hcl. No line of a gate is among them.
BROKEN = [
    (b"end\n", 3, "Missing"),
    (b"", 3, "Syntax"),
    (b"t 0 5 1\n", 3, "Number"),
    (b"a 0 1 1\n", 3, "Claim"),
    # numbers and their texts
    (b"t 0 0 18446744073709551616\n", 3, "Syntax"),
    (b"t 0 0 18446744073709551615\n", 3, "Number"),
    (b"t 0 0 99999999999999999999999999999999999999999999\n", 3, "Syntax"),
    (b"t 0 00 1\n", 3, "Syntax"),
    (b"t 00 0 1\n", 3, "Syntax"),
    (b"t 0 0 01\n", 3, "Syntax"),
    (b"t 0 0 -1\n", 3, "Syntax"),
    (b"t 0 0 +1\n", 3, "Syntax"),
    (b"t 0 0 1 \n", 3, "Syntax"),
    (b"t 0  0 1\n", 3, "Syntax"),
    (b"t\t0 0 1\n", 3, "Syntax"),
    (b" t 0 0 1\n", 3, "Syntax"),
    (b"t 0 0 1\r\n", 3, "Syntax"),
    (b"t 0 0\n", 3, "Syntax"),
    (b"t 0 0 1 1\n", 3, "Syntax"),
    (b"t 0 0 x\n", 3, "Syntax"),
    (b"T 0 0 1\n", 3, "Syntax"),
    (b"\n", 3, "Syntax"),
    (b"t 0 0 1\n\n", 4, "Syntax"),
    (b"t 0 0 1", 3, "Syntax"),
    (b"t 0 0 1\nend", 4, "Syntax"),
    (b"t 0 0 1\n", 4, "Syntax"),
    (b"t 0 0 1\nend \n", 4, "Syntax"),
    (b"t 0 0 1\nEnd\n", 4, "Syntax"),
    (b"t 0 0 1\nend\nend\n", 4, "Missing"),
    # names of terms, variables and claims
    (b"t 4294967296 0 1\n", 3, "Number"),
    (b"t 106 0 1\nend\n", 4, "Missing"),
    (b"t 107 0 1\n", 3, "Number"),
    (b"a 0 0 0\ns 0 0 0 106 0 0\nend\n", 5, "Missing"),
    (b"a 0 0 0\ns 0 0 0 107 0 0\n", 4, "Number"),
    (b"n 0 1\nm 0 1 106 0 0\nend\n", 5, "Missing"),
    (b"n 0 1\nm 0 1 107 0 0\n", 4, "Number"),
    (b"t 1000 0 1\n", 3, "Number"),
    (b"t 0 2 1\n", 3, "Number"),
    (b"t 0 0 1\nt 1 2 3\n", 4, "Number"),
    (b"t 0 0 1\nt 1 2 2\nend\n", 5, "Missing"),
    # a term made twice, one on the variable of its part, one whose parts are the same, a claim made twice
    (b"t 0 0 1\nt 0 0 1\nt 0 2 3\nt 5 2 2\nn 0 1\nn 0 1\nend\n", 9, "Missing"),
    (b"a 0 2 1\n", 3, "Number"),
    (b"s 0 0 0 0 0 0\n", 3, "Number"),
    (b"a 0 0 0\ns 0 0 0 0 0 1\n", 4, "Number"),
    (b"a 0 0 0\ns 0 0 0 1000 0 0\n", 4, "Number"),
    (b"a 0 0 0\ns 0 0 0 0 0 0\nend\n", 5, "Missing"),
    (b"m 0 1 0 0 0\n", 3, "Number"),
    (b"n 0 1\nm 0 1 1000 0 0\n", 4, "Number"),
    (b"g 2\n", 3, "Number"),
    (b"h 5 0\n", 3, "Number"),
    (b"h 0 0\n", 3, "Number"),
    # claims at once
    (b"a 0 1 0\na 1 0 0\na 1 1 1\na 0 0 0\nend\n", 7, "Missing"),
    (b"t 0 0 1\na 1 2 2\na 2 1 2\na 2 2 2\na 0 2 0\na 2 0 0\nend\n", 9, "Missing"),
    (b"t 0 0 1\na 2 2 1\n", 4, "Claim"),
    (b"t 0 0 1\na 1 2 1\n", 4, "Claim"),
    (b"t 0 0 1\na 2 1 0\n", 4, "Claim"),
    (b"a 1 1 0\n", 3, "Claim"),
    (b"n 0 1\nn 1 0\nend\n", 5, "Missing"),
    (b"n 0 0\n", 3, "Claim"),
    (b"n 1 1\n", 3, "Claim"),
    (b"t 0 0 1\nn 2 2\n", 4, "Claim"),
    # claims by cases
    (b"t 0 0 1\nt 0 1 0\nn 0 1\nn 1 0\nm 2 3 0 0 1\nend\n", 8, "Missing"),
    (b"t 0 0 1\nt 0 1 0\nn 0 1\nn 1 0\nm 2 3 0 1 0\n", 7, "Claim"),
    (b"t 0 0 1\nt 0 1 0\nn 0 1\nn 1 0\nm 3 2 0 0 1\n", 7, "Claim"),
    (b"t 0 0 1\nt 0 1 0\nn 0 1\nn 1 0\nm 2 3 1 0 1\n", 7, "Claim"),
    (b"t 0 0 1\nt 0 1 0\nn 0 1\nn 1 0\nm 2 3 0 0 0\n", 7, "Claim"),
    (b"t 0 0 1\nt 1 0 2\na 0 0 0\na 1 1 1\ns 2 2 2 0 0 1\nend\n", 8, "Missing"),
    (b"t 0 0 1\nt 1 0 1\nt 0 0 3\na 0 3 0\na 1 3 3\ns 2 3 4 0 0 1\nend\n", 9, "Missing"),
    (b"t 0 0 1\nt 1 0 1\nt 0 0 3\na 0 3 0\na 1 3 3\ns 3 2 4 0 0 1\n", 8, "Claim"),
    (b"t 0 0 1\nt 1 0 1\nt 0 0 3\na 0 3 0\na 1 3 3\ns 2 3 4 0 1 0\n", 8, "Claim"),
    (b"t 0 0 1\nt 1 0 1\nt 0 0 3\na 0 3 0\na 1 3 3\ns 2 3 4 1 0 1\n", 8, "Claim"),
    # a claim of the other kind, and a claim that names itself
    (b"n 0 1\na 0 0 0\ns 0 0 0 0 0 1\n", 5, "Claim"),
    (b"n 0 1\na 0 0 0\nm 0 1 0 0 1\n", 5, "Claim"),
    (b"a 0 0 0\ns 1 1 0 0 1 1\n", 4, "Number"),
]

# Whole texts whose head is wrong.
HEADLESS = [
    (b"", 1), (b"y86cert 1", 1), (b"y86cert 2\n", 1), (b"y86cert 1\r\n", 1), (b" y86cert 1\n", 1), (HEAD.replace(b"cert", b"Cert") + b"end\n", 1),
    (b"y86cert 1\n", 2), (b"y86cert 1\nend\n", 2), (HEAD[:-1], 2), (HEAD[:-1] + b" \nend\n", 2), (HEAD.replace(b"tv=0", b"tv=2") + b"end\n", 2),
    (HEAD.replace(b"yes", b"no ") + b"end\n", 2), (HEAD.replace(b" tv", b"  tv") + b"end\n", 2), (HEAD[:-1] + b"\r\nend\n", 2),
]


@pytest.fixture(scope="session")
def by_script():
    """The first fault of a certificate by the script, if any: `by_script(text, VARIABLES)`."""
    loader = importlib.machinery.SourceFileLoader("recheck", f"{TOP}/tools/y86-recheck")
    module = importlib.util.module_from_spec(importlib.util.spec_from_loader("recheck", loader))
    loader.exec_module(module)

    def first_fault(text, variables=None):
        try:
            module.check(text, variables)
        except module.Fault as fault:
            return fault.line, fault.reason
        return None

    return first_fault


@pytest.fixture(scope="session")
def certificate(programs):
    """The certificate of std.hcl."""
    return subprocess.run([programs("y86"), "check", "pipe", f"{DESIGNS}/std.hcl", "--cert"], stdout=subprocess.PIPE, check=True).stdout


def recheck(y86, text, file="std.hcl", *words):
    """The answer to a certificate of a design."""
    return y86("recheck", f"{DESIGNS}/{file}", "c.crt", *words, files={"c.crt": text})


def refused(line, why):
    return 5, b"", f"c.crt:{line}: {why}\n".encode()


# ---- certificates of the designs

EACH = [(f"{name} {' '.join(words)}".strip(), f"{DESIGNS}/{name}.hcl", words) for name in pipeline_designs() for words in (((), ("--full",)) if name == "with_iaddq" else ((),))]
RIGHT = [row for row in EACH if row[0] != "stall_and_bubble"]


def written(y86, path, words):
    return y86("check", "pipe", path, "--cert", *words)


@cases(RIGHT)
def test_written(row, y86):
    status, text, err = written(y86, *row[1:])
    same((status, err, len(text) <= 25_000_000), (0, b"", True))


@cases(RIGHT)
def test_rechecked(row, y86):
    _, path, words = row
    verdict = y86("check", "pipe", path, *words).out
    text = written(y86, path, words).out
    same(y86("recheck", path, "c.crt", *words, files={"c.crt": text}), (0, verdict.replace(b"yes", b"holds"), b""))


def test_a_no_has_no_certificate(y86):
    path = f"{DESIGNS}/stall_and_bubble.hcl"
    same(written(y86, path, ()), y86("check", "pipe", path))


# ---- certificates that are broken, all for std.hcl

# Any settings may be stated: each digit alone is the other one.
STATED = [
    (HEAD[:at] + (b"1" if byte == ord("0") else b"0") + HEAD[at + 1 :] + b"end\n", 3, "Missing")
    for at, byte in enumerate(HEAD) if at > HEAD.index(b"yes") and byte in b"01"
]
WRONG = [(f"broken {k} {lines[:80]}", HEAD + lines, line, why) for k, (lines, line, why) in enumerate(BROKEN)]
WRONG += [(f"headless {k} {text[:80]}", text, line, "Syntax") for k, (text, line) in enumerate(HEADLESS)]
WRONG += [(f"stated {k}", *row) for k, row in enumerate(STATED)]


@cases(WRONG)
def test_refused(row, y86):
    _, text, line, why = row
    same(recheck(y86, text), refused(line, why))


@cases(row for row in WRONG if row[3] in OF_THE_TEXT)
def test_refused_by_the_script(row, by_script):
    _, text, line, why = row
    same(by_script(text, VARIABLES), (line, why))


def without_last_gate(text):
    return text[: text[:-4].rstrip(b"\n").rfind(b"\n") + 1] + b"end\n"


# A change of a right certificate as a whole, the line behind its last one at which it is refused, and the reason.
WHOLE = [
    ("no end", lambda text: text[:-4], 0, "Syntax"),
    ("no last line feed", lambda text: text[:-1], 0, "Syntax"),
    ("a line behind the end", lambda text: text + b"\n", 1, "Syntax"),
    ("the end twice", lambda text: text + b"end\n", 1, "Syntax"),
    ("the last gate left out", without_last_gate, -1, "Missing"),
    ("a gate too many", lambda text: text[:-4] + b"g 0\nend\n", 0, "Gate"),
]


@cases(WHOLE)
def test_whole(row, y86, certificate):
    _, change, more, why = row
    same(recheck(y86, change(certificate)), refused(certificate.count(b"\n") + more, why))


@cases(row for row in WHOLE if row[3] in OF_THE_TEXT)
def test_whole_by_the_script(row, by_script, certificate):
    _, change, more, why = row
    same(by_script(change(certificate), VARIABLES), (certificate.count(b"\n") + more, why))


# ---- certificates that are right, and right ones of something else

HOLDS = (0, b"holds" + HEAD[13:], b"")


def test_more_lines(y86, certificate):
    """A right line of a term or a claim more changes nothing."""
    same(recheck(y86, certificate[:-4] + b"t 0 0 1\na 0 0 0\nend\n"), HOLDS)


def test_right_by_the_script(by_script, certificate):
    same(by_script(certificate), None)


def test_another_order(y86, certificate):
    """The first gate may stand before the claims."""
    lines = certificate.splitlines(keepends=True)
    gate = next(line for line in lines if line[:1] == b"g")
    lines.remove(gate)
    lines.insert(next(k for k, line in enumerate(lines) if line[:1] in b"asnm"), gate)
    same(recheck(y86, b"".join(lines[:-1]) + b"t 0 1 1\nt 0 0 1\nt 0 0 1\na 0 0 0\na 0 0 0\nend\n"), HOLDS)


@cases([("another file", ("no_bypassing.hcl",)), ("another set", ("std.hcl", "--full"))])
def test_of_something_else(row, y86, certificate):
    status, out, err = recheck(y86, certificate, *row[1])
    same((status, out, err.split()[-1:] in ([b"Gate"], [b"Missing"], [b"Rule"])), (5, b"", True))


def test_of_other_settings(y86, certificate):
    status, out, err = recheck(y86, certificate.replace(b"tv=0", b"tv=1", 1))
    same((status, out, err.split()[-1:] in ([b"Gate"], [b"Missing"], [b"Rule"])), (5, b"", True))


# ---- the last gate, which is demanded

def parts(text):
    """The lines, those of terms, those of claims, and the words of the last gate."""
    lines = text.splitlines()
    terms, claims = ([line for line in lines[2:] if line[:1] in letters] for letters in (b"t", b"asnm"))
    return lines, terms, claims, lines[-2].split()


def test_the_last_gate_is_demanded(certificate):
    same(tuple(parts(certificate)[3][:2]), (b"h", b"1"))


@pytest.mark.parametrize("more", (b"", b"end\n"))
def test_a_term_that_is_true_everywhere(more, y86, certificate):
    """Another term of the last gate that is true at every pattern isn't enough at the end."""
    lines, terms, claims, (_, _, claim) = parts(certificate)
    new, last = len(terms) + 2, len(claims)
    plain, by_cases = (b"n 0 1", b"m 0 %d 0 %d %d") if claims[int(claim)][:1] in b"nm" else (b"a 1 1 1", b"s 1 1 %d 0 %d %d")
    lines[-2:] = [b"t 0 1 1", plain, by_cases % (new, last, last), b"h %d %d" % (new, last + 1), b"end"]
    same(recheck(y86, b"\n".join(lines) + b"\n" + more), refused(len(lines), "Rule"))


# ---- one byte changed

@pytest.mark.parametrize("number", range(40))
def test_one_byte(number, y86, by_script, certificate):
    """Refused, or else right by the script too."""
    pick = random.Random(1)
    places = sorted(pick.sample(range(len(certificate)), 40))
    bytes_ = [pick.choice([b for b in b"0123456789 \nagst" if b != certificate[at]]) for at in places]
    changed = certificate[: places[number]] + bytes([bytes_[number]]) + certificate[places[number] + 1 :]
    status, out, err = recheck(y86, changed)
    assert status == 5 and not out or status == 0 and by_script(changed) is None, f"byte {places[number]} set to {bytes_[number]}: {status} {err!r}"


# ---- faults of the HCL file and of the read go first

def test_hcl_fault_first(y86):
    same(y86("recheck", "h.hcl", "none.crt", files={"h.hcl": b"word x = ;\n"}).status, 5)


@cases([("no certificate", "std.hcl", "none.crt", b"none.crt"), ("no HCL file", "none.hcl", "some.crt", b"none.hcl")])
def test_a_missing_file(row, y86):
    _, hcl, crt, missing = row
    same(y86("recheck", hcl, crt, files={"std.hcl": example("std"), "some.crt": ""}), (3, b"", b"read fault " + missing + b"\n"))


@cases((" ".join(words), words) for words in (("check", "seq", "std.hcl", "--cert"), ("recheck", "std.hcl"), ("recheck", "std.hcl", "std.hcl.crt", "--cert"),
    ("check", "pipe", "std.hcl", "--cert", "--cert")))
def test_no_command(row, y86):
    same(y86(*row[1]).status, 2)
