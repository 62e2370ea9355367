"""The lab's reader of HCL: places, precedence, faults, and files with other definitions."""
import pytest

from helpers.cases import same
from helpers.designs import example
from y86lab.hcl import (
    Case, Cases, Comparison, Connection, Design, Membership, Name, Negation, Number, SyntaxFault, design_of, names_in, replaced,
)


def body(text):
    return Design(f"bool x = {text};").by_name["x"].body


def test_precedence():
    """`||` joins what `&&` joins, and `!` takes a comparison."""
    read = body("a || b && !c == 1")
    assert isinstance(read, Connection) and read.sign == "||"
    second = read.operands[1]
    assert isinstance(second, Connection) and second.sign == "&&"
    negated = second.operands[1]
    assert isinstance(negated, Negation) and isinstance(negated.inner, Comparison)


def test_nodes_have_their_places():
    text = "word x = [\n  a in { 1, -2 } : b; # c\n  1 : 'no'\n".replace("'no'", "c;\n];")
    read = Design(text).by_name["x"].body
    assert isinstance(read, Cases)
    assert [type(case) for case in read.cases] == [Case, Case]
    guard = read.cases[0].guard
    assert isinstance(guard, Membership)
    same(text[guard.start : guard.end], "a in { 1, -2 }")
    same(text[read.start : read.end], text[text.index("[") : text.index("]") + 1])
    same([member.value for member in guard.members if isinstance(member, Number)], [1, -2])


def test_names_in_order():
    same([name.name for name in names_in(body("a == b || [ c : d; !e : f; ] in { g }"))], list("abcdefg"))


def test_lines_and_columns():
    design = Design("# one\nword a = 1;\n  bool b = a == 1;\n")
    definition = design.by_name["b"]
    same((design.line(definition.start), design.column(definition.start)), (3, 3))
    same(design.column(0), 1)


def test_uses_pass_comments_and_quotes_by():
    """A name in a comment, in a quoted text or in a declaration is no use of it."""
    text = "# icode\nwordsig icode 'icode->icode'\nquote 'icode'\nword srcA = icode;\n"
    same([text[: use.start].count("\n") + 1 for use in Design(text).uses("icode")], [4])


def test_source_is_one_line_without_comments():
    design = Design("bool x = a # first\n  || b;")
    same(design.source(0, len(design.text)), "bool x = a || b;")


FAULTS = [
    ("word x = 1", 10),
    ("word = 1;", 5),
    ("word x = 1;;", 11),
    ("bool x = a == b == c;", 16),
    ("bool x = a & b;", 11),
    ("bool x = (a;", 11),
    ("bool x = 'a' || b;", 9),
    ("word x = 12345678901234567890;", 9),
    ("hello", 0),
]


@pytest.mark.parametrize("text,offset", FAULTS, ids=[text for text, _ in FAULTS])
def test_faults_have_their_offset(text, offset):
    with pytest.raises(SyntaxFault) as fault:
        Design(text)
    same(fault.value.offset, offset)


def test_depth():
    """64 brackets may be open, and no more."""
    assert isinstance(body("(" * 64 + "a" + ")" * 64), Name)
    assert design_of("bool x = " + "(" * 65 + "a" + ")" * 65 + ";") is None
    assert design_of("bool x = " + "!" * 64 + "a;") and not design_of("bool x = " + "!" * 65 + "a;")


def test_zeros_before_a_number():
    """They count for nothing, however many there are."""
    read = body("0" * 5000 + "7 == -" + "0" * 5000 + "7")
    assert isinstance(read, Comparison) and isinstance(read.left, Number) and isinstance(read.right, Number)
    same((read.left.value, read.right.value), (7, -7))


def test_replaced_in_place():
    design = Design("word a = 1;\n# of b\nbool b = 0; # kept\nword c = 2;\n")
    same(replaced(design, Design("bool b = [ a : 1; ];")), "word a = 1;\n# of b\nbool b = [ a : 1; ]; # kept\nword c = 2;\n")


def test_replaced_twice_in_the_file():
    """Each definition of the name is replaced."""
    same(replaced(Design("bool b = 0;\nbool b = 1;\n"), Design("bool b = 2 == 2;")), "bool b = 2 == 2;\nbool b = 2 == 2;\n")


def test_missing_definitions_come_last():
    same(replaced(Design("bool b = 0;\n# end"), Design("word c = 1; word d = 2;")), "bool b = 0;\n# end\nword c = 1;\nword d = 2;\n")
    same(replaced(Design(""), Design("word c = 1;")), "word c = 1;\n")


def test_examples_are_read():
    same(len(Design(example("std")).definitions), 39)
    same(replaced(Design(example("std")), Design("")), example("std"))
