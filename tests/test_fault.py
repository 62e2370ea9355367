"""What `y86-tell fault` says of each mistake: its sentence, and where it is.

The rows are mistakes that students made, and more of our own. Each wanted sentence is that of the tables of `fault_report`, by the rule whose tests the
mistake meets; lines and columns are counted by hand.
"""
import json
import re

import pytest

from helpers.cases import cases, same
from helpers.designs import changed, design, example, without

# A text of HCL, and what is said of it.
HCL = [
    ("a definition without its `;`", "word aluA = 1\nbool set_cc = 1;\n", "2:1: The definition before ends without `;`. Put one after `1` in line 1."),
    ("a list of cases that isn't closed", "word aluA = [\n  1 : 2;\nbool set_cc = 1;\n", "3:1: The `[` in line 1 is not closed: `]` is missing before line 3."),
    ("one &", "bool set_cc = E_icode == IOPQ & 1;\n", "1:31: Write `&&` for \"and\"."),
    ("one |", "bool set_cc = E_icode == IOPQ | 1;\n", "1:31: Write `||` for \"or\"."),
    ("= to compare", "bool set_cc = E_icode = IOPQ;\n", "1:23: `=` defines a signal. Write `==` to compare."),
    ("a set in parentheses", "bool set_cc = E_icode in ( IOPQ, IRET );\n", "1:26: Write a set in `{ }`: `x in { a, b }`."),
    ("a number in hexadecimal", "word aluB = 0xff;\n", "1:14: Numbers are decimal: `0xff` is 255."),
    ("a comment of C++", "// the ALU\nword aluB = 1;\n", "1:1: A comment begins with `#` and goes to the end of its line."),
    ("a comment of C", "word aluB = 1; /* the ALU */\n", "1:16: A comment begins with `#` and goes to the end of its line."),
    ("? :", "word aluB = set_cc ? 1 : 2;\n", "1:20: HCL has no `? :`. Write a list of cases: `[ guard : value; 1 : value; ]`."),
    ("if", "word aluB = if (set_cc) 1;\n", "1:16: HCL has no `if`. Write a list of cases: `[ guard : value; 1 : value; ]`."),
    ("a sum", "word aluB = E_valC + 8;\n", "1:20: HCL has no arithmetic: only the ALU adds. Write the number itself, or a signal of the datapath."),
    ("a difference", "word aluB = E_valC -8;\n", "1:20: HCL has no arithmetic: only the ALU adds. Write the number itself, or a signal of the datapath."),
    ("a set without `,`", "bool set_cc = E_icode in { IOPQ IRET };\n", "1:33: The members of a set are separated by `,`: one is missing after `IOPQ`."),
    ("a definition without `word`", "aluB = 1;\n", "1:1: A definition begins with `word` or `bool`: `bool aluB = ..` or `word aluB = ..`."),
    ("a default without its guard", "word aluB = [\n  set_cc : 1;\n  2;\n];\n", "3:4: A case is `guard : value;`. Write a default as `1 : value;`."),
    ("a case without its `;`", "word aluB = [\n  set_cc : 1\n  1 : 2;\n];\n", "3:3: A `;` is missing after `1` in line 2, or an operator."),
    ("a last case without its `;`", "word aluB = [\n  set_cc : 1;\n  1 : 2\n];\n", "4:1: The last case ends without `;`. Put one after `2` in line 3."),
    ("a parenthesis too many", "bool set_cc = (E_icode == IOPQ));\n", "1:32: No `(` is open here: this `)` is one too many."),
    # twenty of our own
    ("a set that isn't closed", "bool set_cc = E_icode in { IOPQ;\nword aluA = 1;\n", "1:32: The `{` in line 1 is not closed: `}` is missing after `IOPQ`."),
    ("a parenthesis that isn't closed", "bool set_cc = (E_icode == IOPQ;\n", "1:31: The `(` in line 1 is not closed: `)` is missing after `IOPQ`."),
    ("the wrong bracket", "word aluA = [ set_cc : (1]; ];\n", "1:26: This `]` does not close the `(` in line 1, whose `)` has to come first."),
    ("a text that ends in a list", "word aluA = [\n  1 : 2;\n", "3:1: The `[` in line 1 is not closed: the file ends without its `]`."),
    ("a text that ends in a definition", "word aluA = 1", "1:14: The last definition ends without `;`. Put one after `1` in line 1."),
    ("== to define", "word aluA == 1;\n", "1:11: A definition has a single `=`: write it in place of `==`."),
    ("a keyword for a name", "word in = 1;\n", "1:6: `in` is a keyword of HCL, so it can name no signal."),
    ("a chain of comparisons", "bool set_cc = 1 <= E_icode <= 3;\n", "1:28: Comparisons do not chain: join two of them by `&&`."),
    ("a call", "bool set_cc = is_op(E_icode);\n", "1:20: HCL has no functions: an operator is missing between `is_op` and `(`."),
    ("a case with `,`", "word aluA = [ set_cc : 1, 1 : 2; ];\n", "1:25: A case ends with `;`, not with `,`."),
    ("an empty list", "word aluA = [ ];\n", "1:15: A list of cases has one case at least: `[ guard : value; ]`."),
    ("an empty set", "bool set_cc = E_icode in { };\n", "1:28: A set has one member at least: `{ a }`."),
    ("a `,` after the last member", "bool set_cc = E_icode in { IOPQ, };\n", "1:34: No `,` follows the last member of a set."),
    ("an operand that is missing", "bool set_cc = E_icode == ;\n", "1:26: An operand is missing after `==`: a number, a name or an expression in brackets."),
    ("a quote that isn't closed", "quote 'one\n", "1:7: The quoted text that begins here is not closed on its line."),
    ("two `;`", "word aluA = 1;;\n", "1:15: One `;` is too many."),
    ("a number out of range", "word aluA = 9223372036854775808;\n", "1:13: `9223372036854775808` is out of range: numbers go from -2^63 to 2^63-1."),
    ("a dash from a word processor", "word aluA = \u20131;\n", "1:13: The byte here is no printable ASCII. Outside comments and quoted texts a file has nothing else; often it is a quotation mark, a dash or a blank from a word processor."),
    ("a declaration for a definition", "boolsig set_cc = 1;\n", "1:16: A declaration is `wordsig NAME 'text'`. A definition begins with `word` or `bool`."),
    ("=<", "bool set_cc = E_icode =< 3;\n", "1:23: Write `<=`."),
    ("a brace too many", "bool set_cc = E_icode == IOPQ };\n", "1:31: No `{` is open here: this `}` is one too many."),
    ("a bracket too many", "word aluA = 1 ];\n", "1:15: No `[` is open here: this `]` is one too many."),
    # lists of what could be there, in the order of the grammar's tokens
    ("two operands in parentheses", "bool set_cc = (E_icode IOPQ);\n",
        "1:24: `IOPQ` does not belong here. Here could be: `in`, `||`, `&&`, a comparison, `)`."),
    ("a text that ends behind =", "word aluA =\n", "2:1: The file ends in the midst of an item: a name, a number, `!`, `(`, `[` is missing after `=`."),
    ("a text that ends behind word", "word\n", "2:1: The file ends in the midst of an item: a name is missing after `word`."),
]


def lines_of(answer):
    return [line.split(":", 1)[1] for line in answer.text()[1].splitlines() if line.startswith("f.")]


@cases(HCL)
def test_reading(row, y86_tell):
    _, text, wanted = row
    answer = y86_tell("fault", "f.hcl", files={"f.hcl": text})
    same(lines_of(answer), [wanted])
    same(answer.status, 5)


# A design for PIPE with a change, and what is said of it: all faults, in order.
BINDING = [
    ("a misspelt signal", lambda std: std.replace("e_dstE = [", "e_destE = ["), ["`e_destE` is neither a signal nor a constant of PIPE", "`e_dstE` has no definition"]),
    ("a definition that is missing", lambda std: without(std, ["mem_write"]), ["`mem_write` has no definition"]),
    ("two that are missing", lambda std: without(std, ["mem_write", "set_cc"]), ["`set_cc` has no definition", "`mem_write` has no definition"]),
    ("a constant that is defined", lambda std: std + "word IRET = 9;\n", ["`IRET` cannot be defined"]),
    ("a second definition", lambda std: std + "bool set_cc = 1;\n", ["`set_cc` is defined a second time"]),
    ("the other kind", lambda std: std.replace("bool set_cc", "word set_cc"), ["`set_cc` is a Boolean: its definition begins with `bool`."]),
    ("a word in ||", lambda std: changed(std, set_cc="!(m_stat == SADR || SINS)"), ["`SINS` is a word, and a Boolean belongs here, in the definition of `set_cc`."]),
    ("a Boolean that is compared", lambda std: changed(std, set_cc="e_Cnd == 1"), ["`e_Cnd` is a Boolean, and a word belongs here, in the definition of `set_cc`."]),
    ("names that need each other", lambda std: changed(std, aluA="aluB", aluB="aluA"), ["`aluA` depends on itself: `aluA` needs `aluB`, `aluB` needs `aluA`."]),
    ("a file for SEQ", lambda std: design("seq"), ["This is a file for SEQ, not for PIPE"]),
]


@cases(BINDING)
def test_binding(row, y86_tell):
    _, change, wanted = row
    text = change(design("std"))
    answer = y86_tell("fault", "f.hcl", "pipe", files={"f.hcl": text})
    told = [line.split(": ", 1)[1] for line in answer.text()[1].splitlines() if line.startswith("f.")]
    same([line.startswith(start) for line, start in zip(told, wanted)] + [len(told)], [True] * len(wanted) + [len(wanted)])


def in_front(definitions):
    """The design `std` with definitions in front, on the first lines, in place of its own of these names."""
    return definitions + without(design("std"), re.findall(r"\b(?:word|bool) (\w+)", definitions))


# Definitions, and each line on them.
DEFINITIONS = [
    ("a list of cases for a Boolean", "bool set_cc = [ 1 : 1; ];\n",
        ["1:17: The list of cases that begins before `1` is a word, and a Boolean belongs there, in the definition of `set_cc`."]),
    ("a comparison for a word", "word aluA = E_icode == IOPQ;\n",
        ["1:13: The expression that begins with `E_icode` is a Boolean, and a word belongs here, in the definition of `aluA`."]),
    ("a number for a Boolean", "bool set_cc = 2;\n", ["1:15: `2` is a word, and a Boolean, 0 or 1, belongs here, in the definition of `set_cc`."]),
    ("a word for a Boolean", "bool set_cc =\n  !(m_stat == SADR || SINS);\n",
        ["2:23: `SINS` is a word, and a Boolean belongs here, in the definition of `set_cc`."]),
    ("a Boolean for a word", "word aluA = [ e_Cnd : 1; 1 : e_Cnd; ];\n",
        ["1:30: `e_Cnd` is a Boolean, and a word belongs here, in the definition of `aluA`."]),
    ("a fault behind a quote", "quote 'the flags'\nbool set_cc = 2;\n",
        ["2:15: `2` is a word, and a Boolean, 0 or 1, belongs here, in the definition of `set_cc`."]),
    ("a signal that is read before its two definitions", "bool M_stall = set_cc && 0;\nbool set_cc = 0;\nbool set_cc = 1;\n",
        ["3:6: `set_cc` is defined a second time; its first definition is in line 2."]),
    ("a cycle", "word aluB = aluA;\nword aluA = aluB;\n", ["2:6: `aluA` depends on itself: `aluA` needs `aluB`, `aluB` needs `aluA`."]),
    ("a fault in a later column of an earlier line", "bool set_cc = E_icode == IOPQ || 2;\nword aluC = 1;\n", [
        "1:34: `2` is a word, and a Boolean, 0 or 1, belongs here, in the definition of `set_cc`.",
        "2:6: `aluC` is neither a signal nor a constant of PIPE."]),
]


@cases(DEFINITIONS)
def test_definitions(row, y86_tell):
    _, definitions, wanted = row
    answer = y86_tell("fault", "f.hcl", "pipe", files={"f.hcl": in_front(definitions)})
    same((answer.status, lines_of(answer)), (5, wanted))


def test_another_datapath(y86_tell):
    """Of the names that PIPE lacks, each counts once."""
    answer = y86_tell("fault", "f.hcl", "pipe", files={"f.hcl": "word srcA = rA;\nword srcB = rB;\nword dstE = rA;\n"})
    same(lines_of(answer), ["1:6: This is a file for SEQ, not for PIPE: SEQ has all its names, and PIPE lacks 5 of them, `srcA` first."])


# A definition, and the processor whose signals fit it best: of several the first of PIPE, SEQ and SEQ+.
DATAPATHS = [
    ("all three", "bool mem_read = 0;\n", "PIPE"),
    ("SEQ and SEQ+", "word srcA = rA;\n", "SEQ"),
    ("SEQ", "word new_pc = valP;\n", "SEQ"),
    ("SEQ+", "word pc = pValP;\n", "SEQ+"),
    ("PIPE", "word d_srcA = D_rA;\n", "PIPE"),
]


@cases(DATAPATHS)
def test_the_datapath_that_fits(row, y86_tell):
    _, text, wanted = row
    same(json.loads(y86_tell("fault", "f.hcl", "--json", files={"f.hcl": text}).out)["datapath"], wanted)


# A line of assembly, and what is said of it.
ASSEMBLY = [
    ("a move of x86", "movq %rax, %rbx", "1:1: Y86-64 has no `movq`, but four moves: `rrmovq rA, rB`, `irmovq V, rB`, `rmmovq rA, D(rB)` and `mrmovq D(rB), rA`."),
    ("a comparison of x86", "cmpq %rax, %rbx", "1:1: Y86-64 has no `cmpq`. `subq` sets the same flags: copy one operand into a register that is free and subtract there."),
    ("a number for a register", "addq $1, %rax", "1:6: `addq` works on two registers. Load the number into a register by `irmovq` first."),
    ("a comma that is missing", "irmovq 5 %rax", "1:10: The `,` between the operands is missing before `%rax`. Write `irmovq V, rB`."),
    ("a negative number in hex digits", "irmovq $-0x5, %rax", "1:11: A number is decimal, perhaps with a `-`, or it is `0x` and hex digits."),
    ("a number with other digits", "irmovq $0xZZ, %rax", "1:10: A number is decimal, perhaps with a `-`, or it is `0x` and hex digits."),
    ("a number with a point", "irmovq $1.5, %rax", "1:10: A number is decimal, perhaps with a `-`, or it is `0x` and hex digits."),
    ("register 15", "addq %rax, %r15", "1:12: Y86-64 has no `%r15`: the number 15 means \"no register\". There are `%rax` `%rcx` `%rdx` `%rbx` `%rsp` `%rbp` `%rsi` `%rdi` and `%r8` to `%r14`."),
    ("capital letters", "ADDQ %rax, %rbx", "1:1: `ADDQ` is written in lower case: mnemonics, directives and registers have no capital letters."),
    ("a jump to nowhere", "jmp", "1:4: A number or a label is missing at the end of the line. Write `jmp V`."),
    ("an address without a base", "mrmovq 8, %rax", "1:9: An address has a base register, as in `8(%rax)`. For a fixed address take a register that is 0."),
    ("half a register", "addq %eax, %ebx", "1:6: `%eax` names 32 bits of a register. Y86-64 has whole registers alone: `%rax` `%rcx` `%rdx` `%rbx` `%rsp` `%rbp` `%rsi` `%rdi` and `%r8` to `%r14`."),
    ("a label without its colon", "loop", "1:1: `loop` is no mnemonic of Y86-64. If it is a label, its `:` is missing."),
    ("a label that begins with a digit", "1loop: halt", "1:1: A label begins with a letter or `_`, and not with a digit."),
    ("a comment of another assembler", "halt ; the end", "1:6: A comment begins with `#` or `//`, not with `;`."),
    ("a comment without its end", "halt /* the end", "1:6: A comment between `/*` and `*/` ends on its line, and nothing follows it."),
    ("a comment before a statement", "/* the end */ halt", "1:1: A comment between `/*` and `*/` ends on its line, and nothing follows it."),
    ("a number that is pushed", "pushq $5", "1:7: `pushq` takes a register. Load the number into one by `irmovq` first."),
    ("a jump by a register", "jmp *%rax", "1:5: `jmp` goes to a fixed address, a label or a number, and not to one in a register or in memory."),
    ("an index", "mrmovq (%rax,%rbx,8), %rcx", "1:13: An address has one base register and no index: `D(rB)`."),
    ("a directive that there is none of", ".string 5", "1:1: `.string` is no directive: there are `.pos`, `.align`, `.byte`, `.word`, `.long` and `.quad`."),
    ("iaddq without --full", "iaddq $1, %rax", "1:1: `iaddq` is an instruction with `--full` alone. Without it, load the number by `irmovq` and use `addq`."),
    ("a number too wide", ".byte 256", "1: The number does not fit into the bytes of `.byte`."),
    ("a label that no line defines", "jne loop", "1: No line defines the label `loop`. A label is a name with `:` at the beginning of a line."),
    # of our own
    ("a register without %", "addq rax, %rbx", "1:6: A register is written with `%`: `%rax`."),
    ("a register in capitals", "pushq %RAX", "1:7: `%RAX` is written in lower case: mnemonics, directives and registers have no capital letters."),
    ("$ alone", "irmovq $, %rax", "1:8: After `$` a number or a label is missing."),
    ("a sum", "irmovq array+8, %rax", "1:13: There are no sums of numbers or labels: write the number itself."),
    ("an operand that is missing", "addq %rax", "1:10: The second operand is missing. Write `addq rA, rB`."),
    ("an operand too many", "ret %rax", "1:5: `ret` takes no operand."),
    ("rrmovq with a number", "rrmovq $5, %rax", "1:8: `rrmovq` works on two registers. Load the number into a register by `irmovq` first."),
    ("irmovq with a register", "irmovq %rax, %rbx", "1:8: The first operand of `irmovq` is a number or a label. `rrmovq` copies a register, and `addq` adds one."),
    ("a parenthesis that isn't closed", "mrmovq 8(%rax, %rbx", "1:14: An address has one base register and no index: `D(rB)`."),
    (".align 0", ".align 0", "1:8: `.align` takes a number that is 1 at least."),
    ("a label without its colon in front of a statement", "loop halt", "1:1: `loop` is no mnemonic of Y86-64. If it is a label, its `:` is missing."),
    ("a label without its colon in front of a directive", "array .quad 5", "1:1: `array` is no mnemonic of Y86-64. If it is a label, its `:` is missing."),
    ("a label without its colon in front of a comment", "loop # again", "1:1: `loop` is no mnemonic of Y86-64. If it is a label, its `:` is missing."),
    ("a word in front of a number", "loop 5", "1:1: `loop` is no mnemonic of Y86-64."),
    ("a word in front of a register", "loop %rax", "1:1: `loop` is no mnemonic of Y86-64."),
    ("a word in front of two registers", "adq %rax, %rbx", "1:1: `adq` is no mnemonic of Y86-64."),
    ("a negative number for a register", "addq -8, %rax",
        "1:6: `addq` works on two registers. Load the number by `irmovq`, or a word of memory by `mrmovq`, first."),
]


@cases(ASSEMBLY)
def test_assembly(row, y86_tell):
    _, line, wanted = row
    answer = y86_tell("fault", "f.ys", files={"f.ys": line + "\n"})
    same(lines_of(answer), [wanted])
    same(answer.status, 5)


@pytest.mark.parametrize("name", ["mine", "mine.yo", "mine.ys"])
def test_a_named_processor_makes_a_file_hcl(name, y86_tell):
    same(y86_tell("fault", name, "pipe", files={name: example("std")}).text(), (0, "no fault\n", ""))
    same(y86_tell("fault", name, "seq", files={name: "bool set_cc = icode == IOPQ & 1;\n"}).text(), (5, f'{name}:1:29: Write `&&` for "and".\n', ""))


def test_every_faulty_line(y86_tell):
    """Each line that is faulty by itself is told, and no other."""
    text = "start: irmovq 1 %rax\n  halt\n  movl %eax, %ebx\nstart: nop\n  jmp end\n  .pos 0\n"
    answer = y86_tell("fault", "f.ys", files={"f.ys": text})
    same([line.split(":")[1] for line in answer.text()[1].splitlines() if line.startswith("f.")], ["1", "3", "4", "5"])


def test_object_text(y86_tell):
    source = y86_tell("fault", "f.yo", files={"f.yo": "# a source\n  irmovq $1, %rax\n  halt\n"})
    assert source.out.startswith(b"f.yo:2: This is a source") and b"assemble it by `yas` first" in source.out and source.status == 5
    empty = y86_tell("fault", "f.yo", files={"f.yo": "\n"})
    assert b"No line puts a byte anywhere" in empty.out and empty.status == 5
    two = y86_tell("fault", "f.yo", files={"f.yo": "0x000: 30f |\n0x004: 00 |\n0x008 00\n"})
    same([line.split(b":")[1] for line in two.out.splitlines() if line.startswith(b"f.")], [b"1", b"3"])


NO_COMMA = "The `,` between the operands is missing before `%rax`. Write `irmovq V, rB`."
NO_LABEL = "No line defines the label `nowhere`. A label is a name with `:` at the beginning of a line."
SOURCE = "This is a source and no object file: assemble it by `yas` first. As an object file it puts no byte anywhere."
# A file, the options of the call, a text, and each line on it.
FILES = [
    ("labels on right lines", "f.ys", (), "start: nop\nloop: jmp loop\n irmovq 1 %rax\n", [f"3:11: {NO_COMMA}"]),
    ("a label that no line defines, and a line behind it", "f.ys", (), " jmp nowhere\n irmovq 1 %rax\n",
        [f"1: {NO_LABEL}", f"2:11: {NO_COMMA}"]),
    ("a label that is defined again on a faulty line", "f.ys", (), "start: nop\nstart: irmovq 1 %rax\n", [f"2:17: {NO_COMMA}"]),
    ("a label that three lines define", "f.ys", (), "end: nop\n nop\nend: halt\nend: halt\n",
        [f"{line}: `end` is defined a second time; its first definition is in line 1." for line in (3, 4)]),
    ("past the end of the memory", "f.ys", ("--mem", "64"), " nop\n .pos 60\n irmovq $1, %rax\n jmp nowhere\n",
        ["3: The line goes past the end of the memory, which has 64 bytes (`--mem`).", f"4: {NO_LABEL}"]),
    ("an address that has a byte", "f.ys", (), " nop\n .pos 0\n halt\n",
        ["3: The line puts a byte at an address that has one already: a `.pos` before it goes back."]),
    ("four faulty lines of an object file", "f.yo", (),
        "0x000: 00 |\n0x001: 0 |\n# nothing\n0x003 00\n0x2000: 00 |\n\n0x10000000000000000: 00 |\n0x008: 00 |\n", [
        "2: The bytes have a hex digit too few: each byte has two.",
        "4: A line of an object file is `0xADDRESS: BYTES`, both in hex digits, and then its end or `|` and a comment.",
        "5: A byte of this line is past the end of the memory, which has 8192 bytes (`--mem`).",
        "7: The address has more than 16 hex digits."]),
    ("an object file for another memory", "f.yo", ("--mem", "64"), "0x000: 00 |\n0x03f: 0000 |\n",
        ["2: A byte of this line is past the end of the memory, which has 64 bytes (`--mem`)."]),
    ("a source of iaddq", "f.yo", (), "# nothing\n\n  iaddq $1, %rax\n", [f"3: {SOURCE}"]),
]


@cases(FILES)
def test_files(row, y86_tell):
    _, name, options, text, wanted = row
    answer = y86_tell("fault", name, *options, files={name: text})
    same((answer.status, lines_of(answer)), (5, wanted))


# A call of `y86`, options, a text, and the word by which it refuses the text.
REASONS = [
    ("HCL: Syntax", "check pipe f.hcl", (), "word aluA = ;\n", "Syntax"),
    ("HCL: BadByte", "check pipe f.hcl", (), "word aluA = \u20131;\n", "BadByte"),
    ("HCL: NumberTooWide", "check pipe f.hcl", (), "word aluA = 9223372036854775808;\n", "NumberTooWide"),
    ("HCL: DepthOver64", "check pipe f.hcl", (), f"bool set_cc = {'(' * 65}0{')' * 65};\n", "DepthOver64"),
    ("HCL: NamesOver256", "check pipe f.hcl", (), f"bool set_cc = {' || '.join(f'a{n}' for n in range(256))};\n", "NamesOver256"),
    ("HCL: Unknown", "check pipe f.hcl", (), in_front("word aluC = 1;\n"), "Unknown"),
    ("HCL: Twice", "check pipe f.hcl", (), in_front("bool set_cc = 0;\nbool set_cc = 1;\n"), "Twice"),
    ("HCL: Missing", "check pipe f.hcl", (), without(design("std"), ["set_cc"]), "Missing"),
    ("HCL: Redefines", "check pipe f.hcl", (), in_front("word IRET = 9;\n"), "Redefines"),
    ("HCL: KindMismatch", "check pipe f.hcl", (), in_front("bool set_cc = 2;\n"), "KindMismatch"),
    ("HCL: Cycle", "check pipe f.hcl", (), in_front("word aluB = aluA;\nword aluA = aluB;\n"), "Cycle"),
    ("assembly: Syntax", "yas f.ys", (), " irmovq 1 %rax\n", "Syntax"),
    ("assembly: BadByte", "yas f.ys", (), " irmovq \u20131, %rax\n", "BadByte"),
    ("assembly: NumberTooWide", "yas f.ys", (), " .byte 256\n", "NumberTooWide"),
    ("assembly: LabelTwice", "yas f.ys", (), "end: halt\nend: halt\n", "LabelTwice"),
    ("assembly: LabelUnknown", "yas f.ys", (), " jmp nowhere\n", "LabelUnknown"),
    ("assembly: OutsideMemory", "yas f.ys", ("--mem", "64"), " .pos 60\n irmovq $1, %rax\n", "OutsideMemory"),
    ("assembly: Overlap", "yas f.ys", (), " nop\n .pos 0\n nop\n", "Overlap"),
    ("object text: Syntax", "yis f.yo", (), "0x000 00\n", "Syntax"),
    ("object text: OddDigits", "yis f.yo", (), "0x000: 0 |\n", "OddDigits"),
    ("object text: OutsideMemory", "yis f.yo", ("--mem", "64"), "0x040: 00 |\n", "OutsideMemory"),
    ("object text: AddressTooWide", "yis f.yo", (), "0x10000000000000000: 00 |\n", "AddressTooWide"),
]


@cases(REASONS)
def test_reasons(row, y86, y86_tell):
    _, call, options, text, wanted = row
    *_, name = call.split()
    refused = y86(*call.split(), *options, files={name: text}).text()
    same((refused[0], re.search(r": (\w+)", refused[2])[1]), (5, wanted))
    datapath = ("pipe",) if name == "f.hcl" else ()
    same(json.loads(y86_tell("fault", name, *datapath, *options, "--json").out)["faults"][0]["reason"], wanted)


# A file, a text, and the other places that the first fault refers to.
RELATED = [
    ("the brackets that are open, the innermost first", "f.hcl", "word aluA = [\n  (1 : 2;\n",
        [("bracket", "(", 2, 3), ("bracket", "[", 1, 13), ("before", "1", 2, 4)]),
    ("a first definition", "f.hcl", in_front("word aluA = 0;\nbool set_cc = 0;\nbool set_cc = 1;\n"), [("first", "set_cc", 2, 6)]),
    ("a first definition behind a use", "f.hcl", in_front("bool M_stall = set_cc && 0;\nbool set_cc = 0;\nbool set_cc = 1;\n"),
        [("first", "set_cc", 2, 6)]),
    ("a cycle", "f.hcl", in_front("bool set_cc = 0; word aluB = aluA;\nword aluA = aluB;\n"), [("cycle", "aluA", 2, 6), ("cycle", "aluB", 1, 23)]),
    ("a first label", "f.ys", " nop\nend: halt\nend: halt\n", [("first", "end", 2, 0)]),
]


@cases(RELATED)
def test_related_places(row, y86_tell):
    _, name, text, wanted = row
    related = json.loads(y86_tell("fault", name, "--json", files={name: text}).out)["faults"][0]["related"]
    same([(it["role"], it["text"], it["line"], it["column"]) for it in related], wanted)


# A text of HCL, and what is at the place of its fault.
FOUND = [
    ("a byte that isn't ASCII", "word aluA = \u20131; # the rest\n", "\u00e2"),
    ("a byte that begins no token", "word aluA = ~1; # the rest\n", "~"),
    ("a number", "word 1 = 2;\n", "1"),
    ("the end", "word aluA =\n", ""),
]


@cases(FOUND)
def test_found(row, y86_tell):
    _, text, wanted = row
    same(json.loads(y86_tell("fault", "f.hcl", "--json", files={"f.hcl": text}).out)["faults"][0]["found"], wanted)


def test_json(y86_tell):
    """The same facts for scripts."""
    answer = y86_tell("fault", "f.hcl", "--json", files={"f.hcl": "word aluA = [\n  1 : 2;\nbool set_cc = 1;\n"})
    fault = json.loads(answer.out)["faults"][0]
    same((fault["line"], fault["column"], fault["code"]), (3, 1, "hcl.unclosed"))
    same([(it["role"], it["line"], it["column"]) for it in fault["related"]][:1], [("bracket", 1, 13)])
    assert "`]`" in fault["expected"]
