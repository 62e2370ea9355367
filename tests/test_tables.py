"""Numbers that follow from the tables of signals, fields and obligations are as `tests/helpers/tables.py` writes them, and a new row changes the right ones."""
import re

import pytest

from helpers import tables
from helpers.cases import cases, same

MADE = tables.made()


@cases([(path,) for path in MADE])
def test_file(row):
    (path,) = row
    assert tables.read(path) == MADE[path], "python3 tests/helpers/tables.py writes it anew"


# A row that is added to a table: the table's file, the row that stands before it, the row; then lines of the files that follow.
ROWS = [
    ("a signal that files for PIPE define", "crates/dp_signals/specs/PipeTable.antt", 'codes "W_bubble"', ' ∷ codes "W_more"', {
        "crates/dp_signals/specs/PipeNames.antt": ["count = defined + 40", "W_bubble = defined + 38", "W_more = defined + 39"],
    }),
    ("the same in code", "crates/dp_signals/src/pipe_signals.rt", 'TableRow(b"W_bubble", Class::Truth, RowSource::Defined),', '\n    TableRow(b"W_moreA", Class::Truth, RowSource::Defined),', {
        "crates/dp_signals/src/pipe_row.rt": ["pub const COUNT: NameId = DEFINED + 40;", "pub const W_MORE_A: NameId = DEFINED + 39;"],
    }),
    ("a signal of PIPE's state", "crates/dp_signals/specs/PipeTable.antt", '(codes "M_Cnd", λ p. p.m.cnd)', ' ∷ (codes "M_more", λ p. p.m.more)', {
        "crates/dp_signals/specs/PipeNames.antt": ["hardware = state + 33", "M_more = state + 32", "imem_icode = hardware + 0"],
    }),
    ("a signal of PIPE's state in code", "crates/dp_signals/src/pipe_signals.rt", '[b"M_Cnd" Truth HELD_M_CND m.cnd]', '\n            [b"M_more" Truth HELD_M_MORE m.more]', {
        "crates/dp_signals/src/pipe_row.rt": ["pub const HARDWARE: NameId = STATE + 33;", "pub const HELD_M_MORE: NameId = STATE + 32;"],
    }),
    ("a signal of SEQ and SEQ+", "crates/dp_signals/specs/SequentialTables.antt", 'codes "mem_data"', ' ∷ codes "mem_more"', {
        "crates/dp_signals/specs/SequentialRows.antt": ["      mem_more = control + 17;", "      stat = control + 18;"],
        "crates/dp_signals/specs/SeqNames.antt": ["mem_more = defined + 17", "new_pc = defined + 19", "count = defined + 20"],
        "crates/seq_plus/specs/PlusNames.antt": ["pc = defined + 0", "mem_more = defined + 18", "count = defined + 20"],
        "crates/seq_text/specs/Signals.antt": ["      mem_more = f r.mem_more;"],
    }),
    ("a signal of SEQ and SEQ+ in code", "crates/dp_signals/src/sequential_tables.rt", 'TableRow(b"mem_data", Class::Value, RowSource::Defined),', '\n    TableRow(b"mem_more", Class::Value, RowSource::Defined),', {
        "crates/dp_signals/src/sequential_rows.rt": ["    pub mem_more: NameId,", "            mem_more: $control + 17,", "            stat: $control + 18,"],
        "crates/dp_signals/src/seq_row.rt": ["pub const MEM_MORE: NameId = DEFINED + 17;", "pub const NEW_PC: NameId = DEFINED + 19;"],
        "crates/seq_plus/src/row.rt": ["pub const COUNT: NameId = DEFINED + 20;"],
        "crates/seq_text/src/signals.rt": ["    pub mem_more: u64,", "        mem_more: at(values, rows.mem_more),"],
    }),
    ("a constant", "crates/dp_signals/specs/Tables.antt", '(codes "SINS", 4)', ' ∷ (codes "SMORE", 5)', {
        "crates/dp_signals/specs/Tables.antt": ["constant_count = 34"],
    }),
    ("a constant in code", "crates/dp_signals/src/tables.rt", 'TableRow(b"SINS", Class::Number, RowSource::Constant(4)),', '\n    TableRow(b"SMORE", Class::Number, RowSource::Constant(5)),', {
        "crates/dp_signals/src/tables.rt": ["pub const CONSTANT_COUNT: NameId = 34;"],
    }),
    ("a field of 4 bits in E", "crates/pipe_fields/specs/Layout.antt", "(λ c. c.e.src_b)", '\n    ∷ hidden (codes "more") 4 (λ c. c.e.more)', {
        "crates/pipe_fields/specs/Layout.antt": ["  pub more : ℕ", "      more = get_or xs (at + 7) 0;", "      cnd = get_or xs (at + 8) 0;", "bit_count = 111"],
        "crates/pipe_fields/src/places.rt": [
            "const M: u32 = E + 34;", "pub const E_MORE: BitRange = place!(E + 27, 4);", "pub const E_CND: BitRange = place!(E + 31, 1);", "pub const BIT_COUNT: u32 = W + 15;",
        ],
        "crates/pipe_requirements/specs/Flows.antt": ["        more = l.e.more;"],
    }),
    ("a field that is a signal in code", "crates/pipe_fields/src/table.rt", 'E_SRC_B "srcB" HELD_E_SRC_B,', '\n            E_MORE "more" E_MORE,', {
        "crates/pipe_fields/src/table.rt": ["pub const M_FIRST: usize = E_FIRST + 11;", "pub const FIELD_COUNT: usize = W_FIRST + 4;"],
        "crates/pipe_requirements/src/lines.rt": ["    pub more: u64,", "            more: number(bits, place::E_MORE),"],
        "crates/hazard_rules/src/design.rt": ["static PLACES: [Place; 28] = field_table!(signal_places);"],
    }),
    ("a register number among the fields", "crates/pipe_fields/src/places.rt", "W_DST_M,", " W_MORE,", {
        "crates/pipe_fields/src/places.rt": ["pub const REGISTER_COUNT: usize = 11;"],
    }),
    ("a field of SEQ", "crates/seq_obligations/specs/Fields.antt", "(λ c. c.icode)", '\n    ∷ field (codes "more") 2 (λ l. l.more) (λ r. r.more) (λ c. c.more)', {
        "crates/seq_obligations/specs/Fields.antt": ["  pub more : ℕ", "      more = place (first + 5) 2;", "      ifun = place (first + 7) 4;", "      ifun = get_or xs 3 0;", "      more = number_at w l.more;"],
        "crates/seq_obligations/specs/Signals.antt": ["  pub more : Within vars l.more"],
        "crates/seq_obligations/src/signals.rt": ["    pub more: BitRange,", "            more: place!($first + 5, 2),", "            ifun: place!($first + 7, 4),"],
        "crates/seq_requirements/src/lines.rt": ["    pub more: u64,"],
    }),
    ("an obligation of SEQ", "crates/seq_obligations/specs/Obligations.antt", "s14 s r cv ∷", " s17 s r cv ∷", {
        "crates/seq_obligations/specs/Obligations.antt": ["rule_count = 17"],
    }),
    ("the gate of an obligation of SEQ", "crates/seq_obligations/src/demands.rt", "15 => status_told(b, ctl, s, l, icode),", "\n            16 => status_told(b, ctl, s, l, icode),", {
        "crates/seq_obligations/src/numbered.rt": ["pub const RULE_COUNT: u32 = 17;"],
    }),
    ("an obligation", "crates/pipe_obligations/specs/Rules.antt", "o27 v s c y mv α cv", " ∷ o28 v s c y mv α cv", {
        "crates/pipe_obligations/specs/Rules.antt": ["rule_count = 28"],
    }),
    ("the gate of an obligation", "crates/hazard_rules/src/demands.rt", "27 => obligation_27(b, inputs),", "\n        28 => obligation_28(b, inputs),", {
        "crates/pipe_obligations/src/lib.rt": ["pub const RULE_COUNT: u32 = 28;"],
    }),
    ("what an obligation requires", "crates/pipe_requirements/specs/Requirements.antt", "required21 ∷ required22", " ∷ required23", {
        "crates/pipe_requirements/specs/Requirements.antt": ["first_on_motion = 24"],
    }),
    ("what an obligation requires in code", "crates/pipe_requirements/src/listing.rt", "22 => put_22(out, n),", "\n        23 => put_23(out, n),", {
        "crates/pipe_requirements/src/lib.rt": ["pub const FIRST_ON_MOTION: u32 = 24;"],
    }),
]


@cases(ROWS)
def test_new_row(row, monkeypatch):
    _, table, before, new, wanted = row
    text = tables.read(table)
    same(text.count(before), 1)
    texts = {table: text.replace(before, before + new)}
    unchanged = tables.read
    monkeypatch.setattr(tables, "read", lambda path: texts.get(path) or unchanged(path))
    made = tables.made()
    for path, lines in wanted.items():
        same([line for line in lines if line not in made[path].split("\n")], [])


def test_what_is_not_there():
    """A table that isn't found is an error that names it."""
    with pytest.raises(tables.Odd, match=re.escape("has it 0 times: ^nowhere = (.*)$")):
        tables.found(r"^nowhere = (.*)$", "here = 1\n")


def given(text, kind, datapath):
    """The names of one kind that the workbench's list for a datapath has."""
    table = tables.found(rf"^(?:export )?const {kind} = \{{\n(.*?)^\}};", text)
    return " ".join(re.findall(r'"([\w +]*)"', tables.found(rf"^  {datapath}: (.*?)(?=^  \w+:|\Z)", table))).replace("+", " ").split()


# The lists of the workbench for a datapath, and the tables that have the same names.
NAMES = [
    ("pipe", "PipeTable", ["state_signals", "pipe_hardware"], "pipe_defined"),
    ("seq", "SeqTable", ["seq_state"], "seq_defined"),
]


@cases(NAMES)
def test_names_in_the_workbench(row):
    datapath, table, held, defined = row
    text, page = tables.read(f"crates/dp_signals/specs/{table}.antt"), tables.read("web/src/names.mjs")
    shared = tables.read("crates/dp_signals/specs/SequentialTables.antt")
    control, hardware = tables.in_definition(shared, "control_rows"), tables.in_definition(shared, "hardware_rows")
    names = [name for it in held for name in tables.in_definition(text, it)] + (hardware if datapath == "seq" else [])
    same(sorted(given(page, "WORDS", datapath) + given(page, "CODES", datapath)), sorted(names))
    same(given(page, "DEFINED", datapath), tables.in_definition(text, defined, control))
