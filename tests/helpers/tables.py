"""What follows from the tables of signals, fields and obligations: rows by number, places of bits, lengths.

`python3 tests/helpers/tables.py` writes it into the sources, and a test compares it. So a new row of a table changes no number by hand.
Each side has its own tables: what a definition (`.antt`) needs is taken from definitions, and what code (`.rt`) needs from code. The exceptions are the
bits of PIPE's fields, and the fields of the line S of SEQ and SEQ+: code has them from the definitions.
"""
import re
import sys

if __name__ == "__main__":
    sys.path.insert(0, __file__.rpartition("/tests/")[0] + "/tests")

from helpers.paths import TOP

SIGNALS, PLUS, FIELDS, FLOWS = "crates/dp_signals", "crates/seq_plus", "crates/pipe_fields", "crates/pipe_requirements"
LINES, NUMBERS, SHOWN = "crates/seq_obligations", "crates/seq_requirements", "crates/seq_text"
STAGES = {"f": "Fetch", "d": "Decode", "e": "Execute", "m": "Memory", "w": "Write"}
GROUPS = ("state", "hardware", "defined")


def read(path):
    with open(f"{TOP}/{path}", encoding="utf-8") as it:
        return it.read()


class Odd(Exception):
    """What a source hasn't exactly once."""

    def __init__(self, pattern, times):
        super().__init__(f"a source should have this once, and has it {times} times: {pattern}")


def found(pattern, text):
    """The first group of the one match of a pattern."""
    places = re.findall(pattern, text, re.M | re.S)
    if len(places) != 1:
        raise Odd(pattern, len(places))
    return places[0]


def put(pattern, new, text):
    """The text with the one match of a pattern replaced."""
    text, times = re.subn(pattern, lambda _: new, text, flags=re.M | re.S)
    if times != 1:
        raise Odd(pattern, times)
    return text


def snake(name):
    """A name of the book as code writes it: `valC` is `val_C`."""
    return re.sub(r"(?<=[a-z])(?=[A-Z])", "_", name)


# ---- the signals


def body(text, name):
    """The body of a definition without arguments or with those before `=`."""
    return found(rf"^{name}(?: \w+)* =\n?(.*?)(?=\n\n|\n*\Z)", text)


def in_definition(text, name, rest=()):
    """The names of a list of signals; `rest` has those of `control_rows`."""
    names = []
    for word, signal in re.findall(r'(control_rows)|codes "(\w+)"', body(text, name)):
        names += rest if word else [signal]
    return names


def in_code(text, name):
    """The names of a table of rows in code."""
    return re.findall(r'b"(\w+)"', found(rf"^static {name}: &\[TableRow\] =(.*?);$", text))


def lines_in_macro(text, name):
    return re.findall(r'b"(\w+)"', found(rf"macro_rules! {name} \{{(.*?)^\}}", text))


def defined_in_code(text, control):
    """The names that a file for a sequential datapath defines: those before the instruction's control, it, and those after it."""
    before, after = re.search(r"sequential_table\(alloc, STATE, HARDWARE, (&\[\]|\w+), (&\[\]|\w+)\)", text).groups()
    return [*(in_code(text, before) if before != "&[]" else []), *control, *(in_code(text, after) if after != "&[]" else [])]


def rows_defined(text, groups):
    """A file of rows by their number, as definitions."""
    parts = [text.partition("-- where the rows of the state")[0]]
    parts.append("-- where the rows of the state, of hardware and of the file's definitions begin, and the number of all rows\n")
    start = "constant_count"
    for name, before in zip((*GROUPS, "count"), (None, *GROUPS)):
        parts.append(f"abbrev pub {name} : ℕ\n{name} = {f'{before} + {len(groups[before])}' if before else start}\n\n")
    for group in GROUPS:
        parts.append(found(rf"^(-- {group}\b[^\n]*\n)", text))
        parts += [f"abbrev pub {name} : ℕ\n{name} = {group} + {k}\n\n" for k, name in enumerate(groups[group])]
    *_, last = re.finditer(r"^\w+ = \w+ \+ \d+\n", text, re.M)
    return "".join(parts).rstrip("\n") + "\n" + text[last.end():]


def rows_coded(text, groups, named=GROUPS, held=""):
    """A file of rows by their number, as code, with constants for the signals of the groups `named`; those of the state have a prefix."""
    parts = [text.partition("/// Where the rows of the state")[0]]
    parts.append("/// Where the rows of the state begin, then those of hardware, and then those of defined signals.\n")
    for name, before in zip((*GROUPS, "count"), (None, *GROUPS)):
        value = f"{before.upper()} + {len(groups[before])}" if before else "CONSTANT_COUNT"
        parts.append("/// The number of rows in the table.\n" if name == "count" else "")
        parts.append(f"pub const {name.upper()}: NameId = {value};\n\n")
    for group in named:
        prefix = held if group == "state" else ""
        parts += [f"pub const {prefix}{snake(name).upper()}: NameId = {group.upper()} + {k};\n\n" for k, name in enumerate(groups[group])]
    *_, last = re.finditer(r"^pub const \w+: NameId = \w+ \+ \d+;\n", text, re.M)
    return "".join(parts).rstrip("\n") + "\n" + text[last.end():]


def numbered(groups, place):
    """For each signal of a sequential datapath its field and its row from a first one on, written by `place`."""
    return "".join(place(snake(name).lower(), group, k) for group in groups for k, name in enumerate(groups[group]))


def of_signals():
    """The files that follow from the tables of signals."""
    pipe, seq, plus, shared = (read(f"{it}.antt") for it in (
        f"{SIGNALS}/specs/PipeTable", f"{SIGNALS}/specs/SeqTable", f"{PLUS}/specs/PlusTable", f"{SIGNALS}/specs/SequentialTables"))
    control, hardware = in_definition(shared, "control_rows"), in_definition(shared, "hardware_rows")
    tables = {
        f"{SIGNALS}/specs/PipeNames.antt": {group: in_definition(pipe, it) for group, it in zip(GROUPS, ("state_signals", "pipe_hardware", "pipe_defined"))},
        f"{SIGNALS}/specs/SeqNames.antt": {"state": in_definition(seq, "seq_state"), "hardware": hardware, "defined": in_definition(seq, "seq_defined", control)},
        f"{PLUS}/specs/PlusNames.antt": {"state": in_definition(plus, "plus_state"), "hardware": hardware, "defined": in_definition(plus, "plus_defined", control)},
    }
    made = {path: rows_defined(read(path), groups) for path, groups in tables.items()}
    path = f"{SIGNALS}/specs/SequentialRows.antt"
    rows = numbered({"hardware": hardware, "control": control}, lambda name, first, k: f"      {name} = {first} + {k};\n")
    made[path] = put(r"(?<=      pc = pc;\n).*?(?=    \}\n)", rows, read(path))
    path = f"{SHOWN}/specs/Signals.antt"
    values = numbered({"hardware": hardware, "control": control}, lambda name, *_: f"      {name} = f r.{name};\n")
    made[path] = put(r"(?<=      pc = f r\.pc;\n).*?(?=    \}\n)", values, read(path))
    path = f"{SIGNALS}/specs/Tables.antt"
    count = len(re.findall("codes", body(read(path), "named_constants")))
    made[path] = put(r"^constant_count = \d+$", f"constant_count = {count}", read(path))
    return made


def of_signals_in_code():
    """The same of the code."""
    pipe, seq, plus, shared = (read(f"{it}.rt") for it in (
        f"{SIGNALS}/src/pipe_signals", f"{SIGNALS}/src/seq_signals", f"{PLUS}/src/table", f"{SIGNALS}/src/sequential_tables"))
    control, hardware = in_code(shared, "CONTROL"), lines_in_macro(shared, "hardware_lines")
    of_pipe = {"state": lines_in_macro(pipe, "state_signals"), **{group: in_code(pipe, group.upper()) for group in GROUPS[1:]}}
    of_seq, of_plus = ({"state": in_code(it, "STATE"), "hardware": hardware, "defined": defined_in_code(it, control)} for it in (seq, plus))
    pipe_row, seq_row, plus_row, rows = f"{SIGNALS}/src/pipe_row.rt", f"{SIGNALS}/src/seq_row.rt", f"{PLUS}/src/row.rt", f"{SIGNALS}/src/sequential_rows.rt"
    made = {
        pipe_row: rows_coded(read(pipe_row), of_pipe, held="HELD_"),
        seq_row: rows_coded(read(seq_row), of_seq),
        plus_row: rows_coded(read(plus_row), of_plus, named=("state",)),
    }
    both = {"hardware": hardware, "control": control}
    text = put(r"(?<=    pub pc: NameId,\n).*?(?=^\})", numbered(both, lambda name, *_: f"    pub {name}: NameId,\n"), read(rows))
    made[rows] = put(r"(?<=            pc: \$pc,\n).*?(?=        \}\n)", numbered(both, lambda name, first, k: f"            {name}: ${first} + {k},\n"), text)
    shown = f"{SHOWN}/src/signals.rt"
    text = put(r"(?<=    pub pc: u64,\n).*?(?=^\})", numbered(both, lambda name, *_: f"    pub {name}: u64,\n"), read(shown))
    made[shown] = put(r"(?<=        pc: at\(values, rows\.pc\),\n).*?(?=    \}\n)", numbered(both, lambda name, *_: f"        {name}: at(values, rows.{name}),\n"), text)
    path = f"{SIGNALS}/src/tables.rt"
    made[path] = put(r"^pub const CONSTANT_COUNT: NameId = \d+;$", f"pub const CONSTANT_COUNT: NameId = {len(in_code(read(path), 'CONSTANTS'))};", read(path))
    return made


# ---- the fields of PIPE


def field_lists(text):
    """For the kinds and for each stage its fields: stage, name and number of bits."""
    row = r'(?:hidden|read_by) \(codes "\w+"\) (\d+) (?:signal\.\w+ )?\(λ c\. c\.(\w)\.(\w+)\)'
    names = ("kind", *(it.lower() for it in STAGES.values()))
    return {name: [(stage, field, int(bits)) for bits, stage, field in re.findall(row, body(text, f"{name}_fields"))] for name in names}


def lines(rows):
    """For each stage the names of its fields, its kind first."""
    return {it: [field for stage, field in rows if stage == it] for it in STAGES}


def lines_defined(lists):
    return lines([(stage, field) for fields in lists.values() for stage, field, _ in fields])


def layout(text):
    """The definitions of lines of fields, how they are read from numbers, and the number of bits."""
    lists = field_lists(text)
    for stage, fields in lines_defined(lists).items():
        line = STAGES[stage]
        kind, names = [it for it in fields if it == "kind"], [it for it in fields if it != "kind"]
        text = put(rf"(?<=^pub record {line}Line : Type 0 where\n).*?(?=^\n)", "".join(f"  pub {it} : ℕ\n" for it in fields), text)
        rows = ["kind = kind"] if kind else []
        rows += [f"{it} = get_or xs {f'(at + {k})' if k else 'at'} 0" for k, it in enumerate(names)]
        text = put(rf"(?<=^{line.lower()}_by {'kind ' if kind else ''}xs at =\n    record \{{\n).*?(?=^    \}}\n)", "".join(f"      {it};\n" for it in rows), text)
    return put(r"^bit_count = \d+$", f"bit_count = {sum(bits for fields in lists.values() for _, _, bits in fields)}", text)


def places(text, lists):
    """The place of each field among the bits."""
    first = sum(bits for _, _, bits in lists["kind"])
    starts, rows, before = [], [], ""
    for stage, line in STAGES.items():
        fields, at = lists[line.lower()], 0
        starts.append(f"const {stage.upper()}: u32 = {before + ' + ' if before else ''}{first};\n\n")
        for _, field, bits in fields:
            rows.append(f"pub const {stage.upper()}_{field.upper()}: BitRange = place!({stage.upper()} + {at}, {bits});\n\n")
            at += bits
        before, first = stage.upper(), at
    kinds, at = [], 0
    for stage, field, bits in lists["kind"]:
        kinds.append(f"pub const {stage.upper()}_{field.upper()}: BitRange = place!({at}, {bits});\n\n")
        at += bits
    text = put(r"^const F: u32 = .*?(?=^/// The number of fields that are register)", "".join([*starts, *kinds, *rows]), text)
    registers = len(re.findall(r"\w+", found(r"^pub const REGISTERS: [^=]*= \[(.*?)\];", text)))
    text = put(r"^pub const REGISTER_COUNT: usize = \d+;$", f"pub const REGISTER_COUNT: usize = {registers};", text)
    return put(r"^pub const BIT_COUNT: u32 = \w+ \+ \d+;$", f"pub const BIT_COUNT: u32 = {before} + {first};", text)


def coded_fields(text):
    """The rows of the table of fields in code: the stage, the name, and whether it is a signal."""
    rows = re.findall(r'^ +([A-Z])_(\w+) "\w+"( \w+)?,?$', found(r"macro_rules! field_table \{(.*?)^\}", text), re.M)
    return [(stage.lower(), name.lower(), bool(signal)) for stage, name, signal in rows]


def indices(text):
    """The index of each line's first field in the table of fields."""
    rows = coded_fields(text)
    before, count = "", sum(field == "kind" for _, field, _ in rows)
    for name in (*STAGES, ""):
        constant = f"{name.upper()}_FIRST" if name else "FIELD_COUNT"
        text = put(rf"^pub const {constant}: usize = .*?;$", f"pub const {constant}: usize = {before + ' + ' if before else ''}{count};", text)
        before, count = constant, sum(stage == name and field != "kind" for stage, field, _ in rows)
    return text


def lines_coded(text, rows):
    """The lines of fields in code, and how they are read from bits."""
    for stage, fields in lines([(stage, field) for stage, field, _ in rows]).items():
        line = STAGES[stage]
        text = put(rf"(?<=^pub struct {line}Line \{{\n).*?(?=^\}})", "".join(f"    pub {it}: u64,\n" for it in fields), text)
        places_read = "".join(f"            {it}: number(bits, place::{stage.upper()}_{it.upper()}),\n" for it in fields)
        text = put(rf"(?<=^        {stage}: {line}Line \{{\n).*?(?=^        \}},)", places_read, text)
    return text


def fields_in(text, lists):
    """The fields that the code's lines have, as those of the definitions."""
    rows = []
    for stage, fields in lines_defined(lists).items():
        members = [f"{it} = l.{stage}.{it}" for it in fields]
        row = f"      {stage} = record {{ {'; '.join(members)} }};\n"
        rows.append(row if len(row) < 140 else f"      {stage} = record {{\n{''.join(f'        {it};' + chr(10) for it in members)}      }};\n")
    return put(r"(?<=^    record \{\n).*?(?=^    \}\n)", "".join(rows), text)


def of_fields():
    spec, code, table, design = f"{FIELDS}/specs/Layout.antt", f"{FIELDS}/src/places.rt", f"{FIELDS}/src/table.rt", "crates/hazard_rules/src/design.rt"
    coded, flows = f"{FLOWS}/src/lines.rt", f"{FLOWS}/specs/Flows.antt"
    signals = sum(is_signal for _, _, is_signal in coded_fields(read(table)))
    return {
        coded: lines_coded(read(coded), coded_fields(read(table))),
        flows: fields_in(read(flows), field_lists(read(spec))),
        spec: layout(read(spec)),
        code: places(read(code), field_lists(read(spec))),
        table: indices(read(table)),
        design: put(r"^static PLACES: \[Place; \d+\]", f"static PLACES: [Place; {signals}]", read(design)),
    }


# ---- the fields of SEQ, and of SEQ+'s line S


def of_line():
    """What has a member for each field of the line, in the order of the definitions' table."""
    spec, facts, code = f"{LINES}/specs/Fields.antt", f"{LINES}/specs/Signals.antt", f"{LINES}/src/signals.rt"
    numbers, now = f"{NUMBERS}/specs/Lines.antt", f"{NUMBERS}/src/lines.rt"
    rows, first = [], 0
    for bits, name in re.findall(r'field \(codes "\w+"\) (\d+) .*\(λ c\. c\.(\w+)\)$', body(read(spec), "line_fields"), re.M):
        rows.append({"name": name, "k": len(rows), "bits": bits, "at": f" + {first}" if first else ""})
        first += int(bits)

    def written(before, row, after, text):
        return put(rf"(?<={before}\n).*?(?=^{after})", "".join(f"{row.format(**it)}\n" for it in rows), text)

    text = written("^pub record Fields : Type 0 where", "  pub {name} : ℕ", "\n", read(spec))
    for name, value in (("line_from first", "place (first{at}) {bits}"), ("fields_by xs", "get_or xs {k} 0"), ("line_at l w", "number_at w l.{name}")):
        text = written(rf"^{name} =\n    record \{{", f"      {{name}} = {value};", r"    \}\n", text)
    ranges = written(r"^pub struct LineRanges \{", "    pub {name}: BitRange,", r"\}", read(code))
    return {
        spec: text,
        facts: written(r"^pub record HasLine \(l : LineRanges\) \(vars : ℕ\) : Type 0 where", "  pub {name} : Within vars l.{name}", "  pub four", read(facts)),
        numbers: put(r"^fields_in l = [^\n]*$", f"fields_in l = record {{ {'; '.join('{name} = l.{name}'.format(**it) for it in rows)} }}", read(numbers)),
        code: written(r"^        LineRanges \{", "            {name}: place!($first{at}, {bits}),", r"        \}\n", ranges),
        now: written(r"^pub struct LineNow \{", "    pub {name}: u64,", r"\}", read(now)),
    }


# ---- the obligations


def of_obligations():
    """The number of obligations of PIPE, and of SEQ, whose last one isn't in its list; the first obligation on motion."""
    pipe, seq, required = "crates/pipe_obligations", LINES, "crates/pipe_requirements"
    spec, shared, code, numbered = f"{pipe}/specs/Rules.antt", f"{seq}/specs/Obligations.antt", f"{pipe}/src/lib.rt", f"{seq}/src/numbered.rt"
    demanded = {
        spec: len(re.findall(r"\bo\d+ v s", body(read(spec), "demands"))),
        shared: len(re.findall(r"\bs\d+ s", body(read(shared), "shared_demands s r c α cv"))) + 1,
    }
    arms = {
        code: len(re.findall(r"^        \d+ => ", read("crates/hazard_rules/src/demands.rt"), re.M)),
        numbered: len(re.findall(r"^            \d+ => ", read(f"{seq}/src/demands.rt"), re.M)) + 1,
    }
    made = {path: put(r"^rule_count = \d+$", f"rule_count = {count}", read(path)) for path, count in demanded.items()}
    made |= {path: put(r"^pub const RULE_COUNT: u32 = \d+;$", f"pub const RULE_COUNT: u32 = {count};", read(path)) for path, count in arms.items()}
    spec, code = f"{required}/specs/Requirements.antt", f"{required}/src/lib.rt"
    first = len(re.findall(r"\brequired\d+", found(r"^  required =\n(.*?)\n\n", read(spec)))) + 1
    made[spec] = put(r"^first_on_motion = \d+$", f"first_on_motion = {first}", read(spec))
    first = len(re.findall(r"^        \d+ => put_", read(f"{required}/src/listing.rt"), re.M)) + 1
    made[code] = put(r"^pub const FIRST_ON_MOTION: u32 = \d+;$", f"pub const FIRST_ON_MOTION: u32 = {first};", read(code))
    return made


def made():
    """Each file that has something that follows, and its text."""
    return of_signals() | of_signals_in_code() | of_fields() | of_line() | of_obligations()


if __name__ == "__main__":
    try:
        FILES = made()
    except Odd as odd:
        sys.exit(f"tables.py: nothing is written: {odd}")
    for name, new in FILES.items():
        with open(f"{TOP}/{name}", "w", encoding="utf-8") as out:
            out.write(new)
