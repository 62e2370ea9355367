"""Rewrites a program's LLVM module, made for x86-64, for wasm32.

The toolchain gives each pointer eight bytes and computes every place in memory itself, in bytes. So the rewriting keeps all places: a pointer takes four bytes
now, and its slot of eight stays. Four shapes change:

- a local slot of a pointer: `alloca ptr` becomes `alloca i64`;
- a constant with pointers in it: four zero bytes follow each;
- a load of a pair whose second part is at byte 8 on x86-64, and wouldn't be with four-byte pointers: it becomes two loads;
- `ptrtoaddr`, the address as a number, becomes `ptrtoint`, which widens it with zeros.

Everything else is taken over as it is, if its shape is one of those listed here. Any other line raises Unknown: a module of a new toolchain is refused and
not miscompiled.
"""
import re
from collections.abc import Iterator

TRIPLE = "wasm32-unknown-unknown"
LAYOUT = "e-m:e-p:32:32-p10:8:8-p20:8:8-i64:64-i128:128-n32:64-S128-ni:1:10:20"
WAS_LAYOUT = "e-m:e-p270:32:32-p271:32:32-p272:64:64-i64:64-i128:128-f80:128-n8:16:32:64-S128"
WAS_TRIPLE = "x86_64-unknown-linux-gnu"
# Of these types, and of no other, are values in memory; a pointer apart.
NUMBER = r"(?:i(?:1|8|16|32|64|128|256)|double)"
VECTOR = rf"<\d+ x {NUMBER}>"
SIZES = {"i1": 1, "i8": 1, "i16": 2, "i32": 4, "i64": 8, "double": 8, "ptr": 8}
# Instructions that touch no memory and that know no layout.
PLAIN = frozenset(
    "add and ashr bitcast br call extractelement extractvalue fadd fcmp fdiv fmul fneg freeze fsub icmp insertelement insertvalue lshr mul or phi ret sdiv select sext shl"
    " shufflevector sitofp srem sub switch trunc udiv uitofp unreachable urem xor zext".split()
)
# Words that say how an argument lies in memory, or that leave the known address space.
FOREIGN = re.compile(r"\b(?:asm|byref|byval|inalloca|inttoptr|ptrtoint|preallocated|sret|swifterror|thread_local|addrspace|vscale|half|bfloat|float|fp128|x86_\w+)\b")
INSTRUCTION = re.compile(r"  (?:(%[\w.]+) = )?(?:tail )?([a-z]+)\b")
ALLOCA = re.compile(rf"  %[\w.]+ = alloca (?:{NUMBER}|\[\d+ x i8\]|(ptr)), align \d+")
LOAD = re.compile(rf"  (%[\w.]+) = load ({NUMBER}|{VECTOR}|ptr|\{{ [\w, ]+ \}}), ptr (%[\w.]+|@[\w.$]+|@\"[^\"]+\"), align (\d+)(?:, !(?:noundef|range|nonnull) !\d+)*")
STORE = re.compile(rf"  store ({NUMBER}|{VECTOR}|ptr|\{{ [\w, ]+ \}}) .+, ptr (?:%[\w.]+|@[\w.$]+|@\"[^\"]+\"), align \d+")
PLACE = re.compile(r"  %[\w.]+ = getelementptr (?:inbounds )?(?:nuw )?i8, ptr (?:%[\w.]+|@[\w.$]+|@\"[^\"]+\"), i64 -?[%\w.]+")
ADDRESS = re.compile(r"(  %[\w.]+ = )ptrtoaddr( ptr (?:%[\w.]+|@[\w.$]+|@\"[^\"]+\") to i64)")
BYTES = re.compile(r"@[\w.]+ = private (?:unnamed_addr )?constant \[\d+ x i8\] (?:c\"|zeroinitializer)")
PARTS = re.compile(r"(@[\w.]+ = private (?:unnamed_addr )?constant) <\{ (.*) \}> (<\{ .* \}>)(, align \d+)?")
# The value of a pointer in a constant.
POINTER = re.compile(r"\bptr (@[\w.$]+|@\"[^\"]+\"|getelementptr \(i8, ptr (?:@[\w.$]+|@\"[^\"]+\"), i64 \d+\)|null)")
# Attributes of functions that speak of x86-64, or of the tool that made the module.
OF_THE_MACHINE = re.compile(r'\bsanitize_address\b|"(?:frame-pointer|probe-stack|stack-probe-size|target-cpu|target-features|tune-cpu)"="[^"]*"')
KNOWN_ATTRIBUTES = re.compile(r"[\w\s]*(?:\b(?:memory|captures|allockind|allocsize)\([^)]*\)[\w\s]*)*")
# What a module may ask of LLVM itself: nothing that goes by the size of a pointer.
INTRINSIC = re.compile(r"declare .*?@llvm\.(?:memmove\.p0\.p0\.i64|memcpy\.p0\.p0\.i64|memset\.p0\.i64|trap|arithmetic\.fence\.f64|(?:ctlz|cttz|ctpop|bswap|fshl|fshr|[us]min|[us]max|abs)\.(?:v\d+)?i\d+|[us](?:add|sub|mul)\.(?:with\.overflow|sat)\.i\d+)\(.*")
# Lines of other kinds: a function's head and end, a label, a case of a switch, metadata, nothing.
OTHERS = re.compile(r"define .*\{|declare .*|\}|[\w.$-]+:(?: +;.*)?|\"[^\"]+\":|    i\d+ -?\d+, label %[\w.]+|  \]|![\w.]+ = .*|source_filename = .*|;.*|")


class Unknown(Exception):
    """A line of a shape that the rewriting doesn't know."""


def unquoted(line: str) -> str:
    """Returns the line without the text between quotes, which names a function or is data."""
    return re.sub(r'"[^"]*"', '""', line)


def offsets(fields: list[str]) -> list[int]:
    """Returns where each field of a struct of these types is on x86-64."""
    at, found = 0, []
    for it in fields:
        at = -(-at // SIZES[it]) * SIZES[it]
        found.append(at)
        at += SIZES[it]
    return found


def slot(line: str) -> str:
    """Keeps the eight bytes of a local pointer."""
    found = ALLOCA.fullmatch(line)
    if not found:
        raise Unknown(line)
    return line.replace("alloca ptr", "alloca i64") if found[1] else line


def load(line: str, number: int) -> str:
    """Splits a load of two parts in two, where four-byte pointers would move the second one."""
    found = LOAD.fullmatch(line)
    if not found:
        raise Unknown(line)
    to, kind, at, align = found.groups()
    if not kind.startswith("{") or "ptr" not in kind:
        return line
    fields = kind[2:-2].split(", ")
    if len(fields) != 2 or any(it not in SIZES for it in fields) or offsets(fields) != [0, 8]:
        raise Unknown(line)
    one, two = fields
    # (these go to byte 8 in either layout)
    if two in ("i64", "double"):
        return line
    return "\n".join(
        (
            f"  %w.{number}a = load {one}, ptr {at}, align {min(int(align), SIZES[one])}",
            f"  %w.{number}g = getelementptr i8, ptr {at}, i64 8",
            f"  %w.{number}b = load {two}, ptr %w.{number}g, align {min(int(align), SIZES[two])}",
            f"  %w.{number}s = insertvalue {kind} poison, {one} %w.{number}a, 0",
            f"  {to} = insertvalue {kind} %w.{number}s, {two} %w.{number}b, 1",
        )
    )


def store(line: str) -> str:
    """Takes a store over, unless pointers of a struct would move."""
    found = STORE.fullmatch(line)
    if not found or found[1].startswith("{") and "ptr" in found[1]:
        raise Unknown(line)
    return line


def constant(line: str) -> str:
    """Puts four bytes after each pointer of a constant."""
    if BYTES.match(line):
        return line
    found = PARTS.fullmatch(line)
    if not found:
        raise Unknown(line)
    head, types, values, align = found.groups()
    kinds = types.split(", ")
    if not all(re.fullmatch(r"ptr|\[\d+ x i8\]", it) for it in kinds):
        raise Unknown(line)
    # (data may hold any byte: only what stands outside of quotes is rewritten)
    pieces, count = re.split(r'(c"[^"]*")', values), 0
    for at in range(0, len(pieces), 2):
        pieces[at], changed = POINTER.subn(r"ptr \1, [4 x i8] zeroinitializer", pieces[at])
        count += changed
    if count != kinds.count("ptr") or "ptr" in POINTER.sub("", " ".join(pieces[::2])):
        raise Unknown(line)
    types = ", ".join("ptr, [4 x i8]" if it == "ptr" else it for it in kinds)
    return f"{head} <{{ {types} }}> {''.join(pieces)}{align or ''}"


def attributes(line: str) -> str:
    """Drops what an attribute says of x86-64."""
    found = re.fullmatch(r"(attributes #\d+ = \{)(.*)\}", line)
    rest = OF_THE_MACHINE.sub("", found[2]) if found else ""
    if not found or not KNOWN_ATTRIBUTES.fullmatch(rest):
        raise Unknown(line)
    return f'{found[1]}{rest} "retargeted" }}'


def target(line: str) -> str:
    """Names the other machine, if the module is for the one that is known."""
    known = {f'target datalayout = "{WAS_LAYOUT}"': f'target datalayout = "{LAYOUT}"', f'target triple = "{WAS_TRIPLE}"': f'target triple = "{TRIPLE}"'}
    if line not in known:
        raise Unknown(line)
    return known[line]


def instruction(line: str, name: str, number: int) -> str:
    """Rewrites an instruction."""
    if name == "alloca":
        return slot(line)
    if name == "load":
        return load(line, number)
    if name == "store":
        return store(line)
    if name == "ptrtoaddr" and (found := ADDRESS.fullmatch(line)):
        return f"{found[1]}ptrtoint{found[2]}"
    if name == "getelementptr" and PLACE.fullmatch(line) or name in PLAIN:
        return line
    raise Unknown(line)


def lines(text: str) -> Iterator[str]:
    """Yields the lines of the module for wasm32."""
    for number, line in enumerate(text.split("\n")):
        if FOREIGN.search(line) and FOREIGN.search(unquoted(line)):
            raise Unknown(line)
        if found := INSTRUCTION.match(line):
            yield instruction(line, found[2], number)
        elif line.startswith("@"):
            yield constant(line)
        elif line.startswith("attributes "):
            yield attributes(line)
        elif line.startswith("target "):
            yield target(line)
        elif OTHERS.fullmatch(line) and ("@llvm." not in line or INTRINSIC.fullmatch(line)):
            yield line
        else:
            raise Unknown(line)


def rewritten(text: str) -> str:
    """Returns the text of the module for wasm32."""
    return "\n".join(lines(text))
