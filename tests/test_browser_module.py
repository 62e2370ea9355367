"""The programs compile for the browser by the toolchain alone, and a module of another shape is refused."""
import os
import subprocess

import pytest

from handout import solutions
from helpers.browser_build import kit, node, programs
from helpers.cases import cases, same
from helpers.designs import design
from helpers.paths import TOP
from wasm import compiling, rewriting

# Lines that stay as they are.
KEPT = [
    "  %r1 = getelementptr i8, ptr %r0, i64 8",
    "  %r1 = getelementptr inbounds nuw i8, ptr @static.3, i64 %r0",
    "  %r1 = load i64, ptr %r0, align 8, !noundef !1",
    "  %r1 = load ptr, ptr %r0, align 8",
    "  %r1 = load { ptr, i64 }, ptr %r0, align 8",
    "  %r1 = load { i64, i64 }, ptr %r0, align 8",
    "  store ptr @static.3, ptr %r0, align 8",
    "  store <4 x i64> %r1, ptr %r0, align 8",
    "  %r1 = alloca [24 x i8], align 8",
    "  %r1 = alloca double, align 8",
    "  %r1 = load { i8, double }, ptr %r0, align 8",
    "  %r1 = fadd double %r0, %r2",
    '  %r1 = call { ptr, i64 } @"a::asm::b"(ptr %r0)',
    "@static.0 = private unnamed_addr constant [6 x i8] c\"ptr %r\", align 1",
    "declare void @llvm.memmove.p0.p0.i64(ptr writeonly captures(none), ptr readonly captures(none), i64, i1 immarg) #4",
    "declare noundef i64 @read(i32 noundef, ptr noundef, i64 noundef) #2",
    "    i8 1, label %arm.2",
    "entry:",
    "",
]
# Lines that change, and what becomes of them.
CHANGED = [
    ("  %r1 = alloca ptr, align 8", "  %r1 = alloca i64, align 8"),
    ("  %r1 = ptrtoaddr ptr %r0 to i64", "  %r1 = ptrtoint ptr %r0 to i64"),
    ("@a = private constant <{ ptr, [8 x i8] }> <{ ptr @b, [8 x i8] c\"ptr @b..\" }>, align 8", "@a = private constant <{ ptr, [4 x i8], [8 x i8] }> <{ ptr @b, [4 x i8] zeroinitializer, [8 x i8] c\"ptr @b..\" }>, align 8"),
    (f'target triple = "{rewriting.WAS_TRIPLE}"', f'target triple = "{rewriting.TRIPLE}"'),
    ('attributes #0 = { nounwind sanitize_address "frame-pointer"="all" "target-cpu"="x86-64" }', 'attributes #0 = { nounwind     "retargeted" }'),
    (
        "  %r1 = load { i8, ptr }, ptr %r0, align 8",
        "  %w.0a = load i8, ptr %r0, align 1\n  %w.0g = getelementptr i8, ptr %r0, i64 8\n  %w.0b = load ptr, ptr %w.0g, align 8\n"
        "  %w.0s = insertvalue { i8, ptr } poison, i8 %w.0a, 0\n  %r1 = insertvalue { i8, ptr } %w.0s, ptr %w.0b, 1",
    ),
    (
        "  %r1 = load { ptr, i8 }, ptr %r0, align 8",
        "  %w.0a = load ptr, ptr %r0, align 8\n  %w.0g = getelementptr i8, ptr %r0, i64 8\n  %w.0b = load i8, ptr %w.0g, align 1\n"
        "  %w.0s = insertvalue { ptr, i8 } poison, ptr %w.0a, 0\n  %r1 = insertvalue { ptr, i8 } %w.0s, i8 %w.0b, 1",
    ),
]
# Lines whose places in memory would move, or that no module has had.
REFUSED = [
    "  %r1 = alloca { ptr, i64 }, align 8",
    "  %r1 = alloca [2 x ptr], align 8",
    "  %r1 = load { i8, i8, ptr }, ptr %r0, align 8",
    "  %r1 = load { i32, { ptr, i64 } }, ptr %r0, align 8",
    "  %r1 = load [2 x ptr], ptr %r0, align 8",
    "  %r1 = load volatile i64, ptr %r0, align 8",
    "  %r1 = load ptr, ptr addrspace(10) %r0, align 8",
    "  store { ptr, ptr } %r1, ptr %r0, align 8",
    "  %r1 = getelementptr { ptr, i64 }, ptr %r0, i64 1",
    "  %r1 = getelementptr ptr, ptr %r0, i64 1",
    "  %r1 = inttoptr i64 %r0 to ptr",
    "  %r1 = ptrtoint ptr %r0 to i64",
    "  %r1 = atomicrmw add ptr %r0, i64 1 seq_cst, align 8",
    "  %r1 = fadd float %r0, %r2",
    "  %r1 = fptosi double %r0 to i64",
    "  %r1 = alloca x86_fp80, align 16",
    "  call void asm sideeffect \"nop\", \"\"()",
    "  call void @f(ptr sret({ ptr, ptr }) %r0)",
    "  call void @f(ptr byval([16 x i8]) %r0)",
    "@a = global i64 0, align 8",
    "@a = private constant { ptr, i64 } { ptr @b, i64 1 }, align 8",
    "@a = private constant <{ ptr, i64 }> <{ ptr @b, i64 1 }>, align 8",
    "@a = private constant <{ ptr }> <{ ptr blockaddress(@f, %b) }>, align 8",
    "%T = type { ptr, i64 }",
    'target triple = "aarch64-unknown-linux-gnu"',
    'target datalayout = "e-m:e-p:64:64"',
    'attributes #0 = { "vector"="512" }',
    "declare i64 @llvm.objectsize.i64.p0(ptr, i1, i1, i1)",
    "declare void @llvm.va_start.p0(ptr)",
    "module asm \"nop\"",
]


@pytest.mark.parametrize("line", KEPT)
def test_kept(line):
    same(rewriting.rewritten(line), line)


@cases(CHANGED)
def test_changed(row):
    same(rewriting.rewritten(row[0]), row[1])


@pytest.mark.parametrize("line", REFUSED)
def test_refused(line):
    with pytest.raises(rewriting.Unknown):
        rewriting.rewritten(line)


def number(data, at):
    """The unsigned LEB128 number at a place, and the place after it."""
    value = shift = 0
    while True:
        byte = data[at]
        value, shift, at = value | (byte & 127) << shift, shift + 7, at + 1
        if byte < 128:
            return value, at


def sections(data):
    """The sections of a WebAssembly module by their numbers."""
    found, at = {}, 8
    while at < len(data):
        kind, (size, at) = data[at], number(data, at + 1)
        found[kind] = data[at : at + size]
        at += size
    return found


def text(data, at):
    """The name at a place, and the place after it."""
    size, at = number(data, at)
    return data[at : at + size].decode(), at + size


def imports(data):
    """The names that a module imports; each is a function."""
    (count, at), found = number(data, 0), []
    for _ in range(count):
        module, at = text(data, at)
        name, at = text(data, at)
        assert data[at] == 0, "an import that isn't a function"
        _, at = number(data, at + 1)
        found.append(f"{module}.{name}")
    return found


def exports(data):
    (count, at), found = number(data, 0), []
    for _ in range(count):
        name, at = text(data, at)
        _, at = number(data, at + 1)
        found.append(name)
    return found


def test_linked():
    """Each program is a module that asks the page for words, files and output, and for nothing else."""
    for it in programs():
        with open(it.file, "rb") as file:
            data = file.read()
        same(data[:8], b"\0asm\1\0\0\0")
        parts = sections(data)
        same(sorted(imports(parts[2])), ["host.open", "host.read", "host.word", "host.write"])
        same(sorted(exports(parts[7])), ["memory", "run"])


# Modules that clang accepts and that must not become a program.
MODULES = [
    ("a shape that isn't known", "define i32 @main() {\n  %a = alloca { ptr, i64 }, align 8\n  ret i32 0\n}\n", "launch/wasm/rewriting.py doesn't know"),
    ("a function that the shim hasn't", "declare i32 @fork()\ndefine i32 @main() {\n  %a = call i32 @fork()\n  ret i32 %a\n}\n", "wasm-ld"),
    ("a function that the shim has with another type", "declare i64 @close(i64)\ndefine i32 @main() {\n  %a = call i64 @close(i64 1)\n  %b = trunc i64 %a to i32\n  ret i32 %b\n}\n", "wasm-ld"),
]


@cases(MODULES)
def test_no_program(row, folder):
    _, body, why = row
    head = f'target datalayout = "{rewriting.WAS_LAYOUT}"\ntarget triple = "{rewriting.WAS_TRIPLE}"\n'
    with open(f"{folder}/module.ll", "w", encoding="utf-8") as it:
        it.write(head + body)
    with pytest.raises(compiling.NotCompiled) as refused:
        compiling.compiled(kit().tools, it.name, f"{folder}/made.wasm")
    assert why in str(refused.value)


# What calls the shim's sums: the 128 bits of each number are two words, and so are those of the result.
SUMS = """
typedef unsigned long long u64;
typedef unsigned __int128 u128;
u128 __multi3(u128, u128), __ashlti3(u128, int), __lshrti3(u128, int);
int main(void) { return 0; }
static u128 found;
static u128 whole(u64 low, u64 high) { return (u128)high << 64 | low; }
#define GIVEN(name) __attribute__((export_name(name)))
GIVEN("product") void product(u64 a, u64 b, u64 c, u64 d) { found = __multi3(whole(a, b), whole(c, d)); }
GIVEN("left") void left(u64 a, u64 b, int n) { found = __ashlti3(whole(a, b), n); }
GIVEN("right") void right(u64 a, u64 b, int n) { found = __lshrti3(whole(a, b), n); }
GIVEN("low") u64 low(void) { return found; }
GIVEN("high") u64 high(void) { return found >> 64; }
"""
# Runs them on edges and on numbers in between, and prints what isn't right.
CHECKED_SUMS = """
const { instance } = await WebAssembly.instantiate(fs.readFileSync(process.argv[2]), { host: { word() {}, open() {}, read() {}, write() {} } });
const it = instance.exports, all = (1n << 128n) - 1n, word = (1n << 64n) - 1n, half = (n) => [n & word, n >> 64n], now = () => BigInt.asUintN(64, it.low()) | BigInt.asUintN(64, it.high()) << 64n;
const numbers = [0n, 1n, word, word + 1n, all, 1n << 127n, (1n << 32n) - 1n, 0x123456789abcdef0fedcba9876543210n, 0xffffffff00000000ffffffff00000001n], wrong = [];
const same = (what, wanted) => { if (now() !== (wanted & all)) wrong.push([what, now().toString(16)]); };
for (const a of numbers) {
  for (const b of numbers) same(`${a} * ${b}`, (it.product(...half(a), ...half(b)), a * b));
  for (let n = 0; n < 128; n++) {
    same(`${a} << ${n}`, (it.left(...half(a), n), a << BigInt(n)));
    same(`${a} >> ${n}`, (it.right(...half(a), n), a >> BigInt(n)));
  }
}
console.log(JSON.stringify(wrong));
"""


# What calls the shim's heap. The stack is used up by frames of 64 KB; `kept` lies where nothing but a stack that is too long would write.
HEAP = """
typedef unsigned long long u64;
typedef struct { u64 is_there, at; } Tried;
Tried rattle_alloc(u64, u64), rattle_realloc(void *, u64, u64, u64);
void rattle_dealloc(void *);
int main(void) { return 0; }
#define GIVEN(name) __attribute__((export_name(name)))
static int place(Tried it) { return it.is_there ? (int)it.at : 0; }
GIVEN("take") int take(int n, int align) { return place(rattle_alloc(n, align)); }
GIVEN("change") int change(void *p, int was, int n, int align) { return place(rattle_realloc(p, was, n, align)); }
GIVEN("give") void give(void *p) { rattle_dealloc(p); }
static volatile unsigned char kept[1 << 20];
static int used(int frames) {
    volatile unsigned char frame[65000];
    for (int at = 0; at < 65000; at++) frame[at] = 1;
    return frames > 1 ? used(frames - 1) + frame[frames] : frame[0];
}
GIVEN("deep") int deep(int frames) { return used(frames); }
GIVEN("written") int written(void) { int sum = 0; for (int at = 0; at < 1 << 20; at++) sum += kept[at]; return sum; }
"""
# Takes, changes and gives back blocks, each filled with a byte of its own, and prints what isn't right.
CHECKED_HEAP = """
const { instance } = await WebAssembly.instantiate(fs.readFileSync(process.argv[2]), { host: { word() {}, open() {}, read() {}, write() {} } });
const it = instance.exports, MOST = 40 << 20, blocks = [], wrong = new Set();
let seed = 7, refused = 0, moved = 0;
const below = (most) => Math.floor(((seed = (Math.imul(seed, 1664525) + 1013904223) >>> 0) / 2 ** 32) * most);
const size = () => [() => below(80), () => 2 ** below(17) + below(3) - 1, () => below(200000)][below(40) ? below(2) : 2]();
const bytes = (at, length) => new Uint8Array(it.memory.buffer, at, length);
const fill = (block) => bytes(block.at, block.size).fill(block.byte);
const check = (what, { at, size, byte }, length = size) => bytes(at, Math.min(size, length)).every((one) => one === byte) || wrong.add(what);
it.run(BigInt(MOST));
for (let number = 0; number < 30000; number++) {
  const which = below(blocks.length || 1), block = blocks[which], does = below(blocks.length > 300 ? 2 : 4);
  if (does === 1 && block) {
    const now = size(), was = block.size, at = it.change(block.at, was, now, 8);
    if (!at) { refused++; continue; }
    moved += at !== block.at;
    Object.assign(block, { at, size: now });
    check("a block's bytes are lost as its size changes", block, was);
    fill(block);
  } else if (does === 0 && block) {
    check("a block was written by another", block);
    it.give(block.at);
    blocks.splice(which, 1);
  } else if (does > 1) {
    const made = { size: size(), byte: 1 + (number % 255) };
    made.at = it.take(made.size, 16);
    if (!made.at) { refused++; continue; }
    if (made.at % 16) wrong.add("a block isn't aligned");
    fill(made);
    blocks.push(made);
  }
  if (it.memory.buffer.byteLength > MOST) wrong.add("more memory than the limit");
}
for (const block of blocks) check("a block was written by another", block);
if (moved < 1000) wrong.add(`${moved} blocks moved`);
if (it.take(MOST, 8)) wrong.add("a block of all memory");
if (it.deep(14) !== 14) wrong.add("the stack is too small");
try {
  wrong.add(`no end of the stack: ${it.deep(40)}`);
} catch (fault) {
  if (!(fault instanceof WebAssembly.RuntimeError)) wrong.add(String(fault));
}
if (it.written()) wrong.add("the stack writes over data");
console.log(JSON.stringify([...wrong]));
"""


@cases([("sums on 128-bit numbers, beside those of JavaScript", SUMS, CHECKED_SUMS), ("the heap, and the end of the stack", HEAP, CHECKED_HEAP)])
def test_shim(row, folder):
    _, calls, check = row
    tools, found = kit().tools, node()
    with open(f"{folder}/calls.c", "w", encoding="utf-8") as it:
        it.write(calls)
    with open(f"{folder}/check.mjs", "w", encoding="utf-8") as it:
        it.write(f'import fs from "node:fs";\n{check}')
    for name, path in (("calls", f"{folder}/calls.c"), ("shim", compiling.SHIM)):
        compiling.run([f"{tools}/bin/clang", *compiling.HOW, *compiling.FREESTANDING, "-o", f"{folder}/{name}.o", path])
    os.symlink(f"{tools}/bin/ld.lld", f"{folder}/wasm-ld")
    compiling.run([f"{folder}/wasm-ld", *compiling.LINKED, "-o", f"{folder}/calls.wasm", f"{folder}/calls.o", f"{folder}/shim.o"])
    ran = subprocess.run([found, f"{folder}/check.mjs", f"{folder}/calls.wasm"], capture_output=True, text=True, check=False)
    same((ran.returncode, ran.stderr, ran.stdout), (0, "", "[]\n"))


def offered(without):
    from choices import examples

    return {it["name"]: it["text"] for groups in examples(TOP, without).values() for _, group in groups for it in group}


def test_examples():
    """All designs, programs and steps of the tutorial are offered; each step is the pipeline with the definitions of its file."""
    found = offered(frozenset())
    assert {"std.hcl", "seq.hcl", "tutorial 0", "tutorial 11", "tutorial seq 0", "tutorial seq 4", "count.ys", "asum.ys", "ncopy_tree.ys", "mistake: memory before execute"} <= set(found)
    same(found["tutorial 0"].count("e_valE"), design("no_bypassing").count("e_valE"))
    assert "d_srcA == e_dstE : e_valE" in found["tutorial 1"]


# Where the tutorial's parts end: the step, the check, and its options.
ENDS = [("tutorial 11", "pipe", []), ("tutorial seq 4", "seq", ["--full"])]


@cases(ENDS)
def test_end_of_tutorial(row, y86):
    """After the last step of each part the processor is right for every program."""
    name, path, more = row
    answer = y86("check", path, "mine.hcl", *more, files={"mine.hcl": offered(frozenset())[name].encode()})
    same((answer.status, answer.out[:3]), (0, b"yes"))


def test_without_solutions():
    left_out = frozenset(solutions(TOP))
    assert left_out
    found = offered(left_out)
    same([it for it in found if it.startswith("tutorial") or f"examples/designs/{it}" in left_out or f"examples/copy/{it}" in left_out], [])
    assert "std.hcl" in found
