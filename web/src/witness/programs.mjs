// Programs that try a processor: a small list made for what random programs miss, pairs of an instruction and its use,
// and random ones. A program is a list of lines of assembly. Data and stack are above 0x400, so few programs write
// their own code: only some that set %rsp to an address of the code.

const REGISTERS = ["%rax", "%rcx", "%rdx", "%rbx", "%rsi", "%rdi", "%r8", "%r9"];
const CONDITIONS = ["le", "l", "e", "ne", "ge", "g"];
const SETUP = ["irmovq $0x500, %rbp", "irmovq $0x600, %rsp"];
const DATA = [".pos 0x500", ".quad 0x11", ".quad 0x560", ".quad 0x33", ".pos 0x560", ".quad 0x66", ".pos 0x600",
  ".quad back", ".quad 0x77", ".quad 0x88"];
const OPERATION = "addq %rbp, %rbx";
const STOPS = ["halt", ".byte 0xf0", "jmp 0x4000", "mrmovq -8(%rdx), %rax", "rmmovq %rcx, -8(%rdx)", ".byte 0x27"];
const END = ["halt", "back:", "rrmovq %rsp, %r11", "halt", ...DATA];

const split = (text) => text.split(";").map((it) => it.trim());
const whole = (...parts) => [...SETUP, ...parts.flatMap(split), ...END];

/** Programs about the stack pointer, with so many nops between. */
function* stack(nops) {
  yield whole("popq %rsp", ...nops, "rrmovq %rsp, %rax");
  yield whole("popq %rsp", ...nops, "addq %rsp, %rax");
  yield whole("pushq %rsp", ...nops, "popq %rcx");
  yield whole("irmovq $0x5f8, %rcx", "irmovq back, %rdx", "rmmovq %rdx, (%rcx)", "mrmovq 8(%rbp), %rsp",
    "irmovq $0x5f8, %rsp", ...nops, "ret");
  yield ["irmovq at, %rax", "mrmovq (%rax), %rsp", ...nops, "ret", "back:", "halt", ".pos 0x500", "at:", ".quad stack",
    "stack:", ".quad back"];
  yield ["irmovq back, %rsp", ...nops, "call f", "back:", "halt", "f:", ...nops, "ret", ".pos 0x500", ".quad 0"];
}

/** Programs about what stops the machine, and about jumps and calls. */
function* stopsAndJumps(nops) {
  for (const stop of STOPS) {
    yield ["irmovq $1, %rbx", "irmovq $0x500, %rbp", stop, ...nops, OPERATION, "rmmovq %rbx, (%rbp)", "jmp on",
      "on:", "halt"];
    yield ["irmovq $1, %rbx", "irmovq $0x500, %rbp", stop, ...nops, "rmmovq %rbx, (%rbp)", OPERATION, "halt"];
  }
  yield ["xorq %rax, %rax", "je end", ...nops, OPERATION, "halt", "end:", "halt"];
  yield ["irmovq $1, %rcx", "xorq %rax, %rax", "jne wrong", ...nops, "halt", "wrong:", "rmmovq %rcx, 0x500(%rbx)",
    "addq %rcx, %rcx", "halt"];
  yield ["irmovq $0x600, %rsp", "irmovq $7, %rax", "call f", ...nops, "addq %rax, %rax", "halt", "f:", ...nops, "ret"];
}

function* special() {
  yield ["halt"];
  yield ["jmp 0x4000"];
  yield ["irmovq $1, %rax", ".byte 0xf0"];
  for (let gap = 0; gap < 4; gap++) {
    const nops = Array(gap).fill("nop");
    yield* stack(nops);
    yield* stopsAndJumps(nops);
  }
  for (const it of ["pushq %rax; addq %rsp, %rsp; halt", "popq %rax; addq %rsp, %rsp; halt", "ret; halt",
    "call f; f:; halt"]) yield ["irmovq $0x4000, %rsp", ...split(it)];
}

const MAKE = [
  "irmovq $5, %rax", "addq %rbp, %rax", "rrmovq %rbp, %rax", "mrmovq (%rbp), %rax", "mrmovq 8(%rbp), %rax",
    "popq %rax", "popq %rsp", "pushq %rbp",
  "xorq %rcx, %rcx; cmovne %rbp, %rax", "xorq %rcx, %rcx; cmove %rbp, %rax", "call on1; halt; on1:",
    "rmmovq %rbp, (%rbp)", "irmovq $2, %rax; irmovq $3, %rax",
  "nop", "mrmovq 8(%rbp), %rsp",
];
const USE = [
  "addq %rax, %rcx", "addq %rcx, %rax", "rrmovq %rax, %rcx", "rmmovq %rax, 16(%rbp)", "rmmovq %rcx, 0x580(%rax)",
    "mrmovq 0x580(%rax), %rcx", "pushq %rax",
  "popq %rcx", "ret", "rrmovq %rsp, %rcx", "cmovg %rax, %rcx", "andq %rax, %rax; jne on2; halt; on2:",
    "call to2; halt; to2:", "pushq %rsp", "subq %rax, %rsp",
  "popq %rsp", "halt",
];

/** An instruction, up to two others, and one that uses what it made. */
function* pairs(isFull) {
  const make = isFull ? [...MAKE, "iaddq $5, %rax"] : MAKE, use = isFull ? [...USE, "iaddq $-5, %rax"] : USE;
  for (let gap = 0; gap < 3; gap++) for (const first of make) for (const then of use)
    yield whole(first, ...Array(gap).fill("irmovq $1, %r9"), then, "addq %rcx, %rbx", "rrmovq %rsp, %rsi");
}

/** Numbers from a seed, so that a search finds the same again. */
class Chance {
  constructor(seed) {
    this.state = seed;
  }

  below(most) {
    this.state = (Math.imul(this.state, 1664525) + 1013904223) >>> 0;
    return Math.floor((this.state / 2 ** 32) * most);
  }

  of(list) {
    return list[this.below(list.length)];
  }
}

function instruction(chance, isFull) {
  const a = chance.of(REGISTERS), b = chance.of(REGISTERS), at = 8 * chance.below(16);
  const one = chance.of(["addq", "subq", "andq", "xorq"]);
  const number = chance.below(18) - 9, other = 8 * chance.below(16);
  const found = [
    [`irmovq $${number}, ${a}`], [`${one} ${a}, ${b}`], [`${one} ${a}, ${a}`],
      [`mrmovq ${at}(%rbp), ${a}`, `addq ${a}, ${b}`],
    [`mrmovq ${at}(%rbp), ${a}`, `rmmovq ${a}, ${other}(%rbp)`], [`rmmovq ${a}, ${at}(%rbp)`],
      [`cmov${chance.of(CONDITIONS)} ${a}, ${b}`],
    [`pushq ${a}`, `popq ${b}`], [`pushq ${a}`, "addq %rsp, %rbx", `popq ${b}`], [`rrmovq ${a}, ${b}`],
  ];
  return chance.of(isFull ? [...found, [`iaddq $${number}, ${a}`]] : found);
}

function block(chance, number, isFull) {
  const body = Array.from({ length: 1 + chance.below(5) }, () => instruction(chance, isFull)).flat();
  switch (chance.below(5)) {
    case 0:
      return [`j${chance.of(CONDITIONS)} skip${number}`, ...body, `skip${number}:`];
    case 1:
      return [`irmovq $${1 + chance.below(4)}, %r13`, `loop${number}:`, ...body, "subq %r14, %r13",
        `jne loop${number}`];
    case 2:
      return [`call work${number}`, `jmp over${number}`, `work${number}:`, ...body, "ret", `over${number}:`];
    default:
      return body;
  }
}

function* atRandom(seed, isFull) {
  const chance = new Chance(seed);
  const faults = ["mrmovq -8(%r12), %rax", ".byte 0xf0", "rmmovq %rcx, 0x4000(%r12)", "jmp 0x4000"];
  while (true) {
    const found = ["irmovq $0x800, %rbp", "irmovq $0xc00, %rsp", "irmovq $1, %r14"], count = 2 + chance.below(4);
    for (let number = 0; number < count; number++) found.push(...block(chance, number, isFull));
    if (chance.below(3) === 0)
      found.push(chance.of(faults), ...instruction(chance, isFull), ...instruction(chance, isFull));
    yield [...found, "halt"];
  }
}

/** Programs without end: the special ones, the pairs, and random ones. */
export function* programs(isFull, seed = 7) {
  yield* special();
  yield* pairs(isFull);
  yield* atRandom(seed, isFull);
}

/** The text of a program. */
export const sourceOf = (lines) => lines.map((it) => (it.endsWith(":") ? `${it}\n` : `    ${it}\n`)).join("");
