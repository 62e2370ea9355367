// A run, from what y86-stages prints (docs/STAGES.md): its cycles, the rows of the diagram, and the state as each cycle
// begins.
import { forwards, hazardOf, told } from "./hazards.mjs";

const pairs = (words) =>
  Object.fromEntries(words.flatMap((it, at) => (at % 2 || at + 1 === words.length ? [] : [[it, words[at + 1]]])));

/** The two parts of a text around the first mark. */
export function split(text, mark) {
  const at = text.indexOf(mark);
  return at < 0 ? [text, ""] : [text.slice(0, at), text.slice(at + mark.length)];
}

function stageOf(rest) {
  const [given, text] = split(rest, " | "), { row, at, next, stat, ...fields } = pairs(given.split(" "));
  return { row: Number(row), at, next, stat, text, fields };
}

function addLine(cycle, head, rest, stageFrom) {
  if (head.length === 1 && "FDEMWP".includes(head)) cycle.stages[head] = stageFrom(rest);
  else if (head === "flags") cycle.flags = pairs(rest.split(" "));
  else if (head === "write") cycle.writes.push(rest.split(" "));
  else if (head === "store") cycle.stores.push(rest.split(" "));
}

/** The cycles of an output and its last line; `stageFrom` reads the line of a stage. */
export function readCycles(text, stageFrom) {
  const cycles = [];
  let end = {};
  for (const line of text.split("\n")) {
    const [head, rest] = split(line, " ");
    if (head === "cycle") cycles.push({ stages: {}, flags: {}, writes: [], stores: [] });
    else if (head === "end") {
      const [status, ...words] = rest.split(" ");
      end = { status, ...pairs(words) };
    } else if (cycles.length) addLine(cycles.at(-1), head, rest, stageFrom);
  }
  return { cycles, end };
}

/** The rows of the diagram: a letter or a blank for each cycle, the instruction, and what the listing has there. */
function rowsOf(diagram) {
  const rows = [];
  for (const line of diagram.split("\n")) {
    const at = line.indexOf(" | ");
    if (at < 0) continue;
    const [what, listed] = split(line.slice(at + 3), " | "), [address, text] = split(what, " ");
    const isBubble = what === "bubble";
    let letters = "";
    for (let column = 2; column < at; column += 3) letters += line[column];
    rows.push({
      letters, listed, isBubble, text: isBubble ? "bubble" : text, at: isBubble ? null : parseInt(address, 16),
      first: letters.search(/\S/), last: letters.trimEnd().length - 1, isCancelled: /[a-z]/.test(letters),
    });
  }
  return rows;
}

/** The bytes of an object file by address. */
function bytesOf(object) {
  const bytes = new Map();
  for (const [, at, digits] of object.matchAll(/^\s*0x([0-9a-fA-F]+):\s*([0-9a-fA-F]+)/gm))
    for (let place = 0; 2 * place < digits.length; place++)
      bytes.set(parseInt(at, 16) + place, parseInt(digits.slice(2 * place, 2 * place + 2), 16));
  return bytes;
}

export const address = (number) => `0x${number.toString(16).padStart(3, "0")}`;

/** The words of memory to show as the run begins: those that it stores, and those that the program lays down. */
function memoryOf(cycles, object) {
  const bytes = bytesOf(object), found = {};
  const laid = [...object.matchAll(/^(0x[0-9a-f]+): [0-9a-f]{16} *\|.*\.quad/gm)]
    .map(([, at]) => address(parseInt(at, 16)));
  for (const at of new Set([...cycles.flatMap((it) => it.stores.map(([place]) => place)), ...laid.slice(0, 64)])) {
    let word = 0n;
    for (let place = 7; place >= 0; place--) word = (word << 8n) | BigInt(bytes.get(parseInt(at, 16) + place) ?? 0);
    found[at] = `0x${word.toString(16)}`;
  }
  return found;
}

/** Gives each cycle the registers and words as it begins. */
function addStates(cycles, start) {
  let registers = {}, memory = start;
  for (const it of cycles) {
    Object.assign(it, { registers, memory });
    if (it.writes.length) registers = { ...registers, ...Object.fromEntries(it.writes) };
    if (it.stores.length) memory = { ...memory, ...Object.fromEntries(it.stores) };
  }
}

/** What the cycle before has changed. */
function freshOf(cycle, before) {
  const fresh = new Set();
  if (!before) return fresh;
  for (const [name] of [...before.writes, ...before.stores]) fresh.add(name);
  for (const name in cycle.flags) if (cycle.flags[name] !== before.flags[name]) fresh.add(name);
  return fresh;
}

/** Gives each cycle its state and what has changed, and returns the memory as the run begins. */
export function withStates(cycles, object) {
  const start = memoryOf(cycles, object);
  addStates(cycles, start);
  cycles.forEach((it, at) => (it.fresh = freshOf(it, cycles[at - 1])));
  return start;
}

/** A run on the pipeline: what y86-stages printed by cycles and as a diagram, and the object file. */
export function readRun(lines, diagram, object) {
  const { cycles, end } = readCycles(lines, stageOf), start = withStates(cycles, object);
  for (const it of cycles) Object.assign(it, { told: told(it.stages), forwards: forwards(it.stages) });
  for (const it of cycles) it.hazard = hazardOf(it.told);
  return { path: "pipe", cycles, rows: rowsOf(diagram), end, start };
}

/**
 * The line of the source of each address, and the address of each line: yas prints a line for each line of the source.
 */
export function sourceLines(object) {
  const lineOf = {}, addressOf = {};
  object.split("\n").forEach((line, at) => {
    const it = /^\s*0x([0-9a-f]+):\s*([0-9a-f]+)/.exec(line);
    if (!it) return;
    const place = parseInt(it[1], 16);
    lineOf[place] ??= at + 1;
    addressOf[at + 1] = place;
  });
  return { lineOf, addressOf };
}

/** Whether a row counts as cancelled in a cycle. */
export function isCancelled(run, row, number) {
  const it = run.rows[row - 1];
  return Boolean(it && !it.isBubble && /[a-z]/.test(it.letters[number - 1] ?? ""));
}

/** What the listing says of a row, without label and comment, or the instruction. */
export function listed(row) {
  if (row.isBubble) return "bubble";
  const it = row.listed.replace(/#.*$/, "").replace(/^[\w.$]+:\s*/, "").trim();
  return it && !/^[\w.$]+:$/.test(it) ? it.replace(/\s+/g, " ") : row.text;
}

