// Reports of two runs, and the records of what retired: where a run and the instructions' own differ.
import { escaped } from "./dom.mjs";

const STOPPED = /Stopped in (\d+) steps? at PC = (0x[0-9a-f]+)\.\s+Status '(\w+)', CC Z=(\d) S=(\d) O=(\d)/;
const NOT_WRITTEN = "not written";
const short = (it) => it.replace(/^0x0+(?=[0-9a-f])/, "0x");
const hex = (it) => (it === undefined ? "nothing" : short(it));
const isSame = (one, other) => BigInt(one) === BigInt(other);

/** A report of `yis` or `psim`, from the line that begins with "Stopped"; null where there is none. */
export function report(text) {
  const stopped = STOPPED.exec(text);
  if (!stopped) return null;
  const registers = {}, memory = {}, whole = text.slice(stopped.index);
  const ran = /^Ran (\d+) cycles?, retired (\d+)/m.exec(text);
  for (const [, name, before, after] of whole.matchAll(/^(%\w+|0x[0-9a-f]+):\t(0x[0-9a-f]+)\t(0x[0-9a-f]+)$/gm))
    (name[0] === "%" ? registers : memory)[name] = [before, after];
  return { steps: Number(stopped[1]), pc: stopped[2], status: stopped[3], flags: stopped.slice(4, 7).join(""),
    registers, memory, cycles: ran && Number(ran[1]), whole };
}

/** The records of `psim --trace`: what retired, and what it changed. */
export function trace(text) {
  const found = [];
  for (const line of text.split("\n")) {
    const it = /^(0x[0-9a-f]+) ([0-9a-f]{2}) (.*?)([01]{3}) ([A-Z]+)$/.exec(line);
    if (!it) continue;
    const changes = [...it[3].matchAll(/(%\w+|\[0x[0-9a-f]+\])=(0x[0-9a-f]+)/g)]
      .map(([, name, word]) => ({ name: name.replace(/^\[0x0+(?=[0-9a-f])/, "[0x"), word: short(word) }));
    found.push({ pc: parseInt(it[1], 16), code: it[2], changes, flags: it[4], status: it[5] });
  }
  return found;
}

function changed(mine, right, kind) {
  const said = [], of = (it, start) => (it ?? [0, start])[1];
  for (const name of new Set([...Object.keys(right[kind]), ...Object.keys(mine[kind])])) {
    const start = (mine[kind][name] ?? right[kind][name])[0], got = of(mine[kind][name], start);
    const want = of(right[kind][name], start);
    if (got !== want)
      said.push(`${kind === "memory" ? `the word at ${short(name)}` : name} is ${hex(got)}, and ${hex(want)} is right`);
  }
  return said;
}

/** What differs between two final reports, a sentence each. */
export function differences(mine, right) {
  const said = [];
  if (mine.status !== right.status) said.push(`the status is ${mine.status}, and ${right.status} is right`);
  if (mine.steps !== right.steps) said.push(`${mine.steps} instructions retired, and ${right.steps} is right`);
  if (!isSame(mine.pc, right.pc)) said.push(`it stopped at ${mine.pc}, and ${right.pc} is right`);
  said.push(...changed(mine, right, "registers"), ...changed(mine, right, "memory"));
  if (mine.flags !== right.flags)
    said.push(`the flags ZF SF OF are ${[...mine.flags].join(" ")}, and ${[...right.flags].join(" ")} is right`);
  return said;
}

const shownFlags = (it) => [...it].join(" ");

/** What differs between two records, `{ name, got, want }` each; flags that aren't known don't. */
function recordDifferences(mine, right) {
  if (!right) return [{ name: "", got: "one more instruction retires", want: "the program has ended" }];
  if (!mine) return [{ name: "", got: "nothing more retires", want: "one more instruction" }];
  const said = [], of = (record, name) => record.changes.findLast((it) => it.name === name)?.word ?? NOT_WRITTEN;
  if (mine.pc !== right.pc)
    said.push({ name: "PC", got: `0x${mine.pc.toString(16)}`, want: `0x${right.pc.toString(16)}` });
  else if (mine.code !== right.code) said.push({ name: "instruction", got: mine.code, want: right.code });
  for (const name of new Set([...right.changes, ...mine.changes].map((it) => it.name)))
    if (of(mine, name) !== of(right, name)) said.push({ name, got: of(mine, name), want: of(right, name) });
  if (mine.flags && mine.flags !== right.flags)
    said.push({ name: "ZF SF OF", got: shownFlags(mine.flags), want: shownFlags(right.flags) });
  if (mine.status !== right.status) said.push({ name: "status", got: mine.status, want: right.status });
  return said;
}

/** A difference of two records in HTML. */
export function differenceHTML({ name, got, want }) {
  const code = `<code>${escaped(name)}</code>`, wrong = `<span class="got">${escaped(got)}</span>`;
  const right = `<span class="want">${escaped(want)}</span>`;
  if (!name) return wrong;
  if (want === NOT_WRITTEN) return `${code} becomes ${wrong}, and <span class="want">should keep its word</span>`;
  return got === NOT_WRITTEN ? `${code} <span class="got">isn’t written</span>; ${right} is right`
    : `${code} is ${wrong}, ${right} is right`;
}

/**
 * The first record in which two runs differ, `{ number, pc, differences }`; null where they agree. Of a run that is cut
 * off the rest isn't known.
 */
export function firstDifference(mine, right, isCut) {
  const most = isCut ? Math.min(mine.length, right.length) : Math.max(mine.length, right.length);
  for (let at = 0; at < most; at++) {
    const differences = recordDifferences(mine[at], right[at]);
    if (differences.length) return { number: at + 1, pc: (mine[at] ?? right[at]).pc, differences };
  }
  return null;
}
