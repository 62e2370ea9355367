// A run on the pipeline beside the run by instructions: where they first differ, as `y86-tell run` says it.

const NAMES = { flags: "ZF SF OF", status: "status" }, NOT_WRITTEN = "not written";
const flagsOf = ({ ZF, SF, OF }) => [ZF, SF, OF].map(Number).join(" ");
const targetOf = (it) => it.register ?? `[${it.address.replace(/^0x0+(?=[0-9a-f])/, "0x")}]`;

/** A word that goes to a register or to memory; the one that was written and the one that should have been. */
function wordDifferences(got, want) {
  const said = [];
  if (got && want && targetOf(got) === targetOf(want)) return [{ name: targetOf(got), got: got.word, want: want.word }];
  if (got) said.push({ name: targetOf(got), got: got.word, want: NOT_WRITTEN });
  if (want) said.push({ name: targetOf(want), got: NOT_WRITTEN, want: want.word });
  return said;
}

function instructionDifferences(retired, wanted) {
  if (retired.address !== wanted.address) return [{ name: "PC", got: retired.address, want: wanted.address }];
  return [{ name: "instruction", got: retired.instruction, want: wanted.instruction }];
}

/** What differs of an instruction that retired, `{ name, got, want }` each. */
function differencesOf({ wrong, retired, wanted }) {
  if (!wanted) return [{ name: "", got: "one more instruction retires", want: "the program has ended" }];
  return wrong.flatMap((part) => {
    if (part === "instruction") return instructionDifferences(retired, wanted);
    if (part === "flags") return [{ name: NAMES.flags, got: flagsOf(retired.flags), want: flagsOf(wanted.flags) }];
    if (part === "status") return [{ name: NAMES.status, got: retired.status, want: wanted.status }];
    return wordDifferences(retired[part], wanted[part]);
  });
}

/**
 * What y86-tell printed of a run: `outcome` (same, instruction, state, limit), `premise`, and `first`, the first
 * instruction that differs, `{ number, pc, differences }`. Null where that is no JSON.
 */
export function lockstep(printed) {
  try {
    const told = JSON.parse(printed), { outcome, premise, instructions, retired } = told;
    if (outcome !== "instruction") return { outcome, premise, first: null };
    const first = { number: instructions + 1, pc: parseInt(retired.address, 16), differences: differencesOf(told) };
    return { outcome, premise, first };
  } catch {
    return null;
  }
}
