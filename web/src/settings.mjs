// The settings of a `yes` in words (docs/OBLIGATIONS.md).

const JUMPS = ["jmp", "jle", "jl", "je", "jne", "jge", "jg"];

function jumps(digits) {
  const taken = JUMPS.filter((_, at) => digits[at] === "1");
  if (taken.length === JUMPS.length) return "all";
  return taken.length ? taken.join(", ") : "none";
}

/** The settings of a line as `yes pt=1111111 pb=1111111 tv=0 lf=0 je=0 rm=0`, as sentences. */
export function settings(line) {
  const { pt, pb, tv, lf, je, rm } = Object.fromEntries(line.split(" ").slice(1).map((it) => it.split("=")));
  return [
    pt === pb ? `Jumps predicted as taken: ${jumps(pt)}.` : `Jumps predicted as taken: forward ${jumps(pt)}; backward `
      + `${jumps(pb)}.`,
    `A mispredicted jump costs ${je === "1" ? "one bubble" : "two bubbles"}, a return ${rm === "1" ? "two" : "three"}.`,
    lf === "1" ? "A store needn’t wait for a word that is just loaded." : "A word that is just loaded is waited for.",
    ...(tv === "1" ? ["Jumps carry their target through the ALU."] : []),
  ];
}
