// Whether a program answered. One that lacks memory, or that breaks off, says nothing of its texts.

// Done; done, and it is a no; a fault in a text; a text that is too long.
const OF_THE_TEXTS = [0, 1, 5, 7], NO_MEMORY = 6;

/** What a call ends with that gave no answer. */
export class NoAnswer extends Error {}

/** Why a call gave no answer, as the end of a sentence; nothing where it gave one. */
export function whyNone({ status, fault, err }) {
  if (OF_THE_TEXTS.includes(status)) return "";
  return status === NO_MEMORY ? "ran out of memory" : `gave no answer: ${fault || err.trim() || `status ${status}`}`;
}

/** What a program answers to a call. */
export async function ask(engine, program, words, files) {
  const said = await engine.call(program, words, files), why = whyNone(said);
  if (why) throw new NoAnswer(why);
  return said;
}
