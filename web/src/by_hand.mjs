// The page for a test by hand: makes calls in this browser, and says how many gave the answers of the native programs.
import { DATA } from "./data.mjs";
import { by } from "./dom.mjs";
import { Engine, ready } from "./engine.mjs";

/** A sum of a text, as tests/browser/by_hand.py has it. */
function sumOf(text) {
  let sum = 0x811c9dc5;
  for (const byte of new TextEncoder().encode(text)) sum = Math.imul(sum ^ byte, 0x01000193) >>> 0;
  return sum;
}

const engine = new Engine(), { calls } = DATA, wrong = [];
await ready();
for (const [number, { program, words, files, answer }] of calls.entries()) {
  const { status, out, err, fault } = await engine.call(program, words, files);
  if (fault || status !== answer[0] || sumOf(out) !== answer[1] || sumOf(err) !== answer[2])
    wrong.push(`${program} ${words.join(" ")}`);
  by("said").textContent = `${number + 1 - wrong.length} of ${number + 1} calls the same`;
}
by("said").textContent = `${calls.length - wrong.length} of ${calls.length} calls the same, in ${navigator.userAgent}`;
by("wrong").textContent = wrong.join("\n");
window.ready = true;
