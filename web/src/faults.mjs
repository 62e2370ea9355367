// The faults of a text: where each is, and what to do about it, in the words of y86-tell.
import { escaped, inline, startOf } from "./dom.mjs";
import { has } from "./engine.mjs";
import { datapath } from "./names.mjs";
import { full } from "./texts.mjs";

const FILES = { hcl: "my.hcl", ys: "my.ys" }, BOX = " On this page that is the box “iaddq” at the top.";

/** A fault of y86-tell's JSON: `{ line, column, span, html }`; line and column are 0 where there is none. */
function placed(text, { line, column, found, sentence }) {
  const start = startOf(text, line) + column - 1, hint = sentence.includes("`--full`") ? BOX : "";
  const span = line && column ? [start, start + Math.max(1, found.length)] : null;
  return { line, column, span, html: `${inline(sentence)}${hint}` };
}

/** A fault as y86 says it. */
function plain(err) {
  const [line] = err.split("\n"), at = /^[^:]*:(\d+)(?::(\d+))?: (.*)/.exec(line);
  const said = at?.[3] ?? line.replace(/^[^:]*:\s?/, "");
  return { line: Number(at?.[1] ?? 0), column: Number(at?.[2] ?? 0), span: null, html: escaped(said) };
}

function faultsIn(text, printed) {
  try {
    return JSON.parse(printed).faults.map((it) => placed(text, it));
  } catch {
    return [];
  }
}

/** The faults of a text of `hcl` or `ys` that y86 refuses with this line; of others than y86-tell knows that one. */
export async function faultsOf(engine, which, text, err) {
  const name = FILES[which], words = which === "hcl" ? [name, datapath(text)] : [name];
  if (!has("y86-tell")) return [plain(err)];
  const said = await engine.call("y86-tell", ["fault", ...words, "--json", ...full()], { [name]: text });
  const found = faultsIn(text, said.out);
  return found.length ? found : [plain(err)];
}

/** The place of a fault in words. */
export function placeWords(it) {
  if (!it.line) return "";
  return `line ${it.line}${it.column ? `, column ${it.column}` : ""}`;
}

/** How many faults there are besides the first. */
export const moreWords = (faults) => (faults.length > 1 ? `, and ${faults.length - 1} more` : "");

/** The lines around a fault, with a caret below its place, as HTML. */
export function excerpt(text, it) {
  if (!it.line) return "";
  const lines = text.split("\n"), out = [];
  for (let number = Math.max(1, it.line - 2); number <= Math.min(lines.length, it.line + 2); number++) {
    const line = `<span class="n">${String(number).padStart(4)} | </span>${escaped(lines[number - 1])}`;
    const caret = it.column ? `<b>${" ".repeat(6 + it.column)}^</b>\n` : "";
    out.push(number === it.line ? `<span class="at">${line}</span>${caret}` : `${line}\n`);
  }
  return `<pre class="frame">${out.join("")}</pre>`;
}
