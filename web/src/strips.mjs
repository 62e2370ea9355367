// The strips below the texts: what the caret is at, in words.
import { TEXTS } from "./data.mjs";
import { by, escaped, inline, lineAt } from "./dom.mjs";
import { CONSTANTS, PATHS, datapath } from "./names.mjs";
import { on, state } from "./state.mjs";
import { editors } from "./texts.mjs";

const hasFault = (strip) => strip.classList.contains("bad");

function meaning(word) {
  if (word in CONSTANTS) return `the number ${CONSTANTS[word]}`;
  return TEXTS.names[word] ?? "";
}

/** What the name at the caret is. */
function hclStrip() {
  const strip = by("hcl-strip"), { area, text } = editors.hcl, at = area.selectionStart;
  if (hasFault(strip)) return;
  const word = /\w*$/.exec(text.slice(0, at))[0] + /^\w*/.exec(text.slice(at))[0];
  const told = document.activeElement === area ? meaning(word) : "";
  strip.innerHTML = told ? `<code>${escaped(word)}</code>: ${inline(told)}`
    : `${escaped(state.names.hcl)}: ${PATHS[datapath(text)]}`;
}

/** The bytes of the caret's line, as the listing has them. */
function ysStrip() {
  const strip = by("ys-strip"), { area, text } = editors.ys;
  if (hasFault(strip)) return;
  const number = lineAt(text, area.selectionStart);
  const it = /^\s*(0x[0-9a-f]+): ([0-9a-f]+)/.exec(state.object.split("\n")[number - 1] ?? "");
  const bytes = it && document.activeElement === area ? `, line ${number}: `
    + `<code>${it[1]}: ${it[2].replace(/^(..)(..)?/, "$1 $2 ").trim()}</code>` : "";
  strip.innerHTML = `${escaped(state.names.ys)}${bytes}`;
}

export function wireStrips() {
  for (const it of ["keyup", "click", "focus", "blur"]) {
    editors.hcl.area.addEventListener(it, hclStrip);
    editors.ys.area.addEventListener(it, ysStrip);
  }
  on("verdict", hclStrip);
  on("run", ysStrip);
}
