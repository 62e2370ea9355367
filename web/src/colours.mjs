// The colours of a text: HTML with an element for each token.
import { escaped } from "./dom.mjs";
import { CONSTANTS, DEFINED, GIVEN, MNEMONICS } from "./names.mjs";

const ALL_DEFINED = new Set(Object.values(DEFINED).flat());
const ALL_GIVEN = new Set(Object.values(GIVEN).flatMap((it) => [...it]));
const HCL = new RegExp([
  /(#[^\n]*)|('[^'\n]*')|\b(word|bool|int|wordsig|boolsig|intsig|quote|in)\b/,
  /([A-Za-z_]\w*)|(-?\b\d+\b)|(\|\||&&|[!=<>]=?|[:;[\]{}(),])/,
].map((it) => it.source).join("|"), "g");
const ASM = new RegExp([
  /(#[^\n]*)|(^[ \t]*[A-Za-z_.$][\w.$]*:)|(\.\w+)|(%\w+)|(\$?-?0x[0-9a-fA-F]+|\$?-?\b\d+\b)/.source,
  `\\b((?:${MNEMONICS.join("|")})\\b)`,
  /([A-Za-z_$][\w$]*)/.source,
].join("|"), "gm");

const ASM_KINDS = ["", "comment", "label", "word", "given", "number", "defined", "constant"];

function nameKind(name) {
  if (name in CONSTANTS) return "constant";
  return ALL_DEFINED.has(name) ? "defined" : ALL_GIVEN.has(name) ? "given" : "unknown";
}

const kinds = {
  hcl: (it) =>
    (it[1] ? "comment" : it[2] ? "text" : it[3] ? "word" : it[4] ? nameKind(it[4]) : it[5] ? "number" : "sign"),
  ys: (it) => ASM_KINDS[it.findIndex((part, at) => at && part !== undefined)],
};

/** A text of `hcl` or `ys` in colours. */
export function coloured(text, which) {
  let out = "", at = 0;
  for (const it of text.matchAll(which === "hcl" ? HCL : ASM)) {
    out += `${escaped(text.slice(at, it.index))}<i class="${kinds[which](it)}">${escaped(it[0])}</i>`;
    at = it.index + it[0].length;
  }
  return out + escaped(text.slice(at));
}
