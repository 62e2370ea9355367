// Where the definitions of a file are, by its text alone.
import { lineAt } from "../dom.mjs";
import { bare } from "../names.mjs";

/** The lines and offsets of a signal's definition; null where the file has none. */
export function definitionOf(text, name) {
  const plain = bare(text).replace(/'[^'\n]*'/g, (it) => " ".repeat(it.length));
  const head = new RegExp(`\\b(?:word|bool|int)\\s+${name}\\s*=(?!=)`).exec(plain);
  if (!head) return null;
  let depth = 0, end = head.index + head[0].length;
  for (; end < plain.length; end++) {
    if ("[({".includes(plain[end])) depth++;
    else if ("])}".includes(plain[end])) depth--;
    else if (plain[end] === ";" && depth <= 0) break;
  }
  const body = text.slice(head.index + head[0].length, end).replace(/#[^\n]*/g, "").replace(/\s+/g, " ").trim();
  return { start: head.index, end: end + 1, from: lineAt(text, head.index), to: lineAt(text, end), body };
}
