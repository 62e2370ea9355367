// What the pages of docs/ say of an obligation.
import { TEXTS } from "./data.mjs";

/** What an obligation asks and why, and the first sentence of what it asks. */
export function ruleText(rule, path) {
  return TEXTS.rules[path === "seqplus" && rule === "S16" ? "S16 of SEQ+" : rule] ?? { short: "", asks: "", why: "" };
}
