// The stages as a table: what the drawing shows, in words. It can be seen on a phone, and is there for all who listen.
import { escaped } from "./dom.mjs";
import { NAMES } from "./draw/pipe.mjs";
import { hue } from "./draw/sheet.mjs";

const ACTS = { stall: "stalls", bubble: "bubble next", both: "stall and bubble" };

/** A row: a letter and what it stands for, what is in the stage, and what it does at the end of the cycle. */
export function stageRow(letter, name, row, what, more, does = "", kind = "") {
  return `<tr class="${kind}" style="--h:${hue(row)}"><th scope="row" title="${name}">${letter}</th><td>`
    + `<span class="what">${escaped(what)}</span><small>${escaped(more)}</small></td>`
    + `<td class="act">${escaped(does)}</td></tr>`;
}

/** The rows of a scene of the pipeline; `moreOf(stage)` is what is said of a stage besides. */
export function pipeRows({ stages, next, wanted = {} }, moreOf) {
  const row = (it) => {
    const { kind, text, row: number } = stages[it], does = [ACTS[next[it]], wanted[it]].filter(Boolean).join("; ");
    return stageRow(it, NAMES[it], number, text, moreOf(it), does, kind);
  };
  return [..."FDEMW"].map(row).join("");
}
