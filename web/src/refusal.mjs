// A refusal in the page: the smallest counterexample in the drawing, and what the file says there.
import { by, download, escaped, inline } from "./dom.mjs";
import { datapath } from "./draw/pipe.mjs";
import { seqPath } from "./draw/seq.mjs";
import { standalone } from "./exports.mjs";
import { ruleText } from "./rule_text.mjs";
import { pipeRows } from "./stages.mjs";
import { tell } from "./state.mjs";

const NOT_A_CYCLE = "This is the smallest counterexample to the obligation, not a cycle of your program."
  + " A program that reaches it may be rare, or there may be none.";
const SAVE = '<button type="button" class="small" id="save-no" aria-label="Save this drawing as SVG">Drawing .svg'
  + "</button>";
const OLDEST = " The oldest instruction is on the right.", ANY_WORD = " A “·” may be any word.";

/** What the file says of a signal. */
function signalHTML(it) {
  const want = it.isWrong ? `, and <span class="want">${escaped(it.wanted)}</span> is wanted` : "";
  const all = (it.reads ?? []).map(([name, value]) => `<code>${escaped(name)}</code> = ${escaped(value)}`).join(", ");
  const reads = all ? `<p class="hint">It reads ${all}.</p>` : "";
  const head = `<p><code>${it.name}</code> is <span class="${it.isWrong ? "got" : ""}">${escaped(it.value)}</span>`
    + `${want}</p>${reads}`;
  const code = (line, text) => `<ol class="code">${line}<span>${escaped(text)}</span></li></ol>`;
  if (it.taken) return head + code(`<li data-line="${it.taken.line}" class="taken">`, `${it.taken.text}  ← is taken`);
  return it.source ? head + code(`<li data-line="${it.from}">`, `${it.name} = ${it.source};`) : head;
}

function motionHTML({ motion, brief, where, signals }) {
  const rows = motion.map((it) => `<li class="${it.isStep ? "step" : "both"}">${inline(it.text)}</li>`);
  if (!rows.length) rows.push(`<li class="both">${inline(brief)}</li>`);
  if (where.length) rows.push(`<li class="plain">where ${escaped(where.join(", "))}</li>`);
  const isSaid = rows.length <= 1 && !signals.some((it) => it.isWrong) && !motion.length;
  return isSaid ? "" : `<ul class="told">${rows.join("")}</ul>`;
}

/** The drawing of the situation. */
const drawingOf = ({ scene }, path) => (path === "pipe" ? datapath(scene, "no") : seqPath(scene, "no"));

/** The stages of a situation of the pipeline as a table. */
function stagesHTML({ rule, scene }, path) {
  if (path !== "pipe") return "";
  return `<div class="stages"><table><caption>The stages in the counterexample to ${rule}</caption>`
    + `<tbody>${pipeRows(scene, (it) => scene.stages[it].tag ?? "")}</tbody></table></div>`;
}

/** The obligations that are refuted, to look at one after another. */
function othersHTML({ rule, refusals }) {
  if (refusals.length < 2) return "";
  const button = (it) => `<button type="button" class="small" data-rule="${it.rule}" `
    + `aria-pressed="${it.rule === rule}">${it.rule}</button>`;
  return `<div class="refuted" role="group" aria-label="Refuted obligations">`
    + `<span>Refuted:</span>${refusals.map(button).join("")}</div>`;
}

/** What an obligation asks and why: as y86-tell says it, or as the page of docs/ does. */
function saysOf(rule, path, told) {
  if (!told?.says) return ruleText(rule, path);
  return { asks: told.says.demand, why: `${told.says.reason} CS:APP 3e, ${told.says.book}.` };
}

/** Shows a refusal `{ rule, told, lines, path, refusals }` in the panel for it. */
export function drawRefusal({ rule, told, lines, path, refusals }) {
  const panel = by("panel-no"), said = saysOf(rule, path, told), isPressed = "rule" in document.activeElement.dataset;
  if (!told) {
    panel.innerHTML = `<div class="card"><pre>${escaped(lines.join("\n"))}</pre></div>`;
    return;
  }
  const scene = `<div class="sheet" id="no-path">${drawingOf(told, path)}</div>`;
  const signals = told.signals.map(signalHTML).join("") || "<p>No single signal is known to be wrong.</p>";
  const reading = path === "pipe" ? OLDEST : "", hint = `${NOT_A_CYCLE}${reading}${ANY_WORD}`;
  const asks = `<h3>${rule} asks</h3><p>${inline(said.asks)}</p><h3>Why</h3><p>${inline(said.why)}</p>`
    + `<p class="hint">${hint}</p>`;
  const head = `<div class="cardhead"><h3>What the file says there</h3><span class="grow"></span>${SAVE}</div>`;
  panel.innerHTML = `${othersHTML({ rule, refusals })}${motionHTML(told)}${stagesHTML(told, path)}`
    + `${scene}<div class="two">`
    + `<section class="card">${head}${signals}</section><section class="card">${asks}</section></div>`;
  for (const it of panel.querySelectorAll("[data-rule]")) it.onclick = () => tell("refusal", it.dataset.rule);
  // (the button that was pressed is a new one)
  if (isPressed) panel.querySelector("[aria-pressed=true]")?.focus({ preventScroll: true });
  by("save-no").onclick = () => download(`${rule}.svg`, standalone(drawingOf(told, path)), "image/svg+xml");
}
