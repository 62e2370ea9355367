// Is the processor right for every program? The check, as its text changes, and the card with its answer.
import { whyNone } from "./answers.mjs";
import { card, head, mark } from "./cards.mjs";
import { by, download, escaped, inline, later, small, toast } from "./dom.mjs";
import { Stopped, has, judge } from "./engine.mjs";
import { faultsOf, moreWords, placeWords } from "./faults.mjs";
import { PATHS, datapath, knowsIaddq } from "./names.mjs";
import { ruleText } from "./rule_text.mjs";
import { settings } from "./settings.mjs";
import { on, state, tell } from "./state.mjs";
import { editors, full, isFull, moment } from "./texts.mjs";
import { refusalsOf } from "./why/told.mjs";

const FILE = "my.hcl", WAIT = 260;

const notAsked = (text) =>
  (knowsIaddq(text) && !isFull() ? " <code>iaddq</code> wasn’t checked: the box at the top includes it." : "");

/** What can be saved of a verdict. */
function saves(path, isYes) {
  if (path !== "pipe") return "";
  const link = (id, text) => `<button type="button" class="textual" id="${id}">${text}</button>`;
  return ` <span class="saves">Save: `
    + `${isYes ? `${link("save-cert", "certificate")}, ` : ""}${link("save-aig", "AIGER")}</span>`;
}

/** The buttons that save. They are new whenever the card is. */
function wireSaves() {
  for (const kind of Object.keys(SAVED)) if (by(`save-${kind}`)) by(`save-${kind}`).onclick = () => save(kind);
}

function showYes(it, path, line) {
  state.verdict = { at: it.at, kind: "yes" };
  const title = path === "pipe" ? "Right for every program" : `${PATHS[path]}: right for every program`;
  const more = path === "pipe" ? ' <small>in which no instruction overwrites one of the next three</small>' : "";
  const said = path === "pipe" ? settings(line).join(" ")
    : "In every cycle this processor does the program’s next instruction.";
  card("verdict", "yes", `${head("yes", title, more)}<p>${escaped(said)}${notAsked(it.hcl)}${saves(path, true)}</p>`);
  wireSaves();
}

/** The signal to look at first, and its line. */
function mainOf(told) {
  const main = told?.signals.find((it) => (it.isWrong || it.isBlamed) && it.from)
    ?? told?.signals.find((it) => it.from);
  return main && (main.taken?.line ?? main.from);
}

/** Shows a refusal: `refusals` explain the obligations that are refuted, of which `shown` is looked at. */
function showNo(it, path, lines, refusals, shown) {
  const told = refusals.find((one) => one.rule === shown) ?? refusals[0], rule = told?.rule ?? lines[0].split(" ")[1];
  const line = mainOf(told);
  state.verdict = { at: it.at, kind: "no", rule, told, refusals, lines, path, of: it };
  const brief = told?.brief ? `<p><b class="got">${inline(told.brief)}</b>`
    + `${line ? ` ${small("goto", `line ${line}`)}` : ""}</p>` : "";
  const others = refusals.map((one) => one.rule).filter((one) => one !== rule);
  const more = others.length ? ` Refuted too: ${others.join(", ")}.` : "";
  const title = head(`no: ${rule}`, "Not right for every program", ` <span class="grow">`
    + `</span>${small("why", "See why")}`);
  card("verdict", "no", `${title}${brief}<p class="soft">${rule}: `
    + `${inline(shortOf(rule, path, told))}${more}${notAsked(it.hcl)}${saves(path, false)}</p>`);
  by("why").onclick = () => tell("why");
  if (line) by("goto").onclick = () => editors.hcl.reveal(line, 1);
  wireSaves();
}

/** An obligation in a line. */
function shortOf(rule, path, told) {
  const demand = told?.says?.demand;
  return demand ? demand.replace(/(\.) .*/s, "$1") : `${ruleText(rule, path).short}.`;
}

/** What y86-tell says of a refusal; none where it gives no answer. */
async function toldOf(it, path) {
  if (!has("y86-tell")) return { refusals: [] };
  const said = await judge.call("y86-tell", ["check", path, FILE, "--json", ...full()], { [FILE]: it.hcl });
  return refusalsOf(it.hcl, said.out, path);
}

/** Explains a refusal. */
async function explain(it, path, lines) {
  const { refusals, first } = await toldOf(it, path);
  if (it.isHcl()) showNo(it, path, lines, refusals, first);
}

async function showFault(it, err) {
  const faults = await faultsOf(judge, "hcl", it.hcl, err);
  if (!it.isHcl()) return;
  state.verdict = { at: it.at, kind: "fault", faults };
  const place = placeWords(faults[0]), where = place ? ` in ${place}${moreWords(faults)}` : "";
  const said = `The processor has a fault${where}: ${faults[0].html}`;
  card("verdict", "", `${head("no answer", "Every program")}<p>${said}</p>`);
}

function showNone(it, why) {
  state.verdict = { at: it.at, kind: "none" };
  card("verdict", "", `${head("no answer", "Every program")}<p>The check ${escaped(why)}.</p>`);
}

function showStopped(it) {
  state.verdict = { at: it.at, kind: "none" };
  card("verdict", "", `${head("stopped", "Every program")}<p class="soft">The check was stopped: no verdict.</p>`
    + `<p>${small("again", "Check again")}</p>`);
  by("again").onclick = () => {
    mark("verdict", "checking …", judge);
    check();
  };
}

async function show(it, path, said) {
  const lines = said.out.trim().split("\n"), why = whyNone(said);
  if (why) showNone(it, why);
  else if (said.status === 0) showYes(it, path, lines[0]);
  else if (said.status === 1) await explain(it, path, lines);
  else await showFault(it, said.err);
  by("verdict").dataset.ms = Math.round(said.ms);
}

async function check() {
  const it = moment(), path = datapath(it.hcl);
  if (judge.isBusy) judge.stop();
  try {
    const said = await judge.call("y86", ["check", path, FILE, ...full()], { [FILE]: it.hcl });
    if (!it.isHcl()) return;
    await show(it, path, said);
    if (!it.isHcl()) return;
  } catch (stopped) {
    if (!(stopped instanceof Stopped)) throw stopped;
    if (!it.isHcl()) return;
    showStopped(it);
  }
  tell("verdict");
}

const SAVED = {
  cert: { words: (path) => ["check", path, FILE, "--cert"], ending: ".crt", what: "certificate" },
  aig: { words: () => ["aig", FILE], ending: ".aag", what: "obligations in AIGER" },
};

/** Makes a certificate, or the obligations in AIGER, and saves it. */
async function save(kind) {
  const { words, ending, what } = SAVED[kind], it = moment(), button = by(`save-${kind}`);
  const name = state.names.hcl.replace(/\.\w+$/, "");
  button.disabled = true;
  try {
    const said = await judge.call("y86", [...words(datapath(it.hcl)), ...full()], { [FILE]: it.hcl });
    if (said.status !== 0) toast(`No ${what}: ${said.err.trim() || `status ${said.status}`}`);
    else {
      download(`${name}${ending}`, said.out);
      toast(`The ${what}: ${Math.ceil(said.out.length / 1e3).toLocaleString("en")} kB`);
    }
  } catch (stopped) {
    if (!(stopped instanceof Stopped)) throw stopped;
  }
  button.disabled = false;
}

/** Looks at another obligation that is refuted, unless the text has changed since. */
function showOther(rule) {
  const { of: it, lines, refusals, path } = state.verdict;
  if (!it.isHcl()) return;
  showNo(it, path, lines, refusals, rule);
  tell("verdict");
}

export function wireVerdict() {
  on("refusal", showOther);
  on("stale", (which) => which === "hcl" && mark("verdict", "checking …", judge));
  on("text", (which) => which === "hcl" && later("check", WAIT, check));
}
