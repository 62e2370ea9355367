// Does this program come out right? Its run under the processor, beside the run by instructions, and the card with the
// answer.
import { NoAnswer, ask } from "./answers.mjs";
import { card, head, isStale, mark } from "./cards.mjs";
import { differenceHTML, differences, firstDifference, report, trace } from "./compare.mjs";
import { example } from "./data.mjs";
import { by, escaped, later, small } from "./dom.mjs";
import { Stopped, has, runner } from "./engine.mjs";
import { noFault, showFaults } from "./fault_view.mjs";
import { excerpt, faultsOf, moreWords, placeWords } from "./faults.mjs";
import { lockstep } from "./lockstep.mjs";
import { datapath } from "./names.mjs";
import { address, readRun, sourceLines } from "./run.mjs";
import { readSeqRun, seqRecords } from "./seqrun.mjs";
import { on, state, tell } from "./state.mjs";
import { editors, full, isFull, moment } from "./texts.mjs";

const WAIT = 260, SHOWN = 2000, MOST_FAULTS = 5, LIMIT = "10,000";
const SOURCE = "my.ys", OBJECT = "my.yo", DESIGN = "my.hcl", BOOK = "book.hcl";
const COMMANDS = {
  pipe: ["psim", DESIGN, OBJECT, "--trace"], seq: ["ssim", DESIGN, OBJECT], seqplus: ["ssimp", DESIGN, OBJECT],
};
const ENDS = {
  HLT: "Ends at a halt.", AOK: `Runs to the limit of ${LIMIT}.`, ADR: "Ends with a bad address (ADR).",
  INS: "Ends with an invalid instruction (INS).", PIP: "A register was stalled and bubbled at once (PIP).",
};

/** The pipeline of the examples that is right: what retires there is what the instructions do. */
const bookDesign = () => (example("hcl", isFull() ? "with_iaddq.hcl" : "std.hcl")
  ?? example("hcl", "std.hcl")).text;
/** Whether that one lacks iaddq: a page without solutions has none with it. */
const lacksIaddq = () => isFull() && !example("hcl", "with_iaddq.hcl");

/** Whether a store of these records meets code of the listing. */
function writesCode(listing, records) {
  const code = new Set();
  for (const [, at, digits, source] of listing.matchAll(/^0x([0-9a-f]+): ([0-9a-f]+) *\|(.*)$/gm))
    if (!source.includes(".quad"))
      for (let place = 0; place < digits.length / 2; place++) code.add(parseInt(at, 16) + place);
  const stores = records.flatMap((it) => it.changes).filter((it) => it.name[0] === "[")
    .map((it) => parseInt(it.name.slice(1), 16));
  return stores.some((at) => [0, 1, 2, 3, 4, 5, 6, 7].some((place) => code.has(at + place)));
}

/**
 * What each instruction does: the records of the book's pipeline, or null if its run isn't that by instructions. (At
 * the limit of cycles it has fewer.)
 */
function bookSteps(listing, right, book) {
  const reference = report(book.out), steps = trace(book.out);
  if (!right || !reference) return null;
  const isPart = reference.status === "AOK" && !writesCode(listing, steps);
  return isPart || right.whole === reference.whole ? steps : null;
}

/** The records that y86-tell finds right. */
const rightRecords = (records, { first }) => (first ? records.slice(0, first.number - 1) : records);

/** The two runs compared: records by instructions and by the machine, and the number of the first that differs. */
function compared(path, listing, ran, by_, book, run, told) {
  const right = report(by_.out), mine = report(ran.out), steps = bookSteps(listing, right, book);
  const records = path === "pipe" ? trace(ran.out) : run ? seqRecords(run) : [];
  const found = { path, right, mine, records, steps, premise: told?.premise };
  found.lacksIaddq = !steps && lacksIaddq() && !writesCode(listing, records);
  const isSame = Boolean(right && mine) && right.whole === mine.whole;
  if (path === "pipe") {
    const { outcome, first = null } = told ?? { outcome: isSame ? "same" : "state" };
    if (found.lacksIaddq && told) found.steps = rightRecords(records, told);
    return { ...found, isSame: outcome === "same", isCut: outcome === "limit", first };
  }
  // (of a long run the first cycles are there)
  const isPart = right?.status === "AOK" || records.length < mine?.steps;
  const first = steps && records.length ? firstDifference(records, steps, isPart) : null;
  return { ...found, isSame, isCut: false, first };
}

/** Runs the program on the processor, by instructions and on the book's pipeline, and shows what came out. */
async function answer(it, path, flags) {
  const made = await ask(runner, "y86", ["yas", SOURCE, ...flags], { [SOURCE]: it.ys });
  if (!it.isBoth()) return;
  if (made.status !== 0) return showSourceFault(it, made.err);
  editors.ys.show([], []);
  noFault("ys");
  const files = { [DESIGN]: it.hcl, [OBJECT]: made.out, [BOOK]: bookDesign() };
  const ran = await ask(runner, "y86", [...COMMANDS[path], ...flags], files);
  if (ran.status > 1) return showNoRun(it, ran, made.out);
  const by_ = await ask(runner, "y86", ["yis", OBJECT, ...flags], files);
  const book = await ask(runner, "y86", ["psim", BOOK, OBJECT, "--trace", ...flags], files);
  const staged = await STAGED[path](path, files, flags, made.out), told = await toldOf(path, files, flags);
  if (!it.isBoth()) return;
  Object.assign(state, { object: made.out, lines: sourceLines(made.out),
    compared: compared(path, made.out, ran, by_, book, staged, told) });
  showRun(staged);
}

async function run() {
  const it = moment();
  if (runner.isBusy) runner.stop();
  try {
    await answer(it, datapath(it.hcl), full());
  } catch (none) {
    if (none instanceof Stopped) return it.isBoth() && showStopped();
    if (!(none instanceof NoAnswer)) throw none;
    if (it.isBoth()) showNone(none.message);
  }
}

/** Where the pipeline first differs from the instructions, as y86-tell says it. */
async function toldOf(path, files, flags) {
  if (path !== "pipe" || !has("y86-tell")) return null;
  const words = ["run", DESIGN, OBJECT, "--json", "--unchecked", ...flags];
  return lockstep((await ask(runner, "y86-tell", words, files)).out);
}

const stageWords = (flags) => [DESIGN, OBJECT, "--to", String(SHOWN), ...flags];

/** The run on the pipeline by cycles: what y86-stages prints of it, and its diagram. */
async function pipeRun(_, files, flags, object) {
  const lines = await ask(runner, "y86-stages", stageWords(flags), files);
  const diagram = await ask(runner, "y86-stages", [...stageWords(flags), "--diagram"], files);
  return readRun(lines.out, diagram.out, object);
}

/** The run on SEQ or SEQ+ by cycles. */
async function seqRun(path, files, flags, object) {
  const lines = await ask(runner, "y86-stages", [...stageWords(flags), `--${path}`], files);
  return readSeqRun(path, lines.out, object);
}

const STAGED = { pipe: pipeRun, seq: seqRun, seqplus: seqRun };

function showRun(run) {
  state.run = run;
  by("blank").hidden = true;
  by("shown").hidden = by("controls").hidden = false;
  by("shown").classList.remove("stale");
  by("shown").removeAttribute("aria-busy");
  tell("run");
  outcome();
}

/** Shows that there is no run; of a program that assembles there is `object`. */
function noRun(html, why, which, faults, object = "") {
  Object.assign(state, { run: null, compared: null, object, lines: sourceLines(object) });
  card("outcome", "", html);
  blank(why, which, faults);
  tell("run");
  tell("breaks");
}

async function showSourceFault(it, err) {
  const faults = await faultsOf(runner, "ys", it.ys, err);
  if (!it.isBoth()) return;
  const place = placeWords(faults[0]), where = place ? ` in ${place}${moreWords(faults)}` : "";
  showFaults("ys", faults);
  const said = `${head("no run", "This program")}<p>The program has a fault${where}: ${faults[0].html}</p>`;
  noRun(said, "The program has a fault, so there is no run to show.", "ys", faults);
}

/** The run lacked memory, or broke off. */
function showNone(why) {
  noRun(`${head("no answer", "This program")}<p>The run ${escaped(why)}.</p>`, "There is no run to show.");
}

async function showNoRun(it, ran, object) {
  const faults = await faultsOf(runner, "hcl", it.hcl, ran.err);
  if (!it.isBoth()) return;
  const said = `${head("no run", "This program")}<p>It assembles; the processor has a fault, so it can’t run.</p>`;
  noRun(said, "The processor has a fault, so there is no run to show.", "hcl", faults, object);
}

function showStopped() {
  noRun(`${head("stopped", "This program")}<p>The run was stopped. ${small("rerun", "Run again")}</p>`,
    "The run was stopped.");
  by("rerun").onclick = () => {
    mark("outcome", "running …", runner);
    run();
  };
}

/** A fault with the lines around it. */
function faultHTML(which, it) {
  const file = `${state.names[which]}${it.line ? `, ${placeWords(it)}` : ""}`;
  return `<p><b>${escaped(file)}</b>: ${it.html}</p>${excerpt(editors[which].text, it)}`;
}

/** In place of a run, why there is none. */
function blank(text, which, faults = []) {
  const it = by("blank"), rest = faults.length > MOST_FAULTS ? `<p>${faults.length - MOST_FAULTS} more.</p>` : "";
  it.hidden = false;
  it.className = "blank warn";
  const shown = faults.slice(0, MOST_FAULTS).map((fault) => faultHTML(which, fault)).join("");
  it.innerHTML = `<p>${escaped(text)}</p>${shown}${rest}`;
  by("shown").hidden = true;
  by("shown").classList.remove("stale");
  by("controls").hidden = true;
  editors.ys.at(0, "here");
}

function ranWords(mine) {
  if (!mine.cycles) return `${mine.steps} cycles.`;
  const each = mine.steps ? `, ${(mine.cycles / mine.steps).toFixed(2)} cycles an instruction` : "";
  return `${mine.cycles} cycles, ${mine.steps} retired${each}.`;
}

/** The card of this program. What it says depends on the verdict, too. */
function outcome() {
  const it = state.compared;
  if (!it?.mine || !it.right) return it && card("outcome", "", head("no report", "This program"));
  if (it.isSame) return showSame(it);
  if (it.isCut) return showCut(it);
  return showDifferent(it);
}

function showCut({ mine, records }) {
  const said = `What retired, ${records.length} instructions, is what the instructions do.`;
  card("outcome", "", `${head("limit", "This program: no end within the limit")}<p>${ranWords(mine)}</p>`
    + `<p class="soft">${said}</p>`);
}

/** Whether the verdict speaks of this program. */
const premiseWords = ({ premise }) => (premise === "fails"
  ? " It fetches what one of the three instructions before stored, so the verdict doesn’t speak of it." : "");

function showSame(it) {
  const { mine, path } = it;
  const isRefused = state.verdict?.kind === "no" && state.verdict.at === state.changes.hcl;
  const others = isRefused ? ` <b class="got">Another may not.</b> ${small("find", "Find one")}` : "";
  card("outcome", "yes", `${head("same report", "This program comes out right")}<p>${ENDS[mine.status] ?? mine.status} `
    + `${ranWords(mine)}</p><p class="soft">Its report is that of the run by instructions.`
    + `${premiseWords(it)}${others}</p>`);
  if (isRefused) by("find").onclick = () => tell("find", path);
}

/** The instruction at an address, as the run or the listing has it. */
export function instructionAt(pc) {
  const row = state.run?.rows.find((it) => it.at === pc), line = state.lines.lineOf[pc];
  const source = line ? editors.ys.text.split("\n")[line - 1].replace(/#.*/, "").replace(/^\s*[\w.$]+:/, "").trim()
    .replace(/\s+/g, " ") : "";
  return row?.text ?? source;
}

function whereHTML({ first }) {
  if (!first) return "";
  const { number, pc, differences: [difference] } = first, code = escaped(`${address(pc)} ${instructionAt(pc)}`);
  return `<p>First wrong: instruction ${number}, <button type="button" class="small" id="wrong-at"><code>${code}</code>`
    + `</button> ${differenceHTML(difference)}</p>`;
}

function showDifferent(it) {
  const said = differences(it.mine, it.right), more = said.length > 1 ? `; ${said.length - 1} more` : "";
  const end = said.length ? `At the end ${escaped(said[0])}${more}. ` : "";
  card("outcome", "no", `${head("differs", "This program comes out wrong")}${whereHTML(it)}<p class="soft">`
    + `${end}${ranWords(it.mine)}${premiseWords(it)}</p>`);
  if (by("wrong-at")) {
    by("wrong-at").title = "Go to the cycle in which it is decoded";
    by("wrong-at").onclick = () => tell("goto-record", it.first.number);
  }
  if (it.first) tell("wrong", it.first.number);
}

export function wireOutcome() {
  on("stale", (which) => {
    if (which === "ys") state.object = "";
    mark("outcome", "running …", runner);
    by("shown").classList.add("stale");
    by("shown").setAttribute("aria-busy", "true");
  });
  on("text", () => later("run", WAIT, run));
  on("verdict", () => !isStale("outcome") && outcome());
}
