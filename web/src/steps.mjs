// The run by instructions, and where the run of the processor first differs from it.
import { differenceHTML } from "./compare.mjs";
import { by, escaped } from "./dom.mjs";
import { instructionAt } from "./outcome.mjs";
import { address } from "./run.mjs";
import { on, state, tell } from "./state.mjs";

const MOST = 2000;
const HEADS = ["#", "address", "instruction", "changes", "ZF SF OF", "status"].map((it) => `<th scope="col">${it}</th>`)
  .join("");

const changes = (it) => it.changes.map(({ name, word }) => `<code>${escaped(name)}</code> = `
  + `<code>${escaped(word)}</code>`).join(", ");

function differsHTML({ number, differences }) {
  return `<tr class="differs"><td></td><td colspan="5">Here the processor differs first: `
    + `${differences.map(differenceHTML).join("; ")} `
    + `<button type="button" class="small" data-record="${number}">Go to its cycle</button></td></tr>`;
}

function rowHTML(right, mine, number, first) {
  const isFirst = number === first?.number, it = right ?? mine, label = state.lines.lineOf[it.pc];
  const cells = `<td>${address(it.pc)}</td><td>${escaped(instructionAt(it.pc))}</td>`
    + `<td>${right ? changes(right) : ""}</td><td>${[...it.flags].join(" ")}</td><td>${it.status}</td>`;
  const kind = isFirst ? "wrong" : first && number > first.number ? "later" : "";
  return `<tr class="${kind}" data-line="${label ?? ""}"><th scope="row">${number}</th>${cells}</tr>`
    + (isFirst ? differsHTML(first) : "");
}

const OVERWRITES = "This program overwrites its own instructions, so they can’t be listed one by one.";
const NO_IADDQ = "The list is made by a pipeline that this page has, and none has iaddq: there is no list.";

function show() {
  const it = state.compared, panel = by("panel-steps");
  if (!it) {
    panel.innerHTML = '<div class="blank">There is no run.</div>';
    return;
  }
  if (!it.steps) {
    panel.innerHTML = `<div class="blank">${it.lacksIaddq ? NO_IADDQ : OVERWRITES}</div>`;
    return;
  }
  const { steps, records, first } = it, count = Math.max(first?.number ?? 0, steps.length);
  const rows = Array.from({ length: Math.min(count, MOST) }, (_, at) =>
    rowHTML(steps[at], records[at] ?? steps[at], at + 1, first));
  const said = first ? `The processor’s run differs first at instruction ${first.number}.`
    : it.isSame ? "The processor’s run is the same." : "";
  const cut = count > MOST ? ` The first ${MOST} of ${count} are listed.` : "";
  const intro = `What each instruction does, one after another. ${said}${cut}`;
  panel.innerHTML = `<div class="card scroll"><p>${intro}</p><table class="list"><thead><tr>${HEADS}</tr></thead>`
    + `<tbody>${rows.join("")}</tbody></table></div>`;
  // (on a phone it is the page that scrolls, and whoever writes would lose the text)
  if (document.activeElement.tagName !== "TEXTAREA")
    panel.querySelector(".wrong")?.scrollIntoView({ block: "center" });
  panel.scrollLeft = 0;
}

export function wireSteps() {
  on("stale", () => by("panel-steps").classList.add("stale"));
  on("run", () => {
    by("panel-steps").classList.remove("stale");
    if (state.tab === "steps") show();
  });
  on("tab", (name) => name === "steps" && show());
  by("panel-steps").addEventListener("click", (event) => {
    const button = event.target.closest("[data-record]");
    if (!button) return;
    tell("goto-record", Number(button.dataset.record));
    // (the button can't be seen any more)
    by("result").focus({ preventScroll: true });
  });
}
