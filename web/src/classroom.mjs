// All processors of a class: the HCL files of a folder, or of every student's folder in it, each with its verdict.
import { whyNone } from "./answers.mjs";
import { by, download, escaped, make } from "./dom.mjs";
import { Engine, Stopped } from "./engine.mjs";
import { PATHS, datapath, knowsIaddq } from "./names.mjs";
import { ruleText } from "./rule_text.mjs";
import { full, isFull, load } from "./texts.mjs";

const LONGEST = 65536, SECONDS = 60, HEADS = ["file", "datapath", "verdict", "obligation", "fault", "settings", "note"];
const grader = new Engine();
// How many tables were begun: a table ends where another begins, or where the dialog is closed.
let begun = 0;

/** Checks one text, for so many seconds at most. Gives a row of the table. */
async function checked(name, text) {
  const path = datapath(text);
  const row = { file: name, datapath: PATHS[path], verdict: "", obligation: "", fault: "", settings: "", note: "" };
  if (new TextEncoder().encode(text).length > LONGEST) return { ...row, verdict: "fault", fault: "TooLong" };
  if (knowsIaddq(text) && !isFull()) row.note = "iaddq wasn’t checked";
  const timer = setTimeout(() => grader.stop(), SECONDS * 1000);
  try {
    const said = await grader.call("y86", ["check", path, "my.hcl", ...full()], { "my.hcl": text });
    return { ...row, ...verdictOf(said) };
  } catch (stopped) {
    if (!(stopped instanceof Stopped)) throw stopped;
    return { ...row, verdict: "none", note: `no answer in ${SECONDS} s` };
  } finally {
    clearTimeout(timer);
  }
}

function verdictOf(said) {
  const { status, out, err } = said, why = whyNone(said);
  if (why) return { verdict: "none", note: why };
  const line = out.split("\n")[0];
  if (status === 0) return { verdict: "yes", settings: line.replace(/^yes ?/, "") };
  if (status === 1) return { verdict: "no", obligation: line.split(" ")[1] };
  return { verdict: "fault", fault: err.split("\n")[0].replace(/^my\.hcl:\s?/, "") };
}

const cell = (text) => (/[",\n]/.test(text) ? `"${text.replace(/"/g, '""')}"` : text);
/** The rows as CSV. A field that a spreadsheet would compute begins with an apostrophe. */
const csvOf = (rows) => [HEADS, ...rows.map((it) => HEADS.map((head) => it[head]))]
  .map((row) => row.map((it) => cell(/^[=+\-@]/.test(it) ? `'${it}` : it)).join(",")).join("\n");

function rowOf(row, text) {
  const open = make("button", { type: "button", className: "small", textContent: "Open" });
  open.setAttribute("aria-label", `Open ${row.file}`);
  open.onclick = () => {
    by("dialog").close();
    load("hcl", text, row.file.split("/").pop());
  };
  const { short } = ruleText(row.obligation, row.datapath === "SEQ+" ? "seqplus" : "pipe");
  const rule = row.obligation && `${row.obligation}: ${short}`;
  const what = [rule, row.fault, row.settings, row.note].filter(Boolean).join("; ");
  const tr = make("tr", { className: row.verdict });
  for (const it of [row.file, row.datapath, row.verdict, what])
    tr.append(make("td", { textContent: it.replace(/`/g, "") }));
  tr.append(make("td", {}, open));
  return tr;
}

async function grade(files) {
  const byPath = (one, other) => pathOf(one).localeCompare(pathOf(other));
  const found = files.filter((it) => /\.hcl$/i.test(it.name)).sort(byPath);
  const rows = [], body = by("class-rows"), said = by("class-said");
  grader.stop();
  const mine = ++begun;
  body.replaceChildren();
  by("class-csv").disabled = true;
  for (const [at, file] of found.entries()) {
    said.textContent = `${at} of ${found.length} files: ${pathOf(file)} …`;
    const text = (await file.text()).replace(/\r\n?/g, "\n");
    const row = mine === begun && await checked(pathOf(file), text);
    if (mine !== begun) return;
    rows.push(row);
    body.append(rowOf(row, text));
  }
  const count = (verdict) => rows.filter((it) => it.verdict === verdict).length;
  const none = count("none") ? `, ${count("none")} without an answer` : "", faults = `${count("fault")} with a fault`;
  const all = `${rows.length} file${rows.length === 1 ? "" : "s"}`;
  said.textContent = `${all}: ${count("yes")} yes, ${count("no")} no, ${faults}${none}.`;
  by("class-csv").disabled = !rows.length;
  by("class-csv").onclick = () => download("class.csv", `${csvOf(rows)}\n`, "text/csv");
}

const pathOf = (file) => file.webkitRelativePath || file.name;

const placed = (file, path) => Object.defineProperty(file, "webkitRelativePath", { value: path });

/** The files of an entry, which is a file or a folder. */
async function filesOf(entry, folder = "") {
  if (entry.isFile)
    return [placed(await new Promise((done, fail) => entry.file(done, fail)), `${folder}${entry.name}`)];
  const reader = entry.createReader(), found = [];
  for (;;) {
    const part = await new Promise((done, fail) => reader.readEntries(done, fail));
    if (!part.length) break;
    for (const it of part) found.push(...(await filesOf(it, `${folder}${entry.name}/`)));
  }
  return found;
}

/** The files of a handle, which is one of a file or of a folder. */
async function filesBy(handle, folder = "") {
  if (handle.kind === "file") return [placed(await handle.getFile(), `${folder}${handle.name}`)];
  const found = [];
  for await (const it of handle.values()) found.push(...(await filesBy(it, `${folder}${handle.name}/`)));
  return found;
}

/** The files of what was dropped. (In a page that is a file, Chrome reads no entries; others have no handles.) */
function dropped(item) {
  if (item.getAsFileSystemHandle) return item.getAsFileSystemHandle().then((it) => filesBy(it));
  return filesOf(item.webkitGetAsEntry());
}

/** Checks what was dropped. */
async function gradeDropped(items) {
  let files = [...items].filter((it) => it.kind === "file").map(dropped);
  try {
    files = await Promise.all(files);
  } catch (fault) {
    by("class-said").textContent = `What was dropped can’t be read (${fault.name}): choose the folder by the button.`;
    return;
  }
  await grade(files.flat());
}

function show() {
  const heads = ["File", "Datapath", "Verdict", "", ""].map((it) => `<th scope="col">${escaped(it)}</th>`).join("");
  by("dialog").classList.add("wide");
  const full = isFull() ? ", iaddq included" : "";
  const what = `Checks every HCL file of a folder${full}. The files stay in this browser.`;
  by("dialog").innerHTML = `<h2 id="dialog-title">A class</h2><p>${what}</p>`
    + `<p class="buttons"><button type="button" class="primary" id="class-pick">Choose a folder</button> `
    + `<button type="button" id="class-csv" disabled>Save as CSV</button>`
    + `<span id="class-said" role="status">Or drop one here.</span></p>`
    + `<div class="scroll"><table class="list"><thead><tr>${heads}</tr></thead><tbody id="class-rows"></tbody></table>`
    + `</div><form method="dialog"><button>Close</button></form>`;
  by("class-pick").onclick = () => by("pick-folder").click();
  by("dialog").showModal();
}

export function wireClassroom() {
  const pick = by("pick-folder"), it = by("dialog");
  by("class").onclick = show;
  pick.onchange = () => {
    grade([...pick.files]);
    pick.value = "";
  };
  it.addEventListener("close", () => {
    it.classList.remove("wide");
    begun++;
    grader.stop();
  });
  it.addEventListener("drop", (event) => {
    if (!by("class-rows")) return;
    event.preventDefault();
    event.stopPropagation();
    gradeDropped(event.dataTransfer.items);
  });
}
