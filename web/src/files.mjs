// Files that are opened, dropped and saved.
import { by, download, toast } from "./dom.mjs";
import { state } from "./state.mjs";
import { editors, load } from "./texts.mjs";

const LONGEST = { hcl: 65536, ys: 1048576 }, ACCEPTED = { hcl: ".hcl,text/plain", ys: ".ys,.s,text/plain" };

async function opened(file, which) {
  const as = /\.(ys|s)$/i.test(file.name) ? "ys" : /\.hcl$/i.test(file.name) ? "hcl" : which;
  if (file.size > LONGEST[as])
    return toast(`${file.name} is too long: ${file.size} bytes, and ${LONGEST[as]} are the most`);
  load(as, await file.text(), file.name);
  toast(`${file.name} is open`);
}

function pick(which) {
  const it = by("pick");
  it.accept = ACCEPTED[which];
  it.onchange = () => {
    if (it.files[0]) opened(it.files[0], which);
    it.value = "";
  };
  it.click();
}

function wireDrop(which) {
  const box = by(`${which}-file`);
  box.addEventListener("dragover", (event) => {
    event.preventDefault();
    box.classList.add("over");
  });
  box.addEventListener("dragleave", (event) => {
    if (!box.contains(event.relatedTarget)) box.classList.remove("over");
  });
  box.addEventListener("drop", (event) => {
    event.preventDefault();
    box.classList.remove("over");
    for (const file of event.dataTransfer.files) opened(file, which);
  });
}

export function wireFiles() {
  for (const which of ["hcl", "ys"]) wireDrop(which);
  for (const it of ["dragover", "drop"]) addEventListener(it, (event) => event.preventDefault());
  for (const it of document.querySelectorAll("[data-open]")) it.onclick = () => pick(it.dataset.open);
  for (const it of document.querySelectorAll("[data-save]"))
    it.onclick = () => download(state.names[it.dataset.save], editors[it.dataset.save].text);
}
