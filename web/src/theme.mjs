// Light and dark: as the system has it, or as the reader chose.
import { by } from "./dom.mjs";
import { state } from "./state.mjs";

const KEY = "y86-workbench-theme", NEXT = { auto: "light", light: "dark", dark: "auto" };
const dark = matchMedia("(prefers-color-scheme: dark)");

function setTheme(it) {
  state.theme = it;
  document.documentElement.dataset.theme = it === "auto" ? (dark.matches ? "dark" : "light") : it;
  by("theme").textContent = `Theme: ${it}`;
  by("theme").setAttribute("aria-label", `Theme: ${it === "auto" ? "as the system" : it}`);
  try {
    localStorage.setItem(KEY, it);
  } catch {
    // (a page may have no storage)
  }
}

export function wireTheme() {
  let kept = "auto";
  try {
    kept = localStorage.getItem(KEY) ?? "auto";
  } catch {
    // (a page may have no storage)
  }
  setTheme(kept in NEXT ? kept : "auto");
  by("theme").onclick = () => setTheme(NEXT[state.theme]);
  dark.addEventListener("change", () => state.theme === "auto" && setTheme("auto"));
}
