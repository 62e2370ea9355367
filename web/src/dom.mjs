// The page's elements, and texts that are put into them: always as text, never as markup.

export const by = (id) => document.getElementById(id);

const SIGNS = { "&": "&amp;", "<": "&lt;", ">": "&gt;", '"': "&quot;", "'": "&#39;" };
/** A text for HTML or SVG. */
export const escaped = (it) => String(it).replace(/[&<>"']/g, (sign) => SIGNS[sign]);

/** A text of docs/ for HTML, with `code` in backticks. */
export const inline = (it) => escaped(it).replace(/`([^`]+)`/g, "<code>$1</code>");

export function make(tag, properties = {}, ...children) {
  const it = Object.assign(document.createElement(tag), properties);
  it.append(...children);
  return it;
}

/** A small button of a card, by its id. */
export const small = (id, text) => `<button type="button" class="small" id="${id}">${escaped(text)}</button>`;

export function toast(text) {
  const it = by("toast");
  it.textContent = text;
  it.classList.add("on");
  clearTimeout(it.timer);
  it.timer = setTimeout(() => it.classList.remove("on"), 2600);
}

export function download(name, text, type = "text/plain") {
  const href = URL.createObjectURL(new Blob([text], { type }));
  make("a", { href, download: name }).click();
  setTimeout(() => URL.revokeObjectURL(href), 4000);
}

/** Opens the dialog with this content, which is HTML of our own. */
export function dialog(title, html) {
  const it = by("dialog");
  const close = '<form method="dialog"><button class="primary">Close</button></form>';
  it.innerHTML = `<h2 id="dialog-title">${escaped(title)}</h2>${html}${close}`;
  it.showModal();
  return it;
}

const timers = {};
/** Does something once nothing has asked for it again for so many milliseconds. */
export function later(name, ms, does) {
  clearTimeout(timers[name]);
  timers[name] = setTimeout(does, ms);
}

/** The number of the line in which a place of a text is, from 1. */
export const lineAt = (text, offset) => text.slice(0, offset).split("\n").length;

/** Where a line of a text begins. */
export const startOf = (text, line) => text.split("\n").slice(0, line - 1).reduce((sum, it) => sum + it.length + 1, 0);
