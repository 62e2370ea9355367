// A link that carries both texts after its `#`, and what this browser keeps. What a link carries is text: it goes into
// the editors and nowhere else.
import { by, dialog, escaped, later, toast } from "./dom.mjs";
import { on, state } from "./state.mjs";
import { chosen, editors, isFull, load, mark } from "./texts.mjs";

const KEY = "y86-workbench", LONGEST = 1 << 21, LONGEST_NAME = 80;

const toBase64 = (bytes) => btoa(Array.from(bytes, (it) => String.fromCharCode(it)).join("")).replace(/\+/g, "-")
  .replace(/\//g, "_").replace(/=+$/, "");
const fromBase64 = (text) => Uint8Array.from(atob(text.replace(/-/g, "+").replace(/_/g, "/")),
  (it) => it.charCodeAt(0));

async function through(bytes, stream) {
  return new Uint8Array(await new Response(new Blob([bytes]).stream().pipeThrough(stream)).arrayBuffer());
}

/** What a stream gives, if that is no more than a text may have. */
async function unpacked(bytes) {
  const reader = new Blob([bytes]).stream().pipeThrough(new DecompressionStream("deflate-raw")).getReader(), parts = [];
  for (let size = 0; ; ) {
    const { done, value } = await reader.read();
    if (done) return new Blob(parts).text();
    size += value.length;
    if (size > LONGEST) throw new Error("too long");
    parts.push(value);
  }
}

const texts = () => ({ h: editors.hcl.text, p: editors.ys.text, f: isFull() ? 1 : 0,
  n: [state.names.hcl, state.names.ys] });

async function linkOf() {
  const packed = await through(new TextEncoder().encode(JSON.stringify(texts())), new CompressionStream("deflate-raw"));
  return `${location.href.split("#")[0]}#w=${toBase64(packed)}`;
}

/** A name of a file that may be saved under it. */
const nameOf = (it, other) => String(it ?? other).replace(/[^\w.+ -]/g, "_").slice(0, LONGEST_NAME) || other;

function put({ h, p, f, n = [] }) {
  by("full").checked = Boolean(f);
  load("hcl", String(h), nameOf(n[0], "linked.hcl"));
  load("ys", String(p), nameOf(n[1], "linked.ys"));
}

/** Opens what the address carries, and returns whether it carries texts. */
export async function fromLink() {
  const it = /^#w=([\w-]+)$/.exec(location.hash);
  if (!it) return false;
  try {
    put(JSON.parse(await unpacked(fromBase64(it[1]))));
    return true;
  } catch {
    toast("The link is damaged");
    return false;
  }
}

/** Opens what this browser kept, and returns whether it kept something; gives the examples' names too. */
export function fromBefore() {
  try {
    const kept = JSON.parse(localStorage.getItem(KEY));
    if (kept?.h === undefined) return false;
    put(kept);
    mark(kept.e ?? ["", ""]);
    Object.assign(state.own, kept.own);
    return true;
  } catch {
    return false;
  }
}

function keep() {
  const { hcl, ys } = chosen();
  try {
    localStorage.setItem(KEY, JSON.stringify({ ...texts(), e: [hcl, ys], own: state.own }));
  } catch {
    // (a page may have no storage)
  }
}

/** Copies a text that is still being made. (Safari lets a page copy as the button is pressed, and not later.) */
async function copy(text) {
  if (typeof ClipboardItem === "undefined") return navigator.clipboard.writeText(await text);
  const blob = text.then((it) => new Blob([it], { type: "text/plain" }));
  return navigator.clipboard.write([new ClipboardItem({ "text/plain": blob })]);
}

async function copyLink() {
  const link = linkOf(), isCopied = await copy(link).then(() => true, () => false), it = await link;
  history.replaceState(null, "", it);
  if (isCopied) return toast(`The link is copied (${it.length} letters)`);
  dialog("The link", `<textarea readonly aria-label="The link">${escaped(it)}</textarea>`).querySelector("textarea")
    .select();
}

export function wireLinks() {
  by("link").onclick = copyLink;
  on("text", () => later("keep", 600, keep));
  addEventListener("hashchange", fromLink);
}
