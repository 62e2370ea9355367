// The two cards with the answers. An answer that is out of date is grey, and says what is being done.
import { by, make } from "./dom.mjs";

const SHOW_STOP = 1200;

/** What a card says first. */
export const head = (badge, title, more = "") => `<h2><span class="badge">${badge}</span> ${title}${more}</h2>`;

/** Greys a card while an engine is at work, with a button to stop it if it takes long. */
export function mark(id, text, engine) {
  const card = by(id);
  card.classList.add("stale");
  card.querySelector(".busy")?.remove();
  const busy = make("span", { className: "busy", textContent: text });
  card.append(busy);
  clearTimeout(card.stopper);
  card.stopper = setTimeout(() => {
    const stop = make("button", { type: "button", className: "small", textContent: "Stop",
      onclick: () => engine.stop() });
    if (busy.isConnected) busy.append(stop);
  }, SHOW_STOP);
}

/** Shows an answer: `kind` is yes, no or nothing. */
export function card(id, kind, html) {
  const it = by(id);
  clearTimeout(it.stopper);
  it.className = `answer ${kind}`;
  it.innerHTML = html;
}

export const isStale = (id) => by(id).classList.contains("stale");
