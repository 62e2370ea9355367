// Drawings as files of their own: SVG with the colours of the page.
import { by } from "./dom.mjs";

/** A drawing as an SVG file: its style goes with it, and the colours that the page has now. */
export function standalone(svg) {
  const style = by("drawing").textContent, now = getComputedStyle(document.documentElement);
  const names = [...new Set(style.match(/--(?!h\b)[\w-]+/g))].map((it) => `${it}:${now.getPropertyValue(it).trim()}`)
    .join(";").replace(/"/g, "'");
  const rules = style.replace(/@media[\s\S]*$/, "").replace(/[<&]/g, "");
  return svg.replace(/<svg([^>]*)>/, (_, rest) => {
    const size = / width=/.test(rest) ? "" : ` width="1000" height="418"`;
    return `<svg${rest}${size}><style>svg{${names.replace(/[<&]/g, "")};background:var(--card)} ${rules}</style>`;
  });
}
