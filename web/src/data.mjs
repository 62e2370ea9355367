// What the page carries: the programs, examples, texts of docs/, and where it comes from.
export const DATA = JSON.parse(document.getElementById("data").textContent);

export const PACKED = DATA.programs;
export const EXAMPLES = DATA.examples;
export const TEXTS = DATA.texts;
export const ABOUT = DATA.about;

/** The example of this name, among those of `hcl` or of `ys`. */
export function example(which, name) {
  return EXAMPLES[which].flatMap(([, list]) => list).find((it) => it.name === name);
}

/** The bytes of a program, unpacked from the page's data. */
export async function unpacked(base64) {
  const packed = Uint8Array.from(atob(base64), (it) => it.charCodeAt(0));
  return new Response(new Blob([packed]).stream().pipeThrough(new DecompressionStream("gzip"))).arrayBuffer();
}
