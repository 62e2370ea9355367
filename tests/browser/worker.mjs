// worker.mjs: runs the page's worker over calls that standard input has as JSON, { programs, calls }, and prints what
// it posts as a line of JSON each. `programs` are files of WebAssembly by name, calls are { program, words, files }.
import { readFileSync } from "node:fs";

const { programs, calls } = JSON.parse(readFileSync(0, "utf8"));
globalThis.self = { postMessage: (it) => console.log(JSON.stringify(it)) };
await import("../../web/src/worker.mjs");

const bytes = Object.fromEntries(Object.entries(programs).map(([name, file]) => [name, readFileSync(file)]));
self.onmessage({ data: { programs: bytes } });
calls.forEach((it, id) => self.onmessage({ data: { id, ...it } }));
