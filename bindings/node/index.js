// The package: the library and the program ct_tool as WebAssembly, under node and in browsers.

import { Library } from "./library.js";
import { held, run } from "./system.js";

export { Session } from "./session.js";
export { Shrinker, shrunk } from "./shrinker.js";
export { LineRefused, REFUSALS, Refused, StepRefused } from "./steps.js";
export { Walk } from "./walk.js";
export { MAX_BOUND, MAX_CELLS, MAX_MEMBERS, World } from "./world.js";

// The bytes of a file beside this one.
async function bytes(address) {
  if (address.protocol !== "file:") return (await fetch(address)).arrayBuffer();
  const { readFile } = await import("node:fs/promises");
  return readFile(address);
}

let program = null;

// Runs ct_tool with these words, this text as standard input and these files, each a name and bytes: its status, and what it wrote.
export async function tool(words, { input = "", files = [] } = {}) {
  program ??= WebAssembly.compile(await bytes(new URL("./out/tool.wasm", import.meta.url)));
  const host = held({ words: ["ct_tool", ...words], input, files });
  const status = run(await program, host);
  return { status, out: await host.written(1), err: await host.written(2) };
}

Library.usual = await Library.load(await bytes(new URL("./out/ct.wasm", import.meta.url)));
const number = Library.usual.calls.ct_version();

// Of the library, as `ct_version` answers it.
export const version = [number / 10000, number / 100 % 100, number % 100].map(Math.floor).join(".");
