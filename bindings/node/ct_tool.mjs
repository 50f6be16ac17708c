#!/usr/bin/env node
// The program ct_tool under node, with the machine's files and streams. Words are as for the native one (`ct_tool --help`).

import fs from "node:fs";
import { isatty } from "node:tty";
import { run } from "./system.js";

const AGAIN_MILLIS = 5;
const sleep = (millis) => Atomics.wait(new Int32Array(new SharedArrayBuffer(4)), 0, 0, millis);

// A call, once more where a stream that doesn't wait has nothing yet.
function waited(call) {
  for (;;) {
    try {
      return call();
    } catch (error) {
      if (error.code !== "EAGAIN") throw error;
      sleep(AGAIN_MILLIS);
    }
  }
}

// The words, those that are no UTF-8 as such: for their bytes node has put U+FFFD.
const words = process.argv.slice(2).map((word) => (word.includes("\ufffd") ? Uint8Array.of(0xff) : word));

const host = {
  words: ["ct_tool", ...words],
  variable: (name) => process.env[name],
  open: (name, how) => fs.openSync(name, how),
  read: (file, room) => waited(() => fs.readSync(file, room)),
  write: (file, bytes) => waited(() => fs.writeSync(file, bytes)),
  close: (file) => fs.closeSync(file),
  stat: (file, name) => (file < 0 ? fs.statSync(name, { bigint: true }) : fs.fstatSync(file, { bigint: true })),
  isTerminal: isatty,
  clock: () => Number(process.hrtime.bigint()),
  sleep,
};
const file = new URL("./out/tool.wasm", import.meta.url);
if (fs.existsSync(file)) process.exitCode = run(new WebAssembly.Module(fs.readFileSync(file)), host);
else {
  console.error(`no ${file.pathname}: page/build.sh makes it`);
  process.exitCode = 1;
}
