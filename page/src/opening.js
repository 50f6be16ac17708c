// What is opened, as the lines of a schedule: a schedule itself, a record, or the logs of all members. What is no schedule ct_tool reads;
// what it tells of it besides is a note.

import { Fault } from "./fault.js";
import { linesOfRecord } from "./record.js";

export const MOST_BYTES = 67108864; // as much as `ct_tool record` reads
const MOST_LINES = 2000000;
const MOST_LETTERS = 65536;
const MOST_NAMED = 200000; // of a longer record, some 10,000 steps, envelopes go by serials: to name one costs its place in the waiting line

const EXPECTED = /\n\nexpect /; // what ct_tool writes behind the steps: it is longer than lines that a session is told may be

const number = (it) => it.toLocaleString("en");
const isRecord = (text) => /^\s*\{/.test(text);

// The text of bytes.
export function textOf(bytes) {
  try {
    return new TextDecoder("utf-8", { fatal: true, ignoreBOM: true }).decode(bytes);
  } catch {
    throw new Fault("no UTF-8: a schedule, a record or a log is a text");
  }
}

export class Opening {
  constructor(tool, waiting) {
    Object.assign(this, { tool, waiting });
  }

  // The lines of a file, or of the logs of all members, and a note.
  async ofFiles(files) {
    const size = files.reduce((sum, file) => sum + file.size, 0);
    if (size > MOST_BYTES) throw new Fault(`${number(size)} bytes; at most ${number(MOST_BYTES)} are opened`);
    const held = await Promise.all(files.map(async (it) => ({ name: it.name, bytes: new Uint8Array(await it.arrayBuffer()) })));
    if (held.length === 1) return this.ofText(textOf(held[0].bytes));
    const names = held.map((it) => it.name).sort((one, other) => one.localeCompare(other, "en", { numeric: true }));
    const twice = names.find((name, i) => name === names[i + 1]);
    if (twice !== undefined) throw new Fault(`two files of the name ${twice}; the logs of members have names of their own`);
    return this.written(["merge", "--", ...names], { files: held });
  }

  async ofText(text) {
    if (!isRecord(text)) return { lines: linesOf(text), note: "" };
    const isLong = text.length > MOST_NAMED && (await this.run(["check", "-"], { input: text })).status === 0;
    return isLong ? { lines: linesOfRecord(text), note: "" } : this.written(["schedule"], { input: text });
  }

  // The lines that ct_tool writes, up to the last step.
  async written(words, given) {
    const { status, out, err } = await this.run(words, given);
    if (status !== 0) throw new Fault(err.trim() || `ct_tool ${words[0]} ended with status ${status}`);
    return { lines: linesOf(out.slice(0, out.search(EXPECTED) + 1 || undefined)), note: err.trim() };
  }

  run(words, given) {
    return this.waiting.job(this.tool.run(words, given), `ct_tool ${words[0]} ..`);
  }
}

function linesOf(text) {
  let [lines, from] = [0, 0];
  while (from >= 0 && lines <= MOST_LINES) {
    const end = text.indexOf("\n", from);
    if ((end < 0 ? text.length : end) - from > MOST_LETTERS) {
      throw new Fault(`line ${lines + 1} has more than ${number(MOST_LETTERS)} letters, so this is no schedule`);
    }
    from = end < 0 ? end : end + 1;
    lines += 1;
  }
  if (lines > MOST_LINES) throw new Fault(`more than ${number(MOST_LINES)} lines; a run has at most 1,000,000 steps`);
  return text.replace(/\n$/, "").split("\n");
}
