// A session of the library: it is told lines of a schedule, and answers each (docs/SCHEDULES.md).

import { Library } from "./library.js";
import { LineRefused, must } from "./steps.js";

// How answers to lines that were taken begin.
const TAKEN = new Set(["ok", "enabled", "next", "state", "waiting", "report", "record", "limits"]);
const NO_LINE = "that is not one line, or a question was told";

export class Session {
  constructor({ library = Library.usual } = {}) {
    this.library = library;
    this.calls = library.calls;
    this.at = library.handle(this, "ct_session_close");
    this.begin();
  }

  // Begins anew, told nothing.
  begin() {
    this.lines = 0; // lines told, the refused ones too
    this.calls.ct_session_close(this.at);
    must(this.calls.ct_session_open(this.at));
  }

  close() {
    this.calls.ct_session_close(this.at);
  }

  // The serials that the line's steps sent: the first one, and how many; or LineRefused.
  tell(line) {
    const told = /^ok(?: (\d+)(?:-(\d+))?)?$/.exec(this.ask(line));
    if (!told) throw new TypeError(NO_LINE);
    const first = Number(told[1] ?? 0);
    return { first, count: told[1] ? Number(told[2] ?? first) - first + 1 : 0 };
  }

  // The answer to the line, which may be a question; or LineRefused.
  ask(line) {
    if (line.includes("\n")) throw new TypeError(NO_LINE);
    const [answer] = this.tellAll([line]);
    if (!TAKEN.has(answer.split(" ", 1)[0])) throw new LineRefused(this.lines, line.trim(), answer);
    return answer;
  }

  // The answers to these lines, one each, also to those that are refused.
  tellAll(lines) {
    if (lines.length === 0) return [];
    const [place, length] = this.library.put(lines.join("\n") + "\n");
    must(this.calls.ct_tell(this.at, place, length));
    this.lines += lines.length;
    return this.answers().split("\n").slice(0, -1);
  }

  // The record so far, as JSON.
  record() {
    return this.recordFrom(0);
  }

  // The same without so many bytes at its beginning.
  recordFrom(from) {
    must(this.calls.ct_record(this.at));
    return this.answers(from);
  }

  // The diagram so far, as SVG.
  diagram() {
    must(this.calls.ct_diagram(this.at));
    return this.answers();
  }

  answers(from = 0) {
    const length = this.calls.ct_answers_length(this.at);
    const place = this.library.wide("out", Number(length));
    this.calls.ct_answers(this.at, place, length);
    return this.library.text(place + BigInt(from), Number(length) - from);
  }
}
