// What the page shows and does: a run, where one looks at it, and the lines of its schedule.

import { Columns } from "./columns.js";
import { Fault, Left } from "./fault.js";
import { Past } from "./past.js";
import { Run, isAnswer, isFault } from "./run.js";
import { detail, heading } from "./detail.js";
import { count, faultText, headingOf, linked } from "./wording.js";

const NO_FILTER = { members: null, kinds: null, instance: null };

export class App {
  constructor(library, parts) {
    Object.assign(this, { library, parts, run: new Run(library), lines: [], at: 0, isPast: false, filter: NO_FILTER, history: new Past() });
    this.columns = new Columns(this.run, this.filter);
    this.last = Promise.resolve();
    this.held = { lines: this.lines, length: 0, example: "" };
  }

  get isEnd() {
    return this.at === this.run.steps.length;
  }

  // Does one thing behind the other, and what was typed before it. One that fails or is left changes nothing; `name` is what it is told of.
  do(work, name = "") {
    this.parts.editor.now();
    this.last = this.last.then(() => this.done(work, name));
    return this.last;
  }

  async done(work, name) {
    const { waiting } = this.parts;
    waiting.begin();
    try {
      await work();
    } catch (error) {
      const told = error instanceof Fault ? error.message : `the page failed: ${error.message}`;
      if (error instanceof Left) this.status("Cancelled.");
      else this.alert(`${name && `${name}: `}${told}`);
    } finally {
      waiting.end();
    }
  }

  // A run of these lines, which is judged apart: the one that is shown stays meanwhile.
  async judged(lines) {
    const run = new Run(this.library);
    try {
      await run.judge(lines, (share) => this.parts.waiting.told(share));
      return run;
    } catch (error) {
      run.close();
      throw error;
    }
  }

  // Puts a run that was judged of these lines in the place of the one that is shown.
  put(run, lines, at = null) {
    this.run.close();
    Object.assign(this, { run, lines });
    this.parts.began(this);
    this.columns = new Columns(run, this.filter);
    this.alert("");
    this.status("");
    this.go(at ?? run.steps.length, false);
  }

  // Changes the lines to these; undo goes back.
  change(lines, at = null) {
    return this.do(() => this.renew(lines, at));
  }

  async renew(lines, at = null) {
    const run = await this.judged(lines);
    if (this.lines.length > 0) this.history.keep(this.lines);
    this.put(run, lines, at);
  }

  // Begins a group, unless it is none.
  begin(members) {
    return this.do(async () => {
      await this.renew([`members ${members}`]);
      this.kept();
    });
  }

  // Opens a text, a record or a schedule.
  open(text, at = null, name = "") {
    return this.do(() => this.opened(this.parts.opening.ofText(text), at, name), name);
  }

  // Opens a file, or the logs of all members.
  openFiles(files) {
    const name = files.map((it) => it.name).join(", ");
    return this.do(async () => {
      await this.opened(this.parts.opening.ofFiles(files), null, name);
      this.kept();
    }, name);
  }

  // Opens the lines that come with a note, and tells of what is refused first.
  async opened(coming, at, name) {
    const start = performance.now();
    this.alert("");
    const { lines, note } = await coming;
    await this.renew(lines, at);
    const { fault, steps } = this.run;
    const took = `${count(steps.length, "step")} in ${((performance.now() - start) / 1000).toFixed(2)} s`;
    if (fault) this.alert(`${name && `${name}: `}${faultText(fault)}`);
    const head = `${name && `${name}: `}${fault ? `refused at line ${fault.line + 1}; before it ` : ""}`;
    this.status(`${head}${took}. ${note || headingOf(this.lines)}`.trim());
  }

  // What is shown can be had again, as it is now: from a file, a link or by an example's name.
  kept(example = this.isKept ? this.held.example : "") {
    this.held = { lines: this.lines, length: this.lines.length, example };
    if (!this.run.fault) this.alert("");
    this.parts.controls(this);
  }

  // Whether it is as it was when it could be had again.
  get isKept() {
    const { lines, length } = this.held;
    return length === this.lines.length && (lines === this.lines || this.lines.every((line, i) => line === lines[i]));
  }

  // Tells a line behind those that were taken, or null: then all is shown anew.
  tell(line) {
    return this.do(() => this.say(line));
  }

  async say(line) {
    if (line === null) return this.go(this.at, this.isPast);
    const taken = this.run.lines.length;
    const rest = this.lines.slice(taken);
    if (!isAnswer(line) && rest.some((it) => it.trim() !== "")) return this.insert(line, rest);
    const answer = await this.answer(line);
    if (isFault(answer)) return this.alert(`${line}: ${answer}`);
    this.alert("");
    this.status(isAnswer(answer) ? answer : "");
    if (isAnswer(answer)) return undefined;
    this.parts.step.open = false;
    this.history.keep(this.lines);
    if (rest.length > 0) this.lines = this.lines.slice(0, taken);
    this.lines.push(line);
    return this.go(this.run.steps.length, false);
  }

  // Has a line stand before those that weren't taken.
  async insert(line, rest) {
    const lines = [...this.run.lines, line, ...rest];
    const run = await this.judged(lines);
    if (run.fault?.line === this.run.lines.length) {
      run.close();
      return this.alert(`${line}: ${run.fault.answer}`);
    }
    this.parts.step.open = false;
    this.history.keep(this.lines);
    return this.put(run, lines);
  }

  // What the run answers to a line; where that fails it is judged anew, without the line.
  async answer(line) {
    try {
      return this.run.say(line);
    } catch (error) {
      this.put(await this.judged(this.lines), this.lines);
      throw error;
    }
  }

  // Leaves what comes behind the step that one looks at.
  fork() {
    return this.do(() => this.renew(this.run.linesUpTo(this.at)));
  }

  undo() {
    return this.do(() => this.restore("undo", "redo"));
  }

  redo() {
    return this.do(() => this.restore("redo", "undo"));
  }

  async restore(there, back) {
    const lines = this.history[there](this.lines);
    if (!lines) return;
    try {
      this.put(await this.judged(lines), lines);
    } catch (error) {
      this.history[back](lines);
      throw error;
    }
  }

  // Looks at the run behind so many steps; with `isPast` what didn't come before the last of them is dim.
  go(at, isPast) {
    this.at = Math.max(0, Math.min(at, this.run.steps.length));
    this.isPast = isPast && this.at > 0;
    this.columns.follow();
    this.show();
  }

  // Looks at a step closely.
  look(at) {
    this.parts.step.open = true;
    this.go(at, true);
  }

  // Goes by so many columns.
  move(by) {
    const before = this.columns.before(this.at);
    const column = Math.max(0, Math.min(this.columns.length, before + by));
    this.go(column === 0 ? 0 : this.columns.stepAt(column - 1) + 1, this.isPast);
  }

  // Goes to the last or next step of the member whose step one looks at.
  moveInLine(by) {
    const member = this.run.steps[this.at - 1]?.[1] ?? 1;
    for (let i = this.at - 1 + by; i >= 0 && i < this.run.steps.length; i += by) {
      if (this.run.steps[i][1] === member && this.columns.of(i) >= 0) return this.go(i + 1, this.isPast);
    }
  }

  sift(filter) {
    this.filter = { ...this.filter, ...filter };
    this.columns = new Columns(this.run, this.filter);
    this.show();
  }

  show() {
    const { diagram, members, editor, step, controls } = this.parts;
    diagram.show(this.run, this.columns, this.at, this.isPast);
    step.querySelector("summary").textContent = heading(this.run, this.at);
    step.querySelector("div").innerHTML = step.open ? detail(this.run, this.at) : "";
    members.show(this.run, this.at, this.isEnd);
    editor.show(this.lines, { here: this.run.lineOf(this.at), fault: this.run.fault, taken: this.run.lines.length });
    controls(this);
  }

  alert(text) {
    this.parts.alert.innerHTML = linked(text);
  }

  status(text) {
    this.parts.status.textContent = text;
  }
}
