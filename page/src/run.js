// A run: the lines of a schedule that the library took, the first one that it refused, and the steps that they came to.

import { Places } from "./places.js";
import { Session } from "../../bindings/node/session.js";
import { Trips } from "./trips.js";
import { World } from "../../bindings/node/world.js";
import { lineOf, withLongNumbers } from "./record.js";

const BLOCK = 2000;
const FIRST_BLOCK = 64;
const QUICK = 50;
const HEADING = /^\s*((members|cells|batch)([ \t\r].*)?|#(?![0-9]).*)?$/;
const QUESTION = /^(enabled|next|state|waiting|report|record|limits)( |$)/;
const ONE_STEP = /^ *(\d+) +(receive|begin|enter|choose|adopt|suspect|conclude|deliver|follow|postpone|repeat|crash|submit|lose +#)/;

const isOk = (answer) => answer === "ok" || /^ok \d/.test(answer);

// What an answer to a question begins with stands in no fault.
export const isAnswer = (answer) => QUESTION.test(answer);
export const isFault = (answer) => !isOk(answer) && !isAnswer(answer);

export class Run {
  // The run of no lines.
  constructor(library) {
    this.library = library;
    this.live = new Session({ library }); // stands behind the last line, cuts and all
    this.past = new Session({ library }); // stands behind `pastAt` steps of the record
    this.world = null; // has done the steps
    this.lines = []; // those that were taken
    this.ends = []; // by line: how many steps there are behind it
    this.fault = null; // of the first line that was refused: { line, text, answer }
    this.isSettled = false; // a line was told that is no heading, so questions may be asked
    this.group = null;
    this.steps = [];
    this.places = new Places();
    this.trips = null;
    this.pastAt = 0;
    this.told = []; // by step: where its member stands behind it, if that was told with its line
    this.read = 0; // how much of the record's text was read
  }

  close() {
    for (const it of [this.live, this.past, this.world]) it?.close();
  }

  // Judges these lines, the first ones of a run; lines behind one that is refused are left. `told` hears of the share that is done, behind
  // each block of as many lines as don't take long.
  async judge(lines, told = async () => {}) {
    let size = FIRST_BLOCK;
    for (let at = 0; at < lines.length && !this.fault;) {
      const start = performance.now();
      this.take(lines.slice(at, at + size), at);
      at += size;
      size = performance.now() - start < QUICK ? Math.min(2 * size, BLOCK) : Math.max(1, size >> 1);
      await told(Math.min(at, lines.length) / lines.length / 2);
    }
    const news = this.news();
    for (let at = 0; at < news.length; at += BLOCK) {
      this.follow(news.slice(at, at + BLOCK));
      await told(0.5 + at / news.length / 2);
    }
  }

  // Judges one more line: its answer. One that is refused changes nothing, and a question is not kept.
  say(line) {
    const [answer, limits] = this.live.tellAll([line, "limits"]);
    if (isOk(answer)) {
      this.keep(line, limits);
      this.follow(this.news());
    }
    return answer;
  }

  // Tells a block of lines. Behind each one goes a question that tells how many steps it came to or, where it is one, where its
  // member stands then.
  take(block, before) {
    const questions = block.map((line) => this.question(line));
    const answers = this.live.tellAll(block.flatMap((line, i) => (questions[i] ? [line, questions[i]] : [line])));
    let at = 0;
    for (let i = 0; i < block.length; i++) {
      const answer = answers[at++];
      if (isFault(answer)) {
        this.fault = { line: before + i, text: block[i], answer };
        this.goBack();
        return;
      }
      this.keep(block[i], questions[i] ? answers[at++] : "");
    }
  }

  question(line) {
    this.isSettled ||= !HEADING.test(line);
    if (!this.isSettled) return "";
    const member = ONE_STEP.exec(line)?.[1];
    return member ? `state ${member}` : "limits";
  }

  keep(line, told) {
    const before = this.ends.at(-1) ?? 0;
    this.lines.push(line);
    if (told.startsWith("state ")) {
      this.told[before] = told;
      this.ends.push(before + 1);
    } else {
      this.ends.push(Number(/steps (\d+) of/.exec(told)?.[1] ?? before));
    }
  }

  // Has the session stand behind the lines that were taken: those behind the refused one were told, too.
  goBack() {
    this.live.begin();
    for (let at = 0; at < this.lines.length; at += BLOCK) this.live.tellAll(this.lines.slice(at, at + BLOCK));
  }

  // The steps that lines came to since: what the library's record has behind the steps that were read.
  news() {
    if (isFault(this.live.tellAll(["limits"])[0])) return [];
    if (!this.group) this.settle();
    const text = this.live.recordFrom(this.read);
    const steps = text.slice(0, text.lastIndexOf("]"));
    this.read += steps.length;
    return steps === "" ? [] : JSON.parse(withLongNumbers(`[${steps.replace(/^,/, "")}]`));
  }

  // Reads the record's beginning, before its steps.
  settle() {
    const text = this.live.recordFrom(0);
    this.read = text.indexOf("[") + 1;
    const { n, cells, batch } = JSON.parse(`${text.slice(0, this.read)}]}`);
    this.group = { members: n, cells, batch };
    this.trips = new Trips(n);
    this.world = new World(n, { cells, bound: batch, library: this.library });
    this.beginPast();
  }

  beginPast() {
    const { members, cells, batch } = this.group;
    this.past.begin();
    this.past.tellAll([`members ${members}`, `cells ${cells}`, `batch ${batch}`]);
    this.pastAt = 0;
  }

  // Does steps that are new in the world; where their members stand behind them was told, or the past is asked.
  follow(steps) {
    const first = this.steps.length;
    for (const step of steps) {
      this.trips.add(step, this.world.apply(step));
      this.steps.push(step);
    }
    const answers = steps.map((_, i) => this.told[first + i]);
    if (answers.every((answer) => answer !== undefined)) answers.forEach((answer) => this.places.push(answer));
    else this.followInPast(first, steps);
    if (this.steps.length >= this.told.length) this.told = [];
  }

  followInPast(first, steps) {
    this.goTo(first);
    const answers = this.past.tellAll(steps.flatMap((step) => [lineOf(step), `state ${step[1]}`]));
    steps.forEach((_, i) => this.places.push(answers[2 * i + 1]));
    this.pastAt = this.steps.length;
  }

  // Has the session of what was stand behind so many steps.
  goTo(at) {
    if (at < this.pastAt) this.beginPast();
    while (this.pastAt < at) {
      const end = Math.min(at, this.pastAt + BLOCK);
      this.past.tellAll(this.steps.slice(this.pastAt, end).map(lineOf));
      this.pastAt = end;
    }
  }

  // What the library answers to questions behind so many steps.
  askAt(at, questions) {
    this.goTo(at);
    return this.past.tellAll(questions);
  }

  // The line that the last of so many steps is of, or -1.
  lineOf(at) {
    if (at === 0) return -1;
    let [low, high] = [0, this.ends.length];
    while (low < high) {
      const middle = (low + high) >> 1;
      if (this.ends[middle] < at) low = middle + 1;
      else high = middle;
    }
    return low;
  }

  // The lines up to so many steps; of a line that goes on behind them the steps stand as lines of their own.
  linesUpTo(at) {
    let whole = 0;
    while (whole < this.lines.length && this.ends[whole] <= at) whole++;
    const done = whole > 0 ? this.ends[whole - 1] : 0;
    return [...this.lines.slice(0, whole), ...this.steps.slice(done, at).map(lineOf)];
  }
}
