// Prints what worlds and sessions answer, as the same program in other languages does: bindings/python/tests/asked.py says how it is
// called, bindings/tests/asking.py, walking.py and shrinking.py what it reads. `asked.js lines FILE [once]` tells a session the lines of a
// file, and prints the answers; `asked.js steps FILE` does the steps of one, as bindings/tests/inputs.py writes them, and prints the
// record. Both tell on standard error how many a second.

import { readFileSync, writeSync } from "node:fs";
import { LineRefused, REFUSALS, Session, StepRefused, Walk, World, shrunk } from "../index.js";

const STEPS = ["", "submit", "receive", "begin", "enter", "choose", "adopt", "suspect", "conclude", "deliver", "follow", "crash",
  "postpone", "lose", "repeat"];
const COMMANDS = ["", "set", "add", "copy"];
const INSTANCES = [0, 1, 2, 3, 4, 5, 256, 257];
const LOOKED_BACK = 150;
const ONCE = 5000;

const out = [];
const print = (...words) => out.push(words.join(" "));
const linesOf = (path) => readFileSync(path, "utf8").split("\n").slice(0, -1);
const named = (it) => ` ${it.name}=${it.command.join(",")}`;
const list = (messages) => (messages ? messages.map(named).join("") : " -");

// The step of numbers of ct.h: kind, member, a, b, c.
function stepOf([kind, member, a, b, c]) {
  const [name, p] = [STEPS[kind], Number(member)];
  if (name === "submit") return [name, p, [COMMANDS[a], Number(b), BigInt(c)]];
  return ["receive", "choose", "postpone", "lose", "repeat"].includes(name) ? [name, p, Number(a)] : [name, p];
}

const textOf = (step) => JSON.stringify(step, (_, it) => (typeof it === "bigint" ? Number(it) : it));

function stands({ instance, round, phase, ts, heard, acked, replied, hasCrashed }) {
  const each = (name, members) => ` ${[name, ...members].join(" ")}`;
  const place = `stands ${instance} ${round} ${phase ?? "-"} ${ts}${hasCrashed ? " crashed" : ""}`;
  return place + each("heard", heard.map((it) => `${it.member}:${it.ts}`)) + each("acked", acked) + each("replied", replied);
}

class Asked {
  constructor(members, cells, bound) {
    this.world = new World(members, { cells, bound });
    this.last = 0;
  }

  member(p) {
    const { world } = this;
    const next = world.next(p);
    print("member", p, world.hasCrashed(p) ? "crashed" : "up");
    print(stands(world.standing(p)));
    print("next", next ? textOf(next) : "-");
    print("may", ...[3, 4, 5, 6, 7, 8, 9, 10].map((kind) => world.refusal(stepOf([kind, p, 1])) ?? "ok"));
    print(`waiting${world.waiting(p).map((it) => ` ${it.serial}`).join("")}`);
    print(`received${list(world.received(p))}`);
    print(`delivered${list(world.delivered(p))}`);
    print("table", ...world.table(p));
    for (const instance of INSTANCES) print(`decided ${instance}${list(world.decided(p, instance))}`);
  }

  envelope(serial) {
    const it = this.world.envelope(serial);
    let told = `#${serial} ${it?.kind ?? "-"}`;
    if (it) told += it.kind === "data" ? ` to ${it.to}${named(it.message)}` : ` to ${it.to} ${it.instance}/${it.round}`;
    if (it?.from) told += ` from ${it.from}`;
    if (it?.kind === "est") told += ` ts ${it.ts}`;
    print(`${told} value${list(this.world.value(serial))}`);
  }

  ask() {
    for (let p = 1; p <= this.world.members; p++) this.member(p);
    for (let serial = Math.max(0, this.last - LOOKED_BACK); serial <= this.last + 1; serial++) this.envelope(serial);
  }

  // What the step came to.
  apply(step) {
    try {
      const { first, count } = this.world.apply(step);
      if (count) this.last = first + count - 1;
      return `ok ${first} ${count}`;
    } catch (error) {
      if (!(error instanceof StepRefused)) throw error;
      return `${error.refusal} 0 0`;
    }
  }

  step(times, ...numbers) {
    const step = stepOf(numbers);
    for (let i = 1; i < times; i++) this.apply(step);
    print("came to", this.world.refusal(step) ?? "ok", this.apply(step));
  }

  turns(times, p, receivesFirst) {
    let done = 0;
    for (let i = 0; i < times; i++) {
      let [next, serials] = [this.world.next(p), this.world.serials(p)];
      if (receivesFirst && next?.[0] === "suspect") next = null;
      if (serials.length && (receivesFirst || !next)) next = ["receive", p, serials[0]];
      if (next && this.apply(next).startsWith("ok")) done++;
    }
    print(done);
  }

  record() {
    print(this.world.record());
    const copy = this.world.copy();
    this.world.close();
    this.world = World.ofRecord(copy.record());
    copy.close();
    print(this.world.record());
  }
}

function worlds(path) {
  let asked = null;
  for (const line of linesOf(path)) {
    const [word, ...rest] = line.split(" ");
    const numbers = rest.map(Number);
    if (word === "world") {
      asked?.world.close();
      asked = new Asked(...numbers);
    } else if (word === "step") asked.step(numbers[0], ...rest.slice(1));
    else if (word === "ask") asked.ask();
    else if (word === "record") asked.record();
    else asked.turns(numbers[0], numbers[1], word === "take");
  }
}

// The records of walks with these options, which are in the order of ct.h.
function walks(path) {
  const names = ["turns", "seed", "batch", "every", "rate", "cells", "submit", "postpone", "lose", "repeat", "scatter", "lasting", "cut"];
  for (const line of linesOf(path)) {
    const numbers = line.split(" ").map(Number);
    const [members, crash, crashes] = numbers.splice(names.length);
    const walk = new Walk(members, { crash, crashes, ...Object.fromEntries(names.map((name, i) => [name, numbers[i]])) });
    const world = walk.world();
    for (let turn = walk.turn(world); turn !== "over"; turn = walk.turn(world)) {
      if (turn !== "rest" && world.enabled(turn)) world.apply(turn);
    }
    print(world.record());
    walk.close();
    world.close();
  }
}

// Whether the world shows the goal of this place in GOALS of bindings/tests/shrinking.py.
function shows(goal, world) {
  const members = Array.from({ length: world.members }, (_, i) => i + 1);
  if (goal === "0") return members.some((p) => world.delivered(p).length >= 2);
  if (goal === "1") return members.some((p) => world.standing(p).round >= 3);
  if (goal === "2") return world.decided(1, 1) !== null;
  return members.map((p) => world.standing(p)).every(({ phase, round }) => phase === "Wait" && round >= 2);
}

// The records of smaller runs.
function shrinks(path) {
  for (const line of linesOf(path)) {
    const [goal, names, trials, record] = line.split(" ");
    const world = World.ofRecord(record);
    const least = shrunk(world, (it) => shows(goal, it), { namesMembers: names === "1", trials: Number(trials) });
    print(least.record());
    world.close();
    least.close();
  }
}

function told(session, word, rest) {
  try {
    if (word === "tell") {
      const { first, count } = session.tell(rest);
      return `${first} ${count}`;
    }
    return word === "ask" ? session.ask(rest) : session[word]().trim();
  } catch (error) {
    return error instanceof LineRefused || error instanceof TypeError ? error.message : error.code;
  }
}

function sessions(path) {
  const session = new Session();
  for (const line of linesOf(path)) {
    const [, word, rest] = /^(\w+) ?(.*)$/.exec(line);
    print(told(session, word, rest.replaceAll("\\n", "\n")));
  }
}

function timed(what, count, work) {
  globalThis.gc?.(); // what was read is not what is timed
  const start = performance.now();
  work();
  const took = (performance.now() - start) / 1000;
  console.error(`node: ${count} ${what}, ${took.toFixed(3)} s, ${Math.round(count / took)} ${what}/s`);
}

function lines(path, isOnce) {
  const [all, session] = [linesOf(path), new Session()];
  const size = isOnce ? ONCE : 1;
  timed("lines", all.length, () => {
    for (let at = 0; at < all.length; at += size) out.push(...session.tellAll(all.slice(at, at + size)));
  });
}

function steps(path) {
  const [setup, ...rest] = linesOf(path);
  const [members, cells, bound] = setup.split(" ").map(Number);
  const all = rest.map((line) => stepOf(line.split(" ")));
  const world = new World(members, { cells, bound });
  timed("steps", all.length, () => {
    for (const step of all) world.apply(step);
  });
  print(world.record());
}

// Opens worlds and sessions, closes every other one and forgets the rest: the module's memory stays as it was.
async function many(count) {
  for (let i = 0; i < count; i++) {
    const [world, session] = [new World(3), new Session()];
    world.apply(["submit", 1, ["set", 0, 7]]);
    session.tellAll(["members 3", "1 submit set 0 7"]);
    if (i % 2) [world, session].forEach((it) => it.close());
    if (i % 100 === 0) {
      globalThis.gc();
      await new Promise((done) => setTimeout(done, 0));
    }
  }
  const { byteLength } = new World(1).calls.memory.buffer;
  console.error(`${byteLength} bytes of the module`);
  if (byteLength > 32_000_000) process.exitCode = 1;
}

const [word, path, more] = process.argv.slice(2);
if (word === "names") REFUSALS.forEach((name, i) => print(i + 1, name));
else await { worlds, walks, shrinks, sessions, lines, steps, many }[word](path, more);
const text = Buffer.from(out.map((line) => `${line}\n`).join(""));
for (let at = 0; at < text.length;) at += writeSync(1, text, at);
