// What the page does without a browser, over the modules of bindings/node/out: runs and their steps, and what is opened.

import assert from "node:assert/strict";
import { readFileSync, readdirSync } from "node:fs";
import { test } from "node:test";
import { Session, tool, World } from "../../bindings/node/index.js";
import { Library } from "../../bindings/node/library.js";
import { Run } from "../src/run.js";
import { lineOf, linesOfRecord } from "../src/record.js";
import { asked, packed } from "../src/link.js";
import { envelopeText } from "../src/wording.js";

const EXAMPLES = new URL("../../examples/", import.meta.url);
const names = readdirSync(EXAMPLES).filter((it) => it.endsWith(".schedule"));
const linesIn = (name) => readFileSync(new URL(name, EXAMPLES), "utf8").trimEnd().split("\n");

async function judged(lines) {
  const run = new Run(Library.usual);
  await run.judge(lines);
  return run;
}

for (const name of names) {
  test(`the run of ${name} is that of ct_tool`, async () => {
    const run = await judged(linesIn(name));
    const { status, out } = await tool(["record", name], { files: [{ name, bytes: readFileSync(new URL(name, EXAMPLES)) }] });
    assert.equal(run.fault, null);
    assert.equal(status, 0);
    assert.equal(`${run.live.record()}\n`, out);
    assert.equal(run.steps.length, JSON.parse(out).steps.length);
    assert.equal(run.places.length, run.steps.length);
    assert.deepEqual(linesOfRecord(out).slice(3), run.steps.map(lineOf));
    assert.equal(World.ofRecord(out).record(), out.trim());
    for (let serial = 1; serial <= run.trips.open.length - 1; serial++) assert.match(envelopeText(run.world, serial), /^#\d+ [a-z]+ /);
    run.close();
  });
}

test("a refused line stays out, and tells why", async () => {
  const run = await judged(["members 3", "1 submit set 0 7", "1 begin", "1 enter"]);
  assert.deepEqual(run.fault, { line: 2, text: "1 begin", answer: "refused 1 Nothing: instance 0 idle" });
  assert.deepEqual(run.lines, ["members 3", "1 submit set 0 7"]);
  assert.equal(run.say("1 receive data 1.1"), "ok");
  assert.equal(run.steps.length, 2);
});

// Node 18 has no streams of this form.
const packs = () => {
  try {
    return Boolean(new CompressionStream("deflate-raw"));
  } catch {
    return false;
  }
};

test("a link holds its run", { skip: !packs() }, async () => {
  const text = linesIn(names[0]).join("\n");
  assert.deepEqual(await asked(`#s=${await packed(text)}&at=3`, {}), { text, at: 3, name: "" });
  await assert.rejects(asked("#s=nothing", {}), /the link is damaged/);
});

test("the program ends as it does elsewhere", async () => {
  assert.deepEqual(await tool(["steps", "nowhere.json"]), { status: 4, out: "", err: "nowhere.json: no such file\n" });
  assert.deepEqual(await tool(["record"], { input: "members 1\n1 begin\n" }),
    { status: 1, out: "", err: "line 2: 1 begin: refused 1 Nothing: instance 0 idle\n" });
});

test("what is closed is refused, as are numbers out of range", () => {
  const [world, session] = [new World(3), new Session()];
  assert.throws(() => world.apply(["begin", 256]), RangeError);
  assert.throws(() => world.apply(["receive", 1, -1]), RangeError);
  assert.throws(() => world.apply(["submit", 1, ["set", 0, 2 ** 60]]), RangeError);
  assert.throws(() => world.apply(["start", 1]), TypeError);
  assert.throws(() => world.delivered(4), RangeError);
  assert.throws(() => new World(17), RangeError);
  assert.throws(() => World.ofRecord("{}"), SyntaxError);
  world.close();
  session.close();
  for (const call of [
    () => world.apply(["begin", 1]), () => world.table(1), () => world.steps(), () => world.record(), () => world.envelope(1),
    () => world.value(1), () => session.ask("limits"),
  ]) {
    assert.throws(call, { code: "NotOpen" });
  }
});
