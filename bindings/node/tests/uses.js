// What shrinkers leave, and what they throw of wrong uses. asked.js has that what they leave is what ct_tool leaves.

import assert from "node:assert";
import { Shrinker, World, shrunk } from "../index.js";

const closed = (call) => assert.throws(call, { code: "NotOpen" });
const crash = ["crash", 2];
const hasCrashed = (world) => world.hasCrashed(2);
const world = new World(3, { cells: 4 });
world.apply(["submit", 1, ["set", 0, 7]]);
world.apply(crash);

for (const [trials, left] of [[0, world.steps()], [1, [crash]], [10, [crash]]]) {
  assert.deepStrictEqual(shrunk(world, hasCrashed, { namesMembers: true, trials }).steps(), left);
}

const shrinker = new Shrinker(world, { namesMembers: true });
assert.strictEqual(shrinker.isLeast(), false);
assert.throws(() => shrinker.told(world, true), { code: "NoTrial" });
while (shrinker.next()) {
  const trial = new World(3, world);
  for (let step = shrinker.turn(trial); step; step = shrinker.turn(trial)) trial.apply(step);
  shrinker.told(trial, hasCrashed(trial));
}
assert.deepStrictEqual([shrinker.isLeast(), shrinker.next(), shrinker.turn(new World(3, world))], [true, false, crash]);

for (const trials of [-1, 2 ** 32, 1.5]) assert.throws(() => new Shrinker(world, { trials }), RangeError);
const other = new World(3);
other.close();
closed(() => new Shrinker(other));
closed(() => shrunk(other, hasCrashed));
closed(() => shrinker.turn(other));
closed(() => shrinker.told(other, true));
shrinker.close();
shrinker.close();
for (const call of ["next", "turn", "told", "isLeast"]) closed(() => shrinker[call](world, true));
