// A shrinker of the library: it makes a run that passes a test of the caller's smaller trial by trial, as `ct_tool shrink` does for a goal.

import { MOST, must, stepAt, within } from "./steps.js";
import { World } from "./world.js";

const TRIALS = 10000; // those of `ct_tool shrink`
const [KIND, IS_OPEN, NOT_OPEN, NO_TRIAL] = [16, 8, 25, 33];

export class Shrinker {
  constructor(world, { namesMembers = false, trials = TRIALS } = {}) {
    this.library = world.library;
    this.calls = world.calls;
    this.at = this.library.handle(this, "ct_shrink_close");
    must(this.calls.ct_shrink_open(this.at, world.at, Number(Boolean(namesMembers)), within("trials", trials, 0, MOST)));
  }

  // Asks for the next trial: whether there is one.
  next() {
    const status = this.calls.ct_shrink_next(this.at);
    if (status !== NO_TRIAL) must(status);
    return status !== NO_TRIAL;
  }

  // The next step of the trial, in this world as it stands, or null behind the last.
  turn(world) {
    this.calls.ct_shrink_turn(this.library.told, this.at, this.own(world));
    const view = this.library.now();
    const at = Number(this.library.told);
    if (view.getUint8(at + KIND) === 0) must(NOT_OPEN);
    return stepAt(view, at);
  }

  // Tells whether the test is passed in this world, in which the trial was made.
  told(world, passed) {
    must(this.calls.ct_shrink_told(this.at, this.own(world), Number(Boolean(passed))));
  }

  // Whether no step can be left out, as far as the trials were told.
  isLeast() {
    if (this.library.now().getUint8(Number(this.at) + IS_OPEN) === 0) must(NOT_OPEN);
    return this.calls.ct_shrink_is_least(this.at) !== 0;
  }

  close() {
    this.calls.ct_shrink_close(this.at);
  }

  own(world) {
    if (world.library !== this.library) throw new TypeError("a world of another library");
    return world.at;
  }
}

// A fresh world in which the steps were applied until it passed, and whether it did.
function tried(shrinker, like, passes) {
  const trial = new World(like.members, like);
  while (!passes(trial)) {
    const step = shrinker.turn(trial);
    if (!step) return [trial, false];
    trial.apply(step);
  }
  return [trial, true];
}

// The smallest run that the trials leave of this world's, which passes.
export function shrunk(world, passes, options = {}) {
  const shrinker = new Shrinker(world, options);
  while (shrinker.next()) {
    const [trial, passed] = tried(shrinker, world, passes);
    shrinker.told(trial, passed);
    trial.close();
  }
  const [least] = tried(shrinker, world, () => false);
  shrinker.close();
  return least;
}
