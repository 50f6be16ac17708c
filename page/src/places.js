// Where the member of each step stands behind it: its instance, round and phase, as the library tells them.

import { Ints } from "./ints.js";

export class Places {
  constructor() {
    this.instances = new Ints();
    this.rounds = new Ints();
    this.phases = new Ints();
    this.names = [""];
  }

  get length() {
    return this.instances.length;
  }

  // Takes an answer as: state instance 1 round 2 Wait, coordinator 3, ..
  push(answer) {
    const found = /instance (\d+)(?: round (\d+) (\w+))?/.exec(answer);
    this.instances.push(Number(found[1]));
    this.rounds.push(Number(found[2] ?? 0));
    this.phases.push(this.number(found[3] ?? ""));
  }

  number(name) {
    const found = this.names.indexOf(name);
    return found >= 0 ? found : this.names.push(name) - 1;
  }

  at(step) {
    return { instance: this.instances.at(step), round: this.rounds.at(step), phase: this.names[this.phases.at(step)] };
  }
}
