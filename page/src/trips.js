// The ways of envelopes: each from the step that sent or repeated it to the one that received or lost it; and which steps stand
// before a step, by the order of each member's steps and by envelopes.

import { Ints } from "./ints.js";

const NETWORK = new Set(["postpone", "lose", "repeat"]);
const HOLD = 256;
const NOWHERE = -1;

export class Trips {
  constructor(members) {
    this.members = members;
    this.steps = 0;
    this.from = new Ints(); // by trip: the step, counted from 0, at which it begins; rising
    this.to = new Ints(); // the step at which it ends, or NOWHERE
    this.serial = new Ints();
    this.isLost = new Ints();
    this.open = new Ints(); // by serial: its trip that is under way or was last
    this.sender = new Ints(); // by serial: the step that sent it
    this.first = new Ints(); // by step: its first trip
    this.ending = new Ints(); // by step: the trip that ends there, or NOWHERE
    this.clocks = new Ints(); // by step and member: how many steps there are up to the last one of the member that stands before it
    this.own = new Int32Array(members).fill(NOWHERE); // by member: its last step that is not the network's
    this.last = new Int32Array(members).fill(NOWHERE); // by member: its last step
    this.held = []; // `last` before each HOLD steps
  }

  // Takes a step, and what it sent.
  add([name, member, serial], { first, count }) {
    const at = this.steps++;
    if (at % HOLD === 0) this.held.push(this.last.slice());
    this.first.push(this.from.length);
    const isNetwork = NETWORK.has(name);
    const isReceipt = name === "receive";
    this.ending.push(isReceipt || name === "lose" ? this.end(serial, at, isReceipt ? 0 : 1) : NOWHERE);
    this.order(at, member - 1, isReceipt || isNetwork ? this.sender.at(serial) : NOWHERE, isNetwork);
    for (let i = 0; i < count; i++) {
      this.sender.set(first + i, at);
      this.begin(first + i, at);
    }
    if (name === "repeat") this.begin(serial, at);
    this.last[member - 1] = at;
  }

  begin(serial, at) {
    this.open.set(serial, this.from.length);
    this.from.push(at);
    this.to.push(NOWHERE);
    this.serial.push(serial);
    this.isLost.push(0);
  }

  end(serial, at, isLost) {
    const trip = this.open.at(serial);
    this.to.set(trip, at);
    this.isLost.set(trip, isLost);
    return trip;
  }

  // Puts a step behind its member's last one and the step that sent what it names. What the network does is no step of its member.
  order(at, member, sender, isNetwork) {
    const base = at * this.members;
    this.clocks.room(this.members);
    this.clocks.length += this.members;
    if (sender !== NOWHERE) this.join(base, sender);
    if (isNetwork) return;
    if (this.own[member] !== NOWHERE) this.join(base, this.own[member]);
    this.clocks.all[base + member] = at + 1;
    this.own[member] = at;
  }

  join(base, step) {
    const { all } = this.clocks;
    const other = step * this.members;
    for (let i = 0; i < this.members; i++) if (all[other + i] > all[base + i]) all[base + i] = all[other + i];
  }

  // Whether step `other`, of this member, stands before step `at`, or is it.
  isBefore(other, member, at) {
    return other === at || this.clocks.at(at * this.members + member - 1) > other;
  }

  // The last step of each member before a place, or NOWHERE.
  lastBefore(at, steps) {
    const hold = Math.min(Math.floor(at / HOLD), this.held.length - 1);
    if (hold < 0) return Array(this.members).fill(NOWHERE);
    const last = [...this.held[hold]];
    for (let i = hold * HOLD; i < at; i++) last[steps[i][1] - 1] = i;
    return last;
  }

  // The trips that begin in the steps from `from` to before `to`: the first, and the one behind the last.
  beginning(from, to) {
    return [from < this.steps ? this.first.at(from) : this.from.length, to < this.steps ? this.first.at(to) : this.from.length];
  }

  // The envelopes that a step sent: their trips.
  sentBy(at) {
    const [first, end] = this.beginning(at, at + 1);
    return Array.from({ length: end - first }, (_, i) => first + i);
  }
}
