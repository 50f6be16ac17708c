// A world of the library: it is told steps, does each or says why it is refused, and tells of members and envelopes what there is.

import { Library } from "./library.js";
import { MESSAGE_BYTES, MOST, STEP_BYTES, StepRefused, must, nameOf, numbersOf, textOf, within } from "./steps.js";
import { envelopeAt, messageAt, standingAt, stepAt } from "./steps.js";

export const MAX_MEMBERS = 16;
export const MAX_CELLS = 1024;
export const MAX_BOUND = 1048560;
export const USUAL_CELLS = 64;
const [NOT_OPEN, NO_RECORD] = [25, 31];
const [CRASHED, CRASH] = [2, 11];
const VALUE_BYTES = 8;
const SERIAL_BYTES = 4;

export class World {
  constructor(members, { cells = USUAL_CELLS, bound = MAX_BOUND, library = Library.usual } = {}) {
    this.library = library;
    this.calls = library.calls;
    this.at = library.handle(this, "ct_world_close");
    this.members = within("members", members, 1, MAX_MEMBERS);
    this.cells = within("cells", cells, 0, MAX_CELLS);
    this.bound = within("bound", bound, 1, MAX_BOUND);
    must(this.calls.ct_world_open(this.at, members, cells, bound));
  }

  // The world of a record: SyntaxError where the text is none, StepRefused where one of its steps is.
  static ofRecord(text, { library = Library.usual } = {}) {
    const world = new World(1, { library });
    world.close();
    const [place, length] = library.put(text);
    world.calls.ct_open_record(library.told, world.at, place, length);
    const view = library.now();
    const at = Number(library.told);
    const [step, refusal] = [Number(view.getBigUint64(at, true)), view.getUint32(at + 8, true)];
    if (refusal === NO_RECORD) throw new SyntaxError(step ? `no record: step ${step} is none` : "no record");
    if (step) throw new StepRefused(JSON.parse(text).steps[step - 1], nameOf(refusal));
    must(refusal);
    const [bound, cells, members] = [view.getUint32(at + 12, true), view.getUint16(at + 16, true), view.getUint8(at + 18)];
    return Object.assign(world, { members, cells, bound });
  }

  close() {
    this.calls.ct_world_close(this.at);
  }

  copy() {
    const other = new World(this.members, this);
    other.close();
    must(this.calls.ct_copy(this.at, other.at));
    return other;
  }

  // Does the step: the first serial that it sent, and how many; or StepRefused.
  apply(step) {
    const { library, calls } = this;
    const { kind, member, a, b, c } = numbersOf(step);
    calls.ct_apply(library.told, this.at, kind, member, a, b, c);
    if (library.words.length === 0) library.renew();
    const { words, toldWord } = library;
    if (words[toldWord] !== 0) this.refuse(step, words[toldWord]);
    return { first: words[toldWord + 1], count: words[toldWord + 2] };
  }

  // Why the step would be refused now, or null.
  refusal(step) {
    const { kind, member, a, b, c } = numbersOf(step);
    const refusal = this.calls.ct_enabled(this.at, kind, member, a, b, c);
    if (refusal >= NOT_OPEN) must(refusal);
    return refusal === 0 ? null : nameOf(refusal);
  }

  enabled(step) {
    return this.refusal(step) === null;
  }

  next(member) {
    this.calls.ct_next(this.library.told, this.at, this.own(member));
    return stepAt(this.library.now(), Number(this.library.told));
  }

  standing(member) {
    this.calls.ct_standing_of(this.library.told, this.at, this.own(member));
    return standingAt(this.library.now(), Number(this.library.told));
  }

  steps(from = 0) {
    this.mustBeOpen();
    return this.list(STEP_BYTES, stepAt, (room, length) => this.calls.ct_steps(this.at, BigInt(from), room, length));
  }

  // The record: JSON, as `ct replay` and `ct_tool` read it.
  record() {
    const steps = this.steps().map(textOf).join(",");
    return `{"batch":${this.bound},"cells":${this.cells},"n":${this.members},"steps":[${steps}],"version":3}`;
  }

  serials(member) {
    const own = this.own(member);
    return this.list(SERIAL_BYTES, (view, at) => view.getUint32(at, true), (...room) => this.calls.ct_waiting(this.at, own, ...room));
  }

  waiting(member) {
    return this.serials(member).map((serial) => this.envelope(serial));
  }

  envelope(serial) {
    this.mustBeOpen();
    this.calls.ct_envelope(this.library.told, this.at, within("serial", serial, 0, MOST));
    return envelopeAt(this.library.now(), Number(this.library.told), serial);
  }

  value(serial) {
    this.mustBeOpen();
    return this.messages((...room) => this.calls.ct_value(this.at, within("serial", serial, 0, MOST), ...room));
  }

  received(member) {
    return this.messages((...room) => this.calls.ct_received(this.at, this.own(member), ...room));
  }

  decided(member, instance) {
    const own = this.own(member);
    return this.messages((...room) => this.calls.ct_decided(this.at, own, within("instance", instance, 0, MOST), ...room));
  }

  delivered(member) {
    return this.messages((...room) => this.calls.ct_delivered(this.at, this.own(member), ...room));
  }

  table(member) {
    const own = this.own(member);
    return this.list(VALUE_BYTES, (view, at) => view.getBigUint64(at, true), (...room) => this.calls.ct_table(this.at, own, ...room));
  }

  hasCrashed(member) {
    return this.calls.ct_enabled(this.at, CRASH, this.own(member), 0, 0, 0n) === CRASHED;
  }

  messages(call) {
    return this.list(MESSAGE_BYTES, messageAt, call);
  }

  list(size, element, call) {
    return this.library.list(size, element, call);
  }

  mustBeOpen() {
    if (this.calls.ct_steps(this.at, 0n, 0n, 0n) === -1n) must(NOT_OPEN);
  }

  // The number of a member, of a world that is open.
  own(member) {
    this.mustBeOpen();
    return within("member", member, 1, this.members);
  }

  refuse(step, refusal) {
    if (refusal < NOT_OPEN) throw new StepRefused(step, nameOf(refusal));
    must(refusal);
  }
}
