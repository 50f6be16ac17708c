// A walk of the library: the random run that `ct_tool walk` makes of options, asked turn by turn what it tries next.

import { Library } from "./library.js";
import { MOST, must, stepAt, within } from "./steps.js";
import { MAX_BOUND, MAX_CELLS, MAX_MEMBERS, USUAL_CELLS, World } from "./world.js";

const [TURNS, EACH, RATE] = [100000, 1000, 256];
const [KIND, OVER, NOT_OPEN] = [16, 3, 25];

// The options in the order of ct.h: each with its bytes, the value where none is given, and its range.
const optionsOf = (members) => ({
  turns: [4, 1000, 0, TURNS], seed: [4, 0, 0, MOST], batch: [4, MAX_BOUND, 1, MAX_BOUND], every: [4, 0, 0, TURNS],
  rate: [2, 64, 0, RATE], cells: [2, USUAL_CELLS, 0, MAX_CELLS], submit: [2, 8, 0, EACH], postpone: [2, 0, 0, EACH],
  lose: [2, 0, 0, EACH], repeat: [2, 0, 0, EACH], scatter: [2, 0, 0, RATE], lasting: [2, 0, 0, RATE], cut: [2, 0, 0, EACH],
  members: [1, members, 1, MAX_MEMBERS], crash: [1, 0, 0, members], crashes: [1, 0, 0, (members - 1) >> 1],
});

export class Walk {
  constructor(members, options = {}, { library = Library.usual } = {}) {
    this.library = library;
    this.calls = library.calls;
    this.at = library.handle(this, "ct_walk_close");
    this.members = members;
    this.setup = { cells: options.cells, bound: options.batch, library };
    const all = optionsOf(members);
    for (const name of Object.keys(options)) if (!all[name]) throw new TypeError(`no option: ${name}`);
    let at = Number(library.told);
    const view = library.now();
    for (const [name, [bytes, usual, least, most]] of Object.entries(all)) {
      view[`setUint${8 * bytes}`](at, within(name, options[name] ?? usual, least, most), true);
      at += bytes;
    }
    must(this.calls.ct_walk_open(this.at, library.told));
  }

  // A world without steps, with the setup of the one that `ct_tool walk` makes.
  world() {
    return new World(this.members, this.setup);
  }

  // The step that the next turn tries, in this world as it stands, "rest" or "over".
  turn(world) {
    if (world.library !== this.library) throw new TypeError("a world of another library");
    this.calls.ct_walk_turn(this.library.told, this.at, world.at);
    const view = this.library.now();
    const at = Number(this.library.told);
    const kind = view.getUint8(at + KIND);
    if (kind === 0) must(NOT_OPEN);
    return stepAt(view, at) ?? (kind === OVER ? "over" : "rest");
  }

  close() {
    this.calls.ct_walk_close(this.at);
  }
}
