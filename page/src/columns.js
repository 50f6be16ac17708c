// Which steps are shown: a column each, and the members that have a line.

const NETWORK = ["postpone", "lose", "repeat"];
export const KINDS = ["submit", "data", "consensus", "delivery", "crash", "network"];

export class Columns {
  // All steps of a run, or those that the filter { members, kinds, instance } leaves.
  constructor(run, filter) {
    this.run = run;
    this.filter = filter;
    this.isAll = !filter.members && !filter.kinds && filter.instance === null;
    this.members = filter.members ?? Array.from({ length: run.group?.members ?? 0 }, (_, i) => i + 1);
    this.rows = new Map(this.members.map((member, row) => [member, row]));
    this.shown = [];
    this.seen = 0;
    this.follow();
  }

  // Takes in the steps that came since.
  follow() {
    if (!this.isAll) {
      for (let i = this.seen; i < this.run.steps.length; i++) if (this.isShown(i)) this.shown.push(i);
    }
    this.seen = this.run.steps.length;
    this.length = this.isAll ? this.seen : this.shown.length;
  }

  isShown(at) {
    const [name, member, serial] = this.run.steps[at];
    const { members, kinds, instance } = this.filter;
    if (members && !members.includes(member)) return false;
    const envelope = name === "receive" || NETWORK.includes(name) ? this.run.world.envelope(serial) : null;
    if (kinds && !kinds.includes(kindOf(name, envelope))) return false;
    return instance === null || (envelope ? envelope.instance : this.run.places.at(at).instance) === instance;
  }

  // The step of a column, counted from 0.
  stepAt(column) {
    return this.isAll ? column : this.shown[column];
  }

  // How many columns stand before a step.
  before(step) {
    if (this.isAll) return Math.min(step, this.length);
    let [low, high] = [0, this.shown.length];
    while (low < high) {
      const middle = (low + high) >> 1;
      if (this.shown[middle] < step) low = middle + 1;
      else high = middle;
    }
    return low;
  }

  // The column of a step, or -1 where it is not shown.
  of(step) {
    const column = this.before(step);
    return column < this.length && this.stepAt(column) === step ? column : -1;
  }
}

function kindOf(name, envelope) {
  if (NETWORK.includes(name)) return "network";
  if (name === "receive") return envelope.kind === "data" ? "data" : "consensus";
  if (name === "submit" || name === "crash") return name;
  return name === "deliver" || name === "follow" ? "delivery" : "consensus";
}
