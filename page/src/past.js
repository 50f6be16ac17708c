// The schedules that there were: undo and redo.

const MOST = 300;

// A list of lines as it is now: more may come behind.
const kept = (lines) => ({ lines, length: lines.length });

function moved(from, to, now) {
  const it = from.pop();
  if (!it) return undefined;
  to.push(kept(now));
  return it.lines.length === it.length ? it.lines : it.lines.slice(0, it.length);
}

export class Past {
  constructor() {
    this.before = [];
    this.behind = [];
  }

  // Takes down what there was before a change.
  keep(lines) {
    this.before.push(kept(lines));
    if (this.before.length > MOST) this.before.shift();
    this.behind = [];
  }

  // The lines before the last change, or undefined; `now` can be had again.
  undo(now) {
    return moved(this.before, this.behind, now);
  }

  redo(now) {
    return moved(this.behind, this.before, now);
  }
}
