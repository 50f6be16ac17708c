// The shades behind members' lines: the round in which a member is, as the library tells it, or that it crashed.

const HEIGHT = 34;

export function shades(run, layout) {
  const { columns, from, to } = layout;
  if (from >= to) return "";
  const first = columns.stepAt(from);
  const end = columns.stepAt(to - 1) + 1;
  const rows = columns.members.map((member) => ({ member, x: layout.x(from) - layout.width / 2, look: "" }));
  const byMember = new Map(rows.map((row) => [row.member, row]));
  run.trips.lastBefore(first, run.steps).forEach((step, i) => {
    if (step >= 0 && byMember.has(i + 1)) byMember.get(i + 1).look = lookBehind(run, step);
  });
  const all = [];
  for (let step = first; step < end; step++) {
    const row = byMember.get(run.steps[step][1]);
    const look = row ? lookBehind(run, step) : "";
    if (!row || look === row.look) continue;
    const x = layout.x(columns.before(step));
    all.push(band(layout, row, x));
    Object.assign(row, { x, look });
  }
  for (const row of rows) all.push(band(layout, row, layout.x(to) - layout.width / 2));
  return all.join("");
}

function band(layout, { member, x, look }, end) {
  if (!look || end <= x) return "";
  return `<rect class="${look}" x="${x}" y="${layout.y(member) - HEIGHT / 2}" width="${end - x}" height="${HEIGHT}"/>`;
}

const crashes = new WeakMap();

// By member: the step at which it crashed.
function crashesOf(run) {
  const known = crashes.get(run.trips) ?? { seen: 0, by: new Map() };
  for (; known.seen < run.steps.length; known.seen++) {
    const [name, member] = run.steps[known.seen];
    if (name === "crash") known.by.set(member, known.seen);
  }
  crashes.set(run.trips, known);
  return known.by;
}

function lookBehind(run, step) {
  if (crashesOf(run).get(run.steps[step][1]) <= step) return "down";
  const { round, phase } = run.places.at(step);
  if (!phase) return "";
  return round === 0 ? "rest" : round % 2 === 1 ? "odd" : "even";
}
