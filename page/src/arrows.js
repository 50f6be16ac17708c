// The arrows of envelopes in the diagram.

import { envelopeText, fateText } from "./wording.js";
import { safe } from "./safe.js";

const FEW_STEPS = 3000;
const AROUND = 600;
const TIP = 7;

// The arrows that are seen in the window: all of a small run that cross it, of a large one those that begin or end near it.
export function arrows(run, layout, looks) {
  const { columns, from, to } = layout;
  if (from >= to) return "";
  const all = [];
  const isSmall = run.steps.length <= FEW_STEPS;
  const first = isSmall ? 0 : Math.max(0, columns.stepAt(from) - AROUND);
  const [begin, end] = run.trips.beginning(first, columns.stepAt(to - 1) + 1);
  for (let trip = begin; trip < end; trip++) all.push(arrow(run, layout, trip, looks));
  if (!isSmall) all.push(...fromAfar(run, layout, first, looks));
  return all.join("");
}

// Those that end in the window and began long before it.
function fromAfar(run, layout, first, looks) {
  const all = [];
  for (let column = layout.from; column < layout.to; column++) {
    const trip = run.trips.ending.at(layout.columns.stepAt(column));
    if (trip >= 0 && run.trips.from.at(trip) < first) all.push(arrow(run, layout, trip, looks));
  }
  return all;
}

// What an arrow says where the pointer rests.
export function arrowTitle(run, trip) {
  const { serial, to } = run.world.envelope(run.trips.serial.at(trip));
  const sender = run.steps[run.trips.sender.at(serial)][1];
  return `${envelopeText(run.world, serial)}, sent by ${sender} to ${to}; ${fateText(run.trips, trip)}`;
}

function arrow(run, layout, trip, { isDim, titles }) {
  const { trips, steps } = run;
  const { columns } = layout;
  const from = trips.from.at(trip);
  const start = columns.of(from);
  const stop = trips.to.at(trip) < 0 ? -1 : columns.of(trips.to.at(trip));
  if (start < 0 || (stop >= 0 && stop < layout.from) || (stop < 0 && start < layout.from)) return "";
  const envelope = run.world.envelope(trips.serial.at(trip));
  const sender = steps[from][1];
  const end = trips.to.at(trip);
  const isThrough = start < layout.from && stop >= layout.to && run.steps.length > FEW_STEPS;
  const dim = isThrough ? " through" : isDim(from, sender) || (end >= 0 && isDim(end, envelope.to)) ? " dim" : "";
  const title = titles ? `<title>${safe(arrowTitle(run, trip))}</title>` : "";
  const shape = stop < 0 ? stub(layout, start, sender, envelope) : whole(layout, start, stop, sender, envelope, trips.isLost.at(trip));
  return `<g class="way${dim}" data-serial="${envelope.serial}" data-trip="${trip}">${title}${shape}</g>`;
}

// One that was not received yet: a short way towards its receiver.
function stub(layout, start, sender, { kind, to }) {
  const [x, y] = [layout.x(start), layout.y(sender)];
  const down = layout.columns.rows.has(to) ? Math.sign(layout.y(to) - y) : 0;
  const [dx, dy] = down === 0 ? [layout.radius * 1.6, -layout.lane * 0.3] : [layout.radius * 1.5, down * layout.lane * 0.36];
  return `<path class="arrow waits ${kind}" d="M${x} ${y}l${dx.toFixed(1)} ${dy.toFixed(1)}"/>`;
}

function whole(layout, start, stop, sender, { kind, to }, isLost) {
  const [x1, y1, x2, y2] = [layout.x(start), layout.y(sender), layout.x(stop), layout.y(to)];
  const isOwn = y1 === y2;
  const [bx, by] = isOwn ? [(x1 + x2) / 2, y1 - layout.lane * 0.62] : [x1, y1];
  const gone = isLost ? 9 : layout.radius * 0.6 + 1;
  const long = Math.hypot(x2 - bx, y2 - by) || 1;
  const [ux, uy] = [(x2 - bx) / long, (y2 - by) / long];
  const [tx, ty] = [x2 - ux * gone, y2 - uy * gone];
  const [ex, ey] = [tx - ux * TIP, ty - uy * TIP];
  const way = isOwn ? `Q${n(bx)} ${n(by)} ${n(ex)} ${n(ey)}` : `L${n(ex)} ${n(ey)}`;
  const line = `<path class="arrow ${kind}" d="M${n(x1)} ${n(y1)}${way}"/>`;
  if (isLost) return `${line}<path class="lost" d="M${n(ex - 4)} ${n(ey - 4)}l8 8m0 -8l-8 8"/>`;
  const [wx, wy] = [uy * TIP / 2, ux * TIP / 2];
  return `${line}<path class="tip ${kind}" d="M${n(tx)} ${n(ty)}L${n(ex - wx)} ${n(ey + wy)}L${n(ex + wx)} ${n(ey - wy)}z"/>`;
}

const n = (value) => value.toFixed(1);
