// A part of a run as a space-time diagram: the text of an SVG, for the page and for files.

import { marks } from "./marks.js";
import { arrows } from "./arrows.js";
import { LEFT } from "./layout.js";
import { shades } from "./shades.js";

const NUMBERS = 5;

// The parts of the diagram. `chosen` is a step that is marked, or -1; with `past` all that doesn't stand before it is dim.
export function draw(run, layout, { chosen = -1, past = false, titles = false } = {}) {
  const isDim = (step, member) => past && chosen >= 0 && !run.trips.isBefore(step, member, chosen);
  return [
    shades(run, layout), lanes(layout), cursor(layout, chosen),
    arrows(run, layout, { isDim, titles }), marks(run, layout, { isDim, titles, chosen }), names(layout),
  ].join("");
}

function lanes(layout) {
  const [start, end] = [layout.x(layout.from) - layout.width, layout.x(layout.to)];
  const lines = layout.columns.members.map((member) => `<path class="lane" d="M${start} ${layout.y(member)}H${end}"/>`);
  const every = layout.width >= 14 ? NUMBERS : layout.width >= 6 ? 4 * NUMBERS : 20 * NUMBERS;
  for (let column = layout.from; column < layout.to; column++) {
    const number = layout.columns.stepAt(column) + 1;
    const isDue = layout.columns.isAll ? number % every === 0 || number === 1 : column % every === 0;
    if (isDue) lines.push(`<text class="number" x="${layout.x(column)}" y="14">${number}</text>`);
  }
  return lines.join("");
}

function cursor(layout, chosen) {
  const x = layout.x(layout.columns.before(chosen + 1) - 0.5);
  return `<path class="cursor" d="M${x} 18V${layout.height - 6}"/>`;
}

function names(layout) {
  const texts = layout.columns.members.map((member) => `<text x="6" y="${layout.y(member) + 4}">member ${member}</text>`);
  return `<g class="names"><rect width="${LEFT - 14}" height="${layout.height}"/>${texts.join("")}</g>`;
}
