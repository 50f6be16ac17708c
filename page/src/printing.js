// What is printed: the diagram in rows, what its lines stand for, and the schedule.

import { draw } from "./drawing.js";
import { Layout } from "./layout.js";
import { legend } from "./legend.js";
import { safe } from "./safe.js";
import { count, faultText, headingOf } from "./wording.js";

const COLUMNS = 30;
const WIDTH = 26;
const MOST_ROWS = 100;
const MOST_LINES = 5000;

// Of very many rows and lines the first, which is told.
export function printout({ run, columns, lines, at, isPast }) {
  const rows = [];
  for (let from = 0; from < columns.length && rows.length < MOST_ROWS; from += COLUMNS) rows.push(row(run, columns, from, at, isPast));
  const shown = lines.slice(0, MOST_LINES).map((line, i) => `<li${run.fault?.line === i ? ' class="refused"' : ""}>${safe(line)}</li>`);
  const drawn = columns.isAll ? "" : `, of which ${columns.length.toLocaleString("en")} are shown`;
  return `<h1>${safe(headingOf(lines)) || "A run of atomic broadcast"}</h1>`
    + `<p>${count(run.steps.length, "step")}${drawn}${part(rows.length * COLUMNS, columns.length)}</p>`
    + `${rows.join("")}<p>${legend()}</p><h2>Schedule${part(MOST_LINES, lines.length)}</h2>`
    + `<p>${run.fault ? safe(faultText(run.fault)) : ""}</p><ol>${shown.join("")}</ol>`;
}

const part = (most, all) => (all > most ? `: the first ${most.toLocaleString("en")} of ${all.toLocaleString("en")}` : "");

function row(run, columns, from, at, isPast) {
  const layout = new Layout(columns, WIDTH, { from, to: from + COLUMNS, left: from * WIDTH });
  return `<svg class="diagram" viewBox="0 0 ${layout.x(from + COLUMNS)} ${layout.height}">`
    + `${draw(run, layout, { chosen: at - 1, past: isPast })}</svg>`;
}
