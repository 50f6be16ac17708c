// The marks of steps in the diagram.

import { actText } from "./wording.js";
import { safe } from "./safe.js";

const LETTERS = { submit: "S", begin: "B", enter: "E", choose: "C", adopt: "A", suspect: "!", conclude: "K", deliver: "D", follow: "F",
  crash: "✕", postpone: "P", lose: "L", repeat: "R" };
const LOOKS = { crash: "end", suspect: "end", deliver: "delivery", follow: "delivery", postpone: "net", lose: "net", repeat: "net" };
const LEAST_FOR_LETTERS = 15;

// What the letters stand for, for the legend.
export const MEANINGS = Object.entries(LETTERS).map(([name, sign]) => [sign, name]);

export function marks(run, layout, looks) {
  const all = [];
  for (let column = layout.from; column < layout.to; column++) {
    const step = layout.columns.stepAt(column);
    all.push(mark(run, layout, column, step, looks));
  }
  return all.join("");
}

// What a mark says where the pointer rests.
export function markTitle(run, step) {
  return `step ${step + 1}, member ${run.steps[step][1]}: ${actText(run.world, run.steps[step])}`;
}

function mark(run, layout, column, step, { isDim, titles, chosen }) {
  const [name, member, serial] = run.steps[step];
  const place = `translate(${layout.x(column)} ${layout.y(member)})`;
  const looks = ["mark", LOOKS[name] ?? "", isDim(step, member) ? "dim" : "", step === chosen ? "chosen" : ""].filter(Boolean).join(" ");
  const title = titles ? `<title>${safe(markTitle(run, step))}</title>` : "";
  const inside = name === "receive" ? dot(run, layout, serial) : letter(layout, LETTERS[name]);
  return `<g class="${looks}" data-step="${step}" transform="${place}">${title}${round(run, layout, step)}${inside}</g>`;
}

function dot(run, layout, serial) {
  const { kind } = run.world.envelope(serial);
  return `<circle class="dot ${kind}" r="${Math.max(1.6, layout.radius * 0.55).toFixed(1)}"/>`;
}

function letter(layout, sign) {
  const circle = `<circle r="${layout.radius.toFixed(1)}"/>`;
  return layout.width < LEAST_FOR_LETTERS ? circle : `${circle}<text y="4">${sign}</text>`;
}

// The instance and the round above the step that came to it.
function round(run, layout, step) {
  if (layout.width < LEAST_FOR_LETTERS || run.steps[step][0] === "receive") return "";
  const now = run.places.at(step);
  const before = previous(run, step);
  if (!now.round || (before && before.round === now.round && before.instance === now.instance)) return "";
  return `<text class="round" y="-15">${now.instance}/${now.round}</text>`;
}

function previous(run, step) {
  const last = run.trips.lastBefore(step, run.steps)[run.steps[step][1] - 1];
  return last < 0 ? null : run.places.at(last);
}
