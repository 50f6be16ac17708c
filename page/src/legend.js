// What lines and letters of the diagram stand for.

import { MEANINGS } from "./marks.js";

const WIRES = ["data", "est", "prop", "ack", "nack", "dec"];

export function legend() {
  const lines = WIRES.map((kind) => `<span><svg class="diagram" width="34" height="10" aria-hidden="true">`
    + `<path class="arrow ${kind}" d="M2 5H24"/><path class="tip ${kind}" d="M32 5L24 1.5V8.5z"/></svg>${kind}</span>`);
  const letters = MEANINGS.map(([sign, meaning]) => `<span><b>${sign}</b> ${meaning}</span>`);
  return [...lines, `<span><b>●</b> receive</span>`, ...letters, `<span>dotted: waits</span>`,
    `<span>shade: the round, odd or even; grey: crashed</span>`].join(" ");
}
