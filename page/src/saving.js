// Files that are taken along.

import { draw } from "./drawing.js";
import { Layout } from "./layout.js";

const MOST_COLUMNS = 2000;
const WIDTH = 26;

export function download(name, text, type) {
  const link = document.createElement("a");
  link.href = URL.createObjectURL(new Blob([text], { type }));
  link.download = name;
  link.click();
  setTimeout(() => URL.revokeObjectURL(link.href), 10000);
}

// The diagram as a file: all columns that are shown, of very many those around the step.
export function picture(run, columns, at, style) {
  const from = columns.length > MOST_COLUMNS ? Math.max(0, columns.before(at) - MOST_COLUMNS / 2) : 0;
  const layout = new Layout(columns, WIDTH, { from, to: from + MOST_COLUMNS, left: from * WIDTH });
  const width = layout.x(layout.to) + 30;
  const body = draw(run, layout, { titles: true });
  const look = colours(style);
  return `<svg xmlns="http://www.w3.org/2000/svg" class="diagram" width="${width}" height="${layout.height}" `
    + `viewBox="0 0 ${width} ${layout.height}"><style>${look}</style>`
    + `<rect width="${width}" height="${layout.height}" style="fill:${colour("--paper")}"/>${body}</svg>\n`;
}

const colour = (name) => getComputedStyle(document.documentElement).getPropertyValue(name).trim();

// The style with the colours of the page in place of their names.
const colours = (style) => style.replace(/var\((--[a-z0-9-]+)\)/g, (_, name) => colour(name));
