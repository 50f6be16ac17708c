// The diagram in the page: a window that is drawn anew as one scrolls, with a step that is chosen.

import { arrowTitle } from "./arrows.js";
import { draw } from "./drawing.js";
import { heightOf, Layout, LEFT } from "./layout.js";
import { markTitle } from "./marks.js";

const WIDTHS = [4, 6, 9, 13, 18, 26, 34, 46];
const FIRST_WIDTH = 5;
const MARGIN = 12;
const MOST_WIDE = 8000000; // browsers cut what is wider

export class Diagram {
  constructor(box, sheet, choose) {
    Object.assign(this, { box, sheet, choose, zoom: FIRST_WIDTH, columns: null, run: null, at: 0, isPast: false });
    this.svg = document.createElementNS("http://www.w3.org/2000/svg", "svg");
    this.svg.setAttribute("class", "diagram");
    this.svg.setAttribute("aria-hidden", "true"); // the step that one looks at is told below
    sheet.append(this.svg);
    box.addEventListener("scroll", () => this.later());
    new ResizeObserver(() => this.later()).observe(box);
    sheet.addEventListener("click", (event) => this.clicked(event));
    sheet.addEventListener("pointerover", (event) => this.name(event.target.closest("[data-step], [data-trip]")));
  }

  get width() {
    return Math.min(WIDTHS[this.zoom], MOST_WIDE / Math.max(1, this.columns.length));
  }

  // Shows these columns of a run, so many steps done.
  show(run, columns, at, isPast) {
    Object.assign(this, { run, columns, at, isPast });
    const full = LEFT + columns.length * this.width + 60;
    this.sheet.style.width = `${full}px`;
    this.sheet.style.height = `${heightOf(columns)}px`;
    this.svg.style.left = "0"; // where it stood it could lie beyond a shorter run's sheet
    this.reveal();
    this.paint();
  }

  // Scrolls so that the step is seen.
  reveal() {
    const x = LEFT + this.columns.before(this.at) * this.width;
    const [left, shown] = [this.box.scrollLeft, this.box.clientWidth];
    if (x > left + shown - 60) this.box.scrollLeft = x - shown * 0.8;
    else if (x - this.width < left + LEFT) this.box.scrollLeft = x - shown * 0.3;
  }

  zoomBy(change) {
    this.zoom = Math.max(0, Math.min(WIDTHS.length - 1, this.zoom + change));
    this.show(this.run, this.columns, this.at, this.isPast);
    this.box.scrollLeft = LEFT + this.columns.before(this.at) * this.width - this.box.clientWidth / 2;
  }

  later() {
    if (this.isDue) return;
    this.isDue = true;
    requestAnimationFrame(() => {
      this.isDue = false;
      this.paint();
    });
  }

  paint() {
    if (!this.columns) return;
    const left = this.box.scrollLeft;
    const from = Math.max(0, Math.floor((left - LEFT) / this.width) - MARGIN);
    const to = Math.ceil((left + this.box.clientWidth - LEFT) / this.width) + MARGIN;
    const layout = new Layout(this.columns, this.width, { from, to, left });
    this.svg.style.left = `${left}px`;
    this.svg.setAttribute("width", this.box.clientWidth);
    this.svg.setAttribute("height", layout.height);
    this.svg.innerHTML = draw(this.run, layout, { chosen: this.at - 1, past: this.isPast });
  }

  // Has what the pointer rests on say what it is.
  name(it) {
    if (!it || it.querySelector("title")) return;
    const title = document.createElementNS("http://www.w3.org/2000/svg", "title");
    const { step, trip } = it.dataset;
    title.textContent = step === undefined ? this.titleOf(Number(trip)) : markTitle(this.run, Number(step));
    it.prepend(title);
  }

  titleOf(trip) {
    return arrowTitle(this.run, trip);
  }

  clicked(event) {
    const mark = event.target.closest("[data-step]");
    const way = event.target.closest("[data-trip]");
    if (mark) this.choose(Number(mark.dataset.step) + 1);
    else if (way) this.choose(this.run.trips.from.at(Number(way.dataset.trip)) + 1);
  }
}
