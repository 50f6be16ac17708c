// The schedule beside the run: lines that can be changed, with the refused one and the one that one looks at marked.

import { faultText, linked } from "./wording.js";

const LINE = 18;
const MOST_LINES = 5000;
const AROUND = 500;
const PAUSE = 400;

export class Editor {
  constructor({ text, gutter, fault }, changed) {
    Object.assign(this, { text, gutter, note: fault, changed, offset: 0, here: -1, fault: null, taken: 0, count: 0 });
    text.addEventListener("input", () => this.later());
    text.addEventListener("scroll", () => this.marks());
    text.addEventListener("keydown", (event) => {
      if (event.key === "Enter" && event.ctrlKey) this.now();
    });
    new ResizeObserver(() => this.marks()).observe(text);
  }

  // Shows these lines; of very many those around `here`.
  show(lines, { here, fault, taken }) {
    Object.assign(this, { here, fault, taken, count: lines.length });
    const isLong = lines.length > MOST_LINES;
    if (isLong || lines !== this.lines || lines.length !== this.length) this.fill(lines, isLong);
    if (document.activeElement !== this.text) this.reveal();
    this.marks();
  }

  fill(lines, isLong) {
    Object.assign(this, { lines, length: lines.length });
    this.offset = isLong ? Math.max(0, this.here - AROUND) : 0;
    const shown = isLong ? lines.slice(this.offset, this.here + AROUND) : lines;
    const text = shown.join("\n");
    if (this.text.value !== text && !(this.isBusy && !isLong)) this.text.value = text;
    this.text.readOnly = isLong;
    this.tell(isLong, shown.length);
  }

  tell(isLong, shown) {
    const told = this.fault ? faultText(this.fault) : "";
    this.note.classList.toggle("hint", !told);
    const part = `Lines ${this.offset + 1} to ${this.offset + shown} of ${this.count.toLocaleString("en")}.`;
    this.note.innerHTML = linked(told) || (isLong ? `${part} So long a schedule is changed by saving and opening it.` : "");
  }

  reveal() {
    const top = ((this.fault ? this.fault.line : this.here) - this.offset) * LINE;
    const { scrollTop, clientHeight } = this.text;
    if (top < scrollTop + LINE || top > scrollTop + clientHeight - 2 * LINE) this.text.scrollTop = top - clientHeight / 2;
  }

  // The numbers of the lines that are seen.
  marks() {
    const { scrollTop, clientHeight } = this.text;
    const first = Math.max(0, Math.floor(scrollTop / LINE));
    const all = [];
    for (let i = first; i * LINE < scrollTop + clientHeight && this.offset + i < this.count; i++) {
      const line = this.offset + i;
      const look = this.fault?.line === line ? "refused" : line === this.here ? "here" : line >= this.taken ? "left" : "";
      all.push(`<div class="${look}">${this.fault?.line === line ? "✕ " : ""}${line + 1}</div>`);
    }
    this.gutter.style.width = `${String(this.count).length + 3}ch`;
    this.gutter.innerHTML = all.join("");
    if (all.length > 0) this.gutter.firstChild.style.marginTop = `${first * LINE - scrollTop}px`;
  }

  later() {
    this.isBusy = true;
    this.count = this.text.value.split("\n").length;
    this.marks();
    clearTimeout(this.timer);
    this.timer = setTimeout(() => this.now(), PAUSE);
  }

  now() {
    clearTimeout(this.timer);
    if (!this.isBusy) return;
    this.isBusy = false;
    this.changed(this.text.value.split("\n"));
  }
}
