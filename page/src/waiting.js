// What takes long: nothing else in the page can be done meanwhile, it tells how far it is, and it can be left.

import { Left } from "./fault.js";

const PAUSE = 100;

export class Waiting {
  // The part of the page that waits, and what is shown meanwhile: a bar with a text and a button.
  constructor({ page, bar, text, button }) {
    Object.assign(this, { page, bar, text, isLeft: false, since: 0, cancel: null });
    button.onclick = () => this.leave();
    bar.addEventListener("keydown", (event) => {
      if (event.key === "Escape") this.leave();
    });
    this.button = button;
  }

  begin() {
    Object.assign(this, { isLeft: false, since: performance.now() });
  }

  leave() {
    this.isLeft = true;
    this.cancel?.();
  }

  // Tells how far it is, from time to time.
  async told(share) {
    if (performance.now() - this.since < PAUSE) return;
    this.show(`${Math.round(100 * share)} %`);
    await new Promise((done) => setTimeout(done));
    this.since = performance.now();
    if (this.isLeft) throw new Left();
  }

  // What a run of ct_tool ends with.
  async job({ ended, cancel }, text) {
    this.cancel = cancel;
    const due = setTimeout(() => this.show(text), PAUSE);
    try {
      const it = await ended;
      if (!it) throw new Left();
      return it;
    } finally {
      clearTimeout(due);
      this.cancel = null;
    }
  }

  show(text) {
    this.text.textContent = text;
    if (this.page.inert) return;
    this.focused = document.activeElement;
    this.page.inert = true;
    this.bar.hidden = false;
    this.button.focus({ preventScroll: true });
  }

  end() {
    if (!this.page.inert) return;
    this.page.inert = false;
    this.bar.hidden = true;
    this.focused?.focus({ preventScroll: true });
  }
}
