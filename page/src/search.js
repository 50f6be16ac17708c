// Looks for runs and makes them smaller, by the program ct_tool.

import { count } from "./wording.js";

const SHOWN_ALONE = ["--count", "--help", "-h"];
const STATUS = { 1: "it is not shown", 4: "a read or a write failed", 5: "out of memory" };
const at = (id) => document.getElementById(id);

// A text of standard error without the lines that were written over, and without the usage: the page itself gives most words.
const lasting = (text) => text.replace(/\r[^\r\n]*\x1b\[K|\n\nUsage: [^]*/g, "").trim();

// The last line of a text that is written over and over.
const line = (text) => text.split("\r").at(-1).replace("\x1b[K", "").trim();

// The words of a text: between quotes one, else as spaces part them.
const wordsOf = (text) => [...text.matchAll(/'([^']*)'|"([^"]*)"|[^\s'"]+/g)].map((it) => it[1] ?? it[2] ?? it[0]);

export class Search {
  constructor(app, tool) {
    Object.assign(this, { app, tool, last: null, job: null });
    at("find").onsubmit = (event) => {
      event.preventDefault();
      this.find();
    };
    at("shrink").onclick = () => this.shrink();
    at("cancel").onclick = () => this.job?.cancel();
    at("search").addEventListener("keydown", (event) => {
      if (event.key === "Escape") this.job?.cancel();
    });
  }

  get goal() {
    return at("goal").value.trim();
  }

  // Looks for a walk that shows the goal, and opens it.
  find() {
    const more = wordsOf(at("options").value);
    const seeds = `${at("seed-first").value}..${at("seed-last").value}`;
    const words = ["find", "--jobs", "1", "--members", at("find-members").value, "--goal", this.goal, "--seeds", seeds, ...more];
    return this.run(at("do-find"), words, "", more.some((it) => SHOWN_ALONE.includes(it)));
  }

  // Makes the run that is open smaller, and opens what is left.
  shrink() {
    const { run } = this.app;
    if (!run.group) return this.app.alert("no run: no line says how many members there are");
    return this.run(at("shrink"), ["shrink", "--goal", this.goal], `${run.live.record()}\n`, false);
  }

  // Runs the program, and opens what it wrote, or shows it alone.
  async run(button, words, input, isAlone) {
    if (this.job) return;
    this.app.alert("");
    this.show(`${button.textContent} ..`);
    this.busy(true, button);
    try {
      this.job = this.tool.run(words, { input }, (text) => this.job && this.show(line(text) || at("progress").textContent));
      const ended = await this.job.ended;
      this.job = null;
      this.last = ended && { words, ...ended };
      this.busy(false, button);
      if (ended) await this.end(ended, isAlone);
      else this.show("Cancelled.");
    } catch (error) {
      this.job = null;
      this.busy(false, button);
      this.show("");
      this.app.alert(`ct_tool ${words[0]}: ${error.message}`);
    }
  }

  // Shows how it ended.
  async end({ status, out, err }, isAlone) {
    const told = lasting(err);
    this.show("");
    if (status > 1) return this.app.alert(told || STATUS[status] || `status ${status}`);
    if (isAlone) return this.show(told, out);
    if (status === 1) return this.show(told || STATUS[status]);
    await this.app.open(out);
    this.show(`Opened: ${count(this.app.run.steps.length, "step")}.`, told);
  }

  // While the program runs it can be cancelled, and no other begins. The focus goes where something can be done.
  busy(isBusy, button) {
    const isHere = document.activeElement === (isBusy ? button : at("cancel"));
    for (const id of ["do-find", "shrink"]) at(id).disabled = isBusy;
    at("cancel").disabled = !isBusy;
    at("find").setAttribute("aria-busy", String(isBusy));
    if (isHere) (isBusy ? at("cancel") : button).focus();
  }

  show(progress, found = "") {
    at("progress").textContent = progress;
    at("found").textContent = found;
    at("found").hidden = found === "";
  }
}
