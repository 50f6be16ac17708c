// Presses the page's buttons at random, and tells what does not fit together behind one: the script of a test, called with a seed, how
// many times, and what is to be called in the end.

const [seed, times, done] = arguments;
const { app } = window.ct;
let state = seed;

function drawn(below) {
  state ^= state << 13;
  state ^= state >>> 17;
  state ^= state << 5;
  state >>>= 0;
  return state % below;
}

const at = (id) => document.getElementById(id);
const click = (list) => list.length > 0 && list[drawn(list.length)].click();
const all = (selector) => [...document.querySelectorAll(selector)];

// Crashes are few.
const isDrawn = (button) => !button.dataset.line.startsWith("crash") || drawn(10) === 0;

// How often, and what.
const ACTS = [
  [60, "a member's button", () => click(all("#members-now [data-line]").filter(isDrawn))],
  [6, "submit", () => all("form.submit").slice(0, 1 + drawn(3)).at(-1)?.requestSubmit()],
  [6, "undo", () => app.undo()],
  [4, "redo", () => app.redo()],
  [9, "another step", () => app.go(drawn(app.run.steps.length + 2), drawn(2) === 0)],
  [5, "the end", () => app.go(app.run.steps.length, false)],
  [1, "fork", () => app.fork()],
  [2, "a filter", () => click(all("#filter input[type=checkbox]"))],
  [1, "all shown", () => at("all").click()],
  [2, "a turn", () => at("turn").click()],
  [1, "settle", () => at("settle").click()],
  [1, "a cut", () => { click(all("#cut input")); at("do-cut").click(); }],
  [1, "heal", () => at("heal").click()],
  [1, "a look", () => app.run.steps.length > 0 && app.look(1 + drawn(app.run.steps.length))],
  [1, "a new group", () => app.change([`members ${1 + drawn(6)}`])],
];

function drawnAct() {
  let left = drawn(ACTS.reduce((sum, [often]) => sum + often, 0));
  return ACTS.find(([often]) => (left -= often) < 0);
}

// What does not fit together, or nothing.
function misfit() {
  const { run } = app;
  const { steps } = JSON.parse(run.live.record());
  if (JSON.stringify(steps) !== JSON.stringify(run.steps)) return "the record";
  if (run.places.length !== steps.length || run.trips.steps !== steps.length) return "the steps that are kept";
  if (run.ends.length !== run.lines.length || (run.ends.at(-1) ?? 0) !== steps.length) return "the lines' steps";
  if (app.lines.slice(0, run.lines.length).join("\n") !== run.lines.join("\n")) return "the lines";
  if (at("text").value !== app.lines.join("\n")) return "the text";
  return app.at > steps.length ? "the place" : "";
}

(async () => {
  const found = [];
  for (let i = 0; i < times && found.length === 0; i++) {
    const [, name, act] = drawnAct();
    await act();
    await app.last;
    if (misfit()) found.push(`${i}: ${name}: ${misfit()}`);
  }
  return found;
})().then(done, (error) => done([error.stack]));
