// The step that is chosen: what it read and sent, and the members before and behind it.

import { actText, envelopeText, fateText } from "./wording.js";
import { safe } from "./safe.js";

const MOST_SENT = 20;

// What the step is, counted from 1; 0 stands for the beginning.
export function heading(run, at) {
  if (at === 0) return "The beginning: no step is taken yet";
  const step = run.steps[at - 1];
  return `Step ${at}: member ${step[1]}, ${actText(run.world, step)}`;
}

// What it read and sent, and the members before and behind it.
export function detail(run, at) {
  if (at === 0) return "";
  const step = run.steps[at - 1];
  return read(run, step) + sent(run, at - 1) + states(run, at, step[1]);
}

function read(run, [name, , serial]) {
  if (!["receive", "postpone", "lose", "repeat"].includes(name)) return "";
  const sender = run.trips.sender.at(serial);
  return `<p>It names ${safe(envelopeText(run.world, serial))}, which member ${run.steps[sender][1]} sent in step ${sender + 1}.</p>`;
}

function sent(run, step) {
  const trips = run.trips.sentBy(step);
  if (trips.length === 0) return `<p>It sent nothing.</p>`;
  const lines = trips.slice(0, MOST_SENT).map((trip) => {
    const serial = run.trips.serial.at(trip);
    return `<li>${safe(envelopeText(run.world, serial))}, to ${run.world.envelope(serial).to}: ${fateText(run.trips, trip)}</li>`;
  });
  return `<p>It sent:</p><ul>${lines.join("")}</ul>`;
}

function states(run, at, actor) {
  const members = Array.from({ length: run.group.members }, (_, i) => i + 1);
  const questions = members.flatMap((p) => [`state ${p}`, `waiting ${p}`]);
  const [before, behind] = [run.askAt(at - 1, questions), run.askAt(at, questions)];
  const rows = members.map((p, i) => row(p, facts(before, i), facts(behind, i), p === actor));
  const head = ["", "before", "behind"].map((text) => `<th scope="col">${text}</th>`).join("");
  return `<table><thead><tr>${head}</tr></thead>${rows.join("")}</table>`;
}

function facts(answers, i) {
  const waiting = answers[2 * i + 1] === "waiting -" ? 0 : answers[2 * i + 1].split(/, (?=#)/).length;
  return `${answers[2 * i].replace(/^state /, "")}; ${waiting} wait${waiting === 1 ? "s" : ""}`;
}

function row(p, before, behind, isActor) {
  const head = `<th scope="row">${isActor ? "<b>" : ""}member ${p}${isActor ? "</b>" : ""}</th>`;
  if (before === behind) return `<tr>${head}<td colspan="2">${safe(before)}</td></tr>`;
  return `<tr>${head}<td>${safe(before)}</td><td class="changed">${safe(behind)}</td></tr>`;
}
