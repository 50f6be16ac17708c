// The members as they stand, and what each may do: a button for each line that one may tell.

import { linesIn, withLongNumbers } from "./record.js";
import { envelopeText } from "./wording.js";
import { goneTo, waitingIn } from "./envelopes.js";
import { safe } from "./safe.js";

const ACTS = ["begin", "enter", "adopt", "suspect", "conclude", "deliver", "follow"];
const MOST_WAITING = 16;
const MOST_GONE = 40;
const MOST_TOLD = 20;
const MOST_DECISIONS = 4;
const MOST_DECIDED = 8;

export class Members {
  constructor(box, tell) {
    Object.assign(this, { box, tell, isWhole: new Set() });
    box.addEventListener("click", (event) => this.clicked(event));
    box.addEventListener("submit", (event) => this.submitted(event));
    box.addEventListener("toggle", (event) => this.opened(event), true);
  }

  // Shows the members behind so many steps; `isEnd` where that is the end, so that steps can be taken.
  show(run, at, isEnd) {
    this.run = run;
    const members = Array.from({ length: run.group?.members ?? 0 }, (_, i) => i + 1);
    const questions = ["report", ...members.flatMap((p) => [`state ${p}`, `enabled ${p}`, `next ${p}`, `waiting ${p}`])];
    const answers = members.length === 0 ? [] : isEnd ? run.live.tellAll(questions) : run.askAt(at, questions);
    const kept = this.focused();
    const report = members.length ? JSON.parse(withLongNumbers(answers[0].replace(/^report /, ""))) : { members: [] };
    this.box.innerHTML = report.members.map((facts, i) => this.member(facts, answers.slice(1 + 4 * i, 5 + 4 * i), isEnd)).join("");
    this.focus(kept);
  }

  focused() {
    const it = document.activeElement;
    return this.box.contains(it) ? { key: it.dataset.key, member: it.closest("article")?.dataset.member } : null;
  }

  // Keeps the focus on the button of the same name, or on the member's next step.
  focus(kept) {
    if (!kept) return;
    const member = this.box.querySelector(`article[data-member="${kept.member}"]`);
    const same = kept.key && [...(member?.querySelectorAll("[data-key]") ?? [])].find((it) => it.dataset.key === kept.key);
    (same ?? member?.querySelector("button:enabled") ?? this.box.querySelector("button:enabled"))?.focus({ preventScroll: true });
  }

  member(facts, [state, enabled, next, waiting], isEnd) {
    const p = facts.member;
    const told = `<p class="facts">${safe(state.replace(/^state /, ""))}${outcome(facts)}</p>`;
    const head = `<h3 id="member-${p}">member ${p}</h3>${facts.up ? "" : " crashed"}`;
    const found = [linesIn(enabled), linesIn(next), waitingIn(waiting)];
    const body = !facts.up ? waits(found[2].length) : isEnd ? this.acts(p, ...found) : standing(...found);
    const look = facts.up ? "member" : "member down";
    return `<article class="${look}" data-member="${p}" aria-labelledby="member-${p}">${head}${told}${body}</article>`;
  }

  acts(p, enabled, next, waiting) {
    const own = enabled.map((line) => act(line, words(line), next.includes(line) ? "next" : "may"));
    const always = [act(`${p} turns 1`, "a turn", "turn"), act(`crash ${p}`, "crash", "stop")];
    const received = receivedNext(next, waiting);
    return `<div class="acts" role="group" aria-label="Steps of member ${p}">${own.join("")}${always.join("")}</div>`
      + this.envelopes(p, waiting, received) + submission(p) + this.others(p, enabled) + gone(p);
  }

  envelopes(p, waiting, received) {
    if (waiting.length === 0) return `<span class="label">nothing waits</span>`;
    const isWhole = this.isWhole.has(p) || waiting.length <= MOST_WAITING;
    const shown = isWhole ? waiting : waiting.slice(0, MOST_WAITING);
    const all = shown.map((it) => envelope(p, it, it === received));
    const left = waiting.length - shown.length;
    const more = left === 0 ? "" : `<button type="button" data-whole="${p}" data-key="whole">and ${left} more</button>`;
    return `<span class="label">waiting: receive, postpone ⤓, lose ✕</span><div class="acts">${all.join("")}${more}</div>`;
  }

  // Steps that are not allowed now: one sees why.
  others(p, enabled) {
    const may = new Set(enabled.map(words));
    const choices = Array.from({ length: this.run.group.members }, (_, i) => `choose ${i + 1}`);
    const left = [...ACTS.slice(0, 2), ...choices, ...ACTS.slice(2)].filter((it) => !may.has(it));
    const all = left.map((it) => act(`${p} ${it}`, it, "not"));
    return `<details data-key="others"><summary>not allowed now: why?</summary><div class="acts">${all.join("")}</div></details>`;
  }

  clicked(event) {
    const button = event.target.closest("button");
    if (button?.dataset.line) this.tell(button.dataset.line);
    if (button?.dataset.whole) {
      this.isWhole.add(Number(button.dataset.whole));
      this.tell(null);
    }
    if (button?.dataset.repeat) this.tell(`${button.dataset.repeat} repeat #${button.previousElementSibling.value}`);
  }

  submitted(event) {
    event.preventDefault();
    const { command, register, value } = event.target.elements;
    this.tell(`${event.target.dataset.member} submit ${command.value} ${register.value} ${value.value}`);
  }

  // What can be repeated is looked for when it is asked for.
  opened(event) {
    const { repeats } = event.target.dataset;
    if (!repeats || !event.target.open) return;
    const serials = goneTo(this.run, Number(repeats), MOST_GONE);
    const options = serials.map((serial) => `<option value="${serial}">${safe(envelopeText(this.run.world, serial))}</option>`);
    event.target.querySelector("select").innerHTML = options.join("");
  }
}

// The envelope that the driver receives next: the first that is so named.
function receivedNext(next, waiting) {
  const names = next.map(words).filter((it) => it.startsWith("receive ")).map((it) => it.replace("receive ", ""));
  return waiting.find((it) => names.includes(it.carried));
}

// A member as it was: what it might have done, and what waited.
function standing(enabled, next, waiting) {
  const may = enabled.map((line) => `${next.includes(line) ? "★ " : ""}${words(line)}`);
  const received = receivedNext(next, waiting);
  const item = (it) => `<li class="is-${it.kind}">${it === received ? "★ " : ""}${safe(it.text)}</li>`;
  const shown = waiting.slice(0, MOST_WAITING).map(item);
  const more = waiting.length > shown.length ? `<li>and ${waiting.length - shown.length} more</li>` : "";
  return `<p class="facts">may ${safe(may.join(", ") || "take no step of its own")}</p><ul class="waiting">${shown.join("")}${more}</ul>`;
}

const words = (line) => line.replace(/^\d+ /, "");

// A button that tells a line.
function button(line, { key, text, look = "", said = "" }) {
  const names = `class="${look}" title="${safe(line)}"${said && ` aria-label="${safe(said)}"`}`;
  return `<button type="button" data-line="${safe(line)}" data-key="${safe(key)}" ${names}>${text}</button>`;
}

function act(line, text, look) {
  if (look !== "next") return button(line, { key: text, text: safe(text), look });
  return button(line, { key: text, text: `★ ${safe(text)}`, look, said: `${text}, the driver's next step` });
}

function envelope(p, it, isNext) {
  const part = (name, text) => {
    const said = `${name} ${it.text}${isNext && name === "receive" ? ", the driver's next step" : ""}`;
    return button(`${p} ${name} ${it.name}`, { key: `${name} ${it.serial}`, text, said });
  };
  const parts = [part("receive", `${isNext ? "★ " : ""}${safe(it.text)}`), part("postpone", "⤓"), part("lose", "✕")];
  return `<span class="envelope is-${it.kind}${isNext ? " next" : ""}">${parts.join("")}</span>`;
}

function submission(p) {
  const commands = ["set", "add", "copy"].map((it) => `<option>${it}</option>`).join("");
  return `<form class="submit bar" data-member="${p}" aria-label="A submission of member ${p}">`
    + `<button type="submit" data-key="submit">submit</button><select name="command" aria-label="command">${commands}</select>`
    + `<input name="register" type="number" min="0" max="15" value="0" aria-label="register">`
    + `<input name="value" type="number" min="0" value="7" aria-label="value, or the second register"></form>`;
}

function gone(p) {
  return `<details data-repeats="${p}"><summary>repeat what was received or lost</summary><div class="acts">`
    + `<select aria-label="envelope"></select><button type="button" data-repeat="${p}" data-key="repeat">repeat</button></div></details>`;
}

const waits = (count) => `<span class="label">${count === 0 ? "nothing waits" : `${count} wait for ever`}</span>`;

// What the report says of it, in its words; of long lists the last part.
function outcome({ received, decided, delivered, table }) {
  const decisions = decided.map(({ instance, messages }) => `${instance}:${lastOf(messages, MOST_DECIDED, ",")}`);
  const registers = table.map((value, i) => [value, `${i}=${value}`]).filter(([value]) => value !== 0).map(([, text]) => text);
  const lines = [["received", received], ["decided", decisions], ["delivered", delivered], ["table", registers]];
  return lines.map(([word, list]) => `\n${word} ${safe(lastOf(list, word === "decided" ? MOST_DECISIONS : MOST_TOLD, " "))}`).join("");
}

function lastOf(list, most, between) {
  if (list.length === 0) return "-";
  return `${list.length > most ? `..${between}` : ""}${list.slice(-most).join(between)}`;
}
