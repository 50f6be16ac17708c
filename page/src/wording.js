// What steps and envelopes are called, in the words of schedules.

import { safe } from "./safe.js";

const MOST_NAMES = 8;
const MOST_LETTERS = 200;

function valueText(names) {
  if (names.length <= MOST_NAMES) return `{${names.join(",")}}`;
  return `{${names.slice(0, MOST_NAMES).join(",")} and ${names.length - MOST_NAMES} more}`;
}

// An envelope: its serial and what it carries.
export function envelopeText(world, serial) {
  const it = world.envelope(serial);
  if (!it) return `#${serial}`;
  if (it.kind === "data") return `#${serial} data ${it.message.name} ${it.message.command.join(" ")}`;
  const sender = it.from ? ` from ${it.from}` : "";
  const names = world.value(serial)?.map((message) => message.name);
  const value = names ? ` ${valueText(names)}` : "";
  return `#${serial} ${it.kind} ${it.instance}/${it.round}${sender}${value}${it.kind === "est" ? ` ts ${it.ts}` : ""}`;
}

// A step of a record: what it does, without its member.
export function actText(world, step) {
  const [name, , what] = step;
  if (name === "submit") return `submit ${what.join(" ")}`;
  if (["receive", "postpone", "lose", "repeat"].includes(name)) return `${name} ${envelopeText(world, what)}`;
  return what === undefined ? name : `${name} ${what}`;
}

// What became of a trip: a text, and the step at which it ended, if it did.
export function fateText(trips, trip) {
  const end = trips.to.at(trip);
  if (end < 0) return "waits";
  return `${trips.isLost.at(trip) ? "lost" : "received"} in step ${end + 1}`;
}

export const count = (number, word) => `${number.toLocaleString("en")} ${word}${number === 1 ? "" : "s"}`;

// A line that was refused, as `ct_tool record` tells it: of a long one its number alone.
export function faultText({ line, text, answer }) {
  const words = text.trim();
  return `line ${line + 1}: ${words.length > MOST_LETTERS ? "" : `${words}: `}${answer}`;
}

// A fault as a part of the page, in which the name of a refusal leads to what it means.
export const linked = (text) =>
  safe(text).replace(/( refused \d+ )([A-Z]\w+)/g, '$1<a href="../docs/ALGORITHM.md#refusals" target="_blank">$2</a>');

// The comment with which a schedule begins.
export const headingOf = ([first = ""]) => (/^\s*#(?![0-9])(.*)/.exec(first)?.[1] ?? "").trim().slice(0, MOST_LETTERS);
