// Links that hold a run: behind # stands `s=` and the schedule, compressed, or `example=` and a name; `&at=` a step.

import { Fault } from "./fault.js";
import { MOST_BYTES, textOf } from "./opening.js";

// A text compressed, in letters that links may have.
export async function packed(text) {
  const bytes = await through(new CompressionStream("deflate-raw"), new TextEncoder().encode(text));
  return base64(bytes).replaceAll("+", "-").replaceAll("/", "_").replace(/=+$/, "");
}

async function unpacked(letters) {
  try {
    const bytes = bytesOf(letters.replaceAll("-", "+").replaceAll("_", "/"));
    return textOf(await through(new DecompressionStream("deflate-raw"), bytes, MOST_BYTES));
  } catch (error) {
    if (error instanceof RangeError) throw new Fault(`the link holds more than ${MOST_BYTES.toLocaleString("en")} bytes`);
    throw new Fault("the link is damaged: what stands behind s= is no whole run; copy it once more");
  }
}

// The bytes of a text in base 64.
export function bytesOf(letters) {
  return Uint8Array.from(atob(letters), (letter) => letter.charCodeAt(0));
}

// What bytes come to behind a stream: a RangeError where that is more than `most`.
export async function through(stream, bytes, most = Infinity) {
  const parts = [];
  let size = 0;
  for await (const part of new Blob([bytes]).stream().pipeThrough(stream)) {
    size += part.length;
    if (size > most) throw new RangeError("too much");
    parts.push(part);
  }
  return new Uint8Array(await new Blob(parts).arrayBuffer());
}

function base64(bytes) {
  const parts = [];
  for (let i = 0; i < bytes.length; i += 8192) parts.push(String.fromCharCode(...bytes.subarray(i, i + 8192)));
  return btoa(parts.join(""));
}

// What a link asks for: the text of a schedule, a step or null, and an example's name or "". Null where it asks for nothing.
export async function asked(hash, scenarios) {
  const words = new Map(hash.replace(/^#/, "").split("&").map((word) => word.split(/=(.*)/s, 2)));
  const step = words.get("at") ?? null;
  if (step !== null && !/^\d{1,9}$/.test(step)) throw new Fault(`the link is damaged: at=${step} is no step; a whole number is`);
  const at = step === null ? null : Number(step);
  if (words.has("s")) return { text: await unpacked(words.get("s")), at, name: "" };
  if (!words.has("example")) return null;
  const name = words.get("example");
  if (!Object.hasOwn(scenarios, name)) throw new Fault(`the link: no example ${name}; the list above has the names`);
  return { text: scenarios[name], at, name };
}
