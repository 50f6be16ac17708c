// Steps, commands, messages and envelopes: as records have them (docs/FORMATS.md), and by their numbers in ct.h.

export const KINDS = ["", "submit", "receive", "begin", "enter", "choose", "adopt", "suspect", "conclude", "deliver", "follow", "crash",
  "postpone", "lose", "repeat"];
export const COMMANDS = ["", "set", "add", "copy"];
const WIRES = ["", "data", "est", "prop", "ack", "nack", "dec"];
const PHASES = [null, "Rest", "Gather", "Wait", "Tally"];
export const MESSAGE_BYTES = 16;
export const STEP_BYTES = 16;
const BY_NAME = new Map(KINDS.map((name, kind) => [name, kind]));
const NAMES = ["Done", "NoSuchMember", "Crashed", "NotWaiting", "Busy", "Nothing", "Idle", "WrongPhase", "Decided", "TooFew", "NotLargest",
  "NoProposal", "HasProposal", "Undecided", "BadCommand", "NotSent", "StillWaiting", "Full(Submissions)", "Full(Instances)", "Full(Rounds)",
  "Full(Envelopes)", "Full(Cells)", "Full(Steps)", "OutOfMemory", "Board"];
export const REFUSALS = NAMES.slice(1);
const [SUBMIT, COPY] = [1, 3];
export const MOST = 2 ** 32 - 1;
const WITH_NUMBER = new Set([2, 5, 12, 13, 14]); // of an envelope's serial; choose: of a member

// The number, which has to be whole, and one of these.
export function within(what, number, least, most) {
  if (Number.isInteger(number) && number >= least && number <= most) return number;
  throw new RangeError(`${what} ${number}: a whole number from ${least} to ${most}`);
}

const long = (what, value) => {
  const isExact = typeof value !== "number" || Number.isSafeInteger(value);
  const whole = isExact ? BigInt(value) : -1n;
  if (BigInt.asUintN(64, whole) !== whole) throw new RangeError(`${what} ${value}: 0 to 18446744073709551615, a large one as a BigInt`);
  return whole;
};

const word = (number) => (number >>> 0 === number ? number : within("serial or member", number, 0, MOST));

// The numbers of the step that was read last: a step is read many times a second.
export const read = { kind: 0, member: 0, a: 0, b: 0, c: 0n };

// Reads a step: its numbers.
export function numbersOf(step) {
  const kind = BY_NAME.get(step[0]);
  if (!kind) throw new TypeError(`no step: ${step[0]}; ${KINDS.slice(1).join(", ")}`);
  const member = step[1];
  read.kind = kind;
  read.member = member >= 0 && member <= 255 && (member | 0) === member ? member : within("member", member, 0, 255);
  read.b = 0;
  read.c = 0n;
  if (kind === SUBMIT) readCommand(step[2]);
  else read.a = WITH_NUMBER.has(kind) ? word(step[2]) : 0;
  return read;
}

function readCommand([name, first, second]) {
  read.a = COMMANDS.indexOf(name, 1);
  if (read.a < 0) throw new TypeError(`no command: ${name}; ${COMMANDS.slice(1).join(", ")}`);
  read.b = within("register", first, 0, 255);
  read.c = long(read.a === COPY ? "register" : "value", second);
}

// A command by its numbers.
const command = (kind, register, value) => [COMMANDS[kind], register, kind === COPY ? Number(value) : value];

// The step that lies in this place: null where there is none.
export function stepAt(view, at) {
  const kind = view.getUint8(at + 13);
  const member = view.getUint8(at + 14);
  const a = view.getUint32(at + 8, true);
  if (kind === 0) return null;
  if (kind === SUBMIT) return [KINDS[kind], member, command(a, view.getUint8(at + 12), view.getBigUint64(at, true))];
  return WITH_NUMBER.has(kind) ? [KINDS[kind], member, a] : [KINDS[kind], member];
}

// A step as the text of a record.
export function textOf([name, member, what]) {
  if (what === undefined) return `["${name}",${member}]`;
  return `["${name}",${member},${name === "submit" ? `["${what[0]}",${what[1]},${what[2]}]` : what}]`;
}

// The message that lies in this place.
export function messageAt(view, at) {
  const [number, origin] = [view.getUint32(at + 8, true), view.getUint8(at + 12)];
  const told = command(view.getUint8(at + 13), view.getUint8(at + 14), view.getBigUint64(at, true));
  return { name: `${origin}.${number}`, origin, number, command: told };
}

// The envelope of this serial, which lies in this place: null where there is none.
export function envelopeAt(view, at, serial) {
  const kind = WIRES[view.getUint8(at + 28)];
  if (!kind) return null;
  const [to, from] = [view.getUint8(at + 29), view.getUint8(at + 30)];
  if (kind === "data") return { serial, kind, to, message: messageAt(view, at) };
  const found = { serial, kind, to, instance: view.getUint32(at + 16, true), round: view.getUint32(at + 20, true) };
  if (from) found.from = from;
  if (kind === "est") found.ts = view.getUint32(at + 24, true);
  return found;
}

// The members of a set, member 1 the lowest bit.
const membersOf = (bits) => Array.from({ length: 16 }, (_, i) => i + 1).filter((member) => (bits >> (member - 1)) & 1);

// Where a member stands, as it lies in this place.
export function standingAt(view, at) {
  const word = (offset) => view.getUint32(at + offset, true);
  const members = (offset) => membersOf(view.getUint16(at + offset, true));
  return {
    instance: word(0),
    round: word(4),
    phase: PHASES[view.getUint8(at + 83)],
    ts: word(8),
    heard: members(76).map((member) => ({ member, ts: word(8 + 4 * member) })),
    acked: members(78),
    replied: members(80),
    hasCrashed: view.getUint8(at + 84) === 1,
  };
}

// A step that was refused, or a line. Nothing has changed.
export class Refused extends Error {}

export class StepRefused extends Refused {
  constructor(step, refusal) {
    super(`${textOf(step)}: ${refusal}`);
    Object.assign(this, { name: "StepRefused", step, member: step[1], refusal });
  }
}

// Of a step that the rules refuse `member`, `refusal` and `facts` say whose it is, why, and what is told besides; else they are null.
export class LineRefused extends Refused {
  constructor(number, line, fault) {
    super(`line ${number}: ${line}: ${fault}`);
    const told = /^refused (\d+) ([A-Za-z]+(?:\([A-Za-z]+\))?)(?:: (.*))?$/s.exec(fault);
    Object.assign(this, { name: "LineRefused", number, line, fault });
    Object.assign(this, { member: told && Number(told[1]), refusal: told && told[2], facts: told?.[3] ?? null });
  }
}

// The name of why a step is refused.
export const nameOf = (number) => NAMES[number];

const FAULTS = { 23: ["OutOfMemory", "out of memory"], 24: ["Board", "the board refused a batch"], 25: ["NotOpen", "it is closed"],
  29: ["NoWorld", "no step was told yet"], 30: ["TooLong", "the run is too long for a diagram"], 31: ["NoRecord", "no record"],
  33: ["NoTrial", "no trial is asked for"] };

// Throws where a call answered another number than 0.
export function must(status) {
  if (status === 0) return;
  const [code, text] = FAULTS[status] ?? [nameOf(status), `status ${status}`];
  throw Object.assign(new Error(text), { code });
}
