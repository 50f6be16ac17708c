/** A rehearsal of Chandra and Toueg's atomic broadcast, in process, to test implementations against: each step that an implementation takes
 *  is told to a `World`, which does it, or says why the algorithm refuses it. A `Walk` draws the steps of a random run; a `Shrinker`, or
 *  `shrunk`, makes a run that passes a test smaller. A `Session` is told lines of a schedule instead, and answers each (docs/SCHEDULES.md).
 *  All are WebAssembly, for node 18 and later and for browsers. */

/** Over 16 registers of 64 bits: a register and a value, a register and an amount, or two registers, of which the second gets the value of
 *  the first. What is read has BigInts as values and amounts; what is told may have numbers, up to 2^53 - 1. */
export type Command = ["set" | "add", number, bigint | number] | ["copy", number, number];

/** A step as a record has it (docs/FORMATS.md): its name, its member, counted from 1, and an envelope's serial, a member, or a command. */
export type Step =
  | ["begin" | "enter" | "adopt" | "suspect" | "conclude" | "deliver" | "follow" | "crash", number]
  | ["receive" | "postpone" | "lose" | "repeat", number, number]
  | ["choose", number, number]
  | ["submit", number, Command];

/** Why a step is refused: the first cause that applies, in the order of testing (docs/ALGORITHM.md). */
export type Refusal =
  | "NoSuchMember" | "Crashed" | "NotWaiting" | "Busy" | "Nothing" | "Idle" | "WrongPhase" | "Decided" | "TooFew" | "NotLargest"
  | "NoProposal" | "HasProposal" | "Undecided" | "BadCommand" | "NotSent" | "StillWaiting" | "Full(Submissions)" | "Full(Instances)"
  | "Full(Rounds)" | "Full(Envelopes)" | "Full(Cells)" | "Full(Steps)" | "OutOfMemory" | "Board";

/** All of them, by the numbers of ct.h, from 1. */
export const REFUSALS: readonly Refusal[];

/** The envelopes that a step sent: their serials are `first` to `first + count - 1`. */
export interface Sent { first: number; count: number }

/** The number-th command that `origin` broadcast; its name is `origin.number`. */
export interface Message { name: string; origin: number; number: number; command: Command }

/** What an envelope carries, and to whom. */
export type Envelope = { serial: number; to: number } & (
  | { kind: "data"; message: Message }
  | { kind: "est"; instance: number; round: number; from: number; ts: number }
  | { kind: "ack" | "nack"; instance: number; round: number; from: number }
  | { kind: "prop" | "dec"; instance: number; round: number });

/** Where a member stands: `instance` is the last one that it began, 0 before the first; while none is open, `phase` is null, `round` and
 *  `ts` are 0, and the lists empty. `round` is that of the open instance, 0 before the first; `ts` the round in which it took its estimate
 *  over, 0 where that is its own; `heard` has the members whose estimates it got for the round, `acked` those whose acks, `replied` those
 *  whose acks or nacks. */
export interface Standing {
  instance: number; round: number; phase: Phase | null; ts: number;
  heard: { member: number; ts: number }[]; acked: number[]; replied: number[]; hasCrashed: boolean;
}

/** No round is running; the coordinator gathers estimates; its proposal is awaited; it counts replies. */
export type Phase = "Rest" | "Gather" | "Wait" | "Tally";

/** A step or a line that was refused. Nothing has changed. */
export class Refused extends Error { refusal: Refusal | null }
export class StepRefused extends Refused { step: Step; member: number; refusal: Refusal }

/** A line that a session refused: its number, from 1, and its fault, in the words of docs/SCHEDULES.md. Of a step that the rules refuse
 *  `member`, `refusal` and `facts` say whose it is, why, and what is told besides; else they are null. */
export class LineRefused extends Refused { number: number; line: string; fault: string; member: number | null; facts: string | null }

export const MAX_MEMBERS: 16;
export const MAX_CELLS: 1024;
export const MAX_BOUND: 1048560;

/** A group of members, what is on its way between them, what each received, decided and delivered, and the record of the steps so far.
 *  Numbers out of range are a RangeError, names of no step a TypeError; of a closed world the error's `code` is "NotOpen". */
export class World {
  /** members: 1 to MAX_MEMBERS. cells: how many instances can be delivered, 0 to MAX_CELLS, 64 if left out. bound: how many messages a
   *  member proposes for an instance at most, 1 to MAX_BOUND, which is more than can be pending. */
  constructor(members: number, setup?: { cells?: number; bound?: number });
  /** The world of a record, as `record` gives it. SyntaxError where it is none, StepRefused where one of its steps is. */
  static ofRecord(record: string): World;
  readonly members: number;
  readonly cells: number;
  readonly bound: number;
  /** Does the step; or StepRefused. */
  apply(step: Step): Sent;
  /** Why the step would be refused now, want of memory apart; null where it is allowed. */
  refusal(step: Step): Refusal | null;
  enabled(step: Step): boolean;
  /** What a driver does next at the member: the first allowed step of deliver, follow, begin, choose (of the least member that was heard
   *  with the largest ts), adopt, conclude, enter and suspect. */
  next(member: number): Step | null;
  /** Where the member stands. */
  standing(member: number): Standing;
  /** The steps so far, from a place on, counted from 0. */
  steps(from?: number): Step[];
  /** The record, as `ct replay` and `ct_tool` read it: JSON. */
  record(): string;
  /** The serials that wait at the member, in the order of its line. */
  serials(member: number): number[];
  waiting(member: number): Envelope[];
  /** The envelope of a serial, wherever it is now; null where it was not sent. */
  envelope(serial: number): Envelope | null;
  /** The value that an estimate, a proposal or a decision carries, in the order of messages; null of other envelopes. */
  value(serial: number): Message[] | null;
  /** In order of first receipt. */
  received(member: number): Message[];
  /** The decision that the member got for an instance, in the order of messages; null where it got none. */
  decided(member: number, instance: number): Message[] | null;
  delivered(member: number): Message[];
  /** The values of its 16 registers, after the commands of what it delivered. */
  table(member: number): bigint[];
  hasCrashed(member: number): boolean;
  /** A world of its own with the same setup and record. It takes as long as replaying the record. */
  copy(): World;
  /** Lets go what it keeps; the garbage collector does so too, but sees little of it. */
  close(): void;
}

/** The options of `ct_tool walk`, whose help says what each does and its range. */
export interface WalkOptions {
  turns?: number; seed?: number; rate?: number; cells?: number; submit?: number; crash?: number; postpone?: number; lose?: number;
  repeat?: number; batch?: number; every?: number; scatter?: number; lasting?: number; crashes?: number; cut?: number;
}

/** The random run that `ct_tool walk` makes of options, asked turn by turn what it tries next. The caller applies the step in a world of
 *  its own, or doesn't; the turns behind go by the world as it stands then. Where each is applied in what `world` makes, the record is the
 *  one that `ct_tool walk` prints. An option out of its range is a RangeError; of a walk or a world that is closed the error's `code` is
 *  "NotOpen". */
export class Walk {
  constructor(members: number, options?: WalkOptions);
  readonly members: number;
  /** A world without steps, with the setup of the one that `ct_tool walk` makes. */
  world(): World;
  /** The step that the next turn tries, in this world as it stands: where the rules refuse it, the next turn is asked for all the same.
   *  "rest" where it tries none, "over" where all turns were made. */
  turn(world: World): Step | "rest" | "over";
  close(): void;
}

/** `namesMembers`: the test names members, so no trial gives them other numbers. `trials`: so many are made at most, 10,000 if left out. */
export interface ShrinkOptions { namesMembers?: boolean; trials?: number }

/** It makes a run that passes a test of the caller's smaller trial by trial, as `ct_tool shrink` does for a goal. Each trial is the run
 *  without some steps, in a fresh world of the caller's with the same members, cells and bound; in the end the turns in a fresh world make
 *  the smallest run. `shrunk` makes all trials, where the test is one of the world. Of a shrinker or a world that is closed the error's
 *  `code` is "NotOpen". */
export class Shrinker {
  /** Of the run of this world. It takes as long as replaying the record. */
  constructor(world: World, options?: ShrinkOptions);
  /** Asks for the next trial, and tells whether there is one: there is none where no step can be left out, or so many trials were made.
   *  Until the trial was told it is asked for again, from its first step. */
  next(): boolean;
  /** The next step of the trial, in this world as it stands, where it is allowed; null behind the last. In place of one that the rules
   *  refuse there, its member does what else it may, or it is left out. Where no trial is asked for, the steps are those of the smallest
   *  run so far. */
  turn(world: World): Step | null;
  /** Tells what the trial came to: whether the test is passed in this world. Where it is, in fewer steps than the smallest run so far has,
   *  the world's run is that from here on. An Error whose `code` is "NoTrial" where none is asked for. */
  told(world: World, passed: boolean): void;
  /** Whether no step of the smallest run can be left out, as far as the trials were told. */
  isLeast(): boolean;
  close(): void;
}

/** The smallest run that the trials leave of this world's, which passes: each is asked before each of its steps, and behind the last,
 *  whether it passes. */
export function shrunk(world: World, passes: (world: World) => boolean, options?: ShrinkOptions): World;

/** A run that is judged line by line, as `ct_tool interact` judges it. */
export class Session {
  constructor();
  /** How many lines were told, the refused ones too. */
  readonly lines: number;
  /** What the line's steps sent; LineRefused, or TypeError of a text that is not one line, or of a question. */
  tell(line: string): Sent;
  /** The answer to the line, which may be a question; or LineRefused. */
  ask(line: string): string;
  /** The answers to these lines, one each, also to those that are refused: many at once are quicker than one by one. */
  tellAll(lines: readonly string[]): string[];
  /** The record of the steps so far: JSON. An Error whose `code` is "NoWorld" where no step was told yet. */
  record(): string;
  /** The diagram of the steps so far, as SVG; of too many steps an Error whose `code` is "TooLong". */
  diagram(): string;
  /** Begins anew, told nothing. */
  begin(): void;
  close(): void;
}

/** Runs the program ct_tool (docs/FORMATS.md) with these words, this text as standard input and these files to be read, none other. It
 *  makes no file, has one thread, and holds up its caller's: what takes long is for a worker. */
export function tool(
  words: readonly string[], given?: { input?: string; files?: { name: string; bytes: Uint8Array }[] },
): Promise<{ status: number; out: string; err: string }>;

/** Of the library, as `ct_version` answers it. */
export const version: string;
