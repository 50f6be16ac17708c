// What the package's types let pass, and what they don't.
import { Envelope, Refused, Session, Shrinker, Step, StepRefused, Walk, World, shrunk, tool, version } from "../index.js";

const world = new World(3, { cells: 4 });
const { first, count } = world.apply(["submit", 1, ["set", 0, 7n]]);
const next: Step | null = world.next(1);
if (next && next[0] === "choose") world.apply(["choose", next[1], next[2]]);
const said = (error: Refused): string => (error instanceof StepRefused ? error.refusal : error.message);
const it: Envelope | null = world.envelope(first);
const ts: number = it && it.kind === "est" ? it.ts : 0;
const name: string = it && it.kind === "data" ? it.message.name : "";
const table: bigint[] = world.table(1);
const { phase, heard } = world.standing(1);
const place: string = phase === "Gather" ? heard.map(({ member, ts }) => `${member} ${ts}`).join() : phase ?? "none";
const walk = new Walk(3, { seed: 7, cut: 2 });
const turn = walk.turn(walk.world());
if (turn !== "rest" && turn !== "over") world.apply(turn);
const shrinker = new Shrinker(world, { namesMembers: true });
const tried: Step | null = shrinker.next() ? shrinker.turn(world) : null;
if (tried) shrinker.told(world, world.enabled(tried));
const least: World = shrunk(world, (it) => it.hasCrashed(1), { trials: 99 });
const answers: string[] = new Session().tellAll(["members 3"]);
const told: Promise<string> = tool(["walk"], { input: "" }).then(({ status, out }) => `${status}${out}`);
console.log(version, count, said, ts, name, table, place, least, answers, told);

// @ts-expect-error: no phase
world.standing(1).phase = "Begin";
// @ts-expect-error: a step of no number
world.apply(["begin", 1, 2]);
// @ts-expect-error: a step without its serial
world.apply(["receive", 1]);
// @ts-expect-error: no step
world.apply(["start", 1]);
