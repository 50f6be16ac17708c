// Three members deliver a message. The coordinator of round 1 proposes too early once, which is refused.
import { Refused, World } from "malletochre";

const world = new World(3);

// The member's next step, or a receipt; whether it moved.
function turn(member) {
  let step = world.next(member);
  const [serial] = world.serials(member);
  if (!step || step[0] === "suspect") step = serial ? ["receive", member, serial] : null;
  if (step) world.apply(step);
  return Boolean(step);
}

world.apply(["submit", 1, ["set", 0, 7]]);
for (let i = 0; i < 3; i++) turn(2); // receives, begins, enters round 1, which it coordinates
try {
  world.apply(["choose", 2, 2]);
} catch (error) {
  if (!(error instanceof Refused)) throw error;
  console.log("refused", error.refusal);
}
while ([1, 2, 3].map(turn).includes(true));
for (const member of [1, 2, 3]) {
  const names = world.delivered(member).map((it) => it.name).join(" ");
  console.log(`member ${member} delivered ${names} register 0 is ${world.table(member)[0]}`);
}
