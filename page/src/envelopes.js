// What waits at a member, of an answer as: waiting #4 data 3.1 from 3 add 0 5, #7 prop 1/1 from 2 {1.1}

// The envelopes, each with its serial, kind, text, what it carries and who sent it, and the name by which a line takes it.
export function waitingIn(answer) {
  const list = answer.replace(/^waiting /, "");
  if (list === "-" || list === "") return [];
  const all = list.split(/, (?=#)/).map((text) => {
    const [serial, kind, what, , sender] = text.split(" ");
    return { serial: Number(serial.slice(1)), kind, text, carried: `${kind} ${what} from ${sender}` };
  });
  const names = new Map();
  for (const it of all) names.set(it.carried, (names.get(it.carried) ?? 0) + 1);
  return all.map((it) => ({ ...it, name: names.get(it.carried) === 1 ? it.carried : `#${it.serial}` }));
}

// The serials of envelopes to a member that were received or lost, the last ones first.
export function goneTo(run, member, most) {
  const found = [];
  const { trips } = run;
  const seen = new Set();
  for (let trip = trips.from.length - 1; trip >= 0 && found.length < most; trip--) {
    const serial = trips.serial.at(trip);
    if (seen.has(serial)) continue;
    seen.add(serial);
    if (trips.to.at(trip) >= 0 && run.world.envelope(serial).to === member) found.push(serial);
  }
  return found;
}
