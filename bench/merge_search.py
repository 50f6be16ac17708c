#!/usr/bin/env python3
"""Compares `ct_tool merge` with a search through all orders of small logs, over the rules of model.py.

    merge_search.py [--tool PROGRAM] [--sets N] [--seed S] [--show]

Each set has the logs of a random run of 2 or 3 members, of which lines were dropped, swapped, changed or cut off. The search takes the
lines in every order that the rules allow:

accepted    some order takes all lines.
refused     none does, and in some order that gets no further a log stands at a line that the rules refuse, or that isn't as it is stated;
            or waits for what its sender can't send any more; or in a circle of logs that wait for each other.
incomplete  none does, and each log that stands waits, over others, for a log that has ended and whose member might send on.

Prints how many sets have each verdict, and each difference. Ends with status 1 where there is one, or where two orders of a set that get
no further get to other lines.
"""
import argparse
import collections
import os
import pickle
import random
import subprocess
import sys
import tempfile

sys.dont_write_bytecode = True
import model  # noqa: E402

TOOL = os.path.join(os.path.dirname(os.path.abspath(__file__)), "..", "crates", "ct_tool", "out", "ct_tool")
STATUSES = {0: "accepted", 1: "refused", 6: "incomplete"}
SECONDS = 20
LINES = {2: 56, 3: 32}   # of a run of so many members, less than these
CELLS = 64
ALONE = ("begin", "enter", "adopt", "suspect", "conclude", "deliver", "follow", "crash")


class Waits(Exception):
    """The envelope of a line was not sent yet."""


class State:
    """A world, and how many lines of each log were taken. names: of each envelope sent its receiver, sender, kind and two numbers."""

    def __init__(self, n):
        self.world = model.World(n, CELLS, model.BOUND)
        self.serials = {}   # by name
        self.at = {p: 0 for p in self.world.members}

    def copy(self):
        return pickle.loads(pickle.dumps(self))

    def take(self, p, line):
        """Takes the line of member p; Refused, with what it is refused for, or Waits."""
        words = line.split()
        act, stated = words[0], " ".join(words[1:])
        member = self.world.members[p]
        if not member.up:
            raise model.Refused("Crashed")
        if act == "submit":
            self.apply(p, act, (words[1], int(words[2]), int(words[3])))
            return
        if act == "receive":
            name, stated = (p, int(words[4]), words[1], *map(int, words[2].replace(".", "/").split("/"))), " ".join(words[5:])
            if name not in self.serials:
                raise Waits(name)
            if self.serials[name] not in member.line:
                self.apply(p, "repeat", self.serials[name])
            self.apply(p, act, self.serials[name])
            there = self.carried(self.serials[name])
        elif act == "choose":
            stated = " ".join(words[2:])
            self.apply(p, act, int(words[1]))
            there = braced(member.open.estimate)
        else:
            before = len(member.delivered)
            self.apply(p, act)
            there = self.done(member, act, before)
        if stated and stated != there:
            raise model.Refused(f"stated {stated}, there is {there}")

    def apply(self, p, *step):
        first = len(self.world.wires)
        self.world.apply(step[0], p, *step[1:])
        for serial in range(first, len(self.world.wires)):
            kind, *fields = self.world.wires[serial]
            name = (self.world.sent_to[serial], p, kind.lower(), *(fields[0] if kind == "Data" else fields[:2]))
            if name in self.serials:
                raise AssertionError(f"two envelopes of one name: {name}")
            self.serials[name] = serial

    def done(self, member, act, before):
        """What a step without an envelope came to."""
        if act == "begin":
            return braced(member.open.estimate)
        if act in ("enter", "adopt"):
            return f"{braced(member.open.estimate)} ts {member.open.ts}"
        return braced(list(member.delivered)[before:]) if act in ("deliver", "follow") else ""

    def carried(self, serial):
        kind, *fields = self.world.wires[serial]
        if kind == "Data":
            return " ".join(map(str, self.world.commands[fields[0]]))
        if kind == "Est":
            return f"{braced(fields[3])} ts {fields[4]}"
        return braced(fields[2]) if kind in ("Prop", "Dec") else ""

    def key(self):
        """All of the state but in which order envelopes were sent."""
        name_of = {serial: name for name, serial in self.serials.items()}
        members = []
        for member in self.world.members.values():
            fields = {**vars(member), "line": sorted(name_of[serial] for serial in member.line),
                      "open": member.open and vars(member.open), "decided": sorted(member.decided)}
            for field in ("estimates", "replied", "acked", "proposals", "decisions"):
                fields[field] = sorted((mark, sorted(found.items() if isinstance(found, dict) else found))
                                       for mark, found in fields[field].items())
            members.append(sorted((field, repr(value)) for field, value in fields.items()))
        sent = sorted((name, self.carried(serial)) for name, serial in self.serials.items())
        return repr((sorted(self.at.items()), members, sent))


def braced(value):
    return "{" + ",".join(f"{origin}.{number}" for origin, number in value) + "}"


# ---- the search


def orders(n, logs):
    """The states at which no order gets further, each with why: of each log that stands what it waits for, or None."""
    start = State(n)
    left, seen, ends = [start], {start.key()}, []
    while left:
        state, stuck = left.pop(), {}
        for p, log in logs.items():
            if state.at[p] == len(log):
                continue
            after = state.copy()
            try:
                after.take(p, log[state.at[p]])
            except Waits as waits:
                stuck[p] = waits.args[0]
            except model.Refused:
                stuck[p] = None
            else:
                after.at[p] += 1
                stuck[p] = "goes on"
                if after.key() not in seen:
                    seen.add(after.key())
                    left.append(after)
        if "goes on" not in stuck.values():
            ends.append((state, stuck))
    return ends


def verdict(n, logs):
    """The verdict, and how many lines of each log the orders take that get no further."""
    ends = orders(n, logs)
    places = {tuple(state.at.values()) for state, _ in ends}
    if any(not stuck for _, stuck in ends):
        return "accepted", places
    is_cut = all(ends_cut(state, stuck, logs, p) for state, stuck in ends for p in stuck)
    return "incomplete" if is_cut else "refused", places


def ends_cut(state, stuck, logs, p):
    """Whether the waits of p's log lead to a log that has ended and might send on."""
    seen = set()
    while p not in seen:
        seen.add(p)
        name = stuck[p]
        if name is None or not might_send(state.world, name):
            return False
        p = name[1]
        if p not in stuck:
            return True
    return False


def might_send(world, name):
    """Whether the sender might send the envelope of this name by steps that it takes later. In a round it may send what it comes to
    later there, and no nack once it has the proposal; it enters none with the instance's decision; what it passes on, before its first
    receipt."""
    to, q, kind, first, second = name
    if q not in world.members or not world.members[q].up:
        return False
    member = world.members[q]
    if kind == "data":
        return member.submitted < second if first == q else (first, second) not in member.received
    coordinator = world.coordinator(second)
    if kind == "dec" and coordinator != q:
        return (first, second) not in member.decided
    if (to if kind in ("est", "ack", "nack") else q) != coordinator:
        return False
    if kind == "nack" and (first, second) in member.proposals:
        return False
    if member.open and (first, second) == (member.last, member.open.round):
        return member.open.phase in {"est": (), "prop": ("Gather",), "dec": ("Gather", "Wait", "Tally")}.get(kind, ("Gather", "Wait"))
    if first in member.decisions:
        return False
    return first > member.last or bool(member.open) and first == member.last and second > member.open.round


# ---- random sets


def lines_of(state, p, chance):
    """Lines that member p might write next: one of each act and receipt, allowed or not."""
    member = state.world.members[p]
    waiting = [name for name in state.serials if name[0] == p]
    lines = [act for act in ALONE if act != "crash" or chance.random() < 0.05]
    lines += [f"choose {q}" for q in state.world.members]
    lines += [f"submit add {p} {chance.randrange(9)}"] if member.submitted < 2 and chance.random() < 0.3 else []
    for name in waiting:
        if state.serials[name] in member.line or chance.random() < 0.05:
            mark = f"{name[3]}.{name[4]}" if name[2] == "data" else f"{name[3]}/{name[4]}"
            lines.append(f"receive {name[2]} {mark} from {name[1]}")
    return lines


def random_logs(n, chance):
    """The logs of a random run, in which some values are stated."""
    state = State(n)
    logs = {p: [] for p in state.world.members}
    state.take(1, "submit set 0 7")
    logs[1].append("submit set 0 7")
    for _ in range(chance.randrange(6, LINES[n])):
        p = chance.choice(list(logs))
        lines = lines_of(state, p, chance)
        chance.shuffle(lines)
        lines.sort(key=lambda line: (line in ("suspect", "crash") and chance.random() < 0.95, "data" in line and chance.random() < 0.7))
        for line in lines:
            after = state.copy()
            try:
                after.take(p, line)
            except (model.Refused, Waits):
                continue
            stated = outcome(state, p, line) if chance.random() < 0.7 else ""
            state = after
            logs[p].append(f"{line} {stated}".strip())
            break
    return logs


def outcome(state, p, line):
    """What the line comes to, as it may be stated behind it."""
    if line.startswith("submit"):
        return ""
    try:
        state.copy().take(p, line + " ?")
    except model.Refused as refused:
        return str(refused).partition("there is ")[2]
    return ""


def changed(line, n, chance):
    """The line with a number in it changed, or another kind of reply; it stays one that is understood."""
    if " ack " in line or " nack " in line:
        return line.replace(" ack ", " nack ") if " ack " in line else line.replace(" nack ", " ack ")
    places = [place for place, sign in enumerate(line) if sign.isdigit()]
    if not places or line.startswith("submit"):
        return line
    place = chance.choice(places)
    return line[:place] + str(chance.randrange(1, n + 1)) + line[place + 1:]


def damage(logs, n, chance):
    """Cuts off the end of a log, or drops, swaps, changes and cuts off lines up to three times."""
    if chance.random() < 0.3:
        log = logs[chance.choice(list(logs))]
        del log[chance.randrange(len(log) + 1):]
        return
    for _ in range(chance.randrange(0, 4)):
        log = logs[chance.choice([p for p in logs if logs[p]])]
        place = chance.randrange(len(log))
        how = chance.randrange(4)
        if how == 0:
            del log[place]
        elif how == 1 and place:
            log[place - 1], log[place] = log[place], log[place - 1]
        elif how == 2:
            log[place] = changed(log[place], n, chance)
        else:
            del log[max(place, len(log) - 3):]
        if not any(logs.values()):
            return


# ---- the comparison


def judged(tool, n, logs, folder):
    """What the tool says."""
    paths = []
    for p, log in logs.items():
        paths.append(os.path.join(folder, f"{p}.log"))
        with open(paths[-1], "w", encoding="utf-8") as file:
            file.write(f"members {n}\n" + "".join(f"{p} {line}\n" for line in log))
    done = subprocess.run([tool, "merge", *paths], stdout=subprocess.PIPE, stderr=subprocess.PIPE, universal_newlines=True, timeout=SECONDS)
    return STATUSES.get(done.returncode, f"status {done.returncode}"), done.stderr.strip()


def shown(n, logs):
    return f"members {n}\n" + "".join(f"{p} {line}\n" for p, log in logs.items() for line in log)


def main():
    made = argparse.ArgumentParser(description=__doc__.split("\n")[0])
    made.add_argument("--tool", default=TOOL, metavar="PROGRAM", help="the built ct_tool (default that of crates/)")
    made.add_argument("--sets", type=int, default=200, metavar="N", help="how many sets (default 200)")
    made.add_argument("--seed", type=int, default=1, metavar="S", help="what the sets are drawn from (default 1)")
    made.add_argument("--show", action="store_true", help="show the logs of each difference")
    options = made.parse_args()
    counts, differences = collections.Counter(), 0
    with tempfile.TemporaryDirectory() as folder:
        for number in range(1, options.sets + 1):
            chance = random.Random(options.seed * 1_000_003 + number)
            n = chance.choice((2, 3))
            logs = random_logs(n, chance)
            damage(logs, n, chance)
            if not any(logs.values()):
                continue
            found, places = verdict(n, logs)
            counts[found] += 1
            said, fault = judged(options.tool, n, logs, folder)
            wrong = [f"the search says {found}, the tool {said}: {fault}"] if said != found else []
            wrong += [f"orders that get no further get to {sorted(places)}"] if len(places) > 1 else []
            for what in wrong:
                differences += 1
                print(f"set {number}: {what}" + (f"\n{shown(n, logs)}" if options.show else ""))
    print(", ".join(f"{counts[name]} {name}" for name in STATUSES.values()) + f"; {differences} differences")
    return 1 if differences else 0


if __name__ == "__main__":
    sys.exit(main())
