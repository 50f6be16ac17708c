#!/usr/bin/env python3
"""A small reference of `ct replay` for all steps and versions of records: reliable
broadcast, consensus and atomic broadcast over a network that loses and repeats.

Reads a record on standard input and prints its report, or on standard error
`step <at>: <Name>` for the first refused step, with status 1, or `record: <fault>`
with status 2. It is written from the rules alone, to be compared with the proved
program. What is JSON is Python's to say, which is less strict than `serde_json`.

    python3 model.py < record.json
"""
import json
import sys
from bisect import bisect_left, insort

SUBMISSIONS = 65_535    # greatest number for each member
INSTANCES = 1_024       # greatest number begun by each member
ROUNDS = 10_000         # greatest number of one instance
ENVELOPES = 1_000_000   # greatest number sent in all
STEPS = 1_000_000       # greatest number in a record
BOUND = 1_048_560       # greatest bound on a proposal, that of records which don't name one
LENGTH = 67_108_864     # greatest length of a record's text
REGISTERS = 16
LARGEST = (1 << 64) - 1   # greatest value of a register

# Greatest numbers of a record's fields.
MEMBER = REGISTER = 255
SERIAL = (1 << 32) - 1

COMMAND = {"set": (REGISTER, LARGEST), "add": (REGISTER, LARGEST), "copy": (REGISTER, REGISTER)}

# What stands behind a step's name: numbers, and the command of a submission.
STEP = {"submit": (MEMBER, COMMAND), "receive": (MEMBER, SERIAL), "begin": (MEMBER,), "enter": (MEMBER,),
        "choose": (MEMBER, MEMBER), "adopt": (MEMBER,), "suspect": (MEMBER,), "conclude": (MEMBER,),
        "deliver": (MEMBER,), "crash": (MEMBER,), "postpone": (MEMBER, SERIAL)}
LOSSY_STEP = {**STEP, "lose": (MEMBER, SERIAL), "repeat": (MEMBER, SERIAL)}
FOLLOWED_STEP = {**LOSSY_STEP, "follow": (MEMBER,)}

# The steps of each version, and its keys with what they hold.
KEYS = {"cells": (0, 1_024), "n": (1, 16), "steps": None, "version": None}
VERSIONS = {1: (STEP, KEYS), 2: (LOSSY_STEP, KEYS), 3: (FOLLOWED_STEP, {**KEYS, "batch": (1, BOUND)})}


class Refused(Exception):
    """A step that the rules refuse, with the refusal's name."""


class Fault(Exception):
    """Something that is no record, with the fault's name."""


class Instance:
    """What a member has of its open instance k."""

    def __init__(self, k, estimate):
        self.k = k
        self.round = 0
        self.phase = "Rest"
        self.estimate = estimate   # a value: the messages in order, as a tuple
        self.ts = 0


class Member:
    def __init__(self):
        self.up = True
        self.submitted = 0
        self.received = {}    # messages in order of first receipt; the values say nothing
        self.pending = []     # messages received and not delivered, in order
        self.line = {}        # waiting serials in order; the values say nothing
        self.last = 0         # the last instance begun
        self.open = None      # that instance, if it is open
        self.estimates = {}   # by (instance, round), by sender: estimate and ts of the first Est got
        self.proposals = {}   # by (instance, round): value of the first Prop got
        self.replied = {}     # by (instance, round): senders of each Ack or Nack got
        self.acked = {}       # by (instance, round): senders of each Ack got
        self.decided = set()  # (instance, round) of each Dec got
        self.decisions = {}   # by instance: value of the first Dec got
        self.delivered = {}   # messages in order of delivery; the values say nothing
        self.batches = 0


class World:
    def __init__(self, n, cells, bound):
        self.members = {p: Member() for p in range(1, n + 1)}
        self.n, self.majority, self.cells, self.bound = n, n // 2 + 1, cells, bound
        self.commands = {}    # by message, which is (origin, number)
        self.wires = [None]   # of each serial: its kind and fields
        self.sent_to = [0]    # of each serial: the member that it was sent to
        self.steps = 0

    def sent(self):
        return len(self.wires) - 1

    def posted(self):
        return max(member.batches for member in self.members.values())

    def coordinator(self, r):
        return r % self.n + 1

    def send(self, to, wire):
        self.members[to].line[len(self.wires)] = None
        self.wires.append(wire)
        self.sent_to.append(to)

    def send_to_all(self, wire):
        for p in self.members:
            self.send(p, wire)

    def check_limits(self, submissions=0, instances=0, rounds=0, envelopes=0, batches=0):
        """Refuses a step that brings its member to such counts, or sends so many more envelopes."""
        if submissions > SUBMISSIONS:
            raise Refused("Full(Submissions)")
        if instances > INSTANCES:
            raise Refused("Full(Instances)")
        if rounds > ROUNDS:
            raise Refused("Full(Rounds)")
        if self.sent() + envelopes > ENVELOPES:
            raise Refused("Full(Envelopes)")
        if batches > self.cells:
            raise Refused("Full(Cells)")
        if self.steps + 1 > STEPS:
            raise Refused("Full(Steps)")

    # Reliable broadcast.

    def submit(self, p, member, command):
        name, first, second = command
        if first >= REGISTERS or (name == "copy" and second >= REGISTERS):
            raise Refused("BadCommand")
        self.check_limits(submissions=member.submitted + 1, envelopes=self.n)
        member.submitted += 1
        message = (p, member.submitted)
        self.commands[message] = command
        self.send_to_all(("Data", message))

    def relays(self, p, member, wire):
        """Whether p sends the wire to all when it gets it."""
        if wire[0] == "Data":
            return wire[1] not in member.received and wire[1][0] != p
        if wire[0] == "Dec":
            return wire[1:3] not in member.decided and self.coordinator(wire[2]) != p
        return False

    def receive(self, p, member, serial):
        if serial not in member.line:
            raise Refused("NotWaiting")
        wire = self.wires[serial]
        relays = self.relays(p, member, wire)
        self.check_limits(envelopes=self.n if relays else 0)
        del member.line[serial]
        self.note(member, *wire)
        if relays:
            self.send_to_all(wire)

    def note(self, member, kind, *fields):
        """The member has got a wire of this kind."""
        if kind == "Data":
            message = fields[0]
            if message not in member.received and message not in member.delivered:
                insort(member.pending, message)
            member.received.setdefault(message)
            return
        k, r, *rest = fields
        if kind == "Est":
            sender, estimate, ts = rest
            member.estimates.setdefault((k, r), {}).setdefault(sender, (estimate, ts))
        elif kind == "Prop":
            member.proposals.setdefault((k, r), rest[0])
        elif kind == "Dec":
            member.decided.add((k, r))
            member.decisions.setdefault(k, rest[0])
        else:
            member.replied.setdefault((k, r), set()).add(rest[0])
            if kind == "Ack":
                member.acked.setdefault((k, r), set()).add(rest[0])

    # Consensus and atomic broadcast.

    def begin(self, p, member):
        if member.open:
            raise Refused("Busy")
        if not member.pending:
            raise Refused("Nothing")
        self.check_limits(instances=member.last + 1)
        member.last += 1
        member.open = Instance(member.last, tuple(member.pending[:self.bound]))

    def opened(self, member, phase):
        """The open instance, which must be in this phase."""
        if not member.open:
            raise Refused("Idle")
        if member.open.phase != phase:
            raise Refused("WrongPhase")
        return member.open

    def enter(self, p, member):
        here = self.opened(member, "Rest")
        if here.k in member.decisions:
            raise Refused("Decided")
        self.check_limits(rounds=here.round + 1, envelopes=1)
        here.round += 1
        coordinator = self.coordinator(here.round)
        self.send(coordinator, ("Est", here.k, here.round, p, here.estimate, here.ts))
        here.phase = "Gather" if p == coordinator else "Wait"

    def choose(self, p, member, sender):
        here = self.opened(member, "Gather")
        heard = member.estimates.get((here.k, here.round), {})
        if len(heard) < self.majority:
            raise Refused("TooFew")
        if sender not in heard or any(ts > heard[sender][1] for _, ts in heard.values()):
            raise Refused("NotLargest")
        self.check_limits(envelopes=self.n)
        here.estimate = heard[sender][0]
        self.send_to_all(("Prop", here.k, here.round, here.estimate))
        here.phase = "Wait"

    def reply(self, p, here, kind):
        """Sends an Ack or Nack; the coordinator then tallies, another's round is over."""
        coordinator = self.coordinator(here.round)
        self.send(coordinator, (kind, here.k, here.round, p))
        here.phase = "Tally" if p == coordinator else "Rest"

    def adopt(self, p, member):
        here = self.opened(member, "Wait")
        if (here.k, here.round) not in member.proposals:
            raise Refused("NoProposal")
        self.check_limits(envelopes=1)
        here.estimate = member.proposals[here.k, here.round]
        here.ts = here.round
        self.reply(p, here, "Ack")

    def suspect(self, p, member):
        here = self.opened(member, "Wait")
        if (here.k, here.round) in member.proposals:
            raise Refused("HasProposal")
        self.check_limits(envelopes=1)
        self.reply(p, here, "Nack")

    def conclude(self, p, member):
        here = self.opened(member, "Tally")
        if len(member.replied.get((here.k, here.round), ())) < self.majority:
            raise Refused("TooFew")
        decides = len(member.acked.get((here.k, here.round), ())) >= self.majority
        self.check_limits(envelopes=self.n if decides else 0)
        if decides:
            self.send_to_all(("Dec", here.k, here.round, here.estimate))
        here.phase = "Rest"

    def deliver(self, p, member):
        if not member.open:
            raise Refused("Idle")
        if member.open.k not in member.decisions:
            raise Refused("Undecided")
        self.check_limits(batches=member.batches + 1)
        self.append(member, member.decisions[member.open.k])
        member.open = None

    def follow(self, p, member):
        """Begins and closes the next instance at once, whose decision p has got."""
        if member.open:
            raise Refused("Busy")
        if member.last + 1 not in member.decisions:
            raise Refused("Undecided")
        self.check_limits(instances=member.last + 1, batches=member.batches + 1)
        member.last += 1
        self.append(member, member.decisions[member.last])

    def append(self, member, value):
        """The member delivers what it didn't deliver of the value, in order, as one batch."""
        for message in value:
            member.delivered.setdefault(message)
            place = bisect_left(member.pending, message)
            if member.pending[place:place + 1] == [message]:
                del member.pending[place]
        member.batches += 1

    # Faults.

    def crash(self, p, member):
        self.check_limits()
        member.up = False

    def postpone(self, p, member, serial):
        if serial not in member.line:
            raise Refused("NotWaiting")
        self.check_limits()
        del member.line[serial]
        member.line[serial] = None

    def lose(self, p, member, serial):
        if serial not in member.line:
            raise Refused("NotWaiting")
        self.check_limits()
        del member.line[serial]

    def repeat(self, p, member, serial):
        if not 1 <= serial <= self.sent() or self.sent_to[serial] != p:
            raise Refused("NotSent")
        if serial in member.line:
            raise Refused("StillWaiting")
        self.check_limits()
        member.line[serial] = None

    def apply(self, name, p, *rest):
        act = {"submit": self.submit, "receive": self.receive, "begin": self.begin, "enter": self.enter,
               "choose": self.choose, "adopt": self.adopt, "suspect": self.suspect, "conclude": self.conclude,
               "deliver": self.deliver, "follow": self.follow, "crash": self.crash, "postpone": self.postpone,
               "lose": self.lose, "repeat": self.repeat}[name]
        if p not in self.members:
            raise Refused("NoSuchMember")
        if not self.members[p].up:
            raise Refused("Crashed")
        act(p, self.members[p], *rest)
        self.steps += 1


def table(commands):
    """The registers after these commands, from zeros."""
    registers = [0] * REGISTERS
    for name, first, second in commands:
        if name == "set":
            registers[first] = second
        elif name == "add":
            registers[first] = min(registers[first] + second, LARGEST)
        else:
            registers[second] = registers[first]
    return registers


def names(messages, joint):
    return joint.join(f"{origin}.{number}" for origin, number in messages)


def report(world):
    yield f"group {world.n} majority {world.majority} cells {world.cells}"
    yield f"steps {world.steps} sent {world.sent()} posted {world.posted()}"
    for p, member in world.members.items():
        state = "up" if member.up else "crashed"
        yield f"member {p} {state} instance {member.last} {'open' if member.open else 'idle'}"
        yield f"received {names(member.received, ' ') or '-'}"
        decided = (f"{k}:{names(value, ',')}" for k, value in sorted(member.decisions.items()))
        yield f"decided {' '.join(decided) or '-'}"
        yield f"delivered {names(member.delivered, ' ') or '-'}"
        registers = enumerate(table(world.commands[message] for message in member.delivered))
        yield f"table {' '.join(f'{place}={value}' for place, value in registers if value) or '-'}"


# Records.

def is_whole(value, least, greatest):
    return type(value) is int and least <= value <= greatest


def is_list_of(entry, table):
    """Whether the entry is a list of a name in the table and what the table asks for behind it."""
    if not isinstance(entry, list) or not entry or not isinstance(entry[0], str) or entry[0] not in table:
        return False
    asked = table[entry[0]]
    return len(entry) == len(asked) + 1 and all(
        is_list_of(field, greatest) if isinstance(greatest, dict) else is_whole(field, 0, greatest)
        for field, greatest in zip(entry[1:], asked))


def parsed(data):
    """The JSON value that these bytes are the text of."""
    if len(data) > LENGTH:
        raise Fault("too long")
    try:
        return json.loads(data.decode())
    except (ValueError, RecursionError):
        raise Fault("not JSON") from None


def read(data):
    """The world without steps and the steps that a record's bytes say."""
    record = parsed(data)
    if not isinstance(record, dict) or not is_whole(record.get("version"), 0, LARGEST):
        raise Fault("shape at 0")
    if record["version"] not in VERSIONS:
        raise Fault("version")
    table, keys = VERSIONS[record["version"]]
    ranges = {key: ends for key, ends in keys.items() if ends}
    if record.keys() != keys.keys() or not all(is_whole(record[key], *ends) for key, ends in ranges.items()):
        raise Fault("shape at 0")
    if not isinstance(record["steps"], list):
        raise Fault("shape at 0")
    for at, step in enumerate(record["steps"], 1):
        if not is_list_of(step, table):
            raise Fault(f"shape at {at}")
    return World(record["n"], record["cells"], record.get("batch", BOUND)), record["steps"]


def main():
    try:
        world, steps = read(sys.stdin.buffer.read(LENGTH + 1))
    except Fault as fault:
        print(f"record: {fault}", file=sys.stderr)
        return 2
    for at, step in enumerate(steps, 1):
        try:
            world.apply(*step)
        except Refused as refusal:
            print(f"step {at}: {refusal}", file=sys.stderr)
            return 1
    print("\n".join(report(world)))
    return 0


if __name__ == "__main__":
    sys.exit(main())
