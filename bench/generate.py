#!/usr/bin/env python3
"""Writes a record of steps, each of them allowed. The same options give the same record.

Without --whole the steps are submit, receive, postpone and crash. The generator
follows the rules as it goes. A submission sends an envelope to each
of the n members, and so does a member that gets a message of another origin for
the first time, so a message costs n * n envelopes once all have relayed it. Each
submission reserves them all, and submissions are spread over the record so that
what is reserved never passes the limit; between them stand receipts (of
duplicates too) and postponements. Lines grow where more is sent than received.
The last serial that waits at a member still up is kept where no submission is
left, so that a step is always allowed. With --lose and --repeat some envelopes are
lost, and some that were lost or received wait again.

    python3 generate.py --members 5 --steps 100000 --seed 1 > record.json

With --whole the record has all steps: instances of consensus are begun at even
distances, members take their steps in random order, and each suspects the
coordinator of a round at random, or because it has crashed or is slow. For a
while one member may receive seldom, or take its other steps seldom, so that it
falls behind. Submissions come several at once, and so far apart that about 0.9
envelopes are sent for each step. --batch bounds proposals; with --pending many
messages are pending at every member before the first instance; with --follow some
members wait for the decision of an instance that enough others begin, and follow
it. A line of counts goes to standard error.

    python3 generate.py --whole --members 5 --steps 100000 --seed 1 --crash 2 > record.json

The record is one of version 3. --version writes an older one for comparison, where
the options ask for nothing that is newer.
"""
import argparse
import random
import sys
from bisect import bisect_left, insort
from collections import deque

SUBMISSIONS = 65_535    # greatest number for each member
INSTANCES = 1_024       # greatest number begun by each member
ROUNDS = 10_000         # greatest number of one instance
ENVELOPES = 1_000_000   # greatest number sent in all
STEPS = 1_000_000       # greatest number in a record
CELLS = 1_024           # greatest number of cells
BOUND = 1_048_560       # greatest bound on a proposal, that of records which don't name one
REGISTERS = 16
SENT_PER_STEP = 0.9     # what submissions aim at with --whole
ORIGIN = SUBMISSIONS + 1   # with --whole a message is so many times its origin, and its number there


def arguments():
    parser = argparse.ArgumentParser(description="Write a record of allowed steps to standard output.")
    parser.add_argument("--members", type=int, required=True, help="members of the group, 1 to 16")
    parser.add_argument("--steps", type=int, required=True, help="steps of the record, 0 to 1000000")
    parser.add_argument("--seed", type=int, default=0, help="seed of the random choices (default 0)")
    parser.add_argument("--depth", type=int, default=8, metavar="D",
                        help="receipts and postponements pick among the first D of a line (default 8)")
    parser.add_argument("--crash", type=int, default=0, metavar="C",
                        help="at most C members crash, at random steps, 0 to members - 1, with --whole fewer than"
                             " half of the members (default 0)")
    parser.add_argument("--cells", type=int, metavar="CELLS",
                        help="cells of the record, 0 to 1024 (default 4, with --whole 1024)")
    parser.add_argument("--mix", type=int, nargs=3, default=[1, 20, 4],
                        metavar=("SUBMIT", "RECEIVE", "POSTPONE"),
                        help="weights of the steps without --whole (default 1 20 4)")
    parser.add_argument("--lose", type=int, default=0, metavar="PERCENT",
                        help="chance that a step loses an envelope (default 0)")
    parser.add_argument("--repeat", type=int, default=0, metavar="PERCENT",
                        help="chance that a step repeats an envelope, half of them lost ones (default 0)")
    parser.add_argument("--batch", type=int, default=BOUND, metavar="B",
                        help=f"bound on a proposal, 1 to {BOUND} (default {BOUND})")
    parser.add_argument("--version", type=int, default=3, choices=(1, 2, 3), help="version of the record (default 3)")
    whole = parser.add_argument_group("the whole algorithm")
    whole.add_argument("--whole", action="store_true", help="steps of consensus and atomic broadcast too")
    whole.add_argument("--instances", type=int, metavar="I",
                       help="begin at most I instances, 0 to 1024 (default one for 1000 steps, at least 1)")
    whole.add_argument("--suspect", type=int, default=15, metavar="PERCENT",
                       help="chance that a member which enters a round means to suspect its coordinator (default 15)")
    whole.add_argument("--postpone", type=int, default=2, metavar="PERCENT",
                       help="chance that a step is a postponement (default 2)")
    whole.add_argument("--far", type=int, default=5, metavar="PERCENT",
                       help="chance that a receipt or postponement picks in the whole line (default 5)")
    whole.add_argument("--burst", type=int, default=8, metavar="B",
                       help="submissions come 1 to B close together (default 8)")
    whole.add_argument("--waiting", type=int, default=40, metavar="W",
                       help="no submission while W envelopes wait on average at the members still up (default 40)")
    whole.add_argument("--pending", type=int, default=0, metavar="P",
                       help="begin no instance, and submit, until P messages are pending at every member that is up"
                            " (default 0)")
    whole.add_argument("--follow", type=int, default=0, metavar="PERCENT",
                       help="chance that a member means to follow its next instance, and begins it only where fewer than"
                            " a majority would without it (default 0)")
    options = parser.parse_args()
    check(parser, options)
    return options


def check(parser, options):
    """Fills in the defaults that depend on others, and refuses what is out of range."""
    if options.cells is None:
        options.cells = CELLS if options.whole else 4
    if options.instances is None:
        options.instances = max(1, min(options.steps // 1000, INSTANCES))
    crashes = (options.members - 1) // 2 if options.whole else options.members - 1
    limits = {"members": (1, 16), "steps": (0, STEPS), "depth": (1, ENVELOPES), "crash": (0, crashes),
              "cells": (0, CELLS), "instances": (0, INSTANCES), "suspect": (0, 100), "postpone": (0, 100),
              "far": (0, 100), "burst": (1, SUBMISSIONS), "waiting": (1, ENVELOPES), "pending": (0, STEPS),
              "lose": (0, 100), "repeat": (0, 100), "follow": (0, 100), "batch": (1, BOUND)}
    for name, (low, high) in limits.items():
        if not low <= getattr(options, name) <= high:
            parser.error(f"--{name} is {low} to {high}")
    if min(options.mix) < 0 or sum(options.mix) == 0:
        parser.error("--mix is three weights from 0, not all 0")
    if options.version < 3 and options.batch != BOUND:
        parser.error("--batch is for version 3")
    if options.version < 3 and options.follow:
        parser.error("--follow is for version 3")
    if options.version < 2 and (options.lose or options.repeat):
        parser.error("--lose and --repeat are for versions 2 and 3")


class Gone:
    """The serials that were sent to a member and don't wait there."""

    def __init__(self):
        self.lost, self.received = [], []

    def __len__(self):
        return len(self.lost) + len(self.received)

    def take(self, below):
        """One that was lost, or one that was received, each half the time where there are both."""
        serials = self.lost if self.lost and (not self.received or below(2)) else self.received
        place = below(len(serials))
        serials[place], serials[-1] = serials[-1], serials[place]
        return serials.pop()


class Generator:
    def __init__(self, options):
        self.options, self.n = options, options.members
        self.random = random.Random(options.seed).random
        self.up = list(range(1, self.n + 1))
        self.lines = [deque() for _ in range(self.n + 1)]
        self.gone = [Gone() for _ in range(self.n + 1)]
        self.known = [set() for _ in range(self.n + 1)]   # messages that the member got
        self.own = [0] * (self.n + 1)                     # submissions of the member
        self.origins = []                                 # of each message
        self.letters = [None]                             # the message of each serial

    def below(self, count):
        return int(self.random() * count)

    def one_of(self, items):
        return items[self.below(len(items))]

    def send_to_all(self, message):
        for line in self.lines[1:]:
            line.append(len(self.letters))
            self.letters.append(message)

    def submit(self, member):
        self.own[member] += 1
        self.origins.append(member)
        self.send_to_all(len(self.origins) - 1)
        name, register = self.one_of(["set", "add", "copy"]), self.below(REGISTERS)
        last = self.below(REGISTERS) if name == "copy" else self.below(1 << 64) >> self.below(64)
        return f'["submit",{member},["{name}",{register},{last}]]'

    def take(self, member):
        """Takes a serial out of the line, one of the first."""
        line = self.lines[member]
        place = self.below(min(self.options.depth, len(line)))
        serial = line[place]
        del line[place]
        return serial

    def lose(self, member):
        serial = self.take(member)
        self.gone[member].lost.append(serial)
        return f'["lose",{member},{serial}]'

    def repeat(self, member):
        serial = self.gone[member].take(self.below)
        self.lines[member].append(serial)
        return f'["repeat",{member},{serial}]'

    def receive_or_postpone(self, member, receive):
        known = self.known[member]
        serial = self.take(member)
        if not receive:
            self.lines[member].append(serial)
            return f'["postpone",{member},{serial}]'
        self.gone[member].received.append(serial)
        message = self.letters[serial]
        if message not in known and self.origins[message] != member:
            self.send_to_all(message)
        known.add(message)
        return f'["receive",{member},{serial}]'

    def step(self, number, crash):
        """Step `number` of the record: a crash, if asked for and nobody's line is empty, or another."""
        having = [p for p in self.up if self.lines[p]]
        if crash and having == self.up:
            self.up.remove(member := self.one_of(self.up))
            return f'["crash",{member}]'
        submit, receive, postpone = self.options.mix
        wanted = self.below(submit + receive + postpone)
        reserved = (len(self.origins) + 1) * self.n * self.n   # a next message counted
        free = [p for p in self.up if self.own[p] < SUBMISSIONS and reserved <= ENVELOPES]
        due = wanted < submit and reserved * self.options.steps <= ENVELOPES * number
        may_receive = free or sum(len(self.lines[p]) for p in having) > 1
        if self.options.lose and having and may_receive and self.below(100) < self.options.lose:
            return self.lose(self.one_of(having))
        gone = [p for p in self.up if self.gone[p]] if self.options.repeat else []
        if gone and self.below(100) < self.options.repeat:
            return self.repeat(self.one_of(gone))
        if free and (due or not having):
            return self.submit(self.one_of(free))
        return self.receive_or_postpone(self.one_of(having), may_receive and wanted < submit + receive)


class Seat:
    """One member of the whole algorithm: its line, what it got, and how it stands."""

    def __init__(self):
        self.line = deque()
        self.gone = Gone()
        self.own = 0              # submissions of the member
        self.relays_left = 0      # relays still to come, if it gets all that was sent
        self.known = set()        # messages that it got
        self.pending = []         # those of them that it hasn't delivered, in order
        self.delivered = set()
        self.batches = 0
        self.last, self.is_open = 0, False
        self.follows = False      # whether it means to follow its next instance
        self.round, self.phase = 0, "Rest"
        self.estimate, self.ts = None, 0
        self.suspects = False     # whether it means to suspect the coordinator of its round
        self.estimates = {}       # by (instance, round): by sender the estimate and ts
        self.proposals = {}       # by (instance, round)
        self.replied = {}         # by (instance, round): who sent an ack or nack
        self.acked = {}           # by (instance, round): who sent an ack
        self.announced = set()    # (instance, round) of the decisions that it got
        self.decisions = {}       # by instance, the first that it got


class Whole:
    """Makes a record of the whole algorithm. A value is a set of messages. These are numbers, in their order."""

    def __init__(self, options):
        self.options, self.n = options, options.members
        self.majority = self.n // 2 + 1
        self.random = random.Random(options.seed).random
        self.up = list(range(1, self.n + 1))
        self.seats = [None] + [Seat() for _ in self.up]
        self.submitted = 0        # messages
        self.letters = [None]     # the wire of each serial: its kind and fields
        self.waiting = 0          # envelopes in the lines of members still up
        self.relays_left = 0      # the sum of these at members still up
        self.crashes = 0          # crashes to come as soon as nobody's line is empty
        self.burst = 0            # submissions to come soon
        self.filled = None        # steps made when so many messages were pending as are asked for
        self.allowed = 0          # greatest instance that may begin by now
        self.slow = 0             # a member that is slow for a while, 0 if there is none
        self.slow_to_act = False  # whether it is slow in what it does, and not in what it receives
        self.rounds = set()       # (instance, round) that a member entered
        self.suspicions = self.lost = self.repeated = self.followed = 0
        for seat in self.seats[1:]:
            self.look_ahead(seat)

    def below(self, count):
        return int(self.random() * count)

    def one_of(self, items):
        return items[self.below(len(items))]

    def coordinator(self, r):
        return r % self.n + 1

    def room(self, envelopes):
        """Whether so many may be sent besides all relays still to come."""
        return len(self.letters) - 1 + self.relays_left * self.n + envelopes <= ENVELOPES

    # Sending and receiving.

    def send(self, to, wire):
        self.seats[to].line.append(len(self.letters))
        self.letters.append(wire)
        self.waiting += to in self.up

    def send_to_all(self, wire):
        for to in range(1, self.n + 1):
            self.send(to, wire)

    def send_first(self, p, wire):
        """Sends to all what every other member will relay."""
        for q in self.up:
            self.seats[q].relays_left += q != p
        self.relays_left += len(self.up) - 1
        self.send_to_all(wire)

    def relay(self, seat, wire):
        seat.relays_left -= 1
        self.relays_left -= 1
        self.send_to_all(wire)

    def take(self, seat):
        """Takes a serial out of the line, most times one of the first."""
        far = self.below(100) < self.options.far
        place = self.below(len(seat.line) if far else min(self.options.depth, len(seat.line)))
        serial = seat.line[place]
        del seat.line[place]
        return serial

    def receive(self, p):
        seat = self.seats[p]
        serial = self.take(seat)
        seat.gone.received.append(serial)
        self.waiting -= 1
        kind, *fields = wire = self.letters[serial]
        if kind == "Data":
            self.get_data(p, seat, fields[0], wire)
        elif kind == "Dec":
            self.get_decision(p, seat, fields, wire)
        else:
            k, r, *rest = fields
            if kind == "Est":
                seat.estimates.setdefault((k, r), {}).setdefault(rest[0], rest[1:])
            elif kind == "Prop":
                seat.proposals.setdefault((k, r), rest[0])
            else:
                seat.replied.setdefault((k, r), set()).add(rest[0])
                if kind == "Ack":
                    seat.acked.setdefault((k, r), set()).add(rest[0])
        return f'["receive",{p},{serial}]'

    def get_data(self, p, seat, message, wire):
        if message in seat.known:
            return
        seat.known.add(message)
        if message not in seat.delivered:
            insort(seat.pending, message)
        if message // ORIGIN != p:
            self.relay(seat, wire)

    def get_decision(self, p, seat, fields, wire):
        k, r, value = fields
        if (k, r) in seat.announced:
            return
        seat.announced.add((k, r))
        seat.decisions.setdefault(k, value)
        if self.coordinator(r) != p:
            self.relay(seat, wire)

    def postpone(self, p):
        serial = self.take(self.seats[p])
        self.seats[p].line.append(serial)
        return f'["postpone",{p},{serial}]'

    def lose(self, p, seat):
        serial = self.take(seat)
        seat.gone.lost.append(serial)
        self.waiting -= 1
        self.lost += 1
        return f'["lose",{p},{serial}]'

    def repeat(self, p, seat):
        serial = seat.gone.take(self.below)
        seat.line.append(serial)
        self.waiting += 1
        self.repeated += 1
        return f'["repeat",{p},{serial}]'

    # The other steps.

    def submit(self, p):
        self.seats[p].own += 1
        self.submitted += 1
        self.send_first(p, ("Data", p * ORIGIN + self.seats[p].own))
        name, register = self.one_of(["set", "add", "copy"]), self.below(REGISTERS)
        last = self.below(REGISTERS) if name == "copy" else self.below(1 << 64) >> self.below(64)
        return f'["submit",{p},["{name}",{register},{last}]]'

    def crash(self):
        p = self.one_of(self.up)
        self.up.remove(p)
        self.waiting -= len(self.seats[p].line)
        self.relays_left -= self.seats[p].relays_left
        return f'["crash",{p}]'

    def begin(self, p, seat):
        seat.last += 1
        seat.is_open = True
        seat.round, seat.phase = 0, "Rest"
        seat.estimate, seat.ts = frozenset(seat.pending[:self.options.batch]), 0
        return f'["begin",{p}]'

    def enter(self, p, seat):
        seat.round += 1
        coordinator = self.coordinator(seat.round)
        self.send(coordinator, ("Est", seat.last, seat.round, p, seat.estimate, seat.ts))
        seat.phase = "Gather" if p == coordinator else "Wait"
        seat.suspects = self.below(100) < self.options.suspect
        self.rounds.add((seat.last, seat.round))
        return f'["enter",{p}]'

    def choose(self, p, seat, heard):
        largest = max(ts for _, ts in heard.values())
        sender = self.one_of([q for q, (_, ts) in heard.items() if ts == largest])
        seat.estimate = heard[sender][0]
        self.send_to_all(("Prop", seat.last, seat.round, seat.estimate))
        seat.phase = "Wait"
        return f'["choose",{p},{sender}]'

    def reply(self, p, seat, kind):
        coordinator = self.coordinator(seat.round)
        self.send(coordinator, (kind, seat.last, seat.round, p))
        seat.phase = "Tally" if p == coordinator else "Rest"

    def adopt(self, p, seat):
        seat.estimate, seat.ts = seat.proposals[seat.last, seat.round], seat.round
        self.reply(p, seat, "Ack")
        return f'["adopt",{p}]'

    def suspect(self, p, seat):
        self.suspicions += 1
        self.reply(p, seat, "Nack")
        return f'["suspect",{p}]'

    def conclude(self, p, seat, decides):
        if decides:
            self.send_first(p, ("Dec", seat.last, seat.round, seat.estimate))
        seat.phase = "Rest"
        return f'["conclude",{p}]'

    def append(self, seat, value):
        """The member delivers the value."""
        for message in (value & seat.known) - seat.delivered:
            del seat.pending[bisect_left(seat.pending, message)]
        seat.delivered |= value
        seat.batches += 1
        self.look_ahead(seat)

    def deliver(self, p, seat):
        self.append(seat, seat.decisions[seat.last])
        seat.is_open = False
        return f'["deliver",{p}]'

    def follow(self, p, seat):
        seat.last += 1
        self.append(seat, seat.decisions[seat.last])
        self.followed += 1
        return f'["follow",{p}]'

    # Which step comes.

    def look_ahead(self, seat):
        """Whether the member means to follow the instance after its last."""
        seat.follows = self.options.follow > 0 and self.below(100) < self.options.follow

    def leaves(self, seat):
        """Whether the member leaves its next instance to others, enough of whom began it or may mean to."""
        others = [self.seats[q] for q in self.up if self.seats[q] is not seat]
        return seat.follows and sum(other.last > seat.last or not other.follows for other in others) >= self.majority

    def act_idle(self, p, seat):
        """A step of p that opens its next instance or follows it, or None."""
        if seat.follows and seat.last + 1 in seat.decisions:
            return self.follow(p, seat) if seat.batches < self.options.cells else None
        may_begin = seat.pending and seat.last < self.allowed and not self.leaves(seat)
        return self.begin(p, seat) if may_begin else None

    def wants_to_suspect(self, seat):
        """Whether the member suspects the coordinator of its round, of which it got no proposal."""
        coordinator = self.coordinator(seat.round)
        other = self.seats[coordinator]
        takes_part = coordinator in self.up and not (other.follows and other.last < seat.last)
        return seat.suspects or not takes_part or (coordinator == self.slow and not self.below(4))

    def act(self, p):
        """A step of consensus or atomic broadcast that p may take, or None."""
        seat = self.seats[p]
        if not seat.is_open:
            return self.act_idle(p, seat)
        decided = seat.last in seat.decisions
        if decided and seat.batches < self.options.cells and (seat.phase == "Rest" or self.below(2)):
            return self.deliver(p, seat)
        here = (seat.last, seat.round)
        if seat.phase == "Rest":
            may_enter = not decided and seat.round < ROUNDS and self.room(1)
            return self.enter(p, seat) if may_enter else None
        if seat.phase == "Gather":
            heard = seat.estimates.get(here, ())
            return self.choose(p, seat, heard) if len(heard) >= self.majority and self.room(self.n) else None
        if seat.phase == "Wait":
            if here in seat.proposals:
                return self.adopt(p, seat) if self.room(1) else None
            return self.suspect(p, seat) if self.wants_to_suspect(seat) and self.room(1) else None
        decides = len(seat.acked.get(here, ())) >= self.majority
        may_conclude = len(seat.replied.get(here, ())) >= self.majority
        may_conclude = may_conclude and (not decides or self.room(self.n * len(self.up)))
        return self.conclude(p, seat, decides) if may_conclude else None

    def due(self, number):
        """Whether more messages are due by step `number`; while a member is slow, some in advance.

        With --pending they are due until so many are pending, and no longer."""
        sent = len(self.letters) - 1 + (self.relays_left + len(self.up)) * self.n
        advance, waiting = 0, self.waiting
        if self.slow in self.up:
            advance = min(1000, self.options.steps // 50)
            waiting -= len(self.seats[self.slow].line)
        spread = self.submitted * self.options.steps < SUBMISSIONS * len(self.up) * number
        if self.options.pending:
            spread = self.filled is None
        behind = sent <= SENT_PER_STEP * number + advance
        return spread and behind and waiting < self.options.waiting * len(self.up)

    def step(self, number, crash):
        """Step `number` of the record; `crash` asks for a crash."""
        options = self.options
        if self.filled is None and all(len(self.seats[p].pending) >= options.pending for p in self.up):
            self.filled = number - 1
        if self.filled is not None:
            left = options.steps - self.filled
            self.allowed = (options.instances * (number - self.filled) + left - 1) // left
        if self.below(2 * options.steps) < options.instances:
            self.slow = self.below(self.n + 1) if len(self.up) > 2 else 0
            self.slow_to_act = self.below(2) == 0
        self.crashes += crash
        if self.crashes and all(self.seats[p].line for p in self.up):
            self.crashes -= 1
            return self.crash()
        may_submit = self.room(self.n * len(self.up))
        free = [p for p in self.up if self.seats[p].own < SUBMISSIONS] if may_submit else []
        if free and not self.burst and self.due(number):
            self.burst = 1 + self.below(options.burst)
        if free and (not self.waiting or (self.burst and self.below(2))):
            self.burst -= self.burst > 0
            return self.submit(self.one_of(free))
        first = self.below(len(self.up))
        may_receive = self.waiting > 1 or (free and (self.burst or options.pending))
        text = self.lose_or_repeat(self.up[first], may_receive)
        if text:
            return text
        if self.seats[self.up[first]].line and self.below(100) < options.postpone:
            return self.postpone(self.up[first])
        return self.ordinary(first, may_receive)

    def lose_or_repeat(self, p, may_lose):
        """A loss or a repeat at p, where one comes and is possible, or None."""
        seat = self.seats[p]
        if self.options.lose and may_lose and seat.line and self.below(100) < self.options.lose:
            return self.lose(p, seat)
        if self.options.repeat and seat.gone and self.below(100) < self.options.repeat:
            return self.repeat(p, seat)
        return None

    def ordinary(self, start, may_receive):
        """A receipt or a step of `act`, by the first member from place `start` on that may take one, the slow one last."""
        slow = self.slow if self.slow in self.up and self.below(64) else 0
        for p in self.up[start:] + self.up[:start]:
            acts, receives = p != slow or not self.slow_to_act, may_receive and (p != slow or self.slow_to_act)
            text = self.receive_or_act(p, receives, acts)
            if text:
                return text
        text = self.receive_or_act(slow, may_receive, True) if slow else None
        return text or self.postpone(next(p for p in self.up if self.seats[p].line))

    def receive_or_act(self, p, receives, acts):
        text = self.act(p) if acts and self.below(2) else None
        if text is None and receives and self.seats[p].line:
            text = self.receive(p)
        return self.act(p) if text is None and acts else text

    def counts(self):
        batches = max(seat.batches for seat in self.seats[1:])
        begun = max(seat.last for seat in self.seats[1:])
        return (f"instances begun {begun} delivered {batches} rounds {len(self.rounds)} suspicions {self.suspicions}"
                f" crashes {self.n - len(self.up)} submitted {self.submitted} sent {len(self.letters) - 1}"
                f" lost {self.lost} repeated {self.repeated} followed {self.followed}"
                f" pending {max(len(seat.pending) for seat in self.seats[1:])}"
                f" waiting {sum(len(seat.line) for seat in self.seats[1:])}")


def main():
    options = arguments()
    maker, crashes = (Whole if options.whole else Generator)(options), set()
    while len(crashes) < min(options.crash, options.steps):
        crashes.add(1 + maker.below(options.steps))
    steps = ",".join(maker.step(i, i in crashes) for i in range(1, options.steps + 1))
    batch = f'"batch":{options.batch},' if options.version == 3 else ""
    sys.stdout.write(f'{{{batch}"cells":{options.cells},"n":{options.members},"steps":[{steps}],'
                     f'"version":{options.version}}}')
    if options.whole:
        print(maker.counts(), file=sys.stderr)


if __name__ == "__main__":
    main()
