#!/usr/bin/env python3
"""Atomic broadcast among members in one process, over a network in memory, under a schedule drawn from a seed.

    broadcast.py [--members N] [--seed S] [--turns T] [--submit M] [--crash C] > run.schedule

Messages are relayed, consensus has a rotating coordinator, and what is decided instance by instance is delivered. The members log
what they do, a line a step, and so write the run as a schedule for `ct_tool record`. The program knows nothing of `ct_tool`.
"""
from __future__ import annotations

import argparse
import random
import signal
from typing import Any, Callable, Dict, Iterator, List, Optional, Set, Sized, Tuple, Type

Message = Tuple[int, int]              # its origin and its number there
Estimate = Tuple[Message, ...]
Letter = Tuple[int, str, str, Any]     # sender, kind, mark, content
Suspects = Callable[[int], bool]       # a failure detector: whether it suspects this member
Log = Callable[[str], object]


class Network:
    """Letters on their way. Any of them may come next."""

    def __init__(self, n: int) -> None:
        self.letters: Dict[int, List[Letter]] = {p: [] for p in range(1, n + 1)}

    def send(self, to: int, *letter: Any) -> None:
        self.letters[to].append(letter)

    def send_to_all(self, *letter: Any) -> None:
        for p in self.letters:
            self.send(p, *letter)


class Member:
    def __init__(self, p: int, n: int, network: Network, log: Log) -> None:
        self.p, self.n, self.network = p, n, network
        self.log = lambda *words: log(" ".join(map(str, (p, *words))))
        self.up = True
        self.submitted = 0
        self.got: Set[Tuple[str, str]] = set()     # kinds and marks of what was relayed, or needs no relay any more
        self.pending: Set[Message] = set()         # messages received and not delivered
        self.delivered: List[Message] = []
        self.instance = 0                          # the last one begun
        self.phase: Optional[str] = None           # None where no instance is open
        self.round = self.ts = 0
        self.estimate: Estimate = ()
        self.estimates: Dict[str, Dict[int, Tuple[int, Estimate]]] = {}   # by mark, by sender: (ts, estimate)
        self.proposals: Dict[str, Estimate] = {}         # by mark
        self.replies: Dict[str, Dict[int, bool]] = {}    # by mark, by sender: whether it is an ack
        self.decisions: Dict[int, Estimate] = {}         # by instance

    def coordinator(self, r: int) -> int:
        return r % self.n + 1

    def mark(self) -> str:
        return f"{self.instance}/{self.round}"

    def has_majority(self, members: Sized) -> bool:
        return 2 * len(members) > self.n

    # Reliable broadcast.

    def submit(self, command: Tuple[Any, ...]) -> None:
        self.submitted += 1
        self.log("submit", *command)
        self.network.send_to_all(self.p, "data", f"{self.p}.{self.submitted}", (self.p, self.submitted))

    def receive(self, at: int) -> None:
        """Receives the letter at this place among those on their way."""
        sender, kind, mark, content = self.network.letters[self.p].pop(at)
        self.log("receive", kind, mark, "from", sender)
        if kind in ("data", "dec"):
            self.relay(kind, mark, content)
        elif kind == "est":
            self.estimates.setdefault(mark, {})[sender] = content
        elif kind == "prop":
            self.proposals[mark] = content
        else:
            self.replies.setdefault(mark, {})[sender] = kind == "ack"

    def relay(self, kind: str, mark: str, content: Any) -> None:
        """The first receipt of what goes to all: sent on to all by those whose it isn't."""
        if (kind, mark) in self.got:
            return
        self.got.add((kind, mark))
        if kind == "data":
            home = content[0]
            self.pending |= {content} - set(self.delivered)
        else:
            k, r = map(int, mark.split("/"))
            home = self.coordinator(r)
            self.decisions.setdefault(k, content)
        if home != self.p:
            self.network.send_to_all(self.p, kind, mark, content)

    # Consensus and atomic broadcast.

    def act(self, suspects: Suspects) -> bool:
        """Takes the step that comes next, if there is one, and says whether it did."""
        if self.phase is None:
            step = self.begin if self.pending else None
        elif self.instance in self.decisions:
            step = self.deliver
        else:
            step = {"rest": self.enter, "gather": self.choice, "wait": self.reply, "tally": self.conclusion}[self.phase]
            step = step if self.phase == "rest" else step(suspects)
        if step:
            step()
        return bool(step)

    def begin(self) -> None:
        self.instance += 1
        self.estimate, self.ts, self.round, self.phase = tuple(sorted(self.pending)), 0, 0, "rest"
        self.log("begin")

    def enter(self) -> None:
        self.round += 1
        coordinator = self.coordinator(self.round)
        self.log("enter")
        self.network.send(coordinator, self.p, "est", self.mark(), (self.ts, self.estimate))
        self.phase = "gather" if coordinator == self.p else "wait"

    def choice(self, _suspects: Suspects) -> Optional[Callable[[], None]]:
        return self.choose if self.has_majority(self.estimates.get(self.mark(), {})) else None

    def choose(self) -> None:
        heard = self.estimates[self.mark()]
        sender = max(heard, key=lambda q: (heard[q][0], -q))
        self.estimate = heard[sender][1]
        self.log("choose", sender)
        self.network.send_to_all(self.p, "prop", self.mark(), self.estimate)
        self.phase = "wait"

    def reply(self, suspects: Suspects) -> Optional[Callable[[], None]]:
        if self.mark() in self.proposals:
            return self.adopt
        return self.suspect if suspects(self.coordinator(self.round)) else None

    def adopt(self) -> None:
        self.estimate, self.ts = self.proposals[self.mark()], self.round
        self.log("adopt")
        self.send_reply("ack")

    def suspect(self) -> None:
        self.log("suspect")
        self.send_reply("nack")

    def send_reply(self, kind: str) -> None:
        coordinator = self.coordinator(self.round)
        self.network.send(coordinator, self.p, kind, self.mark(), None)
        self.phase = "tally" if coordinator == self.p else "rest"

    def conclusion(self, _suspects: Suspects) -> Optional[Callable[[], None]]:
        return self.conclude if self.has_majority(self.replies.get(self.mark(), {})) else None

    def conclude(self) -> None:
        self.log("conclude")
        replies = self.replies[self.mark()]
        if self.has_majority([q for q in replies if replies[q]]):
            self.network.send_to_all(self.p, "dec", self.mark(), self.estimate)
        self.phase = "rest"

    def deliver(self) -> None:
        self.log("deliver")
        self.delivered += [m for m in self.decisions[self.instance] if m not in self.delivered]
        self.pending -= set(self.delivered)
        self.phase = None

    def crash(self) -> None:
        self.log("crash")
        self.up = False


class Run:
    """A group under a schedule drawn from a seed. log: called with each line as it happens."""

    def __init__(self, options: argparse.Namespace, log: Log, member: Type[Member] = Member) -> None:
        self.options, self.log = options, log
        self.random = random.Random(options.seed)
        self.network = Network(options.members)
        self.members = {p: member(p, options.members, self.network, log) for p in self.network.letters}

    def up(self) -> List[Member]:
        return [member for member in self.members.values() if member.up]

    def suspects(self, p: int) -> bool:
        """A failure detector: it suspects those that crashed, and now and then another."""
        return not self.members[p].up or self.random.random() < 0.02

    def play(self) -> None:
        options, chance = self.options, self.random
        self.log(f"members {options.members}")
        self.log("cells 1024")
        submissions = {chance.randrange(options.turns) for _ in range(options.submit)}
        crashes = set(chance.sample(range(options.turns), options.crash))
        for turn in range(options.turns):
            member = chance.choice(self.up())
            if turn in submissions:
                member.submit(("add", chance.randrange(16), chance.randrange(100)))
            elif turn in crashes:
                member.crash()
            else:
                self.turn(member)

    def turn(self, member: Member) -> None:
        letters = self.network.letters[member.p]
        if self.random.random() < 0.5 and member.act(self.suspects):
            return
        if letters:
            member.receive(self.random.randrange(len(letters)))
        else:
            member.act(self.suspects)

    def expectations(self) -> Iterator[str]:
        """What each member delivered, as lines of a schedule."""
        for p, member in self.members.items():
            names = " ".join(f"{origin}.{number}" for origin, number in member.delivered)
            yield f"expect {p} delivered {names or '-'}"


def within(least: int, most: int) -> Callable[[str], int]:
    """Reads a whole number of this range."""
    def number(word: str) -> int:
        if not least <= int(word) <= most:
            raise argparse.ArgumentTypeError(f"{word}: {least} to {most}")
        return int(word)
    return number


def parser(text: str) -> argparse.ArgumentParser:
    made = argparse.ArgumentParser(description=text.split("\n")[0])
    made.add_argument("--members", type=within(1, 16), default=3, metavar="N", help="members, 1 to 16 (default 3)")
    made.add_argument("--seed", type=int, default=1, metavar="S", help="what the schedule is drawn from (default 1)")
    made.add_argument("--turns", type=within(1, 10**6), default=400, metavar="T", help="turns of all members together (default 400)")
    made.add_argument("--submit", type=within(0, 65535), default=6, metavar="M", help="messages, about (default 6)")
    made.add_argument("--crash", type=within(0, 7), default=0, metavar="C", help="members that crash, fewer than half (default 0)")
    return made


def parsed(made: argparse.ArgumentParser) -> argparse.Namespace:
    options = made.parse_args()
    most = min((options.members - 1) // 2, options.turns)
    if options.crash > most:
        made.error(f"argument --crash: {options.crash}: 0 to {most}, fewer than half of the members")
    return options


def main() -> None:
    signal.signal(signal.SIGPIPE, signal.SIG_DFL)   # a reader that has enough ends it
    run = Run(parsed(parser(__doc__)), print)
    run.play()
    for line in run.expectations():
        print(line)


if __name__ == "__main__":
    main()
