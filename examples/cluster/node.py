#!/usr/bin/env python3
"""A member of a group that broadcasts messages in one order: Chandra and Toueg's atomic broadcast, over UDP on 127.0.0.1.

    node.py --member P --ports PORT,PORT,.. --log FILE [options]

Messages are relayed; consensus has a rotating coordinator, and needs a majority; it is repeated, each time for at most so many
messages. Each act is a line of FILE, before what it sends leaves (docs/LOGS.md). run.py starts a group.
"""
from __future__ import annotations

import argparse
import os
import random
import socket
import sys
import time
from typing import Any, Callable, Dict, List, Optional, Set, Tuple

sys.path.insert(0, os.path.join(os.path.dirname(os.path.abspath(__file__)), "..", "python"))
import variants                 # noqa: E402
from detector import Detector   # noqa: E402
from log import Log             # noqa: E402
from net import Net, Timers     # noqa: E402

Message = Tuple[Any, ...]      # origin, number, command
Value = Tuple[Message, ...]    # messages in order
Mark = Tuple[int, int]         # an instance and a round of it
BEAT = 0.02                    # seconds between heartbeats
REST, GATHER, WAIT, TALLY = "rest", "gather", "wait", "tally"


def frozen(content: Any) -> Any:
    """Lists as tuples, all the way down."""
    return tuple(map(frozen, content)) if isinstance(content, list) else content


class Member:
    def __init__(self, p: int, n: int, batch: int, net: Net, suspects: Callable[[int], bool], log: Log) -> None:
        self.p, self.n, self.batch, self.net, self.suspects, self.log = p, n, batch, net, suspects, log
        self.submitted = 0
        self.received: Dict[Message, None] = {}    # in order of arrival
        self.delivered: Dict[Message, None] = {}   # in order of delivery
        self.instance, self.round, self.ts = 0, 0, 0
        self.phase: Optional[str] = None           # None where no instance is open
        self.estimate: Value = ()
        self.estimates: Dict[Mark, Dict[int, Tuple[Value, int]]] = {}   # by sender, with their ts
        self.proposals: Dict[Mark, Value] = {}
        self.replies: Dict[Mark, Dict[int, bool]] = {}                  # by sender, whether it is an ack
        self.relayed: Set[Mark] = set()            # rounds whose decision came
        self.decisions: Dict[int, Value] = {}      # by instance

    def coordinator(self) -> int:
        return self.round % self.n + 1

    def mark(self) -> Mark:
        return self.instance, self.round

    def is_majority(self, count: int) -> bool:
        return 2 * count > self.n

    def send_to_all(self, *letter: Any) -> None:
        for q in range(1, self.n + 1):
            self.net.send(q, letter)

    # ---- reliable broadcast: what comes for the first time is passed on

    def submit(self, command: Tuple[Any, ...]) -> None:
        self.submitted += 1
        self.log.submit(command)
        self.send_to_all("data", (self.p, self.submitted, command))

    def receive(self, q: int, letter: Any) -> None:
        """Takes a letter; one that comes again changes nothing. Its line is written here, where it counts."""
        kind, *content = frozen(letter)
        {"data": self.take_data, "est": self.take_estimate, "prop": self.take_proposal, "ack": self.take_ack, "nack": self.take_nack,
         "dec": self.take_decision}[kind](q, *content)

    def take_data(self, q: int, message: Message) -> None:
        self.log.receive_data(message, q, message[2])
        if message not in self.received:
            self.received[message] = None
            if message[0] != self.p:
                self.send_to_all("data", message)

    def take_decision(self, q: int, k: int, r: int, value: Value) -> None:
        self.log.receive("dec", k, r, q, value)
        self.decisions.setdefault(k, value)
        if (k, r) not in self.relayed:
            self.relayed.add((k, r))
            if r % self.n + 1 != self.p:
                self.send_to_all("dec", k, r, value)

    # ---- what a round needs

    def take_estimate(self, q: int, k: int, r: int, value: Value, ts: int) -> None:
        self.log.receive("est", k, r, q, value, ts)
        self.estimates.setdefault((k, r), {})[q] = value, ts

    def take_proposal(self, q: int, k: int, r: int, value: Value) -> None:
        self.log.receive("prop", k, r, q, value)
        self.proposals[k, r] = value

    def take_ack(self, q: int, k: int, r: int) -> None:
        self.log.receive("ack", k, r, q)
        self.replies.setdefault((k, r), {})[q] = True

    def take_nack(self, q: int, k: int, r: int) -> None:
        self.log.receive("nack", k, r, q)
        self.replies.setdefault((k, r), {})[q] = False

    # ---- consensus, again and again

    def step(self) -> bool:
        """Takes the step that is due, and says whether there was one."""
        if self.phase is None:
            return self.follow() if self.instance + 1 in self.decisions else self.begin()
        if self.instance in self.decisions:
            return self.deliver()
        return {REST: self.enter, GATHER: self.choose, WAIT: self.reply, TALLY: self.conclude}[self.phase]()

    def begin(self) -> bool:
        pending = sorted(message for message in self.received if message not in self.delivered)
        if not pending:
            return False
        self.instance, self.round, self.phase = self.instance + 1, 0, REST
        self.estimate, self.ts = tuple(pending[:self.batch]), 0
        self.log.begin(self.estimate)
        return True

    def enter(self) -> bool:
        self.round += 1
        self.phase = GATHER if self.coordinator() == self.p else WAIT
        self.log.enter(self.estimate, self.ts)
        self.net.send(self.coordinator(), ("est", *self.mark(), self.estimate, self.ts))
        return True

    def choose(self) -> bool:
        heard = self.estimates.get(self.mark(), {})
        if not self.is_majority(len(heard)):
            return False
        sender = self.best(heard)
        self.estimate, self.phase = heard[sender][0], WAIT
        self.log.choose(sender, self.estimate)
        self.send_to_all("prop", *self.mark(), self.estimate)
        return True

    def best(self, heard: Dict[int, Tuple[Value, int]]) -> int:
        """Whose estimate is proposed: one with the largest ts."""
        return max(heard, key=lambda q: (heard[q][1], -q))

    def reply(self) -> bool:
        if self.mark() in self.proposals:
            self.estimate, self.ts = self.proposals[self.mark()], self.round
            self.log.adopt(self.estimate, self.ts)
            return self.send_reply("ack")
        if self.suspects(self.coordinator()):
            self.log.suspect()
            return self.send_reply("nack")
        return False

    def send_reply(self, kind: str) -> bool:
        self.phase = TALLY if self.coordinator() == self.p else REST
        self.net.send(self.coordinator(), (kind, *self.mark()))
        return True

    def conclude(self) -> bool:
        replies = self.replies.get(self.mark(), {})
        if not self.is_majority(len(replies)):
            return False
        self.phase = REST
        self.log.conclude()
        if self.is_majority(sum(replies.values())):
            self.send_to_all("dec", *self.mark(), self.estimate)
        return True

    def deliver(self) -> bool:
        batch = self.take_batch()
        self.log.deliver(batch)
        return True

    def follow(self) -> bool:
        """Delivers what the others decided in an instance that this member didn't begin."""
        self.instance += 1
        self.log.follow(self.take_batch())
        return True

    def take_batch(self) -> List[Message]:
        batch = self.in_order([message for message in self.decisions[self.instance] if message not in self.delivered])
        self.delivered.update(dict.fromkeys(batch))
        self.phase = None
        return batch

    def in_order(self, batch: List[Message]) -> List[Message]:
        return sorted(batch)


def parsed() -> argparse.Namespace:
    made = argparse.ArgumentParser(description=(__doc__ or "").split("\n")[0])
    made.add_argument("--member", type=int, required=True, metavar="P", help="which one this is, from 1")
    made.add_argument("--ports", required=True, metavar="PORT,..", help="the port of each member")
    made.add_argument("--log", required=True, metavar="FILE", help="its log; no such file may be there")
    made.add_argument("--socket", type=int, metavar="FD", help="its socket, open and bound already (default: it binds its port)")
    add_options(made)
    return made.parse_args()


def add_options(made: argparse.ArgumentParser) -> None:
    """The options that run.py passes on."""
    made.add_argument("--seconds", type=float, default=2.0, metavar="S", help="how long a member runs (default 2)")
    made.add_argument("--submit", type=int, default=6, metavar="M", help="messages of each member (default 6)")
    made.add_argument("--batch", type=int, default=8, metavar="B", help="messages that are proposed at once, at most (default 8)")
    made.add_argument("--delay", type=float, default=0.05, metavar="S", help="the longest delay of a datagram (default 0.05)")
    made.add_argument("--loss", type=float, default=0.05, metavar="F", help="the share of datagrams that is lost (default 0.05)")
    made.add_argument("--timeout", type=float, default=0.03, metavar="S", help="silence until a suspicion, at first (default 0.03)")
    made.add_argument("--growth", type=float, default=0.001, metavar="S", help="by which a mistake makes it longer (default 0.001)")
    made.add_argument("--break", dest="broken", choices=sorted(variants.BROKEN), help="a mistake that all members make")
    made.add_argument("--written", choices=sorted(variants.LOGS), default="before", help="when lines are written (default before)")
    made.add_argument("--stated", metavar="ACT,..", help="the acts behind which values are stated (default all)")


def main() -> None:
    options = parsed()
    ports = {p: int(port) for p, port in enumerate(options.ports.split(","), 1)}
    me, others = options.member, [p for p in ports if p != options.member]
    if options.socket is None:
        sock = socket.socket(socket.AF_INET, socket.SOCK_DGRAM)
        sock.bind(("127.0.0.1", ports[me]))
    else:
        sock = socket.socket(fileno=options.socket)
    timers, detector = Timers(), Detector(others, options.timeout, options.growth)
    net = Net(me, ports, sock, timers, options.delay, options.loss)
    log = variants.log(options, timers, len(ports))
    member = variants.member(options, Member)(me, len(ports), options.batch, net, detector.suspects, log)
    receive = variants.receiver(timers, member)

    def beat() -> None:
        net.beat()
        timers.after(BEAT, beat)

    beat()
    for _ in range(options.submit):
        command = "add", random.randrange(16), random.randrange(100)
        timers.after(random.random() * options.seconds * 0.6, lambda command=command: member.submit(command))
    end = time.monotonic() + options.seconds
    while time.monotonic() < end:
        timers.run()
        net.take(timers.wait(0.005), detector.heard, receive)
        while member.step():
            pass
    log.close()


if __name__ == "__main__":
    main()
