#!/usr/bin/env python3
"""Drives the members of broadcast.py, as they are, by `malletochre.drive` (docs/DRIVE.md).

    drive.py [SEEDS]

Ends with what the search came across and status 0, or with the first difference from the algorithm and status 1.
"""
from __future__ import annotations

import os
import sys
from typing import Any, Set

import broadcast

sys.path.insert(0, os.path.join(os.path.dirname(os.path.realpath(__file__)), "..", "..", "bindings", "python"))
from malletochre.drive import Ack, Data, Decision, Differs, Estimate, Letter, Nack, Outbox, Proposal, check   # noqa: E402


class Network(broadcast.Network):
    """In the place of the example's own: what is sent goes to the driver."""

    def __init__(self, n: int, out: Outbox) -> None:
        super().__init__(n)
        self.out = out

    def send(self, to: int, *letter: Any) -> None:
        self.out.send(to, letter)


class Driven:
    """A member of broadcast.py, which is asked for its next act, as the driver holds members."""

    def __init__(self, number: int, members: int, out: Outbox) -> None:
        self.network, self.out = Network(members, out), out
        self.it = broadcast.Member(number, members, self.network, lambda line: None)
        self.suspected: Set[int] = set()
        self.delivered = 0

    def on_submit(self, command: Any) -> None:
        self.it.submit(command)
        self.act()

    def on_receive(self, packet: Any) -> None:
        self.network.letters[self.it.p] = [packet]
        self.it.receive(0)
        self.act()

    def on_suspect(self, member: int) -> None:
        self.suspected.add(member)
        self.act()

    def on_trust(self, member: int) -> None:
        self.suspected.discard(member)

    def act(self) -> None:
        while self.it.act(self.suspected.__contains__):
            pass
        for message in self.it.delivered[self.delivered:]:
            self.out.deliver(message)
        self.delivered = len(self.it.delivered)


def wire(packet: Any) -> Letter:
    sender, kind, mark, content = packet
    if kind == "data":
        return Data(content)
    k, r = map(int, mark.split("/"))
    if kind == "est":
        return Estimate(k, r, sender, content[1], content[0])
    if kind in ("prop", "dec"):
        return Proposal(k, r, content) if kind == "prop" else Decision(k, r, content)
    return Ack(k, r, sender) if kind == "ack" else Nack(k, r, sender)


if __name__ == "__main__":
    try:
        print(check(Driven, wire, seeds=range(int(sys.argv[1]) if len(sys.argv) > 1 else 200), keep_in=None).coverage())
    except Differs as told:
        sys.exit(str(told))
    except KeyboardInterrupt as told:
        print(told, file=sys.stderr)
        sys.exit(130)
