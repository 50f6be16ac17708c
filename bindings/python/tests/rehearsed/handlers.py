"""A member as a class with handlers, each of which returns what is to be sent and delivered."""
from __future__ import annotations

from dataclasses import dataclass
from typing import Any, Dict, FrozenSet, List, Optional, Set, Tuple, Union

from malletochre.drive import ALL, Ack, Data, Decision, Deliver, Estimate, Letter, Nack, Proposal, Send
from rehearsed import execute

Message = Tuple[int, int, Tuple[Any, ...]]   # its origin, its number there, its command
Value = FrozenSet[Message]
At = Tuple[int, int]
Effect = Union[Send, Deliver]


@dataclass(frozen=True)
class Msg:
    type: str
    k: int = 0
    r: int = 0
    source: int = 0
    value: Value = frozenset()
    ts: int = 0


class Member:
    def __init__(self, me: int, n: int) -> None:
        self.me, self.n = me, n
        self.submitted = 0
        self.received: Set[Message] = set()
        self.delivered: List[Message] = []
        self.table = [0] * 16
        self.suspected: Set[int] = set()
        self.k = self.r = self.ts = 0
        self.phase: Optional[str] = None
        self.estimate: Value = frozenset()
        self.estimates: Dict[At, Dict[int, Msg]] = {}
        self.proposals: Dict[At, Value] = {}
        self.replies: Dict[At, Dict[int, str]] = {}
        self.decisions: Dict[int, Value] = {}
        self.relayed: Set[At] = set()
        self.out: List[Effect] = []

    def on_submit(self, command: Tuple[Any, ...]) -> List[Effect]:
        self.submitted += 1
        self.send(ALL, Msg("data", value=frozenset({(self.me, self.submitted, command)})))
        return self.effects()

    def on_receive(self, m: Msg) -> List[Effect]:
        at = (m.k, m.r)
        if m.type == "data":
            (message,) = m.value
            if message not in self.received:
                self.received.add(message)
                if message[0] != self.me:
                    self.send(ALL, m)
        elif m.type == "est":
            self.estimates.setdefault(at, {}).setdefault(m.source, m)
        elif m.type == "prop":
            self.proposals.setdefault(at, m.value)
        elif m.type == "dec":
            self.decisions.setdefault(m.k, m.value)
            if at not in self.relayed:
                self.relayed.add(at)
                if self.coordinator(m.r) != self.me:
                    self.send(ALL, m)
        else:
            self.replies.setdefault(at, {}).setdefault(m.source, m.type)
        return self.effects()

    def on_suspect(self, q: int) -> List[Effect]:
        self.suspected.add(q)
        return self.effects()

    def on_trust(self, q: int) -> List[Effect]:
        self.suspected.discard(q)
        return self.effects()

    def effects(self) -> List[Effect]:
        while self.step():
            pass
        out, self.out = self.out, []
        return out

    def send(self, to: int, m: Msg) -> None:
        self.out.append(Send(to, m))

    def coordinator(self, r: int) -> int:
        return r % self.n + 1

    def majority(self) -> int:
        return self.n // 2 + 1

    def pending(self) -> Value:
        return frozenset(it for it in self.received if it not in self.delivered)

    def step(self) -> bool:
        """What it does by itself."""
        if self.phase is None:
            if not self.pending():
                return False
            self.k += 1
            self.r, self.ts, self.estimate, self.phase = 0, 0, self.pending(), "rest"
        elif self.k in self.decisions:
            self.deliver(self.decisions[self.k])
            self.phase = None
        elif self.phase == "rest":
            self.r += 1
            c = self.coordinator(self.r)
            self.send(c, Msg("est", self.k, self.r, self.me, self.estimate, self.ts))
            self.phase = "gather" if c == self.me else "wait"
        else:
            return {"gather": self.propose, "wait": self.reply, "tally": self.conclude}[self.phase]()
        return True

    def propose(self) -> bool:
        heard = self.estimates.get((self.k, self.r), {})
        if len(heard) < self.majority():
            return False
        self.estimate = max(heard.values(), key=lambda m: m.ts).value
        self.send(ALL, Msg("prop", self.k, self.r, self.me, self.estimate))
        self.phase = "wait"
        return True

    def reply(self) -> bool:
        at, c = (self.k, self.r), self.coordinator(self.r)
        if at in self.proposals:
            self.estimate, self.ts = self.proposals[at], self.r
            self.send(c, Msg("ack", self.k, self.r, self.me))
        elif c in self.suspected:
            self.send(c, Msg("nack", self.k, self.r, self.me))
        else:
            return False
        self.phase = "tally" if c == self.me else "rest"
        return True

    def conclude(self) -> bool:
        replies = self.replies.get((self.k, self.r), {})
        if len(replies) < self.majority():
            return False
        acks = [q for q in replies if replies[q] == "ack"]
        if len(acks) >= self.majority():
            self.send(ALL, Msg("dec", self.k, self.r, self.me, self.estimate))
        self.phase = "rest"
        return True

    def deliver(self, value: Value) -> None:
        for message in sorted(value):
            if message not in self.delivered:
                self.delivered.append(message)
                execute(self.table, message[2])
                self.out.append(Deliver(message[:2]))


def wire(m: Msg) -> Letter:
    value = tuple(sorted(message[:2] for message in m.value))
    if m.type == "data":
        (message,) = m.value
        return Data(message[:2], message[2])
    if m.type == "est":
        return Estimate(m.k, m.r, m.source, value, m.ts)
    if m.type in ("prop", "dec"):
        return Proposal(m.k, m.r, value) if m.type == "prop" else Decision(m.k, m.r, value)
    return Ack(m.k, m.r, m.source) if m.type == "ack" else Nack(m.k, m.r, m.source)
