"""A member in three layers, which call one another: reliable broadcast, consensus, atomic broadcast. It sends and delivers by the outbox
that it is given, and its packets are tuples."""
from __future__ import annotations

from typing import Any, Callable, Dict, List, Optional, Set, Tuple

from malletochre.drive import ALL, Ack, Data, Decision, Estimate, Letter, Nack, Outbox, Proposal
from rehearsed import execute

Ident = Tuple[Any, ...]    # of a message (origin, number), of a decision ("dec", instance, round)


class Broadcast:
    """Reliable broadcast: what comes for the first time is sent on to all, and given up."""

    def __init__(self, me: int, out: Outbox, up: Callable[[Ident, Any], None]) -> None:
        self.me, self.out, self.up = me, out, up
        self.got: Set[Ident] = set()

    def broadcast(self, ident: Ident, content: Any) -> None:
        self.out.send(ALL, ("rb", self.me, ident, content))

    def receive(self, origin: int, ident: Ident, content: Any) -> None:
        if ident in self.got:
            return
        self.got.add(ident)
        if origin != self.me:
            self.out.send(ALL, ("rb", origin, ident, content))
        self.up(ident, content)


class Round:
    def __init__(self) -> None:
        self.estimates: Dict[int, Tuple[int, Any]] = {}
        self.proposal: Any = None
        self.replies: Dict[int, bool] = {}


class Consensus:
    """One instance."""

    def __init__(self, k: int, me: int, n: int, out: Outbox, suspected: Set[int], rb: Broadcast) -> None:
        self.k, self.me, self.n, self.out, self.suspected, self.rb = k, me, n, out, suspected, rb
        self.rounds: Dict[int, Round] = {}
        self.r = self.ts = 0
        self.estimate: Any = None
        self.decision: Any = None
        self.waits: Optional[Callable[[], bool]] = None     # what it does next, once it can; None where it hasn't begun

    def round(self, r: int) -> Round:
        return self.rounds.setdefault(r, Round())

    def propose(self, value: Any) -> None:
        self.estimate, self.waits = value, self.enter

    def go_on(self) -> None:
        while self.decision is None and self.waits and self.waits():
            pass

    def coordinator(self) -> int:
        return self.r % self.n + 1

    def is_majority(self, count: int) -> bool:
        return count >= self.n // 2 + 1

    def enter(self) -> bool:
        self.r += 1
        self.out.send(self.coordinator(), ("est", self.k, self.r, self.me, self.estimate, self.ts))
        self.waits = self.choose if self.coordinator() == self.me else self.reply
        return True

    def choose(self) -> bool:
        estimates = self.round(self.r).estimates
        if not self.is_majority(len(estimates)):
            return False
        ts = max(ts for ts, _ in estimates.values())
        self.estimate = next(estimate for q, (t, estimate) in sorted(estimates.items()) if t == ts)
        self.out.send(ALL, ("prop", self.k, self.r, self.estimate))
        self.waits = self.reply
        return True

    def reply(self) -> bool:
        proposal = self.round(self.r).proposal
        if proposal is not None:
            self.estimate, self.ts = proposal, self.r
        elif self.coordinator() not in self.suspected:
            return False
        self.out.send(self.coordinator(), ("reply", self.k, self.r, self.me, proposal is not None))
        self.waits = self.conclude if self.coordinator() == self.me else self.enter
        return True

    def conclude(self) -> bool:
        replies = self.round(self.r).replies
        if not self.is_majority(len(replies)):
            return False
        if self.is_majority(sum(replies.values())):
            self.rb.broadcast(("dec", self.k, self.r), self.estimate)
        self.waits = self.enter
        return True

    def receive(self, kind: str, r: int, *rest: Any) -> None:
        it = self.round(r)
        if kind == "est":
            source, estimate, ts = rest
            it.estimates.setdefault(source, (ts, estimate))
        elif kind == "prop":
            it.proposal = rest[0]
        else:
            source, is_ack = rest
            it.replies.setdefault(source, is_ack)


class Member:
    """Atomic broadcast over these."""

    def __init__(self, me: int, n: int, out: Outbox) -> None:
        self.me, self.n, self.out = me, n, out
        self.rb = Broadcast(me, out, self.received)
        self.count = self.k = 0
        self.is_open = False
        self.messages: Dict[Ident, Any] = {}
        self.done: Dict[Ident, Any] = {}
        self.registers = [0] * 16
        self.suspected: Set[int] = set()
        self.instances: Dict[int, Consensus] = {}

    def table(self) -> List[int]:
        return self.registers

    def instance(self, k: int) -> Consensus:
        if k not in self.instances:
            self.instances[k] = Consensus(k, self.me, self.n, self.out, self.suspected, self.rb)
        return self.instances[k]

    def on_submit(self, command: Tuple[Any, ...]) -> None:
        self.count += 1
        self.rb.broadcast((self.me, self.count), command)

    def on_receive(self, packet: Tuple[Any, ...]) -> None:
        kind, *rest = packet
        if kind == "rb":
            self.rb.receive(*rest)
        else:
            self.instance(rest[0]).receive(kind, *rest[1:])
        self.go_on()

    def on_suspect(self, q: int) -> None:
        self.suspected.add(q)
        self.go_on()

    def on_trust(self, q: int) -> None:
        self.suspected.discard(q)

    def received(self, ident: Ident, content: Any) -> None:
        if ident[0] != "dec":
            self.messages[ident] = content
        elif self.instance(ident[1]).decision is None:
            self.instance(ident[1]).decision = content

    def pending(self) -> Tuple[Any, ...]:
        return tuple(sorted((it, command) for it, command in self.messages.items() if it not in self.done))

    def go_on(self) -> None:
        while self.is_open or self.pending():
            if not self.is_open:
                self.k, self.is_open = self.k + 1, True
                self.instance(self.k).propose(self.pending())
            instance = self.instance(self.k)
            instance.go_on()
            if instance.decision is None:
                return
            self.deliver(instance.decision)
            self.is_open = False

    def deliver(self, value: Any) -> None:
        for ident, command in value:
            if ident not in self.done:
                self.done[ident] = command
                execute(self.registers, command)
                self.out.deliver(ident)


def wire(packet: Tuple[Any, ...]) -> Letter:
    kind, *rest = packet
    if kind == "rb":
        _, ident, content = rest
        return Decision(ident[1], ident[2], names(content)) if ident[0] == "dec" else Data(ident, content)
    if kind == "est":
        k, r, source, value, ts = rest
        return Estimate(k, r, source, names(value), ts)
    if kind == "prop":
        return Proposal(rest[0], rest[1], names(rest[2]))
    return Ack(*rest[:3]) if rest[3] else Nack(*rest[:3])


def names(value: Any) -> Any:
    return tuple(ident for ident, _ in value)
