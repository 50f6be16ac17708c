"""A member as a task with an inbox, written down as the article has it: one wait after the other. Its packets are JSON."""
from __future__ import annotations

import asyncio
import json
from collections import defaultdict
from typing import Any, Callable, Dict, Set, Tuple

from malletochre.drive import ALL, Ack, Data, Decision, Estimate, Letter, Nack, Outbox, Proposal
from rehearsed import execute

At = Tuple[int, int]


class Member:
    def __init__(self, me: int, n: int, out: Outbox) -> None:
        self.me, self.n, self.out = me, n, out
        self.is_busy = False                               # with something out of the inbox
        self.count = self.k = 0
        self.messages: Dict[str, Any] = {}                 # received, by name "1.2": the command
        self.delivered: Dict[str, Any] = {}
        self.table = [0] * 16
        self.suspected: Set[int] = set()
        self.estimates: Dict[At, Dict[int, Any]] = defaultdict(dict)
        self.proposals: Dict[At, Any] = {}
        self.replies: Dict[At, Dict[int, bool]] = defaultdict(dict)
        self.decisions: Dict[int, Any] = {}
        self.relayed: Set[At] = set()

    async def run(self, inbox: "asyncio.Queue[Tuple[str, Any]]") -> None:
        self.inbox = inbox
        while True:
            await self.until(lambda: self.undelivered())
            self.k += 1
            await self.consensus(self.k, self.undelivered())
            for name, command in sorted(self.decisions[self.k].items(), key=order):
                if name not in self.delivered:
                    self.delivered[name] = command
                    execute(self.table, command)
                    self.out.deliver(order((name, command)))

    def undelivered(self) -> Dict[str, Any]:
        return {name: it for name, it in self.messages.items() if name not in self.delivered}

    async def consensus(self, k: int, value: Dict[str, Any]) -> None:
        r = ts = 0
        while k not in self.decisions:
            r += 1
            c = r % self.n + 1
            self.send(c, type="est", k=k, r=r, p=self.me, v=value, ts=ts)
            if c == self.me:
                heard = self.estimates[k, r]
                await self.until(lambda: 2 * len(heard) > self.n or k in self.decisions)
                if k in self.decisions:
                    return
                value = max(heard.values(), key=lambda m: m["ts"])["v"]   # type: ignore[no-any-return]
                self.send(ALL, type="prop", k=k, r=r, v=value)
            await self.until(lambda: (k, r) in self.proposals or c in self.suspected or k in self.decisions)
            if k in self.decisions:
                return
            if (k, r) in self.proposals:
                value, ts = self.proposals[k, r], r
                self.send(c, type="ack", k=k, r=r, p=self.me)
            else:
                self.send(c, type="nack", k=k, r=r, p=self.me)
            if c == self.me:
                replies = self.replies[k, r]
                await self.until(lambda: 2 * len(replies) > self.n or k in self.decisions)
                if k in self.decisions:
                    return
                if 2 * sum(replies.values()) > self.n:
                    self.send(ALL, type="dec", k=k, r=r, v=value)

    async def until(self, condition: Callable[[], Any]) -> None:
        while not condition():
            if self.is_busy:
                self.inbox.task_done()
            name, content = await self.inbox.get()
            self.is_busy = True
            getattr(self, "on_" + name)(content)

    def send(self, to: int, **fields: Any) -> None:
        self.out.send(to, json.dumps(fields))

    def on_submit(self, command: Tuple[Any, ...]) -> None:
        self.count += 1
        self.send(ALL, type="data", name=f"{self.me}.{self.count}", command=command)

    def on_suspect(self, q: int) -> None:
        self.suspected.add(q)

    def on_trust(self, q: int) -> None:
        self.suspected.discard(q)

    def on_receive(self, packet: str) -> None:
        m = json.loads(packet)
        kind = m["type"]
        if kind == "data":
            if m["name"] not in self.messages:
                self.messages[m["name"]] = m["command"]
                if int(m["name"].split(".")[0]) != self.me:
                    self.out.send(ALL, packet)
            return
        at = m["k"], m["r"]
        if kind == "est":
            self.estimates[at].setdefault(m["p"], m)
        elif kind == "prop":
            self.proposals.setdefault(at, m["v"])
        elif kind == "dec":
            self.decisions.setdefault(m["k"], m["v"])
            if at not in self.relayed:
                self.relayed.add(at)
                if m["r"] % self.n + 1 != self.me:
                    self.out.send(ALL, packet)
        else:
            self.replies[at].setdefault(m["p"], kind == "ack")


def order(item: Tuple[str, Any]) -> Tuple[int, int]:
    """Messages by their origins, then numbers."""
    origin, number = item[0].split(".")
    return int(origin), int(number)


def wire(packet: str) -> Letter:
    m = json.loads(packet)
    kind = m["type"]
    if kind == "data":
        return Data(order((m["name"], None)), tuple(m["command"]))
    value = tuple(sorted(map(order, m.get("v", {}).items())))
    if kind == "est":
        return Estimate(m["k"], m["r"], m["p"], value, m["ts"])
    if kind in ("prop", "dec"):
        return Proposal(m["k"], m["r"], value) if kind == "prop" else Decision(m["k"], m["r"], value)
    return Ack(m["k"], m["r"], m["p"]) if kind == "ack" else Nack(m["k"], m["r"], m["p"])
