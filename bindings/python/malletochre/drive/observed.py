"""Members of which only what they deliver is judged; their packets are opaque.

At each event: a member delivers what was submitted, nothing twice; of any two sequences one begins the other; a table is what its sequence
gives. In the end, where nothing was lost: who is up has delivered all that was delivered anywhere, and all that was submitted at it."""
from __future__ import annotations

from collections import Counter
from typing import Any, Dict, List, Optional, Tuple

from ..order import Order, OutOfOrder
from .account import Account, Difference
from .letters import Command, Name, value_text
from .network import Event, Network, Packet, event_text

REGISTERS, LARGEST = 16, (1 << 64) - 1


class Observed:
    def __init__(self, network: Network) -> None:
        self.network = network
        self.commands: Dict[Name, Command] = {}
        self.submitted = {p: 0 for p in network.all}
        self.delivered: Dict[int, List[Name]] = {p: [] for p in network.all}
        self.order: Order[Name] = Order()
        self.is_lossy = False
        self.taken: List[Event] = []
        self.met: "Counter[str]" = Counter()
        self.rounds = self.instances = 0

    def awaited(self, _p: int) -> Optional[int]:
        return None

    def disturb(self, event: Event, _packet: Optional[Packet]) -> None:
        self.taken.append(event)
        self.is_lossy = self.is_lossy or event.name == "lose"

    def happens(self, event: Event, _packet: Optional[Packet], _account: Account) -> Optional[Difference]:
        self.taken.append(event)
        if event.name == "submit":
            self.submitted[event.member] += 1
            name = event.member, self.submitted[event.member]
            self.commands[name] = event.what
            self.order.broadcast(event.member, name)
        elif event.name == "crash":
            self.order.crash(event.member)
        return None

    def explain(self, event: Event, packet: Optional[Packet], account: Account) -> Optional[Difference]:
        self.happens(event, packet, account)
        p = account.p
        for message in account.delivered:
            says = f"delivers {value_text([message])}"
            try:
                self.order.deliver(p, message)
            except OutOfOrder as wrong:
                return _difference(p, says, wrong, self.order.at(wrong.position))
            self.delivered[p].append(message)
        return None

    def table(self, p: int, table: List[int]) -> Optional[Difference]:
        ought = [0] * REGISTERS
        for message in self.delivered[p]:
            _execute(ought, self.commands[message])
        return None if table == ought else Difference("table", p, f"has the table {table}", f"has {ought}, as its sequence gives")

    def stuck(self) -> Optional[Difference]:
        if self.is_lossy or 2 * len(self.network.up) <= self.network.n:
            return None
        for p in self.network.up:
            missing = self.order.missing(p)
            if missing:
                says = f"never delivers {value_text(sorted(missing))}, though nothing more is on its way"
                return Difference("liveness", p, says, "delivers it in the end")
        return None

    def lines(self) -> List[Tuple[str, str]]:
        return [("", event_text(it)) for it in self.taken]


def _difference(p: int, says: str, wrong: OutOfOrder, there: Any) -> Difference:
    """What no atomic broadcast does, told as a difference; there is what others delivered in its place."""
    if wrong.kind == "validity":
        return Difference("validity", p, says, "delivers what was submitted")
    if wrong.kind == "integrity":
        return Difference("integrity", p, f"{says} again", "delivers each message once")
    ought = f"delivers it at place {wrong.before}" if wrong.before else f"delivers {value_text([there])} there"
    return Difference("order", p, f"{says} at place {wrong.position}", f"{ought}, as another member did")


def _execute(table: List[int], command: Command) -> None:
    name, first, second = command
    if name == "set":
        table[first] = second
    elif name == "add":
        table[first] = min(table[first] + second, LARGEST)
    else:
        table[second] = table[first]
