"""Any atomic broadcast judged by what it delivers, as a test runs; `ct_tool order` judges its logs by the same rules.

    order = Order()
    order.broadcast("a", "m1")           # a process, of any name, broadcasts a message
    order.deliver("b", "m1")             # another one delivers it
    order.state("b", "0=7")              # what its state machine came to behind that
    order.settled()                      # in the end: who didn't crash has delivered everything

A call that is told of what no atomic broadcast does raises `OutOfOrder` and changes nothing.
"""
from __future__ import annotations

from typing import Any, Dict, Generic, Hashable, List, NamedTuple, Optional, Set, TypeVar

M = TypeVar("M", bound=Hashable)   # what a message is told by


class Place(NamedTuple):
    """Where something was told: of which process, its how manieth call of the `Order`, from 1."""

    process: Hashable
    call: int

    def __str__(self) -> str:
        return f"{self.process} (call {self.call})"


class OutOfOrder(AssertionError):
    """No atomic broadcast does what was told.

    kind: validity, integrity, order, state or agreement. position: of the delivery, from 1. other: where that was told which it conflicts
    with. before: the position at which the message was delivered; 0 where another message stands at this one."""

    def __init__(self, kind: str, place: Place, says: str, position: int = 0, ought: str = "", other: Optional[Place] = None,
                 before: int = 0) -> None:
        self.kind, self.place, self.position, self.other, self.before = kind, place, position, other, before
        at = f" at position {position}" if position else ""
        because = f": {ought}" if ought else ""
        super().__init__(f"{place} {says}{at}{because}{f' {other}' if other else ''}")


class _Told(NamedTuple):
    what: Any
    place: Place


class _Process(Generic[M]):
    def __init__(self) -> None:
        self.at = 0                                  # its deliveries, with those of a snapshot
        self.delivered: Dict[M, int] = {}     # the position of each message that it delivered itself
        self.broadcast: Set[M] = set()
        self.crashed = False


class Order(Generic[M]):
    """The one order of all deliveries, as far as it was told. Each call costs the same, however much was told before."""

    def __init__(self) -> None:
        self._processes: Dict[Hashable, _Process[M]] = {}
        self._messages: Dict[M, Place] = {}
        self._order: Dict[int, _Told] = {}
        self._positions: Dict[M, int] = {}
        self._states: Dict[int, _Told] = {}
        self._calls = 0

    def _of(self, process: Hashable) -> _Process[M]:
        """What was told of the process; of one that is new, nothing, and nothing is noted of it."""
        return self._processes.get(process) or _Process()

    def _place(self, process: Hashable) -> Place:
        self._calls += 1
        return Place(process, self._calls)

    def broadcast(self, process: Hashable, message: M) -> None:
        """The process broadcasts the message, which nobody did before."""
        place = self._place(process)
        if message in self._messages:
            raise OutOfOrder("integrity", place, f"broadcasts {message} again", ought="it was broadcast by", other=self._messages[message])
        self._messages[message] = place
        self._processes.setdefault(process, _Process()).broadcast.add(message)

    def deliver(self, process: Hashable, message: M) -> None:
        """The process delivers the message."""
        place, of = self._place(process), self._of(process)
        position = of.at + 1
        if message not in self._messages:
            raise OutOfOrder("validity", place, f"delivers {message}", position, "it was broadcast by nobody")
        if message in of.delivered and of.delivered[message] != position:
            raise OutOfOrder("integrity", place, f"delivers {message} again", position, f"it did at position {of.delivered[message]}")
        there = self._order.get(position)
        if there and there.what != message:
            raise OutOfOrder("order", place, f"delivers {message}", position, f"{there.what} was delivered there by", there.place)
        before = self._positions.get(message, position)
        if before != position:
            other = self._order[before].place
            raise OutOfOrder("order", place, f"delivers {message}", position, f"it was delivered at position {before} by", other, before)
        self._order.setdefault(position, _Told(message, place))
        self._positions[message] = position
        of.delivered[message] = of.at = position
        self._processes[process] = of

    def state(self, process: Hashable, digest: Hashable) -> None:
        """What the state machine of the process came to behind its deliveries so far."""
        place, at = self._place(process), self._of(process).at
        there = self._states.setdefault(at, _Told(digest, place))
        if there.what != digest:
            raise OutOfOrder("state", place, f"has the state {digest}", at, f"there was {there.what} at", there.place)

    def snapshot(self, process: Hashable, deliveries: int) -> None:
        """The process takes over a state that so many deliveries led to, at least as many as its own."""
        of = self._of(process)
        if deliveries < of.at:
            raise ValueError(f"{process} delivered {of.at} messages already: restart goes back")
        self._calls += 1
        of.at = deliveries
        self._processes[process] = of

    def restart(self, process: Hashable, deliveries: int) -> None:
        """The process goes on behind so many deliveries, at most those that it has made; it has to deliver the same again."""
        of = self._of(process)
        if deliveries > of.at:
            raise ValueError(f"{process} delivered {of.at} messages only: a snapshot goes further")
        self._calls += 1
        of.at, of.crashed = deliveries, False
        self._processes[process] = of

    def crash(self, process: Hashable) -> None:
        """The process stops, and need not deliver any more."""
        self._calls += 1
        self._processes.setdefault(process, _Process()).crashed = True

    def delivered(self, process: Hashable) -> int:
        """How many deliveries the process is at."""
        return self._of(process).at

    def at(self, position: int) -> Optional[M]:
        """The message at the position, from 1, as far as that was told."""
        told = self._order.get(position)
        return told.what if told else None

    def missing(self, process: Hashable) -> List[M]:
        """What the process has yet to deliver: first what others delivered behind it, in order, then what one that is up broadcast."""
        of = self._of(process)
        ahead: List[M] = []
        position = of.at + 1
        while position in self._order:
            ahead.append(self._order[position].what)
            position += 1
        up = [it for it in self._processes.values() if not it.crashed]
        return ahead + sorted((it for one in up for it in one.broadcast if it not in self._positions), key=str)

    def settled(self) -> None:
        """In the end: who didn't crash has delivered all that anyone delivered, and all that one that didn't crash broadcast."""
        for process, of in self._processes.items():
            missing = [] if of.crashed else self.missing(process)
            if missing:
                place = self._place(process)
                raise OutOfOrder("agreement", place, f"never delivers {missing[0]}", of.at + 1)
