"""Hostile schedules, drawn from seeds. A seed draws first what kinds of trouble it makes, and how much of each, then event by event."""
from __future__ import annotations

import random
from dataclasses import dataclass, fields
from typing import Dict, FrozenSet, Iterator, List, Optional, Tuple

from .network import Event, Happening, Packet, about
from .run import Run

VALUES = 1, 7, 1 << 63, (1 << 64) - 1
MOST_TRIES = 50
REGISTERS = 4
RECENT = 20      # what was received or lost last comes again
SHARES = "lose", "repeat", "suspect", "trust", "cut"
ORDERS = "any", "any", "first", "links", "slow"


@dataclass(frozen=True)
class Trouble:
    """What a schedule may have; each seed leaves some of it out."""

    events: int = 160       # at most
    submit: int = 4         # messages
    crash: int = 1          # members that crash, short of half of the group
    lose: float = 0.03      # of the events, where the seed has it at all; so with the others
    repeat: float = 0.03
    suspect: float = 0.10   # a suspicion lasts until it is taken back
    trust: float = 0.05
    cut: float = 0.02       # a cut of the group into two sides, or its end

    def __post_init__(self) -> None:
        for it in fields(self):
            value = getattr(self, it.name)
            if value < 0 or it.default.__class__ is float and value > 1:
                raise ValueError(f"{it.name}={value}: {'0 to 1, a share of the events' if it.default.__class__ is float else '0 or more'}")


class Draw:
    """The schedule of a seed, by what the run has come to."""

    def __init__(self, trouble: Trouble, seed: int, run: Run) -> None:
        self._network, self._awaited, self._chance = run.network, run.judge.awaited, random.Random(seed)
        chance, members = self._chance, run.network.n
        self._events, self._submissions = trouble.events, trouble.submit
        self._crashes = chance.randint(0, trouble.crash)
        # Half of the seeds leave a kind of trouble out, or have it milder or worse.
        self._shares = [(name, getattr(trouble, name) * chance.choice((0, 0.5, 1, 2))) for name in SHARES]
        self._order = chance.choice(ORDERS)
        self._slow = chance.randint(1, members)                   # to whom things come last, with "slow"
        self._links: Dict[Tuple[int, int], float] = {}            # which link goes first, with "links"; changes now and then
        self._side: Optional[FrozenSet[int]] = None               # a cut: these are on one side

    def __iter__(self) -> Iterator[Happening]:
        tries = 0
        for _ in range(self._events):
            drawn = self._drawn()
            if drawn:
                yield drawn
            tries = 0 if drawn else tries + 1
            if tries == MOST_TRIES:
                return

    def _drawn(self) -> Optional[Happening]:
        chance, up = self._chance, self._network.up
        waiting = [it for p in up for it in self._network.waiting[p]]
        if self._submissions and (chance.random() < 0.05 or not waiting):
            self._submissions -= 1
            return Event("submit", chance.choice(up), self._command()), None
        at = chance.random()
        for name, share in self._shares:
            if at < share:
                drawn: Optional[Happening] = getattr(self, f"_{name}")(waiting)
                return drawn
            at -= share
        if self._crashes and at < 0.01 and 2 * (len(up) - 1) > self._network.n:
            self._crashes -= 1
            return Event("crash", self._somebody()), None
        return self._receive(waiting)

    def _command(self) -> Tuple[object, ...]:
        chance = self._chance
        name, register = chance.choice(("set", "add", "copy")), chance.randrange(REGISTERS)
        return name, register, chance.randrange(REGISTERS) if name == "copy" else chance.choice(VALUES)

    def _somebody(self) -> int:
        """Often the coordinator that another waits for."""
        up = self._network.up
        awaited = self._awaited(self._chance.choice(up))
        return awaited if awaited in up and self._chance.random() < 0.5 else self._chance.choice(up)

    def _receive(self, waiting: List[Packet]) -> Optional[Happening]:
        if self._side is not None:
            waiting = [it for it in waiting if (it.sender in self._side) == (it.to in self._side)]
        if not waiting:
            self._side = None   # nothing comes any more: the cut ends, or somebody is suspected
            return self._suspect(waiting)
        packet = self._chance.choice(waiting)
        if self._order == "first":
            packet = next(it for it in waiting if it.to == packet.to)
        elif self._order == "slow" and packet.to == self._slow:
            packet = next((it for it in reversed(waiting) if it.to != self._slow), packet)
        elif self._order == "links":
            packet = self._by_link(waiting)
        return about("receive", packet)

    def _by_link(self, waiting: List[Packet]) -> Packet:
        if self._chance.random() < 0.03:
            self._links.clear()
        return max(waiting, key=lambda it: self._links.setdefault((it.sender, it.to), self._chance.random()))

    def _lose(self, waiting: List[Packet]) -> Optional[Happening]:
        return about("lose", self._chance.choice(waiting)) if waiting else None

    def _repeat(self, _waiting: List[Packet]) -> Optional[Happening]:
        gone = [it for p in self._network.up for it in self._network.gone[p][-RECENT:]]
        return about("repeat", self._chance.choice(gone)) if gone else None

    def _suspect(self, _waiting: List[Packet]) -> Optional[Happening]:
        """Most often the one that it waits for."""
        p = self._chance.choice(self._network.up)
        awaited = self._awaited(p)
        q = awaited if awaited and self._chance.random() < 0.8 else self._chance.randint(1, self._network.n)
        return (Event("suspect", p, q), None) if q not in self._network.suspects[p] else None

    def _trust(self, _waiting: List[Packet]) -> Optional[Happening]:
        wrong = [(p, q) for p in self._network.up for q in sorted(self._network.suspects[p])]
        return (Event("trust", *self._chance.choice(wrong)), None) if wrong else None

    def _cut(self, _waiting: List[Packet]) -> None:
        """It takes no event: for a while some packets don't come."""
        n = self._network.n
        self._side = None if self._side or n == 1 else frozenset(self._chance.sample(range(1, n + 1), self._chance.randint(1, n - 1)))
