"""Schedules made small: fewer events, in which the members still differ. Whole instances and rounds go first, whose later ones get their
numbers, then what comes to a member, then parts of the list, at last single events; an event that is not possible any more is left out.
What counts are all events up to the difference, those of the calm end too."""
from __future__ import annotations

import re
import time
from typing import Callable, Iterator, List, NamedTuple, Optional, Set, Tuple

from .network import DETECTOR, NETWORK, Event

PLACED = re.compile(r"(\w+) (\d+)([/.])(\d+)")
MOST = 4000       # trials
At = Tuple[int, int]   # an instance and a round


class Tried(NamedTuple):
    """A schedule in which the members differ."""

    size: int             # events up to the difference
    events: List[Event]   # those that have to be given: where it is told in the end, without those of the calm end


Trial = Callable[[List[Event]], Optional[Tried]]


def shrink(trial: Trial, first: Tried, n: int, seconds: float) -> Tuple[Tried, int, str]:
    """What is left, how many trials were made, and what stopped them: nothing, where no event can be left out."""
    best, trials, until, stopped = first, 0, time.monotonic() + seconds, ""

    def smaller(candidate: List[Event]) -> bool:
        nonlocal best, trials, stopped
        if stopped or len(candidate) >= len(best.events):
            return False
        if trials >= MOST or time.monotonic() > until:
            stopped = "stopped there" if trials >= MOST else f"stopped after {seconds:g} s"
            return False
        trials += 1
        try:
            tried = trial(candidate)
        except KeyboardInterrupt:
            tried, stopped = None, "stopped by ^C"
        if tried is None or (tried.size, len(tried.events)) >= (best.size, len(best.events)):
            return False
        best = tried
        return True

    while True:
        before = best
        while any(smaller(candidate) for candidate in moves(best.events, n)):
            pass
        size = max(len(best.events) // 2, 1)
        while size:
            place = 0
            while place < len(best.events):
                if not smaller(best.events[:place] + best.events[place + size:]):
                    place += size
            size //= 2
        if best is before:
            return best, trials, stopped


def moves(events: List[Event], n: int) -> Iterator[List[Event]]:
    """The events without an instance, without rounds, without what comes to a member."""
    named = [PLACED.fullmatch(name) for event in events if event.name in NETWORK for name in event.what]
    if all(named):   # else their names say nothing
        yield from _without_rounds(events, n, {(int(it[2]), int(it[4])) for it in named if it and it[3] == "/"})
    for p in range(1, n + 1):
        yield [event for event in events if event.member != p]


def _without_rounds(events: List[Event], n: int, places: Set[At]) -> Iterator[List[Event]]:
    instances = sorted({k for k, _ in places})
    for k in instances:
        yield _renamed(events, n, lambda at: None if at[0] == k else (at[0] - (at[0] > k), at[1]))
    for count in range(1, min(n, max((r for _, r in places), default=0))):
        # Members are renamed, so that each round keeps its coordinator.
        yield _renamed(events, n, lambda at: None if at[1] <= count else (at[0], at[1] - count), count)
    for k in instances:
        for first in range(1, max(r for j, r in places if j == k) - n + 2):   # n rounds of the instance
            yield _renamed(events, n, lambda at: at if at[0] != k or at[1] < first else None if at[1] < first + n else (k, at[1] - n))


def _renamed(events: List[Event], n: int, place: Callable[[At], Optional[At]], turn: int = 0) -> List[Event]:
    """The events in other instances and rounds, and with members renamed by so many."""
    def member(p: int) -> int:
        return (p - 1 - turn) % n + 1

    def name(text: str) -> Optional[str]:
        found = PLACED.fullmatch(text)
        assert found
        first, second = int(found[2]), int(found[4])
        if found[3] == ".":
            return f"{found[1]} {member(first)}.{second}"
        at = place((first, second))
        return f"{found[1]} {at[0]}/{at[1]}" if at else None

    made = []
    for event in events:
        event = event._replace(member=member(event.member))
        if event.name in NETWORK:
            event = event._replace(what=tuple(map(name, event.what)), sender=member(event.sender))
        elif event.name in DETECTOR:
            event = event._replace(what=member(event.what))
        if event.name not in NETWORK or None not in event.what:
            made.append(event)
    return made
