"""Members that make a mistake, and logs that are written otherwise than docs/LOGS.md says: to see what `ct_tool merge` finds."""
from __future__ import annotations

import argparse
import random
from typing import Any, Callable, Dict, Iterable, List, Optional, Sequence, Tuple, Type

from log import Log
from net import Timers

BLOCK = 4096        # bytes of lines that are written at once
LAG = 0.02          # seconds after which a line is written, at most
HANDLING = 0.005    # seconds from the arrival of a letter to its handling

# ---- mistakes


class LeastTs:
    """A coordinator takes an estimate with the least ts."""

    def best(self, heard: Dict[int, Tuple[Any, int]]) -> int:
        return min(heard, key=lambda q: (heard[q][1], q))


class Half:
    """n/2 of the members are a majority."""
    n: int

    def is_majority(self, count: int) -> bool:
        return count >= self.n // 2


class Arrival:
    """What is decided is delivered in the order in which it arrived."""
    received: Dict[Any, None]

    def in_order(self, batch: List[Any]) -> List[Any]:
        places = {message: place for place, message in enumerate(self.received)}
        return sorted(batch, key=lambda message: places.get(message, len(places)))


BROKEN: Dict[str, type] = {"least-ts": LeastTs, "half": Half, "arrival": Arrival}


def member(options: argparse.Namespace, right: type) -> Type[Any]:
    return type("Broken", (BROKEN[options.broken], right), {}) if options.broken else right


# ---- logs


class Written(Log):
    """A log, of which values are stated behind some acts only."""
    acts: Optional[Sequence[str]] = None
    timers: Timers

    def act(self, *words: Any, value: Optional[Iterable[Any]] = None, ts: Optional[int] = None) -> None:
        said = self.acts is None or words[0].split()[0] in self.acts
        super().act(*words, value=value if said else None, ts=ts if said else None)

    def receive_data(self, message: Tuple[Any, ...], sender: int, command: Sequence[Any] = ()) -> None:
        super().receive_data(message, sender, command if self.acts is None or "receive" in self.acts else ())


class Late(Written):
    """A log that keeps lines back; those that it still has when the member ends by itself are written then."""
    late = ""

    def write_late(self) -> None:
        Log.write(self, self.late)
        self.late = ""

    def close(self) -> None:
        self.write_late()
        super().close()


class After(Late):
    """Lines are written a while after what they send left."""

    def write(self, text: str) -> None:
        if not self.late:
            self.timers.after(random.random() * LAG, self.write_late)
        self.late += text


class Blocks(Late):
    """Lines are written block by block."""

    def write(self, text: str) -> None:
        self.late += text
        if len(self.late) >= BLOCK:
            self.write_late()


class AtArrival(Written):
    """A log in which a receipt stands where the letter arrives, and not where it counts."""
    counts = False

    def act(self, *words: Any, **stated: Any) -> None:
        if not self.counts:
            super().act(*words, **stated)

    def arrived(self, q: int, kind: str, *content: Any) -> None:
        if kind == "data":
            self.receive_data(content[0], q, content[0][2])
        else:
            self.receive(kind, content[0], content[1], q, *content[2:])


LOGS: Dict[str, Type[Written]] = {"before": Written, "after": After, "blocks": Blocks, "arrival": AtArrival}


def log(options: argparse.Namespace, timers: Timers, members: int) -> Log:
    acts = None if options.stated is None else options.stated.split(",")
    chosen = type("Chosen", (LOGS[options.written],), {"timers": timers, "acts": acts})
    return chosen(options.log, options.member, members, cells=1024, batch=options.batch)


def receiver(timers: Timers, right: Any) -> Callable[[int, Any], None]:
    """What takes letters of a member. Where receipts are logged at their arrival, they count some time later."""
    if not isinstance(right.log, AtArrival):
        return right.receive

    def count(q: int, letter: Any) -> None:
        right.log.counts = True
        right.receive(q, letter)
        right.log.counts = False

    def receive(q: int, letter: Any) -> None:
        right.log.arrived(q, *letter)
        timers.after(HANDLING, lambda: count(q, letter))

    return receive
