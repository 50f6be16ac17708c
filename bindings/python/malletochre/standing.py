"""Where members stand."""
from __future__ import annotations

import enum
from dataclasses import dataclass
from typing import Dict, FrozenSet, Optional


class Phase(enum.IntEnum):
    """The phase of a round, by the numbers of ct.h."""

    REST = 1     # no round is running
    GATHER = 2   # the coordinator gathers estimates
    WAIT = 3     # the coordinator's proposal is awaited
    TALLY = 4    # the coordinator counts replies

    def __str__(self) -> str:
        """Its name: `Gather`."""
        return self.name.capitalize()


@dataclass(frozen=True)
class Standing:
    """Where a member stands. `instance` is the last one that it began, 0 before the first; while none is open, there is no phase, `round`
    and `ts` are 0, and nobody was heard, acked or replied.

    round: of the open instance, 0 before the first. phase: of that round. ts: the round in which it took its estimate over; 0: the estimate
    is its own. heard: the members whose estimates it got for the round, each with the ts. acked: those whose acks it got for it. replied:
    those whose acks or nacks it got for it.
    """

    instance: int
    round: int
    phase: Optional[Phase]
    ts: int
    heard: Dict[int, int]
    acked: FrozenSet[int]
    replied: FrozenSet[int]
    has_crashed: bool
