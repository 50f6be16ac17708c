"""A failure detector: who isn't heard for a while is suspected, and the while grows with each mistake."""
from __future__ import annotations

import time
from typing import Dict, Iterable


class Detector:
    """Suspects each of the others that wasn't heard for its timeout. Whoever is heard again was suspected by mistake, and is given
    more time; so where delays have a bound, those that are up come not to be suspected any more.

    timeout: seconds, at first. growth: seconds more after each mistake."""

    def __init__(self, others: Iterable[int], timeout: float, growth: float) -> None:
        now = time.monotonic()
        self.growth = growth
        self.heard_at: Dict[int, float] = {q: now for q in others}
        self.timeout: Dict[int, float] = {q: timeout for q in self.heard_at}

    def heard(self, q: int) -> None:
        if q in self.heard_at:
            if self.suspects(q):
                self.timeout[q] += self.growth
            self.heard_at[q] = time.monotonic()

    def suspects(self, q: int) -> bool:
        return q in self.heard_at and time.monotonic() - self.heard_at[q] > self.timeout[q]
