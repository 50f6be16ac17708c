"""Ranges of seeds that are tried side by side, and which of their hits is the least seed's."""
from __future__ import annotations

from typing import List, NamedTuple, Optional


class Seeds(NamedTuple):
    """The seeds from the first to the last one, both of them too."""
    first: int
    last: int

    def __str__(self) -> str:
        return f"{self.first}..{self.last}"


class Ranges:
    """The seeds in ranges of so many, which are handed out in order and come back in any. A hit is sure once all ranges before it came
    back without one; behind a hit none is handed out."""

    def __init__(self, seeds: Seeds, size: int) -> None:
        self.seeds, self.size = seeds, size
        self.handed = seeds.first            # the first seed that was not handed out
        self.out: List[Seeds] = []           # those handed out that did not come back, rising
        self.hit: Optional[Seeds] = None     # of those that came back with a hit the first one
        self.tried = 0

    def next(self) -> Optional[Seeds]:
        """The next range to try, if there is one."""
        if self.hit or self.handed > self.seeds.last:
            return None
        last = min(self.handed + self.size - 1, self.seeds.last)
        self.out.append(Seeds(self.handed, last))
        self.handed = last + 1
        return self.out[-1]

    def came_back(self, seeds: Seeds, is_hit: bool) -> List[Seeds]:
        """The range came back; answers those that need not be tried any more."""
        self.out.remove(seeds)
        self.tried += seeds.last - seeds.first + 1
        if is_hit and (self.hit is None or seeds < self.hit):
            self.hit = seeds
        off = [other for other in self.out if self.hit and other > self.hit]
        self.out = [other for other in self.out if other not in off]
        return off

    @property
    def passed(self) -> int:
        """All seeds up to this one were tried, and none is a hit; one less than the first where none was."""
        ends = [self.handed] + [seeds.first for seeds in self.out] + ([self.hit.first] if self.hit else [])
        return min(ends) - 1

    @property
    def is_over(self) -> bool:
        """Whether the hit is sure, or all seeds were tried."""
        return not self.out and (self.hit is not None or self.handed > self.seeds.last)
