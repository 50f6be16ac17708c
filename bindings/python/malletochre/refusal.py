"""Why steps and lines are refused."""
from __future__ import annotations

import enum
import re
from typing import TYPE_CHECKING, Optional

if TYPE_CHECKING:
    from .steps import Step


class Refusal(enum.IntEnum):
    """Why a step is refused, by the numbers of ct.h: the first cause that applies, in the order of testing (docs/ALGORITHM.md)."""

    NO_SUCH_MEMBER = 1
    CRASHED = 2
    NOT_WAITING = 3
    BUSY = 4
    NOTHING = 5
    IDLE = 6
    WRONG_PHASE = 7
    DECIDED = 8
    TOO_FEW = 9
    NOT_LARGEST = 10
    NO_PROPOSAL = 11
    HAS_PROPOSAL = 12
    UNDECIDED = 13
    BAD_COMMAND = 14
    NOT_SENT = 15
    STILL_WAITING = 16
    FULL_SUBMISSIONS = 17
    FULL_INSTANCES = 18
    FULL_ROUNDS = 19
    FULL_ENVELOPES = 20
    FULL_CELLS = 21
    FULL_STEPS = 22
    OUT_OF_MEMORY = 23
    BOARD = 24

    def __str__(self) -> str:
        """Its name, as records and schedules have it: `TooFew`, `Full(Cells)`."""
        return NAMES[self]


def _named(refusal: Refusal) -> str:
    words = "".join(word.capitalize() for word in refusal.name.split("_"))
    return f"Full({words[4:]})" if words.startswith("Full") else "OutOfMemory" if refusal is Refusal.OUT_OF_MEMORY else words


NAMES = {refusal: _named(refusal) for refusal in Refusal}
BY_NAME = {name: refusal for refusal, name in NAMES.items()}


class Refused(Exception):
    """A step or a line that was refused. Nothing has changed, unless it was told `sent`."""


class StepRefused(Refused):
    """A step that a world refused, its member and why."""

    def __init__(self, step: Step, refusal: Refusal) -> None:
        super().__init__(step, refusal)
        self.step, self.member, self.refusal = step, step.member, refusal

    def __str__(self) -> str:
        return f"{self.step.text()}: {self.refusal}"


class LineRefused(Refused):
    """A line that a session refused: its number, from 1, the line and its fault, in the words of docs/SCHEDULES.md. Of a step that the
    rules refuse `member`, `refusal` and `facts` say whose it is, why, and what the fault tells besides; else they are None."""

    def __init__(self, number: int, line: str, fault: str) -> None:
        super().__init__(number, line, fault)
        self.number, self.line, self.fault = number, line, fault
        told = re.match(r"refused (\d+) ([A-Za-z]+(?:\([A-Za-z]+\))?)(?:: (.*))?$", fault)
        self.member: Optional[int] = int(told[1]) if told else None
        self.refusal: Optional[Refusal] = BY_NAME.get(told[2]) if told else None
        self.facts: Optional[str] = told[3] if told else None

    def __str__(self) -> str:
        """As `ct_tool record` writes it."""
        return f"line {self.number}: {self.line}: {self.fault}"


class NoWorld(Exception):
    """The session was told no step yet, so there is no group to speak of."""


for _it in (Refused, StepRefused, LineRefused, NoWorld):
    _it.__module__ = "malletochre"
