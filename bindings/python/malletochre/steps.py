"""Steps and commands."""
from __future__ import annotations

import json
from dataclasses import dataclass
from typing import Any, List, Tuple, Type, Union

BYTE, WORD, LONG = 1 << 8, 1 << 32, 1 << 64   # the ranges of numbers are below these
Numbers = Tuple[int, int, int, int, int]      # kind, member, a, b, c of ct.h


def within(bound: int, **numbers: int) -> None:
    """Each number is 0 or more and below the bound."""
    for name, number in numbers.items():
        if not 0 <= number < bound:
            raise ValueError(f"{name} {number}: 0 to {bound - 1}")


@dataclass(frozen=True)
class Set:
    """The register gets the value. Registers are numbers below 16, values whole numbers below 2**64."""

    register: int
    value: int

    def numbers(self) -> Tuple[int, int, int]:
        within(BYTE, register=self.register)
        within(LONG, value=self.value)
        return 1, self.register, self.value

    def entry(self) -> List[Any]:
        return ["set", self.register, self.value]


@dataclass(frozen=True)
class Add:
    """The register grows by the amount, up to 2**64 - 1."""

    register: int
    amount: int

    def numbers(self) -> Tuple[int, int, int]:
        within(BYTE, register=self.register)
        within(LONG, amount=self.amount)
        return 2, self.register, self.amount

    def entry(self) -> List[Any]:
        return ["add", self.register, self.amount]


@dataclass(frozen=True)
class Copy:
    """The register `to` gets the value of `source`."""

    source: int
    to: int

    def numbers(self) -> Tuple[int, int, int]:
        within(BYTE, source=self.source, to=self.to)
        return 3, self.source, self.to

    def entry(self) -> List[Any]:
        return ["copy", self.source, self.to]


Command = Union[Set, Add, Copy]
COMMANDS: Tuple[Type[Any], ...] = (Set, Add, Copy)   # by the numbers of ct.h, from 1


@dataclass(frozen=True)
class _Step:
    """A step of a member; members are counted from 1."""

    member: int

    KIND = 0

    @property
    def name(self) -> str:
        """As records have it."""
        return type(self).__name__.lower()

    def numbers(self) -> Numbers:
        if not 0 <= self.member < BYTE:
            within(BYTE, member=self.member)
        return self.KIND, self.member, 0, 0, 0

    def entry(self) -> List[Any]:
        """The step as records have it: ["receive", 1, 4]."""
        return [self.name, self.member]

    def text(self) -> str:
        """Its text in a record."""
        return json.dumps(self.entry(), separators=(",", ":"))


@dataclass(frozen=True)
class _OfSerial(_Step):
    """A step about an envelope: its place among all that were sent, counted from 1."""

    serial: int

    def numbers(self) -> Numbers:
        if not (0 <= self.member < BYTE and 0 <= self.serial < WORD):
            within(BYTE, member=self.member)
            within(WORD, serial=self.serial)
        return self.KIND, self.member, self.serial, 0, 0

    def entry(self) -> List[Any]:
        return [self.name, self.member, self.serial]


@dataclass(frozen=True)
class Submit(_Step):
    """Broadcasts a message with this command."""

    command: Command

    KIND = 1

    def numbers(self) -> Numbers:
        within(BYTE, member=self.member)
        return (self.KIND, self.member, *self.command.numbers())

    def entry(self) -> List[Any]:
        return [self.name, self.member, self.command.entry()]


class Receive(_OfSerial):
    """Receives the envelope of this serial."""

    KIND = 2


class Begin(_Step):
    """Opens the next instance."""

    KIND = 3


class Enter(_Step):
    """Enters the next round."""

    KIND = 4


@dataclass(frozen=True)
class Choose(_Step):
    """The coordinator proposes the estimate of the member `source`."""

    source: int

    KIND = 5

    def numbers(self) -> Numbers:
        within(BYTE, member=self.member, source=self.source)
        return self.KIND, self.member, self.source, 0, 0

    def entry(self) -> List[Any]:
        return [self.name, self.member, self.source]


class Adopt(_Step):
    """Takes the coordinator's proposal over."""

    KIND = 6


class Suspect(_Step):
    """Takes the coordinator for crashed."""

    KIND = 7


class Conclude(_Step):
    """The coordinator ends its round."""

    KIND = 8


class Deliver(_Step):
    """Delivers the decision of the open instance."""

    KIND = 9


class Follow(_Step):
    """Begins the next instance, delivers its decision and closes it."""

    KIND = 10


class Crash(_Step):
    """Stops for good."""

    KIND = 11


class Postpone(_OfSerial):
    """The serial moves to the end of the waiting line."""

    KIND = 12


class Lose(_OfSerial):
    """The serial leaves the waiting line."""

    KIND = 13


class Repeat(_OfSerial):
    """The serial, which was received or lost, joins the end of the waiting line again."""

    KIND = 14


Step = Union[Submit, Receive, Begin, Enter, Choose, Adopt, Suspect, Conclude, Deliver, Follow, Crash, Postpone, Lose, Repeat]
STEPS: Tuple[Type[Any], ...] = (Submit, Receive, Begin, Enter, Choose, Adopt, Suspect, Conclude, Deliver, Follow, Crash, Postpone, Lose,
                                Repeat)   # by the numbers of ct.h, from 1
STEPS_BY_NAME = {it.__name__.lower(): it for it in STEPS}
COMMANDS_BY_NAME = {it.__name__.lower(): it for it in COMMANDS}


def step_of_numbers(kind: int, member: int, a: int, b: int, c: int) -> Step:
    """The step of these numbers of ct.h."""
    made = STEPS[kind - 1]
    if made is Submit:
        return Submit(member, COMMANDS[a - 1](b, c))
    step: Step = made(member, a) if made is Choose or issubclass(made, _OfSerial) else made(member)
    return step


def step_of_entry(entry: List[Any]) -> Step:
    """The step of an entry of a record."""
    name, member, *rest = entry
    if name == "submit":
        command, *fields = rest[0]
        rest = [COMMANDS_BY_NAME[command](*fields)]
    step: Step = STEPS_BY_NAME[name](member, *rest)
    return step


def step_of_words(words: List[str]) -> Step:
    """The step of a line of a schedule: its member, its act, and the member whose estimate is chosen."""
    member, name, *rest = words
    step: Step = STEPS_BY_NAME[name](int(member), *map(int, rest))
    return step


def step_of_record(entry: Any) -> Step:
    """The step of what a record has in a step's place; ValueError where it is none."""
    try:
        step = step_of_entry(entry)
        is_step = step.entry() == entry and all(type(number) is int for number in step.numbers())
    except (KeyError, TypeError, ValueError):
        is_step = False
    if not is_step:
        raise ValueError(f"not a step: {json.dumps(entry)}")
    return step
