"""What members send one another, as the algorithm has it; the function `wire` of a test reads these off the packets of its members."""
from __future__ import annotations

from typing import Any, Iterable, NamedTuple, Tuple, Union

from ..envelopes import Ack as AckContent, Data as DataContent, Decision as DecisionContent, Estimate as EstimateContent
from ..envelopes import Message, Nack as NackContent, Proposal as ProposalContent
from ..world import World

Name = Tuple[int, int]        # a message: its origin, and its number there, from 1
Value = Tuple[Name, ...]      # messages, in order
Command = Tuple[Any, ...]     # ("set", register, value), ("add", register, amount) or ("copy", register, register)
ALL = -1                      # in place of a member: to each of the group, the sender too; no number that a program counts from 0


class Data(NamedTuple):
    """A message; its command may be left out."""

    message: Name
    command: Command = ()
    kind: str = "data"


class Estimate(NamedTuple):
    """The estimate of `source` at the beginning of a round."""

    instance: int
    round: int
    source: int
    value: Value
    ts: int
    kind: str = "est"


class Proposal(NamedTuple):
    """The coordinator's proposal."""

    instance: int
    round: int
    value: Value
    kind: str = "prop"


class Ack(NamedTuple):
    """`source` took the proposal over."""

    instance: int
    round: int
    source: int
    kind: str = "ack"


class Nack(NamedTuple):
    """`source` suspects the coordinator."""

    instance: int
    round: int
    source: int
    kind: str = "nack"


class Decision(NamedTuple):
    """The decision of an instance, made in this round."""

    instance: int
    round: int
    value: Value
    kind: str = "dec"


OfRound = Union[Estimate, Proposal, Ack, Nack, Decision]
Letter = Union[Data, OfRound]
LETTERS = (Data, Estimate, Proposal, Ack, Nack, Decision)


def value_text(value: Iterable[Name]) -> str:
    return "{" + ",".join(f"{origin}.{number}" for origin, number in value) + "}"


def short(letter: Letter) -> str:
    """As schedules name it: `est 1/2`, `data 1.1`."""
    if isinstance(letter, Data):
        return f"data {letter.message[0]}.{letter.message[1]}"
    return f"{letter.kind} {letter.instance}/{letter.round}"


def carried(letter: Letter) -> str:
    """What it carries, as schedules state it behind its name: ` {1.1} ts 1`, or nothing."""
    if isinstance(letter, Data):
        return "".join(f" {word}" for word in letter.command)
    if isinstance(letter, (Ack, Nack)):
        return ""
    return f" {value_text(letter.value)}" + (f" ts {letter.ts}" if isinstance(letter, Estimate) else "")


def full(letter: Letter) -> str:
    """Its name and what it carries."""
    return short(letter) + carried(letter)


def ordered(letter: Letter) -> Letter:
    """The letter with its value, which is a set, in the order of messages; TypeError or ValueError where it is none."""
    if isinstance(letter, Data):
        return Data(message_name(letter.message), tuple(letter.command))
    for number in letter[:2] if isinstance(letter, (Proposal, Decision)) else letter[:3]:
        if not isinstance(number, int):
            raise TypeError(f"{letter}: instance, round and source are whole numbers")
    if isinstance(letter, (Ack, Nack)):
        return letter
    value = tuple(sorted(map(message_name, letter.value)))
    if isinstance(letter, Estimate):
        return Estimate(letter.instance, letter.round, letter.source, value, letter.ts)
    if isinstance(letter, Proposal):
        return Proposal(letter.instance, letter.round, value)
    return Decision(letter.instance, letter.round, value)


def same(told: Letter, letter: Letter) -> bool:
    """Whether it was told of this letter; the command of a message need not be told."""
    return told == letter or isinstance(letter, Data) and told == Data(letter.message)


def message_name(message: Any) -> Name:
    try:
        origin, number = message
        return int(origin), int(number)
    except (TypeError, ValueError):
        raise ValueError(f"{message!r} is no message: (origin, number) is due") from None


def names(messages: Iterable[Message]) -> Value:
    return tuple((it.origin, it.number) for it in messages)


def letter_of(world: World, serial: int) -> Tuple[int, Letter]:
    """To whom the envelope of this serial goes, and its letter."""
    envelope = world.envelope(serial)
    assert envelope is not None
    it = envelope.content
    if isinstance(it, DataContent):
        return envelope.to, Data((it.message.origin, it.message.number), tuple(it.message.command.entry()))
    if isinstance(it, AckContent):
        return envelope.to, Ack(it.instance, it.round, it.source)
    if isinstance(it, NackContent):
        return envelope.to, Nack(it.instance, it.round, it.source)
    value = names(world.value(serial) or ())
    if isinstance(it, EstimateContent):
        return envelope.to, Estimate(it.instance, it.round, it.source, value, it.ts)
    if isinstance(it, ProposalContent):
        return envelope.to, Proposal(it.instance, it.round, value)
    return envelope.to, Decision(it.instance, it.round, value)
