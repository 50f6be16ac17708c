"""Messages, and envelopes with what they carry."""
from __future__ import annotations

from dataclasses import dataclass
from typing import Union

from .steps import Command


@dataclass(frozen=True)
class Message:
    """The number-th command, counted from 1, that the member `origin` broadcast."""

    origin: int
    number: int
    command: Command

    def __str__(self) -> str:
        """Its name: `1.2`."""
        return f"{self.origin}.{self.number}"


@dataclass(frozen=True)
class Data:
    """A message."""

    message: Message


@dataclass(frozen=True)
class Estimate:
    """The estimate of the member `source` at the beginning of a round; `ts` is the round in which it took that over, 0 before the first."""

    instance: int
    round: int
    source: int
    ts: int


@dataclass(frozen=True)
class Proposal:
    """The proposal of the round's coordinator."""

    instance: int
    round: int


@dataclass(frozen=True)
class Ack:
    """The member `source` took the proposal over."""

    instance: int
    round: int
    source: int


@dataclass(frozen=True)
class Nack:
    """The member `source` took the coordinator for crashed."""

    instance: int
    round: int
    source: int


@dataclass(frozen=True)
class Decision:
    """The instance's decision, as the round's coordinator made it."""

    instance: int
    round: int


Content = Union[Data, Estimate, Proposal, Ack, Nack, Decision]


@dataclass(frozen=True)
class Envelope:
    """What was sent to one member: its place among all that were sent, from 1, the member, and what it carries."""

    serial: int
    to: int
    content: Content
