"""A world over libct.so."""
from __future__ import annotations

from ctypes import ArgumentError, byref, c_uint32, c_uint64
from typing import Any, List, Optional, Tuple

from . import library
from .envelopes import Ack, Content, Data, Decision, Envelope, Estimate, Message, Nack, Proposal
from .refusal import Refusal, StepRefused
from .standing import Phase, Standing
from .steps import COMMANDS, WORD, Crash, Step, step_of_numbers, within


def _message(it: library.MessageNumbers) -> Message:
    return Message(it.origin, it.number, COMMANDS[it.command - 1](it.reg, it.value))


def _content(it: library.Letter) -> Content:
    """What the envelope of these numbers carries."""
    if it.kind == 1:
        return Data(_message(it.message))
    if it.kind == 2:
        return Estimate(it.instance, it.round, it.source, it.ts)
    if it.kind == 3:
        return Proposal(it.instance, it.round)
    if it.kind == 6:
        return Decision(it.instance, it.round)
    return Ack(it.instance, it.round, it.source) if it.kind == 4 else Nack(it.instance, it.round, it.source)


def _members(bits: int) -> List[int]:
    """The members of a set, member 1 the lowest bit."""
    return [at + 1 for at in range(bits.bit_length()) if bits >> at & 1]


class LibraryWorld:
    """What a `World` asks of the library. Each call is given the struct at its one address."""

    def __init__(self, members: int, cells: int, bound: int) -> None:
        self._hold()
        status = library.call("ct_world_open")(self._at, members, cells, bound)
        if status:
            raise MemoryError() if status == library.OUT_OF_MEMORY else ValueError("not a setup")

    def _hold(self) -> None:
        """A closed handle, and the calls that are made most."""
        self._handle = library.Handle()
        self._at = byref(self._handle)
        self._apply, self._close = library.call("ct_apply"), library.call("ct_world_close")

    def apply(self, step: Step) -> range:
        try:
            effect = self._apply(self._at, *step.numbers())
        except ArgumentError as error:
            raise TypeError(f"{step}: {error}") from None
        first = effect.first
        if effect.refusal:
            self._look()
            raise StepRefused(step, Refusal(effect.refusal))
        return range(first, first + effect.count)

    def refusal(self, step: Step) -> Optional[Refusal]:
        self._look()
        try:
            status = library.call("ct_enabled")(self._at, *step.numbers())
        except ArgumentError as error:
            raise TypeError(f"{step}: {error}") from None
        return Refusal(status) if status else None

    def _look(self) -> None:
        """It isn't closed."""
        if not self._handle.is_open:
            raise ValueError("the world is closed")

    def has_crashed(self, member: int) -> bool:
        return self.refusal(Crash(member)) is Refusal.CRASHED

    def next(self, member: int) -> Optional[Step]:
        self._look()
        it = library.call("ct_next")(self._at, member)
        return step_of_numbers(it.kind, it.member, it.a, it.b, it.c) if it.kind else None

    def standing(self, member: int) -> Standing:
        self._look()
        it = library.call("ct_standing_of")(self._at, member)
        heard = {p: it.heard_ts[p - 1] for p in _members(it.heard)}
        return Standing(it.instance, it.round, Phase(it.phase) if it.phase else None, it.ts, heard, frozenset(_members(it.acked)),
                        frozenset(_members(it.replied)), it.has_crashed)

    def steps(self) -> List[Step]:
        steps = self._list("ct_steps", library.StepNumbers, 0)
        return [step_of_numbers(it.kind, it.member, it.a, it.b, it.c) for it in steps]

    def serials(self, member: int) -> List[int]:
        return self._list("ct_waiting", c_uint32, member)

    def _list(self, name: str, kind: Any, *which: int) -> List[Any]:
        """The elements that the call of this name writes, where there is such a list."""
        elements = self._elements(name, kind, *which)
        assert elements is not None
        return elements

    def _elements(self, name: str, kind: Any, *which: int) -> Optional[List[Any]]:
        """The elements that the call of this name writes, or None."""
        self._look()
        at, call = self._at, library.call(name)

        def fill(room: Any, length: int) -> int:
            count: int = call(at, *which, room, length)
            return count

        return library.elements(kind, fill)

    def _value(self, name: str, *which: int) -> Optional[Tuple[Message, ...]]:
        messages = self._elements(name, library.MessageNumbers, *which)
        return None if messages is None else tuple(map(_message, messages))

    def envelope(self, serial: int) -> Optional[Envelope]:
        within(WORD, serial=serial)
        self._look()
        it = library.call("ct_envelope")(self._at, serial)
        return Envelope(serial, it.to, _content(it)) if it.kind else None

    def value(self, serial: int) -> Optional[Tuple[Message, ...]]:
        within(WORD, serial=serial)
        return self._value("ct_value", serial)

    def received(self, member: int) -> List[Message]:
        return list(map(_message, self._list("ct_received", library.MessageNumbers, member)))

    def decided(self, member: int, instance: int) -> Optional[Tuple[Message, ...]]:
        within(WORD, instance=instance)
        return self._value("ct_decided", member, instance)

    def delivered(self, member: int) -> List[Message]:
        return list(map(_message, self._list("ct_delivered", library.MessageNumbers, member)))

    def table(self, member: int) -> List[int]:
        return self._list("ct_table", c_uint64, member)

    def copy(self) -> LibraryWorld:
        self._look()
        other = object.__new__(LibraryWorld)
        other._hold()
        if library.call("ct_copy")(self._at, other._at):
            raise MemoryError
        return other

    def close(self) -> None:
        self._close(self._at)

    def __del__(self) -> None:
        if hasattr(self, "_handle"):
            self.close()
