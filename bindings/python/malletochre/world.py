"""Worlds."""
from __future__ import annotations

import json
from operator import index
from typing import List, Optional, Tuple, Type, TypeVar, Union

from . import library
from .envelopes import Envelope, Message
from .library_world import LibraryWorld
from .refusal import Refusal, Refused
from .standing import Standing
from .steps import Step, step_of_record
from .tool_world import ToolWorld

MAX_MEMBERS = 16
MAX_CELLS = 1_024
MAX_BOUND = 1_048_560   # more messages than that can't be pending, so it bounds nothing
USUAL_CELLS = 64
RECORD = {"batch": int, "cells": int, "n": int, "steps": list, "version": int}
W = TypeVar("W", bound="World")


class World:
    """A group of members, what is on its way between them, what each received, decided and delivered, and the record of the steps so far.

    Whatever is asked of it, the record is a run of the algorithm that ends in this state, and the state is safe: two decisions of an
    instance are equal, and of the sequences that two members delivered one begins the other.

    members: 1 to MAX_MEMBERS. cells: how many instances can be delivered, 0 to MAX_CELLS. bound: how many messages a member proposes for
    an instance at most, 1 to MAX_BOUND. tool: the program `ct_tool`, to be used in place of the library. Use it in `with`, or `close` it;
    a world that is closed raises ValueError whatever it is asked. `copy.copy` makes what `copy` makes.
    """

    def __init__(self, members: int, cells: int = USUAL_CELLS, bound: int = MAX_BOUND, *, tool: Optional[str] = None) -> None:
        members, cells, bound = index(members), index(cells), index(bound)
        ranges = ("members", members, 1, MAX_MEMBERS), ("cells", cells, 0, MAX_CELLS), ("bound", bound, 1, MAX_BOUND)
        for name, number, least, most in ranges:
            if not least <= number <= most:
                raise ValueError(f"{name} {number}: {least} to {most}")
        self.members, self.cells, self.bound = members, cells, bound
        self._engine: Union[LibraryWorld, ToolWorld]
        if library.IN_PROCESS and tool is None:
            self._engine = LibraryWorld(members, cells, bound)
        else:
            self._engine = ToolWorld(members, cells, bound, tool)

    @classmethod
    def of_record(cls: Type[W], record: Union[str, bytes], *, tool: Optional[str] = None) -> W:
        """A world with the setup and the steps of a record of version 3, as `record` gives it. ValueError where it is no such record, or
        one of its steps is refused, which is the error's cause then."""
        told = json.loads(record)
        kinds = {key: type(value) for key, value in told.items()} if isinstance(told, dict) else {}
        if kinds != RECORD or told["version"] != 3:
            raise ValueError("no record of version 3")
        world = cls(told["n"], told["cells"], told["batch"], tool=tool)
        for at, entry in enumerate(told["steps"], 1):
            try:
                world.apply(step_of_record(entry))
            except (ValueError, Refused) as fault:
                raise ValueError(f"step {at}: {fault}") from fault
        return world

    def apply(self, step: Step) -> range:
        """Does the step, and gives the serials of the envelopes that it sent; or raises StepRefused, and nothing has changed."""
        return self._engine.apply(step)

    def refusal(self, step: Step) -> Optional[Refusal]:
        """Why the step would be refused now, want of memory apart; None where it is allowed."""
        return self._engine.refusal(step)

    def enabled(self, step: Step) -> bool:
        """Whether the step is allowed now, want of memory apart."""
        return self._engine.refusal(step) is None

    def next(self, member: int) -> Optional[Step]:
        """What a driver does next at the member: the first step that is allowed of Deliver, Follow, Begin, Choose (of the least member
        that was heard with the largest ts), Adopt, Conclude, Enter and Suspect."""
        return self._engine.next(self._own(member))

    def standing(self, member: int) -> Standing:
        """Where the member stands: its instance, round and phase, the ts of its estimate, and whom it heard."""
        return self._engine.standing(self._own(member))

    def steps(self) -> List[Step]:
        """The steps so far."""
        return self._engine.steps()

    def record(self) -> str:
        """The record, as `ct replay` and `ct_tool` read it: JSON, without a line feed."""
        steps = [step.entry() for step in self.steps()]
        record = {"batch": self.bound, "cells": self.cells, "n": self.members, "steps": steps, "version": 3}
        return json.dumps(record, separators=(",", ":"))

    def serials(self, member: int) -> List[int]:
        """The serials of the envelopes that wait at the member, in the order of its line."""
        return self._engine.serials(self._own(member))

    def waiting(self, member: int) -> List[Envelope]:
        """The envelopes that wait at the member, in the order of its line."""
        envelopes = [self._engine.envelope(serial) for serial in self.serials(member)]
        return [it for it in envelopes if it is not None]

    def envelope(self, serial: int) -> Optional[Envelope]:
        """The envelope of a serial, wherever it is now; None where it was not sent."""
        return self._engine.envelope(index(serial))

    def value(self, serial: int) -> Optional[Tuple[Message, ...]]:
        """The value that the envelope carries, in the order of messages: of an estimate, a proposal or a decision. None where that serial
        was not sent, or its envelope carries none."""
        return self._engine.value(index(serial))

    def received(self, member: int) -> List[Message]:
        """The messages that the member received, in order of first receipt."""
        return self._engine.received(self._own(member))

    def decided(self, member: int, instance: int) -> Optional[Tuple[Message, ...]]:
        """The decision that the member got for an instance, in the order of messages; None where it got none."""
        return self._engine.decided(self._own(member), index(instance))

    def delivered(self, member: int) -> List[Message]:
        """The messages that the member delivered, in order."""
        return self._engine.delivered(self._own(member))

    def table(self, member: int) -> List[int]:
        """The values of the member's 16 registers, after the commands of what it delivered."""
        return self._engine.table(self._own(member))

    def has_crashed(self, member: int) -> bool:
        """Whether the member has crashed."""
        return self._engine.has_crashed(self._own(member))

    def copy(self: W) -> W:
        """A world of its own with the same setup and record. It takes as long as replaying the record."""
        other = object.__new__(type(self))
        other.__dict__.update(self.__dict__, _engine=self._engine.copy())
        return other

    def __copy__(self: W) -> W:
        return self.copy()

    def close(self) -> None:
        """Lets go what it keeps. Afterwards it may only be closed again."""
        self._engine.close()

    def _own(self, member: int) -> int:
        member = index(member)
        if not 1 <= member <= self.members:
            raise ValueError(f"no member {member}: 1 to {self.members}")
        return member

    def __enter__(self: W) -> W:
        return self

    def __exit__(self, *_: object) -> None:
        self.close()
