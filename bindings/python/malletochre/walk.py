"""Walks."""
from __future__ import annotations

import enum
from ctypes import byref
from operator import index
from typing import Union

from . import library
from .library_world import LibraryWorld
from .steps import Step, step_of_numbers
from .world import MAX_BOUND, MAX_CELLS, MAX_MEMBERS, USUAL_CELLS, World

TURNS, EACH, RATE, SEED = 100_000, 1_000, 256, 2**32 - 1   # the most of options
OVER = 3


class Turn(enum.Enum):
    """What a turn comes to that tries no step: nothing is tried, or all turns were made."""

    REST = enum.auto()
    OVER = enum.auto()


class Walk:
    """The random run that `ct_tool walk` makes of options, asked turn by turn what it tries next.

    The caller applies the step in a world of its own, or doesn't; the turns behind go by the world as it stands then. Where each step
    is applied in what `world` makes, the record is the one that `ct_tool walk` prints:

        with Walk(3, seed=7) as walk, walk.world() as world:
            for turn in iter(lambda: walk.turn(world), Turn.OVER):
                if turn is not Turn.REST and world.enabled(turn):
                    world.apply(turn)

    The options are those of `ct_tool walk`, whose help says what each does and its range; one out of its range is a ValueError. It needs
    libct.so: OSError where that isn't there. Use it in `with`, or `close` it.
    """

    def __init__(self, members: int, *, turns: int = 1000, seed: int = 0, rate: int = 64, cells: int = USUAL_CELLS, submit: int = 8,
                 crash: int = 0, postpone: int = 0, lose: int = 0, repeat: int = 0, batch: int = MAX_BOUND, every: int = 0,
                 scatter: int = 0, lasting: int = 0, crashes: int = 0, cut: int = 0) -> None:
        members = index(members)
        ranges = {"members": (members, 1, MAX_MEMBERS), "turns": (turns, 0, TURNS), "seed": (seed, 0, SEED), "rate": (rate, 0, RATE),
                  "cells": (cells, 0, MAX_CELLS), "submit": (submit, 0, EACH), "crash": (crash, 0, members),
                  "postpone": (postpone, 0, EACH), "lose": (lose, 0, EACH), "repeat": (repeat, 0, EACH), "batch": (batch, 1, MAX_BOUND),
                  "every": (every, 0, TURNS), "scatter": (scatter, 0, RATE), "lasting": (lasting, 0, RATE),
                  "crashes": (crashes, 0, (members - 1) // 2), "cut": (cut, 0, EACH)}
        for name, (number, least, most) in ranges.items():
            if not least <= index(number) <= most:
                raise ValueError(f"{name} {number}: {least} to {most}")
        if not library.IN_PROCESS:
            raise OSError("walks need libct.so; `bindings/build.sh` makes it")
        self._setup = members, cells, batch
        self._handle = library.Handle()
        self._at = byref(self._handle)
        self._turn, self._close = library.call("ct_walk_turn"), library.call("ct_walk_close")
        options = library.WalkNumbers(**{name: number for name, (number, _, _) in ranges.items()})
        if library.call("ct_walk_open")(self._at, byref(options)):
            raise MemoryError

    def world(self) -> World:
        """A world without steps, with the setup of the one that `ct_tool walk` makes."""
        return World(*self._setup)

    def turn(self, world: World) -> Union[Step, Turn]:
        """The step that the next turn tries, in this world as it stands: where the rules refuse it, the next turn is asked for all the
        same. Turn.REST where it tries none, Turn.OVER where all turns were made."""
        engine = world._engine
        if not isinstance(engine, LibraryWorld):
            raise TypeError("a world over ct_tool")
        if not (self._handle.is_open and engine._handle.is_open):
            raise ValueError("the walk or the world is closed")
        turn = self._turn(self._at, engine._at)
        it = turn.step
        if it.kind:
            return step_of_numbers(it.kind, it.member, it.a, it.b, it.c)
        return Turn.OVER if turn.kind == OVER else Turn.REST

    def close(self) -> None:
        """Lets go what it keeps. Afterwards it may only be closed again."""
        self._close(self._at)

    def __enter__(self) -> Walk:
        return self

    def __exit__(self, *_: object) -> None:
        self.close()

    def __del__(self) -> None:
        if hasattr(self, "_handle"):
            self.close()
