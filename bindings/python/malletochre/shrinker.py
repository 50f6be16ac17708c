"""Runs that are made smaller."""
from __future__ import annotations

from ctypes import byref
from operator import index
from typing import Any, Callable, Optional, Tuple

from . import library
from .library_world import LibraryWorld
from .steps import WORD, Step, step_of_numbers, within
from .world import World

TRIALS = 10_000   # those of `ct_tool shrink`


class Shrinker:
    """It makes a run that passes a test of the caller's smaller trial by trial, as `ct_tool shrink` does for a goal.

    Each trial is the run without some steps, in a fresh world of the caller's with the same members, cells and bound:

        with Shrinker(world) as shrinker:
            while shrinker.next():
                with World(world.members, world.cells, world.bound) as trial:
                    while step := shrinker.turn(trial):
                        trial.apply(step)
                    shrinker.told(trial, passes(trial))

    In the end the turns in a fresh world make the smallest run. `shrunk` makes all trials, where the test is one of the world.

    world: that of the run. names_members: the test names members, so no trial gives them other numbers. trials: so many are made at most.
    It takes as long as replaying the record, and needs libct.so: OSError where that isn't there. Use it in `with`, or `close` it; closed,
    or in a closed world, it raises ValueError.
    """

    def __init__(self, world: World, *, names_members: bool = False, trials: int = TRIALS) -> None:
        within(WORD, trials=index(trials))
        if not library.IN_PROCESS:
            raise OSError("shrinkers need libct.so; `bindings/build.sh` makes it")
        of = self._world(world)
        self._handle = library.Handle()
        self._at = byref(self._handle)
        self._turn, self._close = library.call("ct_shrink_turn"), library.call("ct_shrink_close")
        _look(library.call("ct_shrink_open")(self._at, of, names_members, trials))

    def next(self) -> bool:
        """Asks for the next trial, and tells whether there is one: there is none where no step can be left out, or so many trials were
        made. Until the trial was told it is asked for again, from its first step."""
        status = library.call("ct_shrink_next")(self._at)
        if status != library.NO_TRIAL:
            _look(status)
        return bool(status == library.DONE)

    def turn(self, world: World) -> Optional[Step]:
        """The next step of the trial, in this world as it stands, where it is allowed; None behind the last. In place of one that the
        rules refuse there, its member does what else it may, or it is left out. Where no trial is asked for, the steps are those of the
        smallest run so far."""
        turn = self._turn(self._at, self._world(world))
        if not turn.kind:
            _look(library.NOT_OPEN)
        it = turn.step
        return step_of_numbers(it.kind, it.member, it.a, it.b, it.c) if it.kind else None

    def told(self, world: World, passed: bool) -> None:
        """Tells what the trial came to: whether the test is passed in this world. Where it is, in fewer steps than the smallest run so far
        has, the world's run is that from here on. ValueError where no trial is asked for."""
        _look(library.call("ct_shrink_told")(self._at, self._world(world), passed))

    def is_least(self) -> bool:
        """Whether no step of the smallest run can be left out, as far as the trials were told."""
        if not self._handle.is_open:
            _look(library.NOT_OPEN)
        return bool(library.call("ct_shrink_is_least")(self._at))

    def close(self) -> None:
        """Lets go what it keeps. Afterwards it may only be closed again."""
        self._close(self._at)

    @staticmethod
    def _world(world: World) -> Any:
        """What the library is given."""
        engine = world._engine
        if not isinstance(engine, LibraryWorld):
            raise TypeError("a world over ct_tool")
        return engine._at

    def __enter__(self) -> Shrinker:
        return self

    def __exit__(self, *_: object) -> None:
        self.close()

    def __del__(self) -> None:
        if hasattr(self, "_close"):
            self.close()


def _look(status: int) -> None:
    """The call was done."""
    if status == library.OUT_OF_MEMORY:
        raise MemoryError
    if status:
        raise ValueError("no trial is asked for" if status == library.NO_TRIAL else "the shrinker or the world is closed")


def shrunk(world: World, passes: Callable[[World], bool], *, names_members: bool = False, trials: int = TRIALS) -> World:
    """The smallest run that so many trials at most leave of this world's, which passes: each trial is asked before each of its steps, and
    behind the last, whether it passes. Where the test names members, no trial gives them other numbers."""
    with Shrinker(world, names_members=names_members, trials=trials) as shrinker:
        while shrinker.next():
            trial, passed = _tried(shrinker, world, passes)
            with trial:
                shrinker.told(trial, passed)
        return _tried(shrinker, world, lambda _: False)[0]


def _tried(shrinker: Shrinker, like: World, passes: Callable[[World], bool]) -> Tuple[World, bool]:
    """A fresh world in which the steps were applied until it passed, and whether it did."""
    trial = World(like.members, like.cells, like.bound)
    while not passes(trial):
        step = shrinker.turn(trial)
        if step is None:
            return trial, False
        trial.apply(step)
    return trial, True
