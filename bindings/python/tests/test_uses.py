"""What is told of wrong uses, what exceptions carry, and what sessions and worlds keep, in process and over `ct_tool`. asked.py has that
they answer the same.

    PYTHONPATH=bindings/python CT_TOOL=crates/ct_tool/out/ct_tool python3 -m unittest bindings/python/tests/test_uses.py
"""
import copy
import ctypes
import json
import os
import pickle
import resource
import shutil
import subprocess
import sys
import tempfile
import unittest
from typing import Any, Callable, List
from unittest import mock

import malletochre
from malletochre import (IN_PROCESS, Add, Begin, Choose, Copy, Crash, Enter, LineRefused, NoWorld, Phase, Receive, Refusal, Session, Set,
                         Shrinker, Standing, Step, StepRefused, Submit, Turn, Walk, World, library, shrunk, tool)

PACKAGE = os.path.dirname(malletochre.__file__)
OF_PROCESS = unittest.skipUnless(IN_PROCESS, "needs libct.so")


def calls(world: World) -> List[Callable[[], Any]]:
    """All that may be asked of it."""
    of_member = (world.next, world.standing, world.serials, world.waiting, world.received, world.delivered, world.table, world.has_crashed)
    asked: List[Callable[[], Any]] = [lambda call=call: call(1) for call in of_member]   # type: ignore[misc]
    return [*asked, lambda: world.apply(Begin(1)), lambda: world.refusal(Begin(1)), lambda: world.enabled(Begin(1)), world.steps,
            world.record, world.copy, lambda: world.envelope(1), lambda: world.value(1), lambda: world.decided(1, 1)]


class Walks(unittest.TestCase):
    """Walks; asked.py has that they are those of `ct_tool walk`."""

    def test_options_out_of_range(self) -> None:
        wrong = {"turns": 100_001, "seed": 2**32, "rate": 257, "cells": 1025, "submit": 1001, "crash": 4, "postpone": 1001, "lose": 1001,
                 "repeat": 1001, "batch": 0, "every": 100_001, "scatter": 257, "lasting": 257, "crashes": 2, "cut": -1}
        for name, number in wrong.items():
            self.assertRaisesRegex(ValueError, name, Walk, 3, **{name: number})
        self.assertRaises(ValueError, Walk, 17)
        self.assertRaises(TypeError, Walk, 3, rate=2.5)

    @unittest.skipIf(IN_PROCESS, "there is libct.so")
    def test_without_library(self) -> None:
        self.assertRaises(OSError, Walk, 3)

    @OF_PROCESS
    def test_turns(self) -> None:
        with Walk(1, turns=1, submit=1, every=1) as walk, World(3) as world:
            turns = [walk.turn(world) for _ in range(4)]
            self.assertEqual(turns[0], Submit(1, Add(0, 1)))
            self.assertEqual(turns[2:], [Turn.OVER, Turn.OVER])
        self.assertRaises(ValueError, walk.turn, world)
        with Walk(3) as walk, World(3, tool=tool.found()) as other:
            self.assertRaises(ValueError, walk.turn, world)
            self.assertRaises(TypeError, walk.turn, other)


class Shrinkers(unittest.TestCase):
    """Shrinkers; asked.py has that what they leave is what `ct_tool shrink` leaves."""

    @unittest.skipIf(IN_PROCESS, "there is libct.so")
    def test_without_library(self) -> None:
        with World(3) as world:
            self.assertRaises(OSError, Shrinker, world)

    @OF_PROCESS
    def test_trials(self) -> None:
        with World(3) as world:
            world.apply(Submit(1, Set(0, 7)))
            world.apply(Crash(2))
            for trials, left in (0, world.steps()), (1, [Crash(2)]), (10, [Crash(2)]):
                with shrunk(world, lambda it: it.has_crashed(2), names_members=True, trials=trials) as least:
                    self.assertEqual(least.steps(), left)
            with Shrinker(world) as shrinker:
                self.assertFalse(shrinker.is_least())
                self.assertRaisesRegex(ValueError, "no trial", shrinker.told, world, True)
                while shrinker.next():
                    with World(3) as trial:
                        while step := shrinker.turn(trial):
                            trial.apply(step)
                        shrinker.told(trial, trial.has_crashed(2))
                self.assertEqual((shrinker.is_least(), shrinker.next()), (True, False))
                with World(3) as fresh:
                    self.assertEqual(shrinker.turn(fresh), Crash(2))

    @OF_PROCESS
    def test_wrong_uses(self) -> None:
        with World(3) as world, Shrinker(world) as shrinker:
            for trials in (-1, 2**32):
                self.assertRaises(ValueError, Shrinker, world, trials=trials)
            self.assertRaises(TypeError, Shrinker, world, trials=2.5)
            with World(3, tool=tool.found()) as other:
                self.assertRaises(TypeError, Shrinker, other)
                self.assertRaises(TypeError, shrinker.turn, other)
                self.assertRaises(TypeError, shrinker.told, other, True)
        with World(3) as fresh:
            closed: List[Callable[[], Any]] = [lambda: Shrinker(world), lambda: shrunk(world, bool), lambda: shrinker.turn(fresh),
                                               lambda: shrinker.told(fresh, True), shrinker.next, shrinker.is_least]
            for call in closed:
                self.assertRaisesRegex(ValueError, "closed", call)
            with Shrinker(fresh) as shrinker:
                self.assertRaises(ValueError, shrinker.turn, world)
                self.assertRaises(ValueError, shrinker.told, world, True)


class Worlds(unittest.TestCase):
    """Worlds."""

    def test_numbers_out_of_range(self) -> None:
        with World(2) as world:
            wrong: List[Step] = [Begin(256), Begin(-1), Receive(1, 2**32), Receive(1, -1), Choose(1, 256), Submit(1, Set(256, 0)),
                                 Submit(1, Add(0, 2**64)), Submit(1, Copy(0, 256)), Submit(300, Set(0, 0))]
            for step in wrong:
                self.assertRaises(ValueError, world.apply, step)
                self.assertRaises(ValueError, world.refusal, step)
            for member in (0, 3, 257):
                self.assertRaises(ValueError, world.next, member)
                self.assertRaises(ValueError, world.standing, member)
                self.assertRaises(ValueError, world.delivered, member)
            self.assertRaises(ValueError, world.envelope, 2**32)
            self.assertEqual(world.steps(), [])
        for setup in ((0,), (17,), (3, 1025), (3, -1), (3, 1, 0), (3, 1, 1_048_561)):
            self.assertRaises(ValueError, World, *setup)

    def test_what_is_no_whole_number(self) -> None:
        self.assertRaises(TypeError, World, 2.5)
        self.assertRaises(TypeError, World, 2, "4")
        wrong: List[Any] = [Receive(1, 7.0), Receive(1, "7"), Begin(1.5), Choose(1, 2.0)]   # type: ignore[arg-type]
        with World(2) as world:
            for step in wrong:
                self.assertRaises(TypeError, world.apply, step)
                self.assertRaises(TypeError, world.refusal, step)
            asked: List[Callable[..., Any]] = [world.next, world.standing, world.table, world.has_crashed, world.envelope, world.value]
            for call in asked:
                self.assertRaises(TypeError, call, 1.0)
            self.assertRaises(TypeError, world.decided, 1, 1.0)
            self.assertEqual(world.steps(), [])

    def test_closed(self) -> None:
        world = World(2)
        world.apply(Submit(1, Set(0, 7)))
        self.assertEqual([bool(call()) for call in calls(world)[1:3]], [True, True])
        world.close()
        world.close()
        for call in calls(world):
            self.assertRaises(ValueError, call)

    def test_copies(self) -> None:
        with World(3) as world:
            world.apply(Submit(1, Set(0, 7)))
            other = copy.copy(world)
            other.apply(Receive(1, 1))
            other.close()
            self.assertEqual((len(world.steps()), world.serials(1)), (1, [1]))
            self.assertRaises(ValueError, other.steps)

    def test_a_class_of_ones_own(self) -> None:
        class Logged(World):
            """It keeps what it was told."""

            def __init__(self, members: int) -> None:
                super().__init__(members)
                self.log: List[Step] = []

            def apply(self, step: Step) -> range:
                self.log.append(step)
                return super().apply(step)

        with Logged(2) as world:
            world.apply(Submit(1, Set(0, 7)))
            with world.copy() as other:
                other.apply(Receive(1, 1))
            self.assertEqual((world.log, len(world.steps())), ([Submit(1, Set(0, 7)), Receive(1, 1)], 1))

    def test_records(self) -> None:
        text = '{"batch":9,"cells":4,"n":2,"steps":[["submit",1,["set",0,7]],["receive",2,2]],"version":3}'
        with World.of_record(text) as world:
            self.assertEqual(world.record(), text)
        for old, new in (("3}", "2}"), ("3}", "3.0}"), ("3}", "3"), ('"n"', '"m"'), ("2,2", "2"), ("2,2", "2,2.0"), ("2,2", "true,2"),
                         ("receive", "begin"), ("receive", "settle"), ('"set"', '"begin"'), ("0,7", "0,7,7"), ("9,", "9.5,"),
                         ("[[", "[7,["), ("2,2", "2,1")):
            with self.assertRaises(ValueError, msg=new) as caught:
                World.of_record(text.replace(old, new))
        self.assertEqual(str(caught.exception), 'step 2: ["receive",2,1]: NotWaiting')
        self.assertIsInstance(caught.exception.__cause__, StepRefused)

    def test_standing(self) -> None:
        with World(3) as world:
            self.assertEqual(world.standing(2), Standing(0, 0, None, 0, {}, frozenset(), frozenset(), False))
            world.apply(Submit(2, Set(0, 7)))
            world.apply(Receive(2, 2))
            world.apply(Begin(2))
            self.assertEqual(world.standing(2), Standing(1, 0, Phase.REST, 0, {}, frozenset(), frozenset(), False))
            world.apply(Receive(2, world.apply(Enter(2))[0]))
            self.assertEqual(world.standing(2), Standing(1, 1, Phase.GATHER, 0, {2: 0}, frozenset(), frozenset(), False))
            self.assertEqual(str(world.standing(2).phase), "Gather")

    def test_an_envelope_costs_no_process(self) -> None:
        with World(3) as world, mock.patch.object(subprocess, "run", side_effect=AssertionError), \
                mock.patch.object(subprocess, "Popen", side_effect=AssertionError):
            for serial in world.apply(Submit(1, Set(0, 7))):
                envelope = world.envelope(serial)
                assert envelope
                self.assertEqual((envelope.serial, envelope.to), (serial, serial))
                world.apply(Receive(envelope.to, serial))
                self.assertEqual(world.envelope(serial), envelope)


class Refusals(unittest.TestCase):
    """What exceptions carry."""

    def refused(self, call: Callable[..., Any], *given: Any) -> Any:
        with self.assertRaises(malletochre.Refused) as caught:
            call(*given)
        return caught.exception

    def test_steps(self) -> None:
        with World(2) as world:
            refused = self.refused(world.apply, Receive(1, 1))
        self.assertEqual((refused.step, refused.member, refused.refusal), (Receive(1, 1), 1, Refusal.NOT_WAITING))
        self.assertEqual(str(refused), '["receive",1,1]: NotWaiting')

    def test_lines(self) -> None:
        with Session() as session:
            session.tell("members 2")
            refused = self.refused(session.tell, " 2 begin ")
            self.assertEqual((refused.number, refused.line, refused.fault), (2, "2 begin", "refused 2 Nothing: instance 0 idle"))
            self.assertEqual((refused.member, refused.refusal, refused.facts), (2, Refusal.NOTHING, "instance 0 idle"))
            self.assertEqual(str(refused), "line 2: 2 begin: refused 2 Nothing: instance 0 idle")
            refused = self.refused(session.tell, "nonsense")
            self.assertEqual((refused.number, refused.member, refused.refusal, refused.facts), (3, None, None, None))
        self.assertIs(LineRefused(1, "1 deliver", "refused 1 Full(Cells): 1 at most").refusal, Refusal.FULL_CELLS)

    def test_they_cross_processes(self) -> None:
        step, line = StepRefused(Submit(1, Set(0, 7)), Refusal.BUSY), LineRefused(3, "2 begin", "refused 2 Busy: instance 1")
        for error in (step, line, NoWorld("no")):
            other = pickle.loads(pickle.dumps(error))
            self.assertEqual((type(other), str(other), vars(other)), (type(error), str(error), vars(error)))


class Sessions(unittest.TestCase):
    """Sessions."""

    def test_closed(self) -> None:
        session = Session()
        session.tell("members 3")
        session.close()
        session.close()
        for call in (session.record, lambda: session.tell("members 3"), lambda: session.ask("limits"), session.diagram):
            self.assertRaises((ValueError, NoWorld), call)

    def test_what_a_line_sends(self) -> None:
        with Session() as session:
            session.tell("members 3")
            self.assertEqual(session.tell("1 submit set 0 7", sent=3), range(1, 4))
            with self.assertRaises(LineRefused) as caught:
                session.tell("2 receive data 1.1", sent=0)
            self.assertEqual(str(caught.exception), "line 3: 2 receive data 1.1: sent 0, the algorithm sends 3")
            self.assertRaises(ValueError, session.tell, "next 1")
            self.assertRaises(ValueError, session.ask, "next 1\nnext 2")
            self.assertEqual(session.ask("next 1"), "next 1 receive data 1.1 from 1")

    def test_the_record_of_a_session(self) -> None:
        with tempfile.TemporaryDirectory() as folder:
            path = os.path.join(folder, "record.json")
            with open(path, "w", encoding="utf-8") as file:
                file.write("what was there\n")
            with Session(record=path) as session:
                session.tell("members 2")
                self.assertEqual(session.tell("1 submit set 0 7"), range(1, 3))
                self.assertRaises(LineRefused, session.tell, "1 begin")
                self.assertEqual(session.lines, 3)
            with open(path, encoding="utf-8") as file:
                self.assertEqual(json.load(file)["steps"], [["submit", 1, ["set", 0, 7]]])
        self.assertRaises(OSError, Session, record=os.path.join(path, "nowhere"))
        session = Session(record="/dev/full")
        session.tell("members 2")
        session.ask("next 1")
        self.assertRaises(OSError, session.close)

    def test_a_program_that_ends(self) -> None:
        session = Session(tool="/bin/false")
        self.assertRaises(EOFError, session.tell, "members 2")
        self.assertEqual(session.close(), 1)


class Found(unittest.TestCase):
    """What the package works with."""

    def test_the_program(self) -> None:
        with mock.patch.dict(os.environ, CT_TOOL="there"):
            self.assertEqual((tool.found("here"), tool.found()), ("here", "there"))
        self.assertRaisesRegex(OSError, "^/none: No such file .* CT_TOOL .* PATH; ", tool.Pipe, "/none")

    def test_a_library_that_is_none(self) -> None:
        with tempfile.TemporaryDirectory() as folder:
            shutil.copytree(PACKAGE, os.path.join(folder, "malletochre"))
            broken = os.path.join(folder, "malletochre", "libct.so")
            with open(broken, "w", encoding="utf-8") as file:
                file.write("no library")
            words = [sys.executable, "-c", "import malletochre; print(malletochre.IN_PROCESS)"]
            environment = {name: value for name, value in os.environ.items() if name not in ("CT_LIB", "PYTHONPATH")}
            done = subprocess.run(words, cwd=folder, env=environment, stdout=subprocess.PIPE, encoding="utf-8")
            self.assertEqual((done.returncode, done.stdout), (0, "False\n"))
            environment["CT_LIB"] = broken
            self.assertEqual(subprocess.run(words, cwd=folder, env=environment, stderr=subprocess.DEVNULL).returncode, 1)

    @OF_PROCESS
    def test_calls_hold_the_lock(self) -> None:
        self.assertIsInstance(library._LIBRARY, ctypes.PyDLL)

    @OF_PROCESS
    def test_memory_that_is_refused(self) -> None:
        with open("/proc/self/statm", encoding="utf-8") as file:
            used = int(file.read().split()[0]) * resource.getpagesize()
        before = resource.getrlimit(resource.RLIMIT_AS)
        worlds: List[World] = []
        resource.setrlimit(resource.RLIMIT_AS, (used + (16 << 20), before[1]))
        try:
            with self.assertRaises(MemoryError):
                while len(worlds) < 100_000:
                    worlds.append(World(16, 1024))
            with self.assertRaises(MemoryError):
                while len(worlds) < 100_000:
                    worlds.append(worlds[0].copy())
        finally:
            resource.setrlimit(resource.RLIMIT_AS, before)
        self.assertTrue(worlds)
        for world in worlds:
            world.close()


if __name__ == "__main__":
    unittest.main()
