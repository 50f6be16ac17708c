"""The driver: what it finds, what it doesn't tell, and how.

    PYTHONPATH=bindings/python python3 -m unittest bindings/python/tests/test_drive.py

The variable DRIVE_SEEDS gives another number of seeds than 25 for right members, 2000 say. Over ct_tool fewer tests are made."""
import gc
import itertools
import os
import pty
import random
import subprocess
import sys
import tempfile
import unittest
from typing import Any, List, Optional, Tuple
from unittest import mock

from malletochre import IN_PROCESS, MAX_BOUND, Session
from malletochre.drive import (SITUATIONS, Difference, Differs, Failure, NotCovered, Rules, Searched, Setup, check, schedule_of, search)
from malletochre.drive import progress
from malletochre.drive.report import judged
from malletochre.drive.run import Watchdog
from malletochre.drive.schedules import HEAD, examples, read
from malletochre.drive.standing import Standing
from rehearsed.edits import MUTANTS, OF_TWO_DIGITS, STYLES, VARIANTS, WAITS_FOR_ITS_ROUND, member

SEEDS = int(os.environ.get("DRIVE_SEEDS", "25"))
LEVELS = ("lockstep", "exact", "observable")
EXAMPLES = os.path.join(os.path.dirname(os.path.abspath(__file__)), "..", "..", "..", "examples")
DATA = '        if m.type == "data":\n'
PROP = '        elif m.type == "prop":\n'
OF_PROCESS = unittest.skipUnless(IN_PROCESS, "takes too long over ct_tool")


def passes(made: Tuple[Any, Any], seeds: int, **options: Any) -> Searched:
    return check(*made, seeds=range(seeds), keep_in=None, **options)


def failure(made: Tuple[Any, Any], seeds: int = 300, make_small: bool = True, **options: Any) -> Optional[Failure]:
    return search(Setup(*made, **options), range(seeds), make_small=make_small).failure


def interrupted(made: Tuple[Any, Any], at: int) -> Tuple[Any, Any]:
    """A ^C comes in the run of this number, from 0."""
    make, wire = made
    count = itertools.count()

    def one(number: int, members: int) -> Any:
        if next(count) == at * members:
            raise KeyboardInterrupt
        return make(number, members)

    return one, wire


def found(made: Tuple[Any, Any], **options: Any) -> Failure:
    it = failure(made, **options)
    assert it, "no difference was found"
    return it


@OF_PROCESS
class Right(unittest.TestCase):
    """Members that do what the algorithm does."""

    def test_each_style_at_each_level(self) -> None:
        for style, level in itertools.product(STYLES, LEVELS):
            with self.subTest(style=style, level=level):
                passes(member(style), SEEDS, level=level)

    def test_groups_of_other_sizes(self) -> None:
        for members in (1, 2, 4, 5):
            with self.subTest(members=members):
                passes(member("handlers"), SEEDS // 2, members=members, crash=2)

    def test_bounded_batches(self) -> None:
        bounded = member("handlers", [("return frozenset(it for it in self.received if it not in self.delivered)",
                                       "return frozenset(sorted(it for it in self.received if it not in self.delivered)[:1])")])
        passes(bounded, SEEDS, batch=1)
        self.assertEqual(found(member("handlers"), batch=1).difference.kind, "unlike")

    def test_variants_pass_by_their_rules_and_are_told_without(self) -> None:
        for name, variant in VARIANTS.items():
            made = member("handlers", variant.edits)
            with self.subTest(name):
                passes(made, SEEDS, lose=0, **variant.options)
                if variant.told:
                    self.assertIsNotNone(failure(made, make_small=False, level=variant.told))
        self.assertIsNotNone(failure(member("handlers", WAITS_FOR_ITS_ROUND)))

    def test_runs_are_accepted_with_all_stated(self) -> None:
        for style, seed in itertools.product(STYLES, range(max(SEEDS // 10, 2))):
            with self.subTest(style=style, seed=seed), Watchdog(5) as watchdog:
                run, difference = Setup(*member(style)).played(seed, watchdog)
                self.assertIsNone(difference)
                assert isinstance(run.judge, Standing)
                with Session() as session:
                    for line, _ in [("members 3", ""), ("cells 1024", ""), *run.judge.lines(stated=True)]:
                        session.tell(line)

    def test_coverage(self) -> None:
        done = passes(member("handlers"), 200, require=set(SITUATIONS) - {"follow"})
        self.assertEqual(set(done.never_met()) - {"follow"}, set())
        self.assertIn("a value that was locked is carried on", done.coverage())
        with self.assertRaises(NotCovered) as told:
            passes(member("handlers"), 1, members=1, require=["est of a round to come"])
        self.assertIn("no run had: est of a round to come", str(told.exception))
        self.assertRaises(ValueError, passes, member("handlers"), 1, require=["luck"])


class Wrong(unittest.TestCase):
    """Members with mistakes."""

    @OF_PROCESS
    def test_mutants_differ_and_a_session_agrees(self) -> None:
        for name, mutant in MUTANTS.items():
            for style, edits in mutant.edits.items():
                with self.subTest(name, style=style):
                    it = found(member(style, edits), make_small=False, members=mutant.members)
                    self.assertNotIn("doesn't agree", judged(schedule_of(it), it.difference)[0])

    def test_numbers_of_two_digits_are_in_the_examples(self) -> None:
        for name, mutant in OF_TWO_DIGITS.items():
            for style, edits in mutant.edits.items():
                with self.subTest(name, style=style):
                    it = search(Setup(*member(style, edits)), [], examples(3, MAX_BOUND), make_small=False)
                    self.assertEqual(it.failure and it.failure.source, name)
                    self.assertIn(f"message numbers up to {10 if name == 'ten_messages' else 1}\n", it.coverage())

    def test_what_is_made_small_differs_and_nothing_can_be_left_out(self) -> None:
        setup = Setup(*member("actor", MUTANTS["proposes_before_quorum"].edits["actor"]))
        events = found((setup.make, setup.wire)).events
        with Watchdog(5) as watchdog:
            self.assertIsNotNone(setup.played(events, watchdog)[1])
            for place in range(len(events)):
                run, difference = setup.played(events[:place] + events[place + 1:], watchdog)
                self.assertTrue(difference is None or len(run.events) >= len(events))

    def test_what_is_told(self) -> None:
        it = found(member("task", MUTANTS["proposes_before_quorum"].edits["task"]))
        it.source += " of a test with a long name that was kept"
        it.kept = ["rehearsals/test_mine-test_it-8.schedule"]
        with mock.patch.dict(os.environ, PYTEST_CURRENT_TEST="test_mine.py"):
            told = str(it)
        for part in ("differs from the algorithm: seed ", "  > 2 choose ", "refused: TooFew", "estimates of\n         its round came from",
                     "where  instance 1 round 1, coordinator 2, heard ", "again  pytest --rehearse rehearsals/test_mine-test_it"):
            self.assertIn(part, told)
        self.assertEqual([line for line in told.splitlines() if len(line) > 80], [])

    def test_a_program_is_run_again_as_it_was(self) -> None:
        it = Failure("seed 8", 3, 3, MAX_BOUND, Difference("table", 1, "has", "has not"), [], [], kept=["rehearsals/test_mine-8.schedule"])
        with mock.patch.dict(os.environ), mock.patch.object(sys, "orig_argv", ["python3", "-m", "unittest", "mine"]):
            os.environ.pop("PYTEST_CURRENT_TEST", None)
            self.assertIn("\n  again  CT_REHEARSE=rehearsals/test_mine-8.schedule python3 -m unittest mine", str(it))
            sys.orig_argv[3:] = ["a test of mine"]
            self.assertIn("-8.schedule \\\n         python3 -m unittest 'a test of mine'", str(it))

    def test_making_small_is_stopped(self) -> None:
        made = member("handlers", MUTANTS["proposes_before_quorum"].edits["handlers"])
        runs = search(Setup(*made), range(9), make_small=False).runs
        self.assertIn("; 2 trials, stopped by ^C)\n", str(found(interrupted(made, runs + 2))))
        self.assertNotIn("stopped", str(found(made)))
        with mock.patch.object(sys.modules[check.__module__], "SHRINKING", 0):
            it = found(made)
        it.kept = ["mine.schedule"]
        self.assertIn("; 0 trials, stopped after 0 s)\n", str(it))
        self.assertIn("\n  small  it may get smaller yet", str(it))

    def test_a_search_is_stopped(self) -> None:
        with self.assertRaises(KeyboardInterrupt) as raised:
            search(Setup(*interrupted(member("handlers"), 2)), range(5))
        self.assertEqual(str(raised.exception), "stopped after 2 of 5 seeds, none differs")
        self.assertTrue(raised.exception.__suppress_context__)
        with self.assertRaises(KeyboardInterrupt) as raised:
            search(Setup(*interrupted(member("handlers"), 0)), range(5), examples(3, MAX_BOUND))
        self.assertEqual(str(raised.exception), "stopped before the first of 5 seeds, none differs")
        comes = "    def on_receive(self, packet: str) -> None:\n"
        made = member("task", [(comes, comes + "        raise KeyboardInterrupt\n")])
        with self.assertNoLogs("asyncio"):
            self.assertRaises(KeyboardInterrupt, search, Setup(*made), range(5))
            gc.collect()


    def test_the_same_seed_gives_the_same(self) -> None:
        made = member("handlers", MUTANTS["nack_not_sent"].edits["handlers"])
        self.assertEqual(len({str(failure(made)) for _ in range(2)}), 1)

    @OF_PROCESS
    def test_several_processes_tell_the_first_seed(self) -> None:
        made = member("handlers", MUTANTS["own_decision_at_once"].edits["handlers"])
        one, several = (search(Setup(*made), range(40), jobs=jobs, make_small=False).failure for jobs in (1, 3))
        self.assertEqual(one and one.source, several and several.source)
        search(Setup(*member("task")), range(1))   # there is a loop before there are processes
        done = search(Setup(*member("task")), range(12), jobs=3)
        self.assertEqual((done.runs, done.failure), (12, None))


class Misbehaved(unittest.TestCase):
    """Members that can't be judged."""

    def told(self, made: Tuple[Any, Any], **options: Any) -> str:
        return " ".join(str(found(made, seeds=3, **options)).split())

    def test_a_member_that_raises(self) -> None:
        told = self.told(member("handlers", [(PROP, PROP + '            assert m.r < 1, "no"\n')]))
        self.assertIn("raises AssertionError: no (", told)

    def test_a_member_that_does_not_return(self) -> None:
        late = DATA + "            while self.k == 1: pass\n"   # once it has begun an instance
        caught = DATA + "            try:\n                while self.k: pass\n            except BaseException: pass\n"
        for text in (late, caught):
            it = found(member("handlers", [(DATA, text)]), timeout=0.3)
            self.assertIn("doesn't return", it.difference.says)
            self.assertEqual((it.difference.kind, len(it.events)), ("endless", 4))
            self.assertIn("  note   more than 0.3 s for an event", str(it))
        forgets = member("task", [("                self.inbox.task_done()\n", "                pass\n")])
        self.assertIn("doesn't call task_done", self.told(forgets, timeout=0.3))

    def test_a_member_that_does_not_do_the_same_twice(self) -> None:
        chance = random.Random(1)
        make, wire = member("handlers", [("if len(heard) < self.majority():", "if len(heard) < self.majority() - self.chance():")])
        make.chance = lambda _: chance.random() < 0.5
        self.assertIn("don't do the same twice", self.told((make, wire)))

    def test_what_cannot_be_read(self) -> None:
        sends, reads = "self.out.append(Send(to, m))", "return Data(message[:2], message[2])"
        for old, new, part in ((sends, "self.out.append(m)", "neither Send(to, packet) nor Deliver"),
                               (sends, "self.out.append(Send(7, m))", "sends to 7: 1 to 3, or ALL, is due"),
                               (sends, "self.out.append(Send(0, m))", "sends to 0: 1 to 3, or ALL, is due"),
                               ("        return out\n", "        return 5\n", "gives 5, which is neither Send(to, packet) nor Deliver"),
                               (reads, "return 5", "`wire` gives 5"), (reads, "return m.name", "`wire` raises AttributeError"),
                               (reads, "return Data(\"1.1\")", "raises ValueError: '1.1' is no message: (origin, number) is due"),
                               ("return Estimate(m.k,", "return Estimate(str(m.k),", "instance, round and source are whole numbers"),
                               ("Deliver(message[:2])", "Deliver(message)", "(origin, number) is due"),
                               ("self.table = [0] * 16", "self.table = [0] * 4", "has a table of 4 registers")):
            self.assertIn(part, self.told(member("handlers", [(old, new)])))
        told = self.told(member("handlers", [("(frozen=True)", "(frozen=True, repr=False)"), (reads, "return m.name")]))
        self.assertIn("Msg object>, of which `wire` raises AttributeError", told)   # without its address, which is another one each time
        self.assertNotIn("twice", told)
        with self.assertRaises(TypeError) as raised:
            check(lambda number, members: object(), lambda it: None, seeds=[1], keep_in=None)
        self.assertIn("neither a handler on_submit nor a task", str(raised.exception))
        self.assertRaises(TypeError, check, *member("handlers", [("def on_trust", "async def on_trust")]))
        self.assertRaises(TypeError, check, *member("handlers"), loose=0.1)
        self.assertRaises(ValueError, check, *member("handlers"), lose=1.5)
        self.assertRaises(ValueError, check, *member("handlers"), level="strict")
        self.assertRaises(ValueError, Rules, withholds=["decision"])


class Kept(unittest.TestCase):
    """Schedules in files."""

    @OF_PROCESS
    def test_examples_are_schedules(self) -> None:
        names = {it.name: it for it in [*examples(3, MAX_BOUND), *examples(5, MAX_BOUND)]}
        self.assertEqual(names["locked_value"].members, 5)
        other = read(os.path.join(EXAMPLES, "coordinator_crashes.schedule"))
        self.assertEqual(other.events, names["coordinator_crashes"].events)

    def test_faults_name_the_file_and_the_line(self) -> None:
        with tempfile.TemporaryDirectory() as folder, mock.patch.dict(os.environ, CT_REHEARSE=os.path.join(folder, "mine.schedule")):
            line = "2 recieve data 1.1 from 1"
            for text, fault in ((f"members 3\n1 submit set 0 7\n{line}\n", f"line 3: {line}: not understood: recieve is no act"),
                                ("", "no step was told yet"), ("members", "line 1: members: not understood"),
                                ('{"n": 3}', "'cells' is missing"), ("{", "Expecting property name"),
                                (f"{HEAD}\nmembers 3\n1 submit set 0 7\n{line}\n", f"line 4: {line}: not understood"),
                                (f"{HEAD}\nmembers 3\n# 1 suspect 2\n", "line 3: # 1 suspect 2: not understood")):
                with open(os.environ["CT_REHEARSE"], "w", encoding="utf-8") as file:
                    file.write(text)
                with self.subTest(fault), self.assertRaises(ValueError) as raised:
                    check(*member("handlers"))
                self.assertTrue(str(raised.exception).startswith(f"{file.name}: {fault}"), raised.exception)
            os.remove(file.name)
            self.assertRaisesRegex(OSError, "mine.schedule", check, *member("handlers"))

    @OF_PROCESS
    def test_what_is_kept_is_tried_first(self) -> None:
        make, wire = member("handlers", MUTANTS["suspects_for_ever"].edits["handlers"])
        with tempfile.TemporaryDirectory() as folder:
            path = os.path.join(folder, "test_mine.py")
            text = "from malletochre.drive import check\n\ndef test_it(*words, **options):\n    check(*words, **options)\n"
            with open(path, "w", encoding="utf-8") as file:
                file.write(text)
            space: Any = {}
            exec(compile(text, path, "exec"), space)
            with self.assertRaises(Differs) as first:
                space["test_it"](make, wire)
            name = first.exception.failure.path
            self.assertTrue(name.startswith(os.path.join(folder, "rehearsals", "test_mine-test_it-")), name)
            self.assertEqual({it.rpartition(".")[2] for it in os.listdir(os.path.dirname(name))}, {"schedule", "json", "svg"})
            with self.assertRaises(Differs) as second:
                space["test_it"](make, wire, seeds=[])
            self.assertEqual(second.exception.failure.difference.says, first.exception.failure.difference.says)
            self.assertEqual(second.exception.failure.path, name)
            with mock.patch.dict(os.environ, CT_REHEARSE=f"{name}.schedule"):
                self.assertRaises(Differs, check, make, wire)
                self.assertEqual(check(*member("handlers")).runs, 1)


@OF_PROCESS
class Used(unittest.TestCase):
    """As a user has it."""

    def test_broadcast_py_is_driven(self) -> None:
        words = [sys.executable, os.path.join(EXAMPLES, "python", "drive.py"), "20"]
        done = subprocess.run(words, stdout=subprocess.PIPE, encoding="utf-8")
        self.assertEqual(done.returncode, 0, done.stdout)
        self.assertIn("runs,", done.stdout)

    def test_progress(self) -> None:
        told: List[str] = []
        with mock.patch.object(progress, "write", told.append), mock.patch.object(progress, "EACH", 0):
            search(Setup(*member("handlers")), range(3))
        self.assertRegex(told[0], r"^\r1 of 3 seeds, \d+ s to go$")
        self.assertEqual(told[-1].strip(), "")

    def test_the_plugin(self) -> None:
        try:
            import pytest   # noqa: F401
        except ImportError:
            self.skipTest("there is no pytest")
        with tempfile.TemporaryDirectory() as folder:
            with open(os.path.join(folder, "test_mine.py"), "w", encoding="utf-8") as file:
                file.write("import os\nfrom malletochre.drive import check, progress\nfrom rehearsed.edits import MUTANTS, member\n"
                           "progress.EACH = float(os.environ.get('EACH', 1))\n"
                           "def test_right(rehearse_seeds):\n"
                           "    assert check(*member('handlers'), seeds=rehearse_seeds).runs in (1, 10, 11, 16)\n"
                           "def test_wrong(): check(*member('handlers', MUTANTS['relays_its_own'].edits['handlers']))\n")
            told = self.pytest(folder, "--rehearse-seeds", "7")
            self.assertIn("1 failed, 1 passed", told)
            self.assertIn("sends nothing on: it is the origin", told)
            with mock.patch.dict(os.environ, PYTEST_XDIST_WORKER_COUNT="3"):
                self.assertIn("3 passed", self.pytest(folder, "-k", "right", "--rehearse-seeds", "4"))
            name = next(it for it in os.listdir(os.path.join(folder, "rehearsals")) if it.endswith(".schedule"))
            self.assertIn("1 failed, 1 passed", self.pytest(folder, "--rehearse", os.path.join("rehearsals", name)))
            mine, its = pty.openpty()
            for end in (mine, its):
                self.addCleanup(os.close, end)
            with mock.patch.dict(os.environ, EACH="0"):
                self.pytest(folder, "-k", "right", "--rehearse-seeds", "7", stdout=its)
            shown = rb"^\rbefore the seeds: run 1\r.*\r1 of 7 seeds, \d+ s to go *\r2 of 7 seeds, .*\r +\r"
            self.assertRegex(os.read(mine, 1 << 16), shown)

    @staticmethod
    def pytest(folder: str, *words: str, stdout: int = subprocess.PIPE) -> str:
        path = os.pathsep.join([os.path.dirname(os.path.abspath(__file__)), os.environ.get("PYTHONPATH", "")])
        all_words = [sys.executable, "-m", "pytest", "-q", "-p", "no:cacheprovider", "-p", "malletochre.drive.plugin", *words]
        return subprocess.run(all_words, cwd=folder, env={**os.environ, "PYTHONPATH": path}, stdout=stdout, encoding="utf-8").stdout


if __name__ == "__main__":
    unittest.main()
