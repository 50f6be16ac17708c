"""Searches: over schedules and seeds, until the members differ from the algorithm; then made small, told and kept."""
from __future__ import annotations

import difflib
import itertools
import multiprocessing
import os
import signal
import sys
import time
from collections import Counter
from concurrent.futures import ProcessPoolExecutor
from dataclasses import dataclass, field
from typing import Any, Callable, Dict, Iterable, List, Optional, Sequence, Tuple, Union

from ..world import MAX_BOUND, MAX_CELLS, World
from .account import LEVELS, Difference, Lockstep, Rules
from .draw import Draw, Trouble
from .members import Make, held
from .network import Event, Network
from .observed import Observed
from .progress import Progress
from .report import Failure, keep
from .run import Run, Watchdog, Wire
from .schedules import Schedule, examples, read
from .shrink import Tried, shrink
from .standing import SITUATIONS

TWICE = "the members don't do the same twice"
USUAL_SEEDS = 1000
SHRINKING = 30.0     # seconds at most
OPTIONS = "members", "seeds", "level", "rules", "batch", "jobs", "timeout", "keep_in", "require"
HURRY = 50           # where a member doesn't return, trials take this part of the time
Source = Union[int, Schedule]
Found = Tuple[Source, Run, Optional[Difference]]
Tell = Callable[[int], None]   # how many were tried
_searched: List[Any] = []      # in a process of a search: the setup, and an event once it is over


@dataclass
class Setup:
    """What is searched."""

    make: Make
    wire: Optional[Wire]
    members: int = 3
    level: str = "lockstep"
    rules: Rules = Rules()
    trouble: Trouble = Trouble()
    batch: int = MAX_BOUND
    timeout: float = 10.0
    world: Callable[..., Any] = World

    def __post_init__(self) -> None:
        self._held = held(self.make)
        if self.level not in LEVELS:
            raise ValueError(f"level={self.level!r}: {', '.join(LEVELS)}")
        if self.wire is None and self.level != "observable":
            raise ValueError("wire is missing, which tells what a packet says; level='observable' does without")

    def run(self, watchdog: Watchdog) -> Run:
        network = Network(self.members)
        if self.level == "observable":
            return Run(self._held, None, network, Observed(network), watchdog, False)
        world = self.world(self.members, MAX_CELLS, self.batch)
        judge = Lockstep(world, network, self.rules, self.level == "exact")
        return Run(self._held, self.wire, network, judge, watchdog, self.rules.is_local)

    def played(self, source: Union[int, List[Event]], watchdog: Watchdog) -> Tuple[Run, Optional[Difference]]:
        """The members under the schedule of a seed, or those of these events that are possible, up to the first difference."""
        run = self.run(watchdog)
        try:
            difference = run.through(iter(Draw(self.trouble, source, run)) if isinstance(source, int) else run.network.possible(source))
            return run, difference or (None if self.level == "exact" else run.calm())
        finally:
            run.close()


@dataclass
class Searched:
    """What a search came to."""

    runs: int = 0
    events: int = 0
    steps: int = 0
    seconds: float = 0.0                                        # of wall time
    rounds: int = 0                                             # the most
    instances: int = 0
    messages: int = 0                                           # the largest number of one
    met: "Counter[str]" = field(default_factory=Counter)        # steps and situations: how often
    runs_with: "Counter[str]" = field(default_factory=Counter)  # in how many runs
    failure: Optional[Failure] = None

    def count(self, run: Run) -> None:
        it, submitted = run.judge, Counter(event.member for event in run.events if event.name == "submit")
        self.add(Searched(1, len(run.events), len(it.taken), 0.0, it.rounds, it.instances, max(submitted.values(), default=0), it.met,
                          Counter(it.met.keys())))

    def add(self, other: Searched) -> None:
        self.runs, self.events, self.steps = self.runs + other.runs, self.events + other.events, self.steps + other.steps
        self.rounds, self.instances = max(self.rounds, other.rounds), max(self.instances, other.instances)
        self.messages = max(self.messages, other.messages)
        self.met.update(other.met)
        self.runs_with.update(other.runs_with)

    def never_met(self) -> List[str]:
        """Situations that no run had."""
        return [it for it in SITUATIONS if not self.met[it]]

    def coverage(self) -> str:
        lines = [f"{self.runs} runs, {self.events} events, {self.steps} steps; {self.runs / max(self.seconds, 1e-9):.0f} runs a second",
                 f"rounds up to {self.rounds}, instances up to {self.instances}, message numbers up to {self.messages}"]
        lines += [f"{self.runs_with[it]:8d} runs {self.met[it]:9d} times  {it}" for it in sorted(self.met, key=lambda it: -self.met[it])]
        return "\n".join(lines + [f"       no run: {it}" for it in self.never_met()])


class Differs(AssertionError):
    """The members differ from the algorithm; the text tells where."""

    def __init__(self, failure: Failure) -> None:
        super().__init__(str(failure))
        self.failure = failure


Differs.__module__ = "malletochre.drive"


class Share(List[int]):
    """Seeds that the variable CT_SEEDS leaves as they are."""


class NotCovered(AssertionError):
    """No run of a search had a situation that was required."""


def search(setup: Setup, seeds: Sequence[int], schedules: Iterable[Schedule] = (), jobs: int = 1, make_small: bool = True) -> Searched:
    """The schedules, then those of the seeds, until one shows a difference."""
    done, begun, tried, found = Searched(), time.monotonic(), 0, None
    with Watchdog(setup.timeout) as watchdog, Progress() as progress:
        def tell(count: int) -> None:
            nonlocal tried
            tried = count
            progress.tell(lambda seconds: f"{count} of {len(seeds)} seeds, {seconds / count * (len(seeds) - count):.0f} s to go")

        try:
            found = _through(setup, schedules, watchdog, done, lambda count: progress.tell(lambda _: f"before the seeds: run {count}"))
            if found is None and jobs != 1:
                found = _in_parallel(setup, seeds, jobs, watchdog, done, tell)
            elif found is None:
                found = _through(setup, seeds, watchdog, done, tell)
            done.seconds = time.monotonic() - begun
            if found:
                done.failure = _failure(setup, *found, watchdog, make_small, progress)
        except KeyboardInterrupt:
            differs = f"{_name(found[0])} differs" if found else "none differs"
            place = f"after {tried} of {len(seeds)} seeds" if tried else f"before the first of {len(seeds)} seeds"
            raise KeyboardInterrupt(f"stopped {place}, {differs}") from None
    return done


def _through(setup: Setup, sources: Iterable[Source], watchdog: Watchdog, done: Searched, tell: Tell = lambda _: None) -> Optional[Found]:
    """The first one that shows a difference."""
    for count, source in enumerate(sources, 1):
        run, difference = setup.played(source if isinstance(source, int) else source.events, watchdog)
        done.count(run)
        tell(count)
        if difference:
            return source, run, difference
    return None


def _in_parallel(setup: Setup, seeds: Sequence[int], jobs: int, watchdog: Watchdog, done: Searched, tell: Tell) -> Optional[Found]:
    """The same, in so many processes; with 0 in one for each processor. It is the first seed all the same."""
    jobs = jobs or os.cpu_count() or 1
    size = max(1, min(25, len(seeds) // (8 * jobs)))
    parts = [seeds[place:place + size] for place in range(0, len(seeds), size)]
    context = multiprocessing.get_context("fork")
    is_over = context.Event()
    pool = ProcessPoolExecutor(min(jobs, len(parts)) or 1, context, _begin, (setup, is_over))
    try:
        for count, (part, seed) in enumerate(pool.map(_part, parts), 1):
            done.add(part)
            tell(min(count * size, len(seeds)))
            if seed is not None:
                return (seed, *setup.played(seed, watchdog))
        return None
    finally:
        is_over.set()
        pool.shutdown(cancel_futures=True)


def _begin(setup: Setup, is_over: Any) -> None:
    """In a process of a search. A ^C is for the one that began it."""
    signal.signal(signal.SIGINT, signal.SIG_IGN)
    _searched[:] = setup, is_over


def _part(seeds: Sequence[int]) -> Tuple[Searched, Optional[int]]:
    """What these seeds come to, and the one that shows a difference."""
    setup, is_over = _searched
    done = Searched()
    with Watchdog(setup.timeout) as watchdog:
        found = _through(setup, itertools.takewhile(lambda _: not is_over.is_set(), seeds), watchdog, done)
    return done, seeds[done.runs - 1] if found else None


def _name(source: Source) -> str:
    return f"seed {source}" if isinstance(source, int) else source.name


def _failure(setup: Setup, source: Source, run: Run, difference: Optional[Difference], watchdog: Watchdog, make_small: bool,
             progress: Progress) -> Failure:
    name = _name(source)
    if difference is None:
        raise RuntimeError(f"{name}: {TWICE}: they differed from the algorithm, and under the same schedule not again")
    found = Failure(name, len(run.events), setup.members, setup.batch, difference, list(run.events), run.judge.lines())
    first, is_endless = Tried(len(run.events), _explicit(run, difference)), difference.kind == "endless"
    if is_endless:
        found.note = f"more than {setup.timeout:g} s for an event"
    else:
        again, other = setup.played(first.events, watchdog)
        lines = again.judge.lines()
        if other is None or (other.member, other.says, lines) != (difference.member, difference.says, found.lines):
            found.note, make_small = f"{TWICE}: {_parted(found.lines, lines)}", False
    if make_small:
        with Watchdog(setup.timeout / (HURRY if is_endless else 1)) as trying:
            small, trials, stopped = _small(setup, first, is_endless, trying, progress)
        run, other = setup.played(small, watchdog)
        if other and (other.kind == "endless") == is_endless:
            found.difference, found.events, found.lines, found.trials, found.stopped = other, small, run.judge.lines(), trials, stopped
    return found


def _explicit(run: Run, difference: Difference) -> List[Event]:
    """The events that have to be given: what is told in the end needs none of the calm end."""
    return run.events[:run.calm_from] if difference.event is None else list(run.events)


def _small(setup: Setup, first: Tried, is_endless: bool, watchdog: Watchdog, progress: Progress) -> Tuple[List[Event], int, str]:
    """The events made small, in so many trials, and what stopped them. That a member doesn't return is another matter than all else
    that it may do."""
    def trial(events: List[Event]) -> Optional[Tried]:
        progress.tell(lambda _: f"made small: {len(events)} events")
        run, difference = setup.played(events, watchdog)
        is_one = difference is not None and (difference.kind == "endless") == is_endless
        return Tried(len(run.events), _explicit(run, difference)) if difference and is_one else None

    small, trials, stopped = shrink(trial, first, setup.members, SHRINKING)
    tried = trial([it._replace(what=("set", 0, 7)) if it.name == "submit" else it for it in small.events])
    return tried.events if tried and tried.size <= small.size else small.events, trials, stopped


def _parted(first: List[Tuple[str, str]], second: List[Tuple[str, str]]) -> str:
    for number, (one, other) in enumerate(zip(first, second), 1):
        if one != other:
            return f"line {number} was first `{' # '.join(one)}`, then `{' # '.join(other)}`"
    return f"there were first {len(first)} lines, then {len(second)}"


def check(make: Make, wire: Optional[Wire] = None, *, members: int = 3, seeds: Optional[Iterable[int]] = None, level: str = "lockstep",
          rules: Rules = Rules(), batch: int = MAX_BOUND, jobs: int = 1, timeout: float = 10.0, keep_in: Optional[str] = "rehearsals",
          require: Iterable[str] = (), world: Callable[..., Any] = World, **trouble: Any) -> Searched:
    """Members made by `make(number, members)` or `make(number, members, outbox)` under hostile schedules, beside the algorithm: Differs is
    raised where they do what it doesn't. `wire(packet)` gives the letters of a packet: one, a list, or None.

    seeds: what schedules are drawn from, range(1000) if left out. level, rules: docs/DRIVE.md. batch: the bound on a proposal. jobs: how
    many processes; 0 is one for each processor. timeout: seconds that a member may take for an event. keep_in: the folder beside the
    caller's file where schedules of differences are kept, which are tried first; None keeps nothing. require: situations, of SITUATIONS,
    that a run has to have; else NotCovered. What schedules have: `crash`, `lose`, .. of Trouble.

    The variable CT_SEEDS gives another number of seeds, CT_REHEARSE the file of a schedule that is tried alone."""
    __tracebackhide__ = True
    _look(trouble, require, seeds)
    setup = Setup(make, wire, members, level, rules, Trouble(**trouble), batch, timeout, world)
    stem = _stem(keep_in)
    only = os.environ.get("CT_REHEARSE")
    if only:
        done = search(setup, [], [_of_setup(read(only), setup)])
    else:
        many = None if isinstance(seeds, Share) else os.environ.get("CT_SEEDS")
        drawn = range(int(many)) if many else range(USUAL_SEEDS) if seeds is None else list(seeds)
        kept = [it for it in _kept(stem) if (it.members, it.bound) == (members, batch)]
        named = examples(members, batch) if level != "observable" else iter(())   # their packets have no names there
        done = search(setup, drawn, itertools.chain(kept, named), jobs)
    if done.failure:
        if stem and not only:
            name = done.failure.source.replace("seed ", "").replace(f"{os.path.basename(stem)}-", "")
            keep(done.failure, f"{stem}-{name}")
        raise Differs(done.failure)
    missing = [it for it in require if not done.met[it]]
    if missing and not only:
        raise NotCovered(f"no run had: {', '.join(missing)}\n{done.coverage()}")
    return done


def _look(trouble: Dict[str, Any], require: Iterable[str], seeds: Any) -> None:
    """These are options, situations, and several seeds."""
    if isinstance(seeds, int):
        raise TypeError(f"seeds: {seeds} is one number; range({seeds})?")
    wrong = [it for it in trouble if it not in Trouble.__dataclass_fields__]
    if wrong:
        near = difflib.get_close_matches(wrong[0], [*Trouble.__dataclass_fields__, *OPTIONS], 1)
        raise TypeError(f"check has no option {wrong[0]}" + (f"; {near[0]}?" if near else ""))
    unknown = [it for it in require if it not in SITUATIONS]
    if unknown:
        raise ValueError(f"require: {unknown[0]!r} is none of SITUATIONS")


def _of_setup(schedule: Schedule, setup: Setup) -> Schedule:
    if (schedule.members, schedule.bound) != (setup.members, setup.batch):
        raise ValueError(f"{schedule.name} is for check(.., members={schedule.members}, batch={schedule.bound}), "
                         f"not for members={setup.members}, batch={setup.batch}")
    return schedule


def _stem(keep_in: Optional[str]) -> str:
    """The beginning of the names of files that are kept: of the test that calls `check`. Empty where nothing is kept."""
    caller = sys._getframe(2).f_code
    if keep_in is None or not os.path.exists(caller.co_filename):
        return ""
    name = os.path.basename(caller.co_filename).rpartition(".")[0]
    own = f"-{caller.co_name}" if caller.co_name.isidentifier() else ""
    return os.path.join(os.path.dirname(os.path.abspath(caller.co_filename)), keep_in, name + own)


def _kept(stem: str) -> List[Schedule]:
    folder, name = os.path.split(stem)
    if not stem or not os.path.isdir(folder):
        return []
    return [read(os.path.join(folder, it)) for it in sorted(os.listdir(folder)) if it.startswith(f"{name}-") and it.endswith(".schedule")]
