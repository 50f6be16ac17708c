#!/usr/bin/env python3
"""Shrinks walks for each goal of docs/GOALS.md's table, and checks what is left of them over model.py.

    bench/shrink.py [--tool PROGRAM] [--walks N] [--seeds A..B] [--goal GOAL] [-- OPTIONS]

OPTIONS go to each `ct_tool find`; left out they are those of the table, which stand above it. Of each goal the first N walks of the seeds
that show it are taken (30 of 1..5000). A row for each goal:

    walks    how many of the seeds were found, up to N
    before   steps up to where the goal is first shown: median
    after    steps that are left: least, median, most
    trials   median
    seconds  of `ct_tool shrink`: median, most

What is left has to be a run that `ct_tool record` takes, of the same group, that shows the goal with its last step and not before; and
without any one of its lines the goal is not shown, also where lines that are refused then are mended or left out. Ends with status 1
where that is not so.
"""
from __future__ import annotations

import argparse
import os
import re
import statistics
import subprocess
import sys
import time
from typing import Any, Iterator, List, NamedTuple, Optional, Tuple

sys.dont_write_bytecode = True
import model  # noqa: E402
from goal_model import Stage, Term, Watch, goal_of, shown, stage_of  # noqa: E402
from split import carried  # noqa: E402

HERE = os.path.dirname(os.path.abspath(__file__))
TOOL = os.path.join(HERE, "..", "crates", "ct_tool", "out", "ct_tool")
GOALS = os.path.join(HERE, "..", "docs", "GOALS.md")
SECONDS = 120
NAMED = ("receive", "postpone", "lose", "repeat")   # steps that name an envelope
INSTEAD = {"adopt": "suspect", "suspect": "adopt", "deliver": "follow", "follow": "deliver"}


class Line(NamedTuple):
    """A step of a member, which names its envelope by what it carries and whose step sent it."""
    p: int
    name: str
    rest: Tuple[Any, ...]


class Left(NamedTuple):
    """What shrinking came to."""
    before: int
    after: int
    trials: Optional[int]
    seconds: float
    faults: List[str]


# Trials.

def lines_of(record: bytes) -> List[Line]:
    """The lines of a record's steps."""
    stage, steps = stage_of(record)
    lines = []
    for name, p, *rest in steps:
        if name in NAMED:
            rest = [carried(stage.wires[rest[0]]), stage.senders[rest[0]]]
        lines.append(Line(p, name, tuple(rest)))
        stage.apply(name, p, *steps[len(lines) - 1][2:])
    return lines


def serial_of(stage: Stage, line: Line, sender: Optional[int]) -> Optional[int]:
    """The envelope that the line names, of this sender or of any."""
    waiting = stage.members[line.p].line
    sent = range(1, stage.sent() + 1) if line.name == "repeat" else waiting
    named = [serial for serial in sent if stage.sent_to[serial] == line.p and carried(stage.wires[serial]) == line.rest[0]
             and sender in (None, stage.senders[serial])]
    if line.name != "repeat":
        return named[0] if named else None
    gone = [serial for serial in named if serial not in waiting]
    return (gone or named or [None])[-1]


def tries(stage: Stage, line: Line) -> Iterator[List[Any]]:
    """The steps that a trial tries for a line, in order."""
    if line.name in NAMED:
        for sender in (line.rest[1], None):
            serial = serial_of(stage, line, sender)
            if serial is not None:
                yield [line.name, line.p, serial]
        return
    yield [line.name, line.p, *line.rest]
    if line.name in INSTEAD:
        yield [INSTEAD[line.name], line.p]
    here = stage.members[line.p].open
    heard = stage.members[line.p].estimates.get((here.k, here.round), {}) if here else {}   # by sender: estimate and ts
    if line.name == "choose" and heard:
        largest = max(ts for _, ts in heard.values())
        yield ["choose", line.p, min(sender for sender, (_, ts) in heard.items() if ts == largest)]


def succeeds(stage: Stage, lines: List[Line], goal: List[Term]) -> bool:
    """Whether a trial of the lines comes to the goal."""
    watch = Watch(stage, goal)
    for line in lines:
        if watch.shows():
            return True
        step = next((step for step in tries(stage, line) if stage.cause(*step) is None), None)
        if step is not None:
            watch.step(step)
    return watch.shows()


def spare_lines(record: bytes, goal: List[Term]) -> List[int]:
    """The lines, counted from 1, without which the record's lines come to the goal, too."""
    lines = lines_of(record)
    return [at + 1 for at in range(len(lines)) if succeeds(stage_of(record)[0], lines[:at] + lines[at + 1:], goal)]


# Programs.

def ran(words: List[str], given: bytes = b"") -> "subprocess.CompletedProcess[bytes]":
    return subprocess.run(words, input=given, stdout=subprocess.PIPE, stderr=subprocess.PIPE, timeout=SECONDS)


def shrunk(tool: str, record: bytes, text: str, *words: str) -> Left:
    """What `ct_tool shrink` leaves of the record, and what is wrong with it."""
    goal = goal_of(text)
    before = shown(record, goal).first or 0
    start = time.monotonic()
    done = ran([tool, "shrink", "--goal", text, *words], record)
    seconds = time.monotonic() - start
    told = done.stderr.decode()
    if done.returncode:
        return Left(before, 0, None, seconds, [f"status {done.returncode}: {told.strip()}"])
    made = ran([tool, "record"], done.stdout)
    if made.returncode:
        return Left(before, 0, None, seconds, [f"its schedule is not taken: {made.stderr.decode().strip()}"])
    trials = re.search(r"(\d+) trials?", told)
    faults = faults_of(record, made.stdout, goal, before, "stopped" in told)
    if ran([tool, "shrink", "--goal", text, "--record", *words], record).stdout != made.stdout:
        faults.append("--record writes another record")
    return Left(before, len(model.read(made.stdout)[1]), int(trials.group(1)) if trials else None, seconds, faults)


def faults_of(record: bytes, left: bytes, goal: List[Term], before: int, is_stopped: bool) -> List[str]:
    """What is wrong with what is left of the record, of which the goal is first shown after so many steps."""
    (world, _), (small, steps) = model.read(record), model.read(left)
    wrong = [] if (world.n, world.cells, world.bound) == (small.n, small.cells, small.bound) else ["it is of another group"]
    wrong += [] if len(steps) <= before else [f"it has {len(steps)} steps, more than {before}"]
    first = shown(left, goal).first
    wrong += [] if first == len(steps) else [f"the goal is first shown after {first} of {len(steps)} steps"]
    spare = [] if is_stopped else spare_lines(left, goal)
    return wrong + ([f"it shows the goal without line {spare[0]}, too"] if spare else [])


def found(tool: str, text: str, seeds: Tuple[int, int], most: int, options: List[str]) -> List[bytes]:
    """The first walks of the seeds that show the goal, up to so many."""
    records: List[bytes] = []
    first = seeds[0]
    while len(records) < most and first <= seeds[1]:
        done = ran([tool, "find", "--goal", text, "--seeds", f"{first}..{seeds[1]}", *options])
        told = re.match(r"seed (\d+): ", done.stderr.decode())
        if done.returncode == 1:
            break
        if done.returncode or not told:
            sys.exit(f"{tool} find ends with status {done.returncode}: {done.stderr.decode()}")
        records.append(done.stdout)
        first = int(told.group(1)) + 1
    return records


# The table.

class Entry(NamedTuple):
    """A row of the table in docs/GOALS.md: a goal, the seed that shows it, the steps before and after, and where it is finished otherwise."""
    goal: str
    seed: int
    before: int
    after: Optional[int]
    finished: int


def table() -> Tuple[List[str], List[Entry]]:
    """The options that stand above the table, and its rows."""
    with open(GOALS, encoding="utf-8") as file:
        text = file.read()
    options = re.search(r"walks of `ct_tool find ([^`]*)`", text)
    rows = re.findall(r"^\| `([^`]+)` \|.*\| (\d+) \| (\d+) \| (\d+|) \| (\d+) \|$", text, re.M)
    if not options or not rows:
        sys.exit(f"{GOALS} has no table of goals")
    return options.group(1).split(), [Entry(goal, int(seed), int(before), int(after) if after else None, int(finished))
                                      for goal, seed, before, after, finished in rows]


def numbers(text: str) -> Tuple[int, int]:
    first, _, last = text.partition("..")
    return int(first), int(last)


def arguments() -> Tuple[argparse.Namespace, List[str]]:
    own, given = sys.argv[1:], []
    if "--" in own:
        at = own.index("--")
        own, given = own[:at], own[at + 1:]
    made = argparse.ArgumentParser(description=(__doc__ or "").split("\n")[0], usage="%(prog)s [options] [-- OPTIONS]")
    made.add_argument("--tool", default=TOOL, metavar="PROGRAM", help="the built ct_tool (default that of crates/)")
    made.add_argument("--walks", type=int, default=30, metavar="N", help="walks of a goal (default 30)")
    made.add_argument("--seeds", type=numbers, default=(1, 5_000), metavar="A..B", help="their seeds (default 1..5000)")
    made.add_argument("--goal", action="append", metavar="GOAL", help="this one alone; it may be given again")
    options = made.parse_args(own)
    if not os.access(options.tool, os.X_OK):
        made.error(f"no program at {options.tool}")
    return options, given


def row(tool: str, text: str, records: List[bytes]) -> List[str]:
    """Prints the row of a goal, and answers what is wrong."""
    left = [shrunk(tool, record, text) for record in records]
    after, seconds = [one.after for one in left], [one.seconds for one in left]
    trials = [one.trials for one in left if one.trials is not None]
    cells = [text, str(len(records))]
    if left:
        cells += [f"{statistics.median(one.before for one in left):.0f}", f"{min(after)}, {statistics.median(after):.0f}, {max(after)}",
                  f"{statistics.median(trials):.0f}" if trials else "-", f"{statistics.median(seconds):.2f}, {max(seconds):.2f}"]
    print(f"| `{cells[0]}` | {' | '.join(cells[1:] + ['-'] * (6 - len(cells)))} |", flush=True)
    return [f"{text}: {fault}" for one in left for fault in one.faults]


def main() -> int:
    options, given = arguments()
    usual, entries = table()
    print("| goal | walks | before | after: least, median, most | trials | seconds: median, most |")
    print("|---|---|---|---|---|---|")
    wrong: List[str] = []
    for text in options.goal or [entry.goal for entry in entries]:
        wrong += row(options.tool, text, found(options.tool, text, options.seeds, options.walks, given or usual))
    for fault in wrong:
        print(f"FAILED {fault}")
    return 1 if wrong else 0


if __name__ == "__main__":
    sys.exit(main())
