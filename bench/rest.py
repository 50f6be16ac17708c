#!/usr/bin/env python3
"""Random runs, of which `ct_tool` has to tell who is settled and who is stuck, and which `ct_tool complete` goes on with, over model.py.

    bench/rest.py CT_TOOL FIRST LAST

A run for each seed from FIRST up to LAST, without LAST: a group of 1 to 6, up to 250 steps of any kind with suspicions at will, a minority
that crashes and half of whose envelopes are lost, a bound of 1, 2, 3 or 1000; in some, envelopes between members that are up are lost, a
majority crashes, or there are few cells; some go on by turns for a while, or until nothing moves.
A session has to take `expect P settled` and `expect P stuck` where these are so in the model, and else to tell what stands in the way as it
is there. `complete` has to write a run that begins with the given one, in whose turns only coordinators that crashed are suspected, and in
which all is done, where a majority is up, nothing that those that are up sent one another was lost, and there are cells; elsewhere it may
tell what stands in the way, as it is once nothing moves.
Prints what was seen in how many runs: settled, stuck; an envelope waiting, a step allowed or limited, a member left by its coordinator, a
group outvoted by those that crashed, an envelope lost; completed; or the file of the first record that differs, with status 1.
"""
from __future__ import annotations

import argparse
import collections
import json
import os
import random
import subprocess
import sys
import tempfile
from typing import Any, Dict, Iterator, List, Optional, Set, Tuple

sys.dont_write_bytecode = True
import model  # noqa: E402
from goal_model import OWN, Stage, is_at_rest, is_done, own_steps  # noqa: E402
from schedules import by_serial  # noqa: E402
from split import carried  # noqa: E402

SECONDS = 60
ROOM = 1_000       # cells that no run fills
SUBMITTED = 12     # messages of a run at most
TURNS = 60_000     # after which a run has to rest
# How often each kind of step is drawn.
KINDS = {**dict.fromkeys(OWN, 7), "receive": 40, "submit": 8, "suspect": 8, "postpone": 2, "repeat": 2, "lose": 2, "crash": 2}


class Difference(Exception):
    """What the program says otherwise than the model."""


class Run:
    """A stage, the steps that it took, and what was received."""

    def __init__(self, n: int, cells: int, bound: int) -> None:
        self.stage = Stage(n, cells, bound)
        self.steps: List[List[Any]] = []
        self.received: Set[int] = set()

    def takes(self, step: List[Any]) -> bool:
        """Takes the step, unless it is refused."""
        try:
            self.stage.apply(*step)
        except model.Refused:
            return False
        self.steps.append(step)
        if step[0] == "receive":
            self.received.add(step[2])
        return True

    def up(self) -> List[int]:
        return [p for p, member in self.stage.members.items() if member.up]

    def record(self) -> bytes:
        stage = self.stage
        return json.dumps({"batch": stage.bound, "cells": stage.cells, "n": stage.n, "steps": self.steps, "version": 3}).encode()

    def missing(self) -> Set[int]:
        """The envelopes that a member that is up sent to one that is up, which neither wait nor were received."""
        stage, up = self.stage, self.up()
        sent = range(1, stage.sent() + 1)
        return {serial for serial in sent if serial not in self.received and stage.senders[serial] in up and stage.sent_to[serial] in up
                and serial not in stage.members[stage.sent_to[serial]].line}


# Runs.

def drawn(r: random.Random, run: Run, weights: List[int]) -> Optional[List[Any]]:
    """A step of any kind of a member that is up."""
    stage, p = run.stage, r.choice(run.up())
    name = r.choices(list(KINDS), weights)[0]
    if name in ("receive", "postpone", "lose"):
        return [name, p, r.choice(list(stage.members[p].line))] if stage.members[p].line else None
    if name == "repeat":
        sent = [serial for serial, to in enumerate(stage.sent_to) if to == p]
        return [name, p, r.choice(sent)] if sent else None
    if name == "submit":
        return [name, p, ["set", r.randrange(model.REGISTERS), 1]] if len(stage.commands) < SUBMITTED else None
    return [name, p, r.randint(1, stage.n)] if name == "choose" else [name, p]


def turn(stage: Stage, p: int, suspects: bool) -> Optional[List[Any]]:
    """What a turn tries at the member: a step of its own, else the receipt of what waits first."""
    own = (step for step in own_steps(stage, p) if suspects or step[0] != "suspect")
    return next(own, None) or next((["receive", p, serial] for serial in stage.members[p].line), None)


def settle(run: Run, most: int = TURNS, suspects: bool = True) -> Run:
    """Takes rounds of turns, in which only those who crashed are suspected, or nobody, until nobody moves, or so many steps at most."""
    end = len(run.steps) + most
    while any([run.takes(step) for p in run.up() for step in [turn(run.stage, p, suspects)] if step and len(run.steps) < end]):
        pass
    return run


def random_run(seed: int) -> Run:
    r = random.Random(seed)
    n = r.randint(1, 6)
    run = Run(n, r.randint(0, 2) if r.random() < 0.1 else ROOM, r.choice([1, 2, 3, 1_000]))
    is_lossy, crashes = r.random() < 0.3, r.randint(0, n - 1 if r.random() < 0.2 else (n - 1) // 2)
    weights = [weight * r.randint(0, 4) if name == "suspect" else weight for name, weight in KINDS.items()]
    for _ in range(r.randint(0, 250)):
        step = drawn(r, run, weights)
        if step and (step[0] != "crash" or n - len(run.up()) < crashes) and (step[0] != "lose" or is_lossy):
            run.takes(step)
    settle(run, r.choice([0, 0, r.randint(0, 300), TURNS]))
    for p in run.up():
        for serial in list(run.stage.members[p].line):
            chance = 0.1 * is_lossy if run.stage.members[run.stage.senders[serial]].up else 0.5
            if r.random() < chance:
                run.takes(["lose", p, serial])
    return settle(run, r.choice([0, TURNS]), r.random() < 0.5)


# What stands in the way.

def steps_in_way(stage: Stage, p: int) -> Iterator[Tuple[str, str]]:
    """What the member may do of its own, or a limit alone refuses, as it is told, and which of both."""
    for name in OWN:
        for q in stage.members if name == "choose" else [None]:
            cause = stage.cause(name, p, *([q] if q else []))
            words = f"{name} {q}" if q else name
            if cause is None:
                yield f"{p} may {words}", "allowed"
            elif cause.startswith("Full"):
                yield f"{p} {words}: {cause}", "limited"


def is_of_use(stage: Stage, serial: int) -> bool:
    """Whether the envelope's member has yet to get what it carries: a message, a decision, or a vote of the round that it is in."""
    member = stage.members[stage.sent_to[serial]]
    wire: Any = stage.wires[serial]
    if wire[0] in ("Data", "Dec"):
        return wire[1] not in (member.received if wire[0] == "Data" else member.decisions)
    return member.open is not None and wire[1:3] == (member.open.k, member.open.round)


def obstacles(run: Run) -> Iterator[Dict[str, str]]:
    """What may stand in the way of settled, as it is told, with its kind; what is told is of the first that are not empty."""
    stage, up = run.stage, run.up()

    def name(serial: int) -> str:
        return f"#{serial} {carried(stage.wires[serial])} from {stage.senders[serial]}"
    for p in up:
        yield {f"{name(serial)} waits at {p}": "waiting" for serial in stage.members[p].line}
        yield dict(steps_in_way(stage, p))
        here = stage.members[p].open
        if here and here.phase == "Wait" and not stage.members[stage.coordinator(here.round)].up:
            yield {f"{p} waits for {stage.coordinator(here.round)}, which crashed": "left"}
    yield {"no majority is up": "outvoted"} if len(up) < stage.majority else {}
    lost = run.missing()
    for serials in ({serial for serial in lost if is_of_use(stage, serial)}, lost):
        yield {f"{stage.sent_to[serial]} waits for {name(serial)}, which was lost": "lost" for serial in serials}


def kind_of(run: Run, head: str, line: str) -> str:
    """The kind of what the line tells behind its head, which has to be so."""
    there: Dict[str, str] = {f"{head}{told}\n": kind for told, kind in next(filter(None, obstacles(run)), {}).items()}
    if line not in there:
        raise Difference(f"it tells {line!r}, and by the model {sorted(there)[:3]}")
    return there[line]


# The program.

def ran(words: List[str], given: bytes) -> "subprocess.CompletedProcess[bytes]":
    return subprocess.run(words, input=given, stdout=subprocess.PIPE, stderr=subprocess.PIPE, timeout=SECONDS)


def compare_claims(tool: str, run: Run) -> List[str]:
    """Compares what a session says of each member; answers the kinds of what it tells."""
    lines = [*by_serial(run.record()), *(f"expect {p} {word}" for p in run.stage.members for word in ("settled", "stuck"))]
    answers = ran([tool, "interact"], "".join(f"{line}\n" for line in lines).encode()).stdout.decode().splitlines()
    asked = len(lines) - 2 * run.stage.n
    if len(answers) != len(lines) or not all(answer.startswith("ok") for answer in answers[:asked]):
        raise Difference(f"the run is not taken: {next((it for it in answers if not it.startswith('ok')), 'no answer')!r}")
    done, is_still, kinds = is_done(run.stage), is_at_rest(run.stage), []
    for at, p in enumerate(run.stage.members):
        told, is_up = answers[asked + 2 * at:][:2], run.stage.members[p].up
        wanted = [not is_up or done, is_up and is_still and not done]
        if [answer == "ok" for answer in told] != wanted:
            raise Difference(f"member {p}, settled and stuck: {told}, by the model {wanted}")
        kinds += [word for word, holds in zip(("settled", "stuck"), wanted) if holds and is_up]
        if not wanted[0]:
            kinds.append(kind_of(run, f"not met: member {p}: expected settled, but ", f"{told[0]}\n"))
    return kinds


def compare_completed(tool: str, run: Run) -> str:
    """Compares what `complete` writes or tells; answers what it came to."""
    made = ran([tool, "complete"], run.record())
    is_due = len(run.up()) >= run.stage.majority and not run.missing() and run.stage.cells == ROOM
    if made.returncode == 1 and not made.stdout and not is_due:
        if is_done(settle(run).stage):
            raise Difference(f"`complete` tells {made.stderr!r}, and by turns all is done")
        return f"not completed ({kind_of(run, 'not settled: ', made.stderr.decode())})"
    if made.returncode or made.stderr:
        raise Difference(f"`complete` ends with status {made.returncode}: {made.stderr!r}")
    world, steps = model.read(made.stdout)
    if (world.n, world.cells, world.bound) != (run.stage.n, run.stage.cells, run.stage.bound) or steps[:len(run.steps)] != run.steps:
        raise Difference("what `complete` writes doesn't begin with the run")
    for step in steps[len(run.steps):]:
        if step[0] != "receive" and step not in own_steps(run.stage, step[1]):
            raise Difference(f"`complete` takes {step} after {len(run.steps)} steps")
        if not run.takes(step):
            raise Difference(f"`complete` takes {step} after {len(run.steps)} steps, which is refused")
    if not is_done(run.stage) or not is_at_rest(run.stage):
        raise Difference("what `complete` writes isn't settled, or something moves in it")
    return "completed"


def main() -> int:
    asked = argparse.ArgumentParser(description="Compare what is settled, stuck and completed with the model.")
    asked.add_argument("tool", metavar="CT_TOOL", help="the built program")
    asked.add_argument("first", type=int, metavar="FIRST")
    asked.add_argument("last", type=int, metavar="LAST")
    options = asked.parse_args()
    seen: "collections.Counter[str]" = collections.Counter()
    for seed in range(options.first, options.last):
        run = random_run(seed)
        record = run.record()
        try:
            seen.update(set(compare_claims(options.tool, run)))
            seen[compare_completed(options.tool, run)] += 1
        except Difference as difference:
            with tempfile.NamedTemporaryFile(prefix=f"rest{seed}.", suffix=".json", delete=False) as file:
                file.write(record)
            print(f"{os.path.abspath(file.name)}: seed {seed}: {difference}")
            return 1
    print(f"{options.last - options.first} runs: {', '.join(f'{seen[kind]} {kind}' for kind in sorted(seen))}; 0 differences")
    return 0


if __name__ == "__main__":
    sys.exit(main())
