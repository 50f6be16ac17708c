#!/usr/bin/env python3
"""Writes what the bindings are asked, of which all have to say the same: what `ct_tool` says, by bindings/python over a pipe.

    asking.py FOLDER

`worlds_asked` has a word and numbers a line:

    world MEMBERS CELLS BOUND                   closes the world, and opens another one
    step TIMES KIND MEMBER A B C                does the step so many times; whether the last one was allowed, and what it came to
    next TIMES MEMBER, take TIMES MEMBER        turns of a member: its next step, else a receipt, or the other way round, and
                                                then it suspects nobody; how many it took
    ask                                         all that may be asked
    record                                      the record; goes on with a world that was opened from it

`sessions_asked` has a call a line: `tell` or `ask` and a line, in which `\\n` is a line feed, `record` or `diagram`.
"""
import os
import random
import sys
from typing import Iterator, List

HERE = os.path.dirname(os.path.abspath(__file__))
sys.path.insert(0, os.path.join(HERE, "..", "python"))

from malletochre import StepRefused, World   # noqa: E402
from malletochre.steps import step_of_numbers   # noqa: E402

SUBMIT, RECEIVE, BEGIN, CHOOSE, SUSPECT, DELIVER, CRASH, REPEAT = 1, 2, 3, 5, 7, 9, 11, 14
SESSION = """record
diagram
tell
tell # nothing
tell members 3
record
tell nonsense
tell a\\nb
ask a\\nb
tell cells 2
ask enabled 4
tell 1 submit set 0 7
tell cells 3
ask next 1
tell next 1
tell all receive data 1.1
tell 2 begin
tell 2 begin
tell all turns 40
ask report
ask waiting 2
ask state 3
ask limits
tell expect all delivered 1.1
tell expect 1 table 0=8
ask record
record
diagram
tell crash 2
tell 2 enter
tell \u00e9 \u2260
tell cut 1 | 3
tell 3 receive data 1.1
tell 3 submit set 99 0
tell 1 suspect
record
tell 1 turns 500
""" + "tell 1 submit add 1 1\n" * 400 + "diagram\nask report\n"


def any_step(chance: random.Random, world: World) -> List[int]:
    """The numbers of a step, of those that are allowed and of those that aren't."""
    member = chance.randrange(1, world.members + 1)
    waiting = world.serials(member)[:3]
    draw = chance.random()
    if draw < 0.5 and waiting:
        return [RECEIVE, member, chance.choice(waiting), 0, 0]
    step = world.next(member) if draw < 0.85 else None
    if step and (chance.random() < 0.1 or step.numbers()[0] != SUSPECT):
        return list(step.numbers())
    if draw < 0.88:
        value = chance.choice([0, 1, 2**64 - 1, chance.randrange(2**64)])
        command = chance.randrange(1, 4)
        return [SUBMIT, member, command, chance.randrange(17), value % 18 if command == 3 else value]
    if draw < 0.93:
        return [chance.choice([RECEIVE, 12, 13, REPEAT]), member, chance.choice([0, chance.randrange(60), 2**32 - 1]), 0, 0]
    if draw < 0.96:
        return [CHOOSE, member, chance.choice([1, 2, 3, 255]), 0, 0]
    if draw < 0.97:
        member = chance.choice([0, world.members + 1, 255])
    return [CRASH if draw > 0.999 else chance.choice([3, 4, 6, 7, 8, 9, 10]), member, 0, 0, 0]


def at_random(seed: int, steps: int) -> Iterator[str]:
    """A world under steps drawn from the seed."""
    chance = random.Random(seed)
    setup = seed % 5 + 1, [64, 1][seed % 2], [1_048_560, 2][seed // 2 % 2]
    yield "world {} {} {}".format(*setup)
    with World(*setup) as world:
        for number in range(1, steps + 1):
            numbers = any_step(chance, world)
            yield "step 1 {} {} {} {} {}".format(*numbers)
            try:
                world.apply(step_of_numbers(*numbers))
            except StepRefused:
                pass
            if number % 200 == 0:
                yield "ask"
    yield "record"
    yield "ask"


def in_order(members: int) -> Iterator[str]:
    """Nobody is suspected, and members are asked while some have delivered more than others."""
    yield f"world {members} 64 3"
    for turn in range(12):
        for member in range(1, members + 1):
            yield f"step 1 {SUBMIT} {member} {turn % 3 + 1} {member - 1} {[2**64 - member, 300, 15][turn % 3]}"
            yield f"take {20 * member} {member}"
        yield "ask"


def far() -> Iterator[str]:
    """Long lists, numbers above one byte, and limits."""
    yield "world 1 1024 1"
    yield f"step 300 {SUBMIT} 1 2 15 {2**63}"
    yield f"step 1 {REPEAT} 1 1 0 0"
    yield "take 2 1"
    yield "ask"
    yield "take 3700 1"
    yield "ask"
    yield "record"
    yield f"step 725 {SUBMIT} 1 1 3 5"
    yield "take 9000 1"
    yield f"step 1 {BEGIN} 1 0 0 0"
    yield "world 1 0 1"
    yield f"step 1 {SUBMIT} 1 1 0 5"
    yield "next 2500 1"
    yield "ask"
    yield "take 20 1"
    yield f"step 1 {DELIVER} 1 0 0 0"
    yield "world 1 0 1"
    yield f"step 65536 {SUBMIT} 1 2 0 1"
    yield "world 16 0 1"
    yield f"step 62501 {SUBMIT} 16 2 0 1"
    yield "step 1 12 3 1 0 0"
    yield "step 1 12 3 3 0 0"


def main() -> None:
    worlds = [line for seed in range(10) for line in at_random(seed, 400)]
    worlds += [line for members in (2, 3, 5) for line in in_order(members)]
    for name, text in ("worlds_asked", "\n".join([*worlds, *far()]) + "\n"), ("sessions_asked", SESSION):
        with open(os.path.join(sys.argv[1], name), "w", encoding="utf-8") as file:
            file.write(text)


if __name__ == "__main__":
    main()
