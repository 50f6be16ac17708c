#!/usr/bin/env python3
"""Prints what worlds and sessions answer, as the same program in other languages does.

    asked.py names            the refusals, each with its number
    asked.py worlds FILE      what worlds answer to the words of a file that bindings/tests/asking.py wrote
    asked.py walks FILE       the records of walks with the options that bindings/tests/walking.py wrote
    asked.py shrinks FILE     the records of smaller runs of those that bindings/tests/shrinking.py wrote
    asked.py sessions FILE    what a session answers to the lines of one
    asked.py many N           opens N worlds and N sessions, closes every other one and forgets the rest
"""
import os
import sys
from typing import Callable, Dict, Iterable, List, Optional

sys.path.insert(0, os.path.join(os.path.dirname(os.path.abspath(__file__)), ".."))

from malletochre import (Ack, Data, Estimate, LineRefused, Message, Nack, NoWorld, Phase, Receive, Refusal, Session, Set,   # noqa: E402
                         Standing, StepRefused, Submit, Suspect, Turn, Walk, World, shrunk)
from malletochre.library import WalkNumbers   # noqa: E402
from malletochre.session import TOO_LONG   # noqa: E402
from malletochre.steps import step_of_numbers   # noqa: E402

INSTANCES = 0, 1, 2, 3, 4, 5, 256, 257
OWN_STEPS = 3, 4, 5, 6, 7, 8, 9, 10
LOOKED_BACK = 150
KINDS = {"Data": "data", "Estimate": "est", "Proposal": "prop", "Ack": "ack", "Nack": "nack", "Decision": "dec"}


def text(messages: Optional[Iterable[Message]]) -> str:
    if messages is None:
        return " -"
    return "".join(f" {it}={','.join(map(str, it.command.entry()))}" for it in messages)


def stands(it: Standing) -> str:
    heard = "".join(f" {member}:{ts}" for member, ts in sorted(it.heard.items()))
    acked, replied = ("".join(f" {member}" for member in sorted(members)) for members in (it.acked, it.replied))
    place = f"{it.instance} {it.round} {it.phase or '-'} {it.ts}{' crashed' if it.has_crashed else ''}"
    return f"stands {place} heard{heard} acked{acked} replied{replied}"


class Asked:
    """The world that is asked, and the last serial that it sent."""

    def __init__(self, members: int, cells: int, bound: int) -> None:
        self.world = World(members, cells, bound)
        self.last = 0

    def ask_member(self, member: int) -> None:
        world = self.world
        print("member", member, "crashed" if world.has_crashed(member) else "up")
        print(stands(world.standing(member)))
        step = world.next(member)
        print("next", step.text() if step else "-")
        print("may", *(world.refusal(step_of_numbers(kind, member, int(kind == 5), 0, 0)) or "ok" for kind in OWN_STEPS))
        print("waiting" + "".join(f" {it.serial}" for it in world.waiting(member)))
        assert [it.serial for it in world.waiting(member)] == world.serials(member)
        print("received" + text(world.received(member)))
        print("delivered" + text(world.delivered(member)))
        print("table", *world.table(member))
        for instance in INSTANCES:
            print(f"decided {instance}" + text(world.decided(member, instance)))

    def ask_envelope(self, serial: int) -> None:
        it = self.world.envelope(serial)
        content = it.content if it else None
        told = f"#{serial} {KINDS[type(content).__name__] if it else '-'}"
        if it and isinstance(it.content, Data):
            told += f" to {it.to}{text([it.content.message])}"
        elif it and not isinstance(it.content, Data):
            told += f" to {it.to} {it.content.instance}/{it.content.round}"
        if isinstance(content, (Estimate, Ack, Nack)):
            told += f" from {content.source}"
        if isinstance(content, Estimate):
            told += f" ts {content.ts}"
        print(f"{told} value{text(self.world.value(serial))}")

    def ask(self) -> None:
        for member in range(1, self.world.members + 1):
            self.ask_member(member)
        for serial in range(max(0, self.last - LOOKED_BACK), self.last + 2):
            self.ask_envelope(serial)

    def apply(self, numbers: List[int]) -> str:
        """What the step of these numbers came to."""
        try:
            sent = self.world.apply(step_of_numbers(*numbers))
        except StepRefused as refused:
            return f"{refused.refusal} 0 0"
        self.last = sent[-1] if sent else self.last
        return f"ok {sent.start} {len(sent)}"

    def step(self, times: int, *numbers: int) -> None:
        told = ""
        for at in range(1, times + 1):
            refusal = self.world.refusal(step_of_numbers(*numbers)) if at == times else None
            told = f"came to {refusal or 'ok'} {self.apply(list(numbers))}"
        print(told)

    def turns(self, times: int, member: int, receives_first: bool) -> None:
        done = 0
        for _ in range(times):
            step, serials = self.world.next(member), self.world.serials(member)
            if receives_first and isinstance(step, Suspect):
                step = None
            if serials and (receives_first or step is None):
                step = Receive(member, serials[0])
            done += step is not None and self.apply(list(step.numbers())).startswith("ok")
        print(done)

    def record(self) -> None:
        """The record of the world, and of a copy's record opened again, which is asked from here on."""
        print(self.world.record())
        copy = self.world.copy()
        self.world.close()
        self.world = World.of_record(copy.record())
        copy.close()
        print(self.world.record())


def worlds(path: str) -> None:
    asked = Asked(1, 0, 1)
    with open(path, encoding="utf-8") as file:
        for line in file:
            word, *rest = line.split()
            numbers = list(map(int, rest))
            if word == "world":
                asked.world.close()
                asked = Asked(*numbers)
            elif word == "step":
                asked.step(*numbers)
            elif word == "ask":
                asked.ask()
            elif word == "record":
                asked.record()
            else:
                asked.turns(numbers[0], numbers[1], word == "take")


def walks(path: str) -> None:
    with open(path, encoding="utf-8") as file:
        for line in file:
            options = {name: int(number) for (name, _), number in zip(WalkNumbers._fields_, line.split())}
            with Walk(**options) as walk, walk.world() as world:
                for turn in iter(lambda: walk.turn(world), Turn.OVER):
                    if not isinstance(turn, Turn) and world.enabled(turn):
                        world.apply(turn)
                print(world.record())


def shows(goal: str, world: World) -> bool:
    """Whether the world shows the goal of this place in GOALS of bindings/tests/shrinking.py."""
    members = range(1, world.members + 1)
    if goal == "0":
        return any(len(world.delivered(member)) >= 2 for member in members)
    if goal == "1":
        return any(world.standing(member).round >= 3 for member in members)
    if goal == "2":
        return world.decided(1, 1) is not None
    return all(it.phase is Phase.WAIT and it.round >= 2 for it in map(world.standing, members))


def shrinks(path: str) -> None:
    with open(path, encoding="utf-8") as file:
        for line in file:
            goal, names, trials, record = line.split()
            with World.of_record(record) as world, \
                    shrunk(world, lambda it: shows(goal, it), names_members=names == "1", trials=int(trials)) as least:
                print(least.record())


def told(session: Session, line: str) -> str:
    sent = session.tell(line)
    return f"{sent.start} {len(sent)}"


def sessions(path: str) -> None:
    with open(path, encoding="utf-8") as file, Session() as session:
        calls: Dict[str, Callable[[str], str]] = {"tell": lambda it: told(session, it), "ask": session.ask,
                                                  "record": lambda _: session.record(), "diagram": lambda _: session.diagram().strip()}
        for line in file:
            word, _, rest = line[:-1].partition(" ")
            try:
                print(calls[word](rest.replace("\\n", "\n")))
            except NoWorld:
                print("NoWorld")
            except (LineRefused, ValueError) as fault:
                print("TooLong" if str(fault) == TOO_LONG else fault)


def many(count: int) -> None:
    for at in range(count):
        world, session = World(3), Session()
        world.apply(Submit(1, Set(0, 7)))
        session.tell("members 3")
        session.tell("1 submit set 0 7")
        if at % 2:
            world.close()
            session.close()


def main() -> None:
    word, *rest = sys.argv[1:]
    if word == "names":
        print("".join(f"{it.value} {it}\n" for it in Refusal), end="")
    elif word == "many":
        many(int(rest[0]))
    else:
        {"worlds": worlds, "walks": walks, "shrinks": shrinks, "sessions": sessions}[word](rest[0])


if __name__ == "__main__":
    main()
