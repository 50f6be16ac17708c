"""Schedules for the members under test from files: records and schedules of the algorithm's own runs (`ct_tool walk`, `find`, `shrink`, the
page, examples/), and those that the driver keeps of a difference."""
from __future__ import annotations

import json
import os
import re
from typing import Iterator, List, NamedTuple, Optional, Tuple

from ..refusal import LineRefused, NoWorld, Refused
from ..session import Session
from ..steps import Crash, Lose, Receive, Repeat, Step, Submit, Suspect, step_of_record
from ..world import MAX_BOUND, World
from .letters import short
from .network import Event
from .standing import Standing

HEAD = "# kept by malletochre.drive: lines are the algorithm's steps, comments that begin with a member are what comes to it besides"
WORD = re.compile(r"#? ?(\d+) (submit(?= \w+ \d+ \d+$)|(?:receive|lose|repeat)(?= .* from \d+$)|(?:suspects|trusts)(?= \d+$)|crash)"
                  r"(?: (.*))?")
OTHERS = re.compile(r"(#(?! ?\d).*|(members|cells|batch|expect) .*|\d+ (begin|enter|choose|adopt|suspect|conclude|deliver|follow)\b.*)?")
ENDS = "refused", "not there", "not met", "not so", "not at rest"   # faults of a line that a schedule may end at
FOLDERS = ("examples", os.path.join("..", "..", "..", "..", "examples"))


class Schedule(NamedTuple):
    """What comes to the members; what they do by themselves is theirs."""

    name: str
    members: int
    bound: int
    events: List[Event]


def examples(members: int, bound: int) -> Iterator[Schedule]:
    """Those of the records of examples/ of such a group, where they are there: of the package, else of its clone."""
    here = os.path.dirname(os.path.abspath(__file__))
    folders = [it for it in (os.path.join(here, name) for name in FOLDERS) if os.path.isdir(it)]
    for name in sorted(os.listdir(folders[0])) if folders else ():
        path = os.path.join(folders[0], name)
        if name.endswith(".json") and _group(path) == (members, bound):
            yield read(path)


def _group(path: str) -> Tuple[int, int]:
    with open(path, encoding="utf-8") as file:
        told = json.load(file)
    return told["n"], told.get("batch", MAX_BOUND)


def read(path: str) -> Schedule:
    """The schedule of a record or of a schedule; ValueError, which names the file, where it is neither."""
    __tracebackhide__ = True
    name = os.path.basename(path).rpartition(".")[0]
    with open(path, encoding="utf-8") as file:
        text = file.read()
    try:
        if text.startswith(HEAD):
            return _kept(name, text)
        return of_record(name, text if text.lstrip().startswith("{") else _record(text))
    except KeyError as missing:
        fault = f"{missing} is missing, which a record has"
    except (TypeError, ValueError, NoWorld, LineRefused) as error:
        fault = str(error)
    raise ValueError(f"{path}: {fault}")


def _record(text: str) -> str:
    """The record of a schedule, up to a line that is refused."""
    with Session() as session:
        for line in text.splitlines():
            try:
                session.ask(line)
            except LineRefused as fault:
                if not fault.fault.startswith(ENDS):
                    raise
                break
        return session.record()


def of_record(name: str, record: str) -> Schedule:
    told = json.loads(record)
    world = World(told["n"], told["cells"], told.get("batch", MAX_BOUND))
    at, events = Standing(world, world.members), []
    with world:
        for entry in told["steps"]:
            step = step_of_record(entry)
            try:
                seen = _events(at, step)
                at.take(step)
            except (KeyError, Refused):
                break   # a record up to a step that is refused
            events += seen
    return Schedule(name, world.members, world.bound, events)


def _events(at: Standing, step: Step) -> List[Event]:
    """What comes to a member about this step."""
    name, p = step.name, step.member
    if isinstance(step, Submit):
        return [Event(name, p, tuple(step.command.entry()))]
    if isinstance(step, (Receive, Lose, Repeat)):
        sender, _, letter = at.sent[step.serial]
        return [Event(name, p, (short(letter),), sender)]
    if isinstance(step, Suspect):
        return [Event("suspect", p, at.awaited(p)), Event("trust", p, at.awaited(p))]
    return [Event(name, p)] if isinstance(step, Crash) else []


def _kept(name: str, text: str) -> Schedule:
    numbers = {word: int(number) for word, number in re.findall(r"^(members|batch) (\d+)", text, re.MULTILINE)}
    lines = text.splitlines()
    for number, line in enumerate(lines, 1):
        if not event_of(line) and not OTHERS.fullmatch(line):
            raise ValueError(f"line {number}: {line}: not understood")
    return Schedule(name, numbers["members"], numbers.get("batch", MAX_BOUND), [event for event in map(event_of, lines) if event])


def event_of(line: str) -> Optional[Event]:
    """The event of a line of a kept schedule; None where it is none, as where the member does it."""
    text = line if line.startswith("#") else line.partition("#")[0].rstrip()
    found = WORD.fullmatch(text)
    if not found:
        return None
    p, name, rest = int(found[1]), found[2], found[3] or ""
    if name == "submit":
        kind, first, second = rest.split(" ")
        return Event(name, p, (kind, int(first), int(second)))
    if name in ("suspects", "trusts"):
        return Event(name[:-1], p, int(rest))
    if name == "crash":
        return Event(name, p)
    named, _, sender = rest.rpartition(" from ")
    return Event(name, p, () if named == "-" else tuple(named.split(", ")), int(sender))

