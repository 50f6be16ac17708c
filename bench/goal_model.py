#!/usr/bin/env python3
"""What a goal says of a run, over model.py: written from docs/GOALS.md alone, to be compared with the proved program.

    bench/goal_model.py GOAL < record.json

Prints `shown after N steps` for the first beginning of the run that shows the goal, and whether the whole run does. Status: 0 where a
beginning shows it, 1 where none does, 2 where the goal is none or the input no record.
"""
from __future__ import annotations

import re
import sys
from typing import Any, Callable, Dict, Iterator, List, NamedTuple, Optional, Set, Tuple

sys.dont_write_bytecode = True
import model  # noqa: E402
from split import carried, value  # noqa: E402

COUNTED = ("received", "decided", "delivered")
MEASURED = ("round", "instance", "waiting")
OWN = ("deliver", "follow", "begin", "choose", "adopt", "conclude", "enter")   # what a member may do of its own but suspect
NUMBER = re.compile(r"\d+\Z")
NAME = re.compile(r"(\d+)\.(\d+)\Z")
REASON = re.compile(r"NoSuchMember|Crashed|NotWaiting|BadCommand|Busy|Nothing|Idle|WrongPhase|Decided|TooFew|NotLargest|NoProposal|"
                    r"HasProposal|Undecided|NotSent|StillWaiting|Full\(\w+\)|NotThere|Across")


class NoGoal(Exception):
    """A text that is no goal."""


class Allowed(Exception):
    """A step that was asked for would be allowed."""


class Stage(model.World):
    """A world that knows its last step and who sent what."""

    def __init__(self, n: int, cells: int, bound: int) -> None:
        super().__init__(n, cells, bound)
        self.is_asked = False
        self.actor = 0                 # the member of the step that is being taken
        self.senders = [0]             # of each serial: whose step sent it
        self.decided_in: Dict[int, Set[int]] = {}   # by instance: the rounds whose decisions were sent
        self.events: Set[Tuple[Any, ...]] = set()   # what the last step was

    def send(self, to: int, wire: Tuple[Any, ...]) -> None:
        super().send(to, wire)
        self.senders.append(self.actor)

    def check_limits(self, *given: int, **counts: int) -> None:
        """The last thing that a step does before it changes something."""
        super().check_limits(*given, **counts)
        if self.is_asked:
            raise Allowed

    def cause(self, name: str, p: int, *rest: Any) -> Optional[str]:
        """Why the step would be refused, if it would."""
        self.is_asked = True
        try:
            super().apply(name, p, *rest)
        except model.Refused as refusal:
            return str(refusal)
        except Allowed:
            return None
        finally:
            self.is_asked = False
        raise AssertionError(f"{name} looks at no limit")

    def apply(self, name: str, p: int, *rest: Any) -> None:
        self.actor = p
        here = self.members[p].open if p in self.members else None
        place = (here.k, here.round) if here else (0, 0)
        sent = self.sent()
        super().apply(name, p, *rest)
        self.events = {(name,)}
        member = self.members[p]
        if name == "suspect" and self.members[self.coordinator(place[1])].up:
            self.events.add(("suspects up",))
        if name == "follow":
            self.events.add(("follows", member.last))
        if name == "choose":
            ts = member.estimates[place][rest[0]][1]
            if ts > 0 and (place[0], ts) not in member.proposals:
                self.events.add(("chooses unseen",))
        if name == "conclude" and self.sent() > sent:
            rounds = self.decided_in.setdefault(place[0], set())
            if rounds - {place[1]}:
                self.events.add(("concludes again",))
            rounds.add(place[1])


Claim = Callable[[Stage, int], bool]


class Term(NamedTuple):
    """When, of whom, what."""
    when: str
    whom: str
    claim: Claim


# Claims.

def messages(names: Any) -> str:
    return model.names(names, " ") or "-"


def heard(stage: Stage, p: int) -> List[int]:
    """The members that the member heard for its round."""
    member = stage.members[p]
    here = member.open
    return sorted(member.estimates.get((here.k, here.round), ())) if here else []


def there(stage: Stage, p: int, kind: str) -> str:
    """What is there at the member, as the value of a fact of its kind is written."""
    member = stage.members[p]
    here = member.open
    if kind == "phase":
        return here.phase if here else "idle"
    if kind == "estimate":
        return f"{value(here.estimate)} ts {here.ts}" if here else "-"
    if kind in ("received", "delivered"):
        return messages(getattr(member, kind))
    if kind == "decided":
        return " ".join(f"{k}:{model.names(got, ',')}" for k, got in sorted(member.decisions.items())) or "-"
    if kind == "table":
        registers = enumerate(model.table(stage.commands[message] for message in member.delivered))
        return " ".join(f"{at}={register}" for at, register in registers if register) or "-"
    if kind == "heard":
        return ",".join(map(str, heard(stage, p))) or "-"
    return ",".join(map(str, sorted(member.acked.get((here.k, here.round), ())))) or "-" if here else "-"


def amount(stage: Stage, p: int, kind: str) -> int:
    member = stage.members[p]
    if kind == "round":
        return member.open.round if member.open else 0
    if kind == "instance":
        return member.last
    if kind == "waiting":
        return len(member.line)
    return len({"received": member.received, "decided": member.decisions, "delivered": member.delivered}[kind])


def extent(kind: str, words: List[str]) -> Claim:
    """How much of the kind there has to be: `>= 4` or `4`."""
    is_least = words[:1] == [">="]
    words = words[1:] if is_least else words
    if len(words) != 1 or not NUMBER.match(words[0]):
        raise NoGoal(f"{kind}: a number is wanted")
    wanted = int(words[0])
    return lambda stage, p: amount(stage, p, kind) >= wanted if is_least else amount(stage, p, kind) == wanted


def message(word: str) -> Tuple[int, int]:
    found = NAME.match(word)
    if not found:
        raise NoGoal(f"{word}: no message")
    return int(found.group(1)), int(found.group(2))


def before(first: str, second: str) -> Claim:
    one, other = message(first), message(second)

    def holds(stage: Stage, p: int) -> bool:
        order = list(stage.members[p].delivered)
        return one in order and other in order and order.index(one) < order.index(other)
    return holds


def waits(words: List[str]) -> Claim:
    name, sender = words[:2], words[2:]
    if len(name) < 2 or (sender and (len(sender) != 2 or sender[0] != "from")):
        raise NoGoal("waits: an envelope is wanted")
    return lambda stage, p: any(carried(stage.wires[serial]) == " ".join(name) and (not sender or stage.senders[serial] == int(sender[1]))
                                for serial in stage.members[p].line)


def reason(word: str) -> str:
    if not REASON.fullmatch(word):
        raise NoGoal(f"{word}: no reason")
    return word


def causes(words: List[str], wanted: Optional[str]) -> Claim:
    """Whether the act would be refused for this reason, or for none be allowed."""
    name, rest = words[0], [int(word) for word in words[1:]]
    return lambda stage, p: stage.cause(name, p, *rest) == wanted


def is_done(stage: Stage) -> bool:
    """Whether those that are up have no instance open and delivered the same, and with it all that one of them received or submitted."""
    up = {p: member for p, member in stage.members.items() if member.up}
    return len({tuple(member.delivered) for member in up.values()}) <= 1 and all(
        member.open is None and all(message in member.delivered for message in member.received)
        and all((p, number) in member.delivered for number in range(1, member.submitted + 1)) for p, member in up.items())


def own_steps(stage: Stage, p: int) -> Iterator[List[Any]]:
    """What the member may do of its own, in a driver's order, but suspect a coordinator that is up."""
    here = stage.members[p].open
    best = sorted(heard(stage, p), key=lambda q: -stage.members[p].estimates[here.k, here.round][q][1])   # the largest ts first
    for name in OWN:
        for rest in [[q] for q in best] if name == "choose" else [[]]:
            if stage.cause(name, p, *rest) is None:
                yield [name, p, *rest]
    if here and not stage.members[stage.coordinator(here.round)].up and stage.cause("suspect", p) is None:
        yield ["suspect", p]


def is_at_rest(stage: Stage) -> bool:
    """Whether nothing waits at those that are up, and of their own they could at most suspect a coordinator that is up."""
    return not any(member.line or any(own_steps(stage, p)) for p, member in stage.members.items() if member.up)


BARE: Dict[str, Claim] = {
    "up": lambda stage, p: stage.members[p].up,
    "crashed": lambda stage, p: not stage.members[p].up,
    "idle": lambda stage, p: stage.members[p].open is None,
    "settled": lambda stage, p: not stage.members[p].up or is_done(stage),
    "stuck": lambda stage, p: stage.members[p].up and is_at_rest(stage) and not is_done(stage),
}


def claim(words: List[str]) -> Claim:
    """The claim of these words."""
    word, rest = words[0], words[1:]
    text = " ".join(words)
    if word in BARE and not rest:
        return BARE[word]
    if text in ("suspects up", "chooses unseen", "concludes again"):
        return lambda stage, p: stage.actor == p and (text,) in stage.events
    if word == "follows" and len(rest) == 1:
        return lambda stage, p: stage.actor == p and ("follows", int(rest[0])) in stage.events
    if word == "round" and rest[:1] != [">="]:
        wanted = extent(word, rest)
        return lambda stage, p: stage.members[p].open is not None and wanted(stage, p)
    if word in MEASURED:
        return extent(word, rest)
    if word in COUNTED and rest[:1] == ["count"]:
        return extent(word, rest[1:])
    if word == "decided" and len(rest) == 1 and NUMBER.match(rest[0]):
        return lambda stage, p: int(rest[0]) in stage.members[p].decisions
    if word == "delivered" and len(rest) == 3 and rest[1] == "before":
        return before(rest[0], rest[2])
    if word == "refuses" and len(rest) == 2 and rest[0] == "choose":
        wanted_cause = reason(rest[1])
        return lambda stage, p: any(stage.cause("choose", p, q) == wanted_cause for q in heard(stage, p))
    if word == "refuses" and len(rest) > 1:
        return causes(rest[:-1], reason(rest[-1]))
    if word == "may" and rest:
        return causes(rest, None)
    if word == "waits":
        return waits(rest)
    if word in ("phase", "estimate", "received", "decided", "delivered", "table", "heard", "acked") and rest:
        wanted_text = " ".join(rest)
        return lambda stage, p: there(stage, p, word) == wanted_text
    raise NoGoal(f"{text}: no claim")


# Goals.

def term(words: List[str]) -> Term:
    when = words[0] if words[:1] and words[0] in ("ever", "never") else "now"
    words = words if when == "now" else words[1:]
    if len(words) < 2 or not re.match(r"(\d+(,\d+)*|all|any|up)\Z", words[0]):
        raise NoGoal(f"{' '.join(words)}: whom and a claim are wanted")
    return Term(when, words[0], claim(words[1:]))


def goal_of(text: str) -> List[Term]:
    """The terms of the goal that the text says."""
    cut: List[List[str]] = [[]]
    for word in text.split():
        if word == "and":
            cut.append([])
        else:
            cut[-1].append(word)
    return [term(words) for words in cut]


def holds(stage: Stage, one: Term) -> bool:
    """Whether the term's claim holds of whom it says, now."""
    if one.whom == "any":
        return any(one.claim(stage, p) for p in stage.members)
    if one.whom == "all":
        return all(one.claim(stage, p) for p in stage.members)
    if one.whom == "up":
        return all(one.claim(stage, p) for p, member in stage.members.items() if member.up)
    return all(p in stage.members and one.claim(stage, p) for p in map(int, one.whom.split(",")))


class Watch:
    """A stage, and whether its run shows the goal."""

    def __init__(self, stage: Stage, goal: List[Term]) -> None:
        self.stage, self.goal = stage, goal
        self.held = [False] * len(goal)   # of each term: whether it held at a beginning
        self.note()

    def note(self) -> None:
        self.now = [holds(self.stage, one) if one.when == "now" or not held else True for one, held in zip(self.goal, self.held)]
        self.held = [held or now for held, now in zip(self.held, self.now)]

    def step(self, step: List[Any]) -> None:
        self.stage.apply(*step)
        self.note()

    def shows(self) -> bool:
        return all(not held if one.when == "never" else held if one.when == "ever" else now
                   for one, held, now in zip(self.goal, self.held, self.now))


def stage_of(record: bytes) -> Tuple[Stage, List[List[Any]]]:
    """The stage without steps of a record, and its steps."""
    world, steps = model.read(record)
    return Stage(world.n, world.cells, world.bound), steps


class Shown(NamedTuple):
    """The least number of steps after which the goal is shown, and whether it is shown in the end."""
    first: Optional[int]
    is_last: bool


def shown(record: bytes, goal: List[Term]) -> Shown:
    stage, steps = stage_of(record)
    watch = Watch(stage, goal)
    first = 0 if watch.shows() else None
    for at, step in enumerate(steps, 1):
        watch.step(step)
        if first is None and watch.shows():
            first = at
    return Shown(first, watch.shows())


def main() -> int:
    try:
        goal = goal_of(sys.argv[1] if len(sys.argv) == 2 else "")
        found = shown(sys.stdin.buffer.read(model.LENGTH + 1), goal)
    except (NoGoal, model.Fault, model.Refused) as fault:
        print(fault or type(fault).__name__, file=sys.stderr)
        return 2
    if found.first is None:
        print("not shown")
        return 1
    print(f"shown after {found.first} steps; the whole run {'shows' if found.is_last else 'does not show'} it")
    return 0


if __name__ == "__main__":
    sys.exit(main())
