"""The world beside the group, where each member stands in it, and what a run came across."""
from __future__ import annotations

from collections import Counter
from typing import Any, Dict, List, NamedTuple, Optional, Set, Tuple, Union

from ..steps import COMMANDS_BY_NAME, Choose, Lose, Receive, Repeat, Step, Submit
from ..world import World
from .letters import Ack, Command, Data, Decision, Estimate, Letter, Value, carried, full, letter_of, names, same, short, value_text
from .network import Event, event_text

At = Tuple[int, int]   # instance and round
NO_ROUND = 1 << 30     # behind all rounds of an instance that is closed
ROUND = ("choose", "conclude", "deliver", "follow")
TOO_FEW = "a coordinator short of a majority (TooFew)"
SEVERAL_TS = "estimates with several ts at a choice (NotLargest)"
LOCKED = "a value that was locked is carried on"
UNDECIDED = "a round ends without a decision"
TWO_ROUNDS = "an instance is decided in two rounds"
COORDINATOR_CRASHES = "a coordinator crashes in its round"
SITUATIONS = (
    TOO_FEW, SEVERAL_TS, LOCKED, UNDECIDED, TWO_ROUNDS, COORDINATOR_CRASHES, "a message comes again", "a decision comes again",
    "a decision comes before its instance", "a decision has a message that did not come", "a message is delivered that did not come",
    "a batch of several messages", "est of a round that is over", "est of a round to come", "prop of a round that is over",
    "prop of a round to come", "ack of a round that is over", "nack of a round that is over", "follow",
)


def submission(p: int, command: Command) -> Submit:
    return Submit(p, COMMANDS_BY_NAME[command[0]](*command[1:]))


class Place:
    """Where a member stands, and what it got, by its steps."""

    __slots__ = ("instance", "is_open", "round", "heard", "acked", "decisions", "seen", "delivered")

    def __init__(self) -> None:
        self.instance = self.round = 0
        self.is_open = False
        self.heard: Dict[At, Dict[int, Estimate]] = {}
        self.acked: Dict[At, Set[int]] = {}
        self.decisions: Dict[int, Value] = {}
        self.seen: Set[Any] = set()          # messages, and decisions by instance and round
        self.delivered: Value = ()

    def batch(self, instance: int) -> Value:
        """What it delivers of the instance's decision."""
        return tuple(it for it in self.decisions.get(instance, ()) if it not in self.delivered)


class Standing:
    def __init__(self, world: World, members: int) -> None:
        self.world, self.n = world, members
        self.places = {p: Place() for p in range(1, members + 1)}
        self.sent: Dict[int, Tuple[int, int, Letter]] = {}   # by serial: who sent it, to whom it goes, what it carries
        self.waits: Set[int] = set()            # serials that wait at their receivers
        self.taken: List[Union[Event, Tuple[Step, range, Value]]] = []   # steps, what they sent and delivered; and what detectors say
        self.met: "Counter[str]" = Counter()    # steps and situations
        self.rounds = self.instances = 0        # the largest
        self.batch: Value = ()                  # what the last step delivered

    def coordinator(self, round_: int) -> int:
        return round_ % self.n + 1

    def awaited(self, p: int) -> Optional[int]:
        """The coordinator of the round that the member is in."""
        place = self.places[p]
        return self.coordinator(place.round) if place.is_open and place.round else None

    def serial_of(self, p: int, to: int, letter: Letter) -> Optional[int]:
        """The envelope with this letter that the member has sent."""
        return next((serial for serial, it in self.sent.items() if it[:2] == (p, to) and same(letter, it[2])), None)

    def cause(self, step: Step) -> str:
        """The name of the refusal of a step, empty where it is allowed."""
        return str(self.world.refusal(step) or "")

    def take(self, step: Step) -> range:
        """The step is taken in the world: the serials of what it sent."""
        name, p = step.name, step.member
        place = self.places[p]
        came: Optional[Letter] = None
        if isinstance(step, Receive):
            came = self.sent[step.serial][2]
            self._received(place, came)
        elif name in ROUND:
            self._note(place, name)
        elif name == "crash" and self.awaited(p) == p:
            self.met[COORDINATOR_CRASHES] += 1
        serials = self.world.apply(step)
        if serials:
            first, letter = (1, came) if came else letter_of(self.world, serials[0])   # what came is sent on to all as it is
            for to, serial in enumerate(serials, first):
                self.sent[serial] = p, to, letter
            self.waits.update(serials)
        self.batch = ()
        if isinstance(step, (Receive, Lose)):
            self.waits.discard(step.serial)
        elif isinstance(step, Repeat):
            self.waits.add(step.serial)
        else:
            self.batch = self._moved(place, name, p)
            self.met[name] += 1
        self.taken.append((step, serials, self.batch))
        return serials

    def _moved(self, place: Place, name: str, p: int) -> Value:
        """The member stands elsewhere; what it delivered."""
        if name == "enter":
            place.round += 1
            self.rounds = max(self.rounds, place.round)
        elif name in ("begin", "follow"):
            place.instance, place.round, place.is_open = place.instance + 1, 0, name == "begin"
            self.instances = max(self.instances, place.instance)
        if name not in ("deliver", "follow"):
            return ()
        place.is_open = False
        before, place.delivered = len(place.delivered), names(self.world.delivered(p))
        return place.delivered[before:]

    def _received(self, place: Place, letter: Letter) -> None:
        """What is received, and the situations that this makes."""
        if isinstance(letter, Data):
            if letter.message in place.seen:
                self.met["a message comes again"] += 1
            place.seen.add(letter.message)
            return
        at, here = (letter.instance, letter.round), (place.instance, place.round if place.is_open else NO_ROUND)
        if isinstance(letter, Decision):
            self._decision(place, at, letter)
            return
        if at != here:
            self.met[f"{letter.kind} of a round {'that is over' if at < here else 'to come'}"] += 1
        if isinstance(letter, Estimate):
            heard = place.heard.setdefault(at, {})
            heard.setdefault(letter.source, letter)
            if at == here and 2 * len(heard) <= self.n:
                self.met[TOO_FEW] += 1
        elif isinstance(letter, Ack):
            place.acked.setdefault(at, set()).add(letter.source)

    def _decision(self, place: Place, at: At, letter: Decision) -> None:
        if (at, "dec") in place.seen:
            self.met["a decision comes again"] += 1
        elif letter.instance in place.decisions:
            self.met[TWO_ROUNDS] += 1
        place.seen.add((at, "dec"))
        if letter.instance > place.instance:
            self.met["a decision comes before its instance"] += 1
        if any(it not in place.seen for it in letter.value):
            self.met["a decision has a message that did not come"] += 1
        place.decisions.setdefault(letter.instance, letter.value)

    def _note(self, place: Place, name: str) -> None:
        at = place.instance, place.round
        if name == "choose":
            stamps = {it.ts for it in place.heard[at].values()}
            if len(stamps) > 1:
                self.met[SEVERAL_TS] += 1
            if max(stamps):
                self.met[LOCKED] += 1
        elif name == "conclude":
            if 2 * len(place.acked.get(at, ())) <= self.n:
                self.met[UNDECIDED] += 1
        else:
            batch = place.batch(place.instance + (name == "follow"))
            if len(batch) > 1:
                self.met["a batch of several messages"] += 1
            if any(it not in place.seen for it in batch):
                self.met["a message is delivered that did not come"] += 1

    # Texts.

    def act(self, step: Step) -> str:
        """The step as the act of a line."""
        if isinstance(step, Submit):
            return "submit " + " ".join(map(str, step.command.entry()))
        if isinstance(step, (Receive, Lose, Repeat)):
            sender, _, letter = self.sent[step.serial]
            return f"{step.name} {short(letter)} from {sender}"
        return f"choose {step.source}" if isinstance(step, Choose) else step.name

    def lines(self, stated: bool = False) -> List[Tuple[str, str]]:
        """The run as lines of a schedule, each with a comment: what the step sent or delivered. With `stated` the lines state what is
        received, sent and delivered."""
        lines = []
        for it in self.taken:
            if isinstance(it, Event):
                lines.append(("", event_text(it)))
                continue
            step, serials, batch = it
            text = f"{step.member} {self.act(step)}" + (self._stated(step, serials, batch) if stated else "")
            comment = ""
            if serials:
                _, to, letter = self.sent[serials[0]]
                comment = f"-> {full(letter)} to {'all' if len(serials) == self.n > 1 else to}"
            elif step.name in ("deliver", "follow"):
                comment = f"delivers {value_text(batch)}"
            lines.append((text, comment))
        return lines

    def _stated(self, step: Step, serials: range, batch: Value) -> str:
        if isinstance(step, Receive):
            return carried(self.sent[step.serial][2])
        if step.name in ("enter", "choose"):
            return carried(self.sent[serials[0]][2])
        return f" {value_text(batch)}" if step.name in ("deliver", "follow") else ""

    def stands(self, p: int) -> str:
        """Where the member stands."""
        place = self.places[p]
        at = place.instance, place.round
        if not place.is_open:
            return f"no instance is open; instance {place.instance} was the last" if place.instance else "no instance was begun"
        heard = ", ".join(f"{q} {value_text(it.value)} ts {it.ts}" for q, it in sorted(place.heard.get(at, {}).items()))
        text = f"instance {at[0]} round {at[1]}" + (f", coordinator {self.coordinator(at[1])}" if at[1] else "")
        return text + (f", heard {heard}" if heard else "")
