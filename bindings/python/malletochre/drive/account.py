"""What a member sent and delivered about an event, explained by steps of the algorithm. Where nothing explains it, or the algorithm does
something that the member doesn't, there is a difference."""
from __future__ import annotations

from dataclasses import dataclass
from typing import AbstractSet, List, Optional, Set, Tuple, Union

from ..steps import (Adopt, Begin, Choose, Conclude, Crash, Deliver as DeliverStep, Enter, Follow, Lose, Receive, Repeat, Step,
                     Suspect)
from ..world import World
from .letters import ALL, Ack, Data, Decision, Estimate, Letter, Nack, Name, OfRound, Proposal, carried, full, same, short, value_text
from .network import Event, Network, Packet
from .standing import Standing, submission

LEVELS = ("lockstep", "exact", "observable")
KINDS = ("data", "est", "prop", "ack", "nack", "dec")


@dataclass(frozen=True)
class Rules:
    """How the members may differ from the article (docs/DRIVE.md)."""

    withholds: AbstractSet[str] = frozenset()  # kinds of letters, of KINDS, that it need not send, or sends late
    resends: bool = False                      # it may send again what it sent
    is_local: bool = False                     # what it sends to itself it deals with inside, and never sends
    own_detector: bool = False                 # its failure detector is its own: it may suspect whenever it likes

    def __post_init__(self) -> None:
        wrong = sorted(set(self.withholds) - set(KINDS))
        if wrong:
            raise ValueError(f"withholds: {wrong[0]!r} is no kind of letter: {', '.join(KINDS)}")
        object.__setattr__(self, "withholds", frozenset(self.withholds))


@dataclass
class Difference:
    """What a member did that the algorithm doesn't, or didn't that it does."""

    kind: str                # refused, unlike, missing, extra, delivered, table, unasked, stuck; of run.py; of observed.py
    member: int
    says: str                # what the member did
    ought: str               # what the algorithm does, or, where a step is refused, where the member stands
    cause: str = ""          # the refusal of the step
    act: str = ""            # the step, as the act of a line
    line: str = ""           # what it did, as a line that the judge refuses
    event: Optional[Event] = None


Explained = Union[Difference, Step, None]


class Account:
    """Of one event at one member: what is left to be explained."""

    def __init__(self, p: int, packets: List[Packet], delivered: List[Name]) -> None:
        self.p, self.delivered = p, delivered
        self.left = [(packet.to, letter, packet) for packet in packets for letter in packet.letters]

    def kinds(self) -> Set[Tuple[str, int, int]]:
        return {(it.kind, it.instance, it.round) for _, it, _ in self.left if not isinstance(it, Data)}


class Lockstep(Standing):
    """The judge of a run. exact: each step as soon as it may be taken; else at the member's own time."""

    def __init__(self, world: World, network: Network, rules: Rules, exact: bool) -> None:
        super().__init__(world, network.n)
        self.network, self.rules, self.exact = network, rules, exact
        self.is_eager = exact or rules.is_local   # there may be a step that tells nobody of it
        self.owed: Set[int] = set()     # serials that the world sent and the member, which may withhold them, didn't yet

    # Events.

    def disturb(self, event: Event, packet: Optional[Packet]) -> None:
        """A crash; or a packet was lost or repeated. What was repeated is Repeat once it comes again."""
        if event.name == "crash":
            self.take(Crash(event.member))
        elif event.name == "lose" and packet:
            others = {serial for it in self.network.waiting[event.member] for serial in it.serials}
            for serial in packet.serials:
                if serial in self.waits and serial not in others:
                    self.take(Lose(event.member, serial))
        if len(event.what or ()) != 1 and event.name in ("lose", "repeat"):
            self.taken.append(event)

    def happens(self, event: Event, packet: Optional[Packet], account: Account) -> Optional[Difference]:
        """The event's own steps."""
        p = event.member
        if event.name == "submit":
            return self._take(submission(p, event.what), account)
        if packet is None or len(packet.letters) != 1:
            self.taken.append(event)
        for serial in packet.serials if packet else ():
            if serial not in self.waits:
                self.take(Repeat(p, serial))
            difference = self._take(Receive(p, serial), account)
            if difference:
                return difference
        return None

    def explain(self, event: Event, packet: Optional[Packet], account: Account) -> Optional[Difference]:
        difference = self.happens(event, packet, account)
        while difference is None and (self.is_eager or account.left or account.delivered):
            step = self._step_for(account)
            if step is None:
                return self._leftover(account)
            difference = step if isinstance(step, Difference) else self._take(step, account)
        return difference

    def table(self, p: int, table: List[int]) -> Optional[Difference]:
        """The member has this table."""
        ought = self.world.table(p)
        if len(table) != len(ought):
            return Difference("table", p, f"has a table of {len(table)} registers", f"has {len(ought)}")
        if table == ought:
            return None
        has = f"table {registers(table)}"
        return Difference("table", p, f"has the {has}", f"has the table {registers(ought)}", line=f"expect {p} {has}")

    def stuck(self) -> Optional[Difference]:
        """Nothing is on its way: does a member have something to do?"""
        for p in self.network.up:
            step, place = self.world.next(p), self.places[p]
            if step is None or isinstance(step, DeliverStep) and not place.batch(place.instance):
                continue
            if isinstance(step, Suspect) and (self.rules.own_detector or self.awaited(p) not in self.network.suspects[p]):
                continue
            if isinstance(step, Follow) and (self.cause(Begin(p)) or not place.batch(place.instance + 1)):
                continue
            act = self.act(step)
            ought = f"takes the step `{act}`: {self.stands(p)}"
            return Difference("stuck", p, "does nothing more, and nothing is on its way", ought, act=act)
        return None

    # Steps.

    def _step_for(self, account: Account) -> Explained:
        """The step that the member took next, going by what is left to be explained; None where it took none."""
        p = account.p
        step = self.world.next(p)
        if step is None:
            return None
        place, kinds, exact = self.places[p], account.kinds(), self.exact or self.rules.is_local and self._is_inside(p, step)
        at = k, r = place.instance, place.round
        if isinstance(step, (Enter, Adopt)):
            return step if exact or (("ack", k, r) if isinstance(step, Adopt) else ("est", k, r + 1)) in kinds else None
        if isinstance(step, Choose):
            return self._choice(account, step) if ("prop", k, r) in kinds else step if exact else None
        if isinstance(step, Suspect):
            return self._suspicion(p, step, ("nack", k, r) in kinds)
        later = any(it[0] == "est" and it[1] > k for it in kinds)
        if isinstance(step, DeliverStep):
            return self._finishes(account, kinds) or (step if exact or account.delivered or later else None)
        if isinstance(step, Follow):
            owes = exact and bool(place.batch(k + 1)) and not self.cause(Begin(p))
            return step if account.delivered or owes or any(it[0] == "est" and it[1] > k + 1 for it in kinds) else None
        if isinstance(step, Begin):
            return step if exact or later or account.delivered else None
        is_silent = 2 * len(place.acked.get(at, ())) <= self.n   # where it concludes
        return step if exact or later or (("est", k, r + 1) if is_silent else ("dec", k, r)) in kinds else None

    def _is_inside(self, p: int, step: Step) -> bool:
        """Nobody else gets a letter of it, so it tells nothing of its time."""
        r = {Begin: 1, Enter: self.places[p].round + 1, Adopt: self.places[p].round}.get(type(step))
        return self.n == 1 or r is not None and self.coordinator(r) == p

    def _finishes(self, account: Account, kinds: Set[Tuple[str, int, int]]) -> Explained:
        """A member that has the decision may do first what it can in its round."""
        p, place = account.p, self.places[account.p]
        at = place.instance, place.round
        if ("prop", *at) in kinds and place.heard.get(at):
            return self._choice(account, Choose(p, min(place.heard[at])))
        others: Tuple[Tuple[str, Step], ...] = (("ack", Adopt(p)), ("nack", Suspect(p)), ("dec", Conclude(p)))
        for kind, step in others:
            if (kind, *at) in kinds and not self.cause(step):
                return step
        return None

    def _suspicion(self, p: int, step: Suspect, is_sent: bool) -> Explained:
        place = self.places[p]
        coordinator = self.coordinator(place.round)
        if self.rules.own_detector:
            return step if is_sent else None
        is_asked = coordinator in self.network.suspects[p]
        if is_sent and not is_asked:
            says = f"sends nack {place.instance}/{place.round}"
            return Difference("unasked", p, says, f"waits: its detector doesn't suspect member {coordinator}")
        return step if is_asked and (self.exact or is_sent) else None

    def _choice(self, account: Account, usual: Choose) -> Explained:
        """Whose estimate the member proposed: any with the largest ts will do."""
        p, place = account.p, self.places[account.p]
        at = place.instance, place.round
        heard = place.heard[at]
        to, letter = next((to, it) for to, it, _ in account.left if isinstance(it, Proposal) and (it.instance, it.round) == at)
        same = [q for q in sorted(heard) if heard[q].value == letter.value]
        allowed = [Choose(p, q) for q in same if not self.cause(Choose(p, q))]
        if allowed:
            return allowed[0]
        return self._accused(account, to, letter) if same or self.cause(usual) else usual

    def _take(self, step: Step, account: Account) -> Optional[Difference]:
        """The step is taken in the world, and what it sends and delivers is taken out of what is left."""
        p = step.member
        serials = self.take(step)
        for serial in serials:
            difference = self._match(step, serial, len(serials), account)
            if difference is None and self.rules.is_local and self.sent[serial][1] == p:
                difference = self._take(Receive(p, serial), account)
            if difference:
                return difference
        batch = self.batch
        there = tuple(account.delivered[:len(batch)]) if batch else ()
        if there == batch:
            del account.delivered[:len(batch)]
            return None
        did, ought = value_text(there) if there else "nothing", f"delivers {value_text(batch)}" + ", in this order" * (len(batch) > 1)
        return Difference("delivered", p, f"delivers {did}", ought, act=step.name, line=f"{p} {step.name} {did}" if there else "")

    def _match(self, step: Step, serial: int, count: int, account: Account) -> Optional[Difference]:
        """The envelope, one of so many of the step, is among what is left."""
        p, to, letter = self.sent[serial]
        for place, (whom, told, packet) in enumerate(account.left):
            if whom == to and same(told, letter):
                packet.serials.append(serial)
                del account.left[place]
                return None
        if to == p and self.rules.is_local:
            return None
        if letter.kind in self.rules.withholds:
            self.owed.add(serial)
            return None
        act = self.act(step)
        for whom, told, _ in account.left:
            if short(told) == short(letter):
                line = f"{p} {act}{carried(told)}" if isinstance(step, (Enter, Choose)) and told != letter else ""
                return Difference("unlike", p, f"sends {full(told)} to {whom}", f"sends {full(letter)} to {to}", act=act, line=line)
        receiver = "all" if count == self.n > 1 and not any(same(it, letter) for _, it, _ in account.left) else to
        ought = f"{doing(step)}: sends {full(letter)} to {receiver}"
        return Difference("missing", p, f"doesn't send {short(letter)} to {receiver}", ought, act=act)

    # What no step explains.

    def _leftover(self, account: Account) -> Optional[Difference]:
        for to, letter, packet in account.left:
            serial = self.serial_of(account.p, to, letter)
            if serial is None or not (serial in self.owed or self.rules.resends):
                return self._accused(account, to, letter)
            self.owed.discard(serial)
            packet.serials.append(serial)
        if not account.delivered:
            return None
        p = account.p
        cause = self.cause(DeliverStep(p)) or self.cause(Follow(p))
        return Difference("delivered", p, f"delivers {value_text(account.delivered)}", "delivers nothing more here", cause, "deliver")

    def _accused(self, account: Account, to: int, letter: Letter) -> Difference:
        """Why nothing sends this here."""
        p = account.p
        to = self._receiver(account, to, letter)
        says = f"sends {full(letter)} to {'all' if to == ALL else to}"
        if isinstance(letter, Data):
            has_come = letter.message in self.places[p].seen
            why = "it is the origin" if letter.message[0] == p else "it had received this before" if has_come else "it hasn't received this"
            return Difference("extra", p, says, f"sends nothing on: {why}")
        if self.serial_of(p, p if to == ALL else to, letter):
            return Difference("extra", p, says, "sends nothing: it has sent this before")
        step = self._step_of(p, letter)
        cause, act = (self.cause(step), self.act(step)) if step else ("", "")
        if cause:
            return Difference("refused", p, says, self.stands(p), cause, act, line=f"{p} {act}")
        acked = len(self.places[p].acked.get((letter.instance, letter.round), ()))
        if isinstance(letter, Decision) and 2 * acked <= self.n:
            return Difference("extra", p, says, f"decides nothing: {acked} of {self.n} acked", act=act)
        ought = f"takes the step `{act}` first" if isinstance(letter, Estimate) and step else "sends nothing such"
        return Difference("extra", p, says, f"{ought}: {self.stands(p)}", act=act)

    def _step_of(self, p: int, letter: OfRound) -> Optional[Step]:
        """The step that sends such a letter; None where it is of another round than the member's."""
        place = self.places[p]
        at, here = (letter.instance, letter.round), (place.instance, place.round)
        if isinstance(letter, Estimate):
            if at not in ((here[0], here[1] + 1), (here[0] + 1, 1)):
                return None
            return self._in_the_way(p) if place.is_open else Begin(p)
        if at != here:
            return None
        if isinstance(letter, Proposal):
            heard = place.heard.get(at, {})
            return Choose(p, min((q for q in heard if heard[q].value == letter.value), default=min(heard, default=p)))
        return Adopt(p) if isinstance(letter, Ack) else Suspect(p) if isinstance(letter, Nack) else Conclude(p)

    def _in_the_way(self, p: int) -> Step:
        """The step of its round that a member which enters the next one has to take first, and may not; else that it enters."""
        if self.awaited(p) == p:
            steps: Tuple[Step, ...] = (Choose(p, p), Conclude(p))
            for step in steps:
                if self.cause(step) in ("TooFew", "NotLargest"):
                    return step
        if self.awaited(p) in self.network.suspects[p] and not self.cause(Suspect(p)):
            return Suspect(p)
        return Adopt(p) if self.cause(Adopt(p)) == "NoProposal" else Enter(p)

    def _receiver(self, account: Account, to: int, letter: Letter) -> int:
        """The receiver, or ALL, where what is left has the letter for each member."""
        everyone = {q for q in self.network.all if q != account.p or not self.rules.is_local}
        return ALL if len(everyone) > 1 and {q for q, it, _ in account.left if it == letter} >= everyone else to


def doing(step: Step) -> str:
    names = {"receive": "sends it on, as it comes for the first time", "enter": "enters the round", "choose": "proposes",
             "adopt": "takes the proposal over", "suspect": "suspects its coordinator", "conclude": "decides", "submit": "broadcasts"}
    return names.get(step.name, step.name)


def registers(table: List[int]) -> str:
    """As schedules write a table."""
    return " ".join(f"{place}={it}" for place, it in enumerate(table) if it) or "-"
