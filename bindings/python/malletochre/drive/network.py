"""Events, and the network between the members under test: what is on its way, and what was received or lost."""
from __future__ import annotations

from copy import copy
from typing import Any, Dict, Iterable, Iterator, List, NamedTuple, Optional, Set, Tuple

from .letters import Letter

NETWORK = ("receive", "lose", "repeat")
DETECTOR = ("suspect", "trust")


class Event(NamedTuple):
    """Something that comes to a member from outside."""

    name: str         # submit, receive, lose, repeat, suspect, trust or crash
    member: int
    what: Any = None  # the command; the names of the letters in the packet; whom the failure detector suspects or trusts
    sender: int = 0   # of the packet


class Packet:
    """What a member sent to one member, and its envelopes in the world."""

    __slots__ = ("sender", "to", "content", "letters", "names", "serials")

    def __init__(self, sender: int, to: int, content: Any, letters: List[Letter], names: Tuple[str, ...]) -> None:
        self.sender, self.to, self.content, self.letters, self.names = sender, to, content, letters, names
        self.serials: List[int] = []   # which its copies share


Happening = Tuple[Event, Optional[Packet]]   # and the packet that it is about


def about(name: str, packet: Packet) -> Happening:
    return Event(name, packet.to, packet.names, packet.sender), packet


class Network:
    """Who is up, what waits at each, and what the failure detectors say."""

    def __init__(self, members: int) -> None:
        self.n = members
        self.all = range(1, members + 1)
        self.up = list(self.all)
        self.waiting: Dict[int, List[Packet]] = {p: [] for p in self.all}
        self.gone: Dict[int, List[Packet]] = {p: [] for p in self.all}
        self.suspects: Dict[int, Set[int]] = {p: set() for p in self.all}

    def possible(self, events: Iterable[Event]) -> Iterator[Happening]:
        """Those of the events that can happen, as things are by then."""
        for event in events:
            if event.member not in self.up:
                continue
            if event.name in NETWORK:
                packet = self._find(event)
                if packet:
                    yield about(event.name, packet)
            elif event.name not in DETECTOR or (event.what in self.suspects[event.member]) == (event.name == "trust"):
                yield event, None

    def _find(self, event: Event) -> Optional[Packet]:
        """The first packet that is so named; where none is from that sender, the first from another one."""
        named = [it for it in (self.gone if event.name == "repeat" else self.waiting)[event.member] if it.names == event.what]
        return next((it for it in named if it.sender == event.sender), named[0] if named else None)

    def calming(self) -> Iterator[Happening]:
        """The events of a calm end: those that crashed are suspected and nobody else, then all that waits comes."""
        down = set(self.all).difference(self.up)
        for p in self.up:
            for q in sorted(self.suspects[p] ^ down):
                yield Event("trust" if q in self.up else "suspect", p, q), None
        for packet in iter(self.first, None):
            yield about("receive", packet)

    def first(self) -> Optional[Packet]:
        """The first that waits at a member which is up."""
        return next((self.waiting[p][0] for p in self.up if self.waiting[p]), None)

    def happens(self, event: Event, packet: Optional[Packet]) -> None:
        name, p = event.name, event.member
        if packet and name == "repeat":
            self.waiting[p].append(copy(packet))
        elif packet:
            self.waiting[p].remove(packet)
            self.gone[p].append(packet)
        elif name in DETECTOR:
            (self.suspects[p].add if name == "suspect" else self.suspects[p].discard)(event.what)
        elif name == "crash":
            self.up.remove(p)


def event_text(event: Event) -> str:
    """`2 receive est 1/1 from 1`, `1 suspects 2`; of a packet of several letters `2 receive est 1/1, ack 1/1 from 3`, of none `-`."""
    name, p = event.name, event.member
    if name == "submit":
        return f"{p} submit " + " ".join(map(str, event.what))
    if name in NETWORK:
        return f"{p} {name} {', '.join(event.what) or '-'} from {event.sender}"
    return f"{p} {name}s {event.what}" if name in DETECTOR else f"{p} crash"
