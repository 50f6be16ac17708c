"""A run: the members under test, the network between them, and the judge, event by event."""
from __future__ import annotations

import re
import signal
import threading
import traceback
from itertools import islice
from typing import Any, Callable, Iterable, List, Optional, Tuple, Union

from .account import Account, Difference, Lockstep
from .letters import ALL, LETTERS, Letter, Name, message_name, ordered, short
from .members import Deliver, Member, Send
from .network import Event, Happening, Network, Packet
from .observed import Observed

Judge = Union[Lockstep, Observed]
Wire = Callable[[Any], Any]
CALM = 3000   # events of a calm end at most
TICKS = 4     # parts of the time for an event
ADDRESS = re.compile(r" at 0x[0-9a-fA-F]+")   # another one each time that the same is done


class Endless(BaseException):
    """Raised in a member that doesn't return."""


class Watchdog:
    """Looks after what members are told, where this is the main thread: `seconds` for an event."""

    def __init__(self, seconds: float) -> None:
        self._tick, self._is_on = seconds / TICKS, threading.current_thread() is threading.main_thread() and hasattr(signal, "setitimer")
        self._ticks = 0   # that an event has lasted
        self._is_inside = False

    def __enter__(self) -> Watchdog:
        if self._is_on:
            self._handler = signal.signal(signal.SIGALRM, self._ticked)
            self._timer = signal.setitimer(signal.ITIMER_REAL, self._tick, self._tick)
        return self

    def __exit__(self, *_: object) -> None:
        if self._is_on:
            signal.setitimer(signal.ITIMER_REAL, *self._timer)
            signal.signal(signal.SIGALRM, self._handler)

    def _ticked(self, *_: object) -> None:
        self._ticks += 1
        if self._is_inside and self._ticks > TICKS:
            raise Endless

    def call(self, function: Callable[..., Any], *given: Any) -> Any:
        self._ticks, self._is_inside = 0, True
        try:
            return function(*given)
        finally:
            self._is_inside = False
            if self._ticks > TICKS:   # whatever the member makes of it
                raise Endless


class Misused(Exception):
    """A member or `wire` gives something that the driver can't read."""


class Run:
    def __init__(self, make: Callable[[int, int], Member], wire: Optional[Wire], network: Network, judge: Judge, watchdog: Watchdog,
                 is_local: bool) -> None:
        self.network, self.judge, self._wire, self._watchdog = network, judge, wire, watchdog
        self._members = {p: make(p, network.n) for p in network.all}
        self._everyone = {p: [q for q in network.all if q != p or not is_local] for p in network.all}
        self._count = 0                   # packets, where they are opaque
        self.events: List[Event] = []
        self.calm_from: Optional[int] = None   # the place of the first event of the calm end

    def close(self) -> None:
        for it in self._members.values():
            it.close()
        if isinstance(self.judge, Lockstep):
            self.judge.world.close()

    def through(self, happenings: Iterable[Happening]) -> Optional[Difference]:
        """These happen; what the members do about them is explained, up to a difference."""
        for event, packet in happenings:
            self.events.append(event)
            self.network.happens(event, packet)
            if event.name in ("lose", "repeat", "crash"):
                self.judge.disturb(event, packet)
                continue
            difference = self._tell(event, packet)
            if difference:
                difference.event = event
                return difference
        return None

    def calm(self) -> Optional[Difference]:
        """From now on all goes well: those that crashed are suspected, nobody else, and all that waits comes. Then a member that has
        something to do never does it."""
        self.calm_from = len(self.events)
        difference = self.through(islice(self.network.calming(), CALM))
        return difference or (None if self.network.first() else self.judge.stuck())

    def _tell(self, event: Event, packet: Optional[Packet]) -> Optional[Difference]:
        p = event.member
        try:
            packets, delivered = self._watchdog.call(self._does, event, packet)
        except Endless:
            difference = Difference("endless", p, f"doesn't {self._members[p].ends}", "goes on")
        except Misused as error:
            difference = Difference("misused", p, ADDRESS.sub("", str(error)), "sends packets that `wire` reads, and delivers messages")
        except Exception as error:   # of the user's code
            at = traceback.extract_tb(error.__traceback__)[-1]
            says = f"raises {type(error).__name__}: {ADDRESS.sub('', str(error))} ({at.filename}:{at.lineno})"
            difference = Difference("raised", p, says, "goes on")
        else:
            has_delivered = bool(delivered)   # before what is explained is taken out
            explained = self.judge.explain(event, packet, Account(p, packets, delivered))
            for it in packets:
                self.network.waiting[it.to].append(it)
            table = self._members[p].table() if has_delivered and explained is None else None
            return explained if table is None else self.judge.table(p, table)
        self.judge.happens(event, packet, Account(p, [], []))   # so that the schedule has it
        return difference

    def _does(self, event: Event, packet: Optional[Packet]) -> Tuple[List[Packet], List[Name]]:
        """The member is told: what it sends, and delivers."""
        p, packets, delivered = event.member, [], []
        for effect in self._members[p].tell(event.name, packet.content if packet else event.what):
            if isinstance(effect, Send):
                packets += self._sent(p, *effect)
            elif isinstance(effect, Deliver):
                try:
                    delivered.append(message_name(effect.message))
                except ValueError as error:
                    raise Misused(f"delivers {error}") from None
            else:
                raise Misused(f"gives {effect!r}, which is neither Send(to, packet) nor Deliver((origin, number))")
        return packets, delivered

    def _sent(self, p: int, to: Any, packet: Any) -> List[Packet]:
        if to != ALL and to not in self.network.all:
            raise Misused(f"sends to {to!r}: 1 to {self.network.n}, or ALL, is due")
        letters: List[Letter] = []
        if self._wire is None:
            self._count += 1
            names: Tuple[str, ...] = (f"packet {self._count}",)
        else:
            letters = self._letters(self._wire, packet)
            names = tuple(map(short, letters))
        return [Packet(p, q, packet, letters, names) for q in (self._everyone[p] if to == ALL else (to,))]

    @staticmethod
    def _letters(wire: Wire, packet: Any) -> List[Letter]:
        try:
            told = wire(packet)
            several = told if isinstance(told, list) else [] if told is None else [told]
            letters = [ordered(it) for it in several if isinstance(it, LETTERS)]
        except Exception as error:   # of the user's code
            raise Misused(f"sends {packet!r}, of which `wire` raises {type(error).__name__}: {error}") from error
        if len(letters) < len(several):
            raise Misused(f"sends {packet!r}, of which `wire` gives {told!r}: a letter, a list of letters, or None is due")
        return letters
