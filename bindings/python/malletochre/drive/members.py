"""The members under test, as the driver holds them: an event in, what the member sent and delivered out. Three styles are held:

- handlers that return what is to be sent and delivered, any iterable of Send and Deliver: a class made of (number, members);
- handlers that send and deliver by an Outbox, and return nothing: a class made of (number, members, outbox);
- a task, `async def run(self, inbox)`, in the latter's place: it takes (name, content) out of an asyncio.Queue, as ("receive", packet), and
  calls `task_done` once it has dealt with that.

The handlers are on_submit(command), on_receive(packet), on_suspect(member), on_trust(member). `table`, a method or an attribute, is the
16 registers, where there is one."""
from __future__ import annotations

import asyncio
import inspect
import os
from typing import Any, Callable, Dict, List, NamedTuple, Optional, Tuple, Union

from .letters import Name

EVENTS = ("submit", "receive", "suspect", "trust")


class Send(NamedTuple):
    """A packet leaves, to a member or, with ALL, to each of the group."""

    to: int
    packet: Any


class Deliver(NamedTuple):
    """A message, (origin, number), is delivered to the state machine."""

    message: Name


Make = Callable[..., Any]   # a class of members, or a function of a number and how many there are


class Outbox:
    """What a member sends and delivers by."""

    def __init__(self) -> None:
        self._effects: List[Union[Send, Deliver]] = []

    def send(self, to: int, packet: Any) -> None:
        self._effects.append(Send(to, packet))

    def deliver(self, message: Name) -> None:
        self._effects.append(Deliver(message))

    def taken(self) -> List[Union[Send, Deliver]]:
        effects, self._effects = self._effects, []
        return effects


class Member:
    """A member, whatever its style."""

    ends = "return"   # what it does once an event is dealt with

    def __init__(self, made: Any, outbox: Outbox) -> None:
        self._made, self._outbox = made, outbox

    def tell(self, name: str, content: Any) -> List[Any]:
        """The event happens: what the member does about it."""
        raise NotImplementedError

    def table(self) -> Optional[List[int]]:
        table = getattr(self._made, "table", None)
        table = table() if callable(table) else table
        return None if table is None else list(table)

    def close(self) -> None:
        pass


class _Handlers(Member):
    def __init__(self, made: Any, outbox: Outbox) -> None:
        super().__init__(made, outbox)
        self._handlers: Dict[str, Callable[[Any], Any]] = {}
        for name in EVENTS:
            handler = getattr(made, f"on_{name}", None)
            if handler is None and name in ("submit", "receive"):
                raise TypeError(f"{type(made).__name__} has neither a handler on_{name} nor a task `async def run(self, inbox)`")
            if inspect.iscoroutinefunction(handler):
                raise TypeError(f"{type(made).__name__}.on_{name} is async, which is for a task, `async def run(self, inbox)`, to await")
            self._handlers[name] = handler or (lambda _: None)

    def tell(self, name: str, content: Any) -> List[Any]:
        returned = self._handlers[name](content)
        if isinstance(returned, (Send, Deliver)) or returned is not None and not hasattr(returned, "__iter__"):
            returned = [returned]
        return [*(returned or ()), *self._outbox.taken()]


class _Task(Member):
    """The loop runs until the inbox is dealt with, so what the member does about an event is known before the next one comes."""

    ends = "call task_done"
    _loop: Optional[asyncio.AbstractEventLoop] = None

    def __init__(self, made: Any, outbox: Outbox) -> None:
        super().__init__(made, outbox)
        if _Task._loop is None:
            _Task._loop = asyncio.new_event_loop()
        self._on = _Task._loop
        self._inbox: "asyncio.Queue[Tuple[str, Any]]" = asyncio.Queue()
        self._task = self._on.create_task(made.run(self._inbox))

    def tell(self, name: str, content: Any) -> List[Any]:
        self._inbox.put_nowait((name, content))
        done = self._on.create_task(self._inbox.join())
        self._on.run_until_complete(asyncio.wait([done, self._task], return_when=asyncio.FIRST_COMPLETED))
        if self._task.done():
            done.cancel()
            self._task.result()   # raises what the task raised
            raise RuntimeError("the member's task ended")
        return self._outbox.taken()

    def close(self) -> None:
        """Ends its task, and those that it began; of the whole group at once, whose loop it is."""
        if self._task.done() and not self._task.cancelled():
            self._task.exception()   # as where a ^C came in it; else the loop tells of it, too
        tasks = asyncio.all_tasks(self._on)
        for it in tasks:
            it.cancel()
        if tasks:
            self._on.run_until_complete(asyncio.wait(tasks, timeout=1))


if hasattr(os, "register_at_fork"):   # a process of its own has a loop of its own
    os.register_at_fork(after_in_child=lambda: setattr(_Task, "_loop", None))


def held(make: Make) -> Callable[[int, int], Member]:
    """What makes the member of a number in a group of so many."""
    kinds = (inspect.Parameter.POSITIONAL_ONLY, inspect.Parameter.POSITIONAL_OR_KEYWORD)
    try:
        third = [it for it in inspect.signature(make).parameters.values() if it.kind in kinds][2:3]
    except (TypeError, ValueError):
        third = []
    wants_outbox = any(it.default is it.empty or it.name == "outbox" for it in third)

    def member(number: int, members: int) -> Member:
        outbox = Outbox()
        made = make(number, members, outbox) if wants_outbox else make(number, members)
        return (_Task if inspect.iscoroutinefunction(getattr(made, "run", None)) else _Handlers)(made, outbox)

    return member
