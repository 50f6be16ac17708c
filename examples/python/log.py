"""The log of a member, for `ct_tool merge`: each method writes the line of one act, before it returns (docs/LOGS.md)."""
from __future__ import annotations

import os
from typing import Any, Iterable, Optional, Sequence, Tuple

Message = Tuple[Any, ...]   # its origin, its number there, and whatever the program keeps behind them


def value_text(value: Iterable[Message]) -> str:
    return "{" + ",".join(f"{message[0]}.{message[1]}" for message in value) + "}"


class Log:
    """Opens a new file; where there is one, FileExistsError: a member that comes back has forgotten what it promised, and is none
    any more. What was written outlasts a kill -9, with `sync` also a loss of power. numbers: `cells` and `batch` of the group."""

    def __init__(self, path: str, member: int, members: int, sync: bool = False, **numbers: int) -> None:
        self.file = os.open(path, os.O_WRONLY | os.O_CREAT | os.O_EXCL | os.O_APPEND, 0o644)
        self.member, self.sync = member, sync
        for word, number in {"members": members, **numbers}.items():
            self.write(f"{word} {number}\n")

    def write(self, text: str) -> None:
        if os.write(self.file, text.encode()) != len(text):   # one call, so that a kill leaves all of a line or nothing
            raise OSError("the log has no room")
        if self.sync:
            os.fdatasync(self.file)

    def close(self) -> None:
        os.close(self.file)

    def act(self, *words: Any, value: Optional[Iterable[Message]] = None, ts: Optional[int] = None) -> None:
        stated = [] if value is None else [value_text(value)]
        stated += [] if ts is None else ["ts", ts]
        self.write(" ".join(map(str, (self.member, *words, *stated))) + "\n")

    def submit(self, command: Sequence[Any]) -> None:
        self.act("submit", *command)

    def receive_data(self, message: Message, sender: int, command: Sequence[Any] = ()) -> None:
        self.act("receive data", f"{message[0]}.{message[1]}", "from", sender, *command)

    def receive(self, kind: str, instance: int, round: int, sender: int, value: Optional[Iterable[Message]] = None,
                ts: Optional[int] = None) -> None:
        """kind: est with a value and a ts, prop or dec with a value, ack or nack. sender: whose step sent it."""
        self.act("receive", kind, f"{instance}/{round}", "from", sender, value=value, ts=ts)

    def begin(self, proposal: Iterable[Message]) -> None:
        self.act("begin", value=proposal)

    def enter(self, estimate: Iterable[Message], ts: int) -> None:
        self.act("enter", value=estimate, ts=ts)

    def choose(self, sender: int, estimate: Iterable[Message]) -> None:
        self.act("choose", sender, value=estimate)

    def adopt(self, proposal: Iterable[Message], round: int) -> None:
        self.act("adopt", value=proposal, ts=round)

    def suspect(self) -> None:
        self.act("suspect")

    def conclude(self) -> None:
        self.act("conclude")

    def deliver(self, batch: Iterable[Message]) -> None:
        """batch: in the order in which it is delivered; follow likewise."""
        self.act("deliver", value=batch)

    def follow(self, batch: Iterable[Message]) -> None:
        self.act("follow", value=batch)
