"""Sessions."""
from __future__ import annotations

from ctypes import byref, create_string_buffer, string_at
from typing import Optional, Protocol

from . import library
from .refusal import LineRefused, NoWorld
from .tool import Pipe, found, output, serials

TOO_LONG = "the run is too long for a diagram"
NO_LINE = "that is not one line, or a question was told"
TAKEN = ("ok", "enabled", "next", "state", "waiting", "report", "record", "limits")   # how an answer to a line that was taken begins
SETTING = ("members", "cells", "batch")   # the lines that say what the world is made of


class _Engine(Protocol):
    """What a session is told to."""

    def ask(self, line: str) -> str:
        """The answer to the line, without its line feed."""

    def record(self) -> str:
        """The record so far."""

    def diagram(self) -> str:
        """The diagram so far."""

    def close(self) -> int:
        """Ends it, and gives a status."""


class LibrarySession:
    """A session over libct.so."""

    def __init__(self) -> None:
        self._handle = library.Handle()
        self._at = byref(self._handle)
        self._room = create_string_buffer(4096)
        self._tell, self._answers, self._close = map(library.call, ("ct_tell", "ct_answers", "ct_session_close"))
        if library.call("ct_session_open")(self._at):
            raise MemoryError

    def tell(self, data: bytes) -> bytes:
        """The answers to the lines that these bytes end."""
        self._took(self._tell(self._at, data, len(data)))
        return self._waiting()

    def _waiting(self) -> bytes:
        """The bytes that wait to be copied."""
        length = self._answers(self._at, self._room, len(self._room))
        if length > len(self._room):
            self._room = create_string_buffer(length)
            self._answers(self._at, self._room, length)
        return string_at(self._room, length)

    @staticmethod
    def _took(status: int) -> None:
        if status == library.NOT_OPEN:
            raise ValueError("the session is closed")
        if status == library.NO_WORLD:
            raise NoWorld("no step was told yet")
        if status == library.TOO_LONG:
            raise ValueError(TOO_LONG)
        if status:
            raise MemoryError() if status == library.OUT_OF_MEMORY else OSError("board refused")

    def ask(self, line: str) -> str:
        return self.tell(line.encode() + b"\n").decode()[:-1]

    def record(self) -> str:
        self._took(library.call("ct_record")(self._at))
        return self._waiting().decode()

    def diagram(self) -> str:
        self._took(library.call("ct_diagram")(self._at))
        return self._waiting().decode()

    def close(self) -> int:
        self._close(self._at)
        return 0

    def __del__(self) -> None:
        if hasattr(self, "_handle"):
            self.close()


class ToolSession:
    """A session over a pipe."""

    def __init__(self, program: str) -> None:
        self._pipe = Pipe(program)
        self._has_world = False   # it is made at the first line that is taken and is none of SETTING

    def ask(self, line: str) -> str:
        answer = self._pipe.ask(line)
        words = line.split()
        if words and not words[0].startswith("#") and words[0] not in SETTING and answer.split(" ")[0] in TAKEN:
            self._has_world = True
        return answer

    def record(self) -> str:
        if not self._has_world:
            raise NoWorld("no step was told yet")
        return self._pipe.ask("record").partition(" ")[2]

    def diagram(self) -> str:
        try:
            return output(self._pipe.tool, ["diagram"], self.record())
        except OSError as error:
            if "too many to draw" in str(error):
                raise ValueError(TOO_LONG) from None
            raise

    def close(self) -> int:
        return self._pipe.close()


class Session:
    """A run that is judged line by line, as `ct_tool interact` judges it (docs/SCHEDULES.md).

    record: the file that the record is written to in the end. tool: the program `ct_tool`, to be used in place of the library. Use it in
    `with`, or `close` it.
    """

    def __init__(self, record: Optional[str] = None, *, tool: Optional[str] = None) -> None:
        self.lines = 0   # lines told, the refused ones too
        self._record = record
        if record:
            open(record, "a").close()   # so that what can't be written is told now
        self._engine: _Engine
        if library.IN_PROCESS and tool is None:
            self._engine = LibrarySession()
        else:
            self._engine = ToolSession(found(tool))

    def tell(self, line: str, *, sent: Optional[int] = None) -> range:
        """The serials of the envelopes that the line's steps sent, or LineRefused. sent: how many the program under test sent; where that
        is another number the line was taken, and LineRefused is raised all the same."""
        told = serials(self.ask(line))
        if told is None:
            raise ValueError(NO_LINE)
        if sent is not None and sent != len(told):
            raise LineRefused(self.lines, line.strip(), f"sent {sent}, the algorithm sends {len(told)}")
        return told

    def ask(self, line: str) -> str:
        """The answer to the line, without its line feed, or LineRefused."""
        line = line.rstrip("\n")
        if "\n" in line:
            raise ValueError(NO_LINE)
        self.lines += 1
        try:
            answer = self._engine.ask(line)
        except EOFError:
            raise EOFError(f"line {self.lines}: {line}: no answer") from None
        if answer.split(" ")[0] not in TAKEN:
            raise LineRefused(self.lines, line.strip(), answer)
        return answer

    def record(self) -> str:
        """The record of the steps so far: JSON, without a line feed; NoWorld where no step was told yet."""
        return self._engine.record()

    def diagram(self) -> str:
        """The diagram of the steps so far, as SVG; NoWorld where no step was told yet, ValueError where they are too many."""
        return self._engine.diagram()

    def close(self) -> int:
        """Ends the session, with its record where it has steps, and gives its status, 0 where all is well."""
        try:
            if self._record:
                path, self._record = self._record, None
                record = self.record()
                with open(path, "w", encoding="utf-8") as file:
                    file.write(record + "\n")
        except (NoWorld, ValueError, EOFError):
            pass   # there is none, as where the session has ended
        finally:
            status = self._engine.close()
        return status

    def __enter__(self) -> Session:
        return self

    def __exit__(self, *_: object) -> None:
        self.close()
