"""How far a search is, on a terminal."""
from __future__ import annotations

import sys
import time
from typing import Callable, Optional

EACH = 0.5   # seconds
write: Optional[Callable[[str], None]] = None   # in place of standard error, where a test runner has that


def _error(text: str) -> None:
    sys.stderr.write(text)
    sys.stderr.flush()


class Progress:
    """A line, of 39 columns at most, that is written anew, and wiped out in the end."""

    def __init__(self) -> None:
        self._begun = self._last = time.monotonic()
        self._write = write or (_error if sys.stderr.isatty() else None)
        self._length = 0

    def __enter__(self) -> Progress:
        return self

    def tell(self, text: Callable[[float], str]) -> None:
        """What there is to tell, of the seconds since the beginning."""
        now = time.monotonic()
        if self._write and now >= self._last + EACH:
            told, before = text(now - self._begun), self._length
            self._last, self._length = now, len(told)   # before it is written: a ^C may come in the midst of that
            self._write("\r" + told.ljust(before))

    def __exit__(self, *_: object) -> None:
        if self._write and self._length:
            self._write("\r" + " " * (self._length + len("^C")) + "\r")
