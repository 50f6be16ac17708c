"""The calls of libct.so, as bindings/ct.h declares them; what they and their numbers mean stands there."""
from __future__ import annotations

import ctypes
import os
from ctypes import POINTER, c_bool, c_char_p, c_size_t, c_uint16, c_uint32, c_uint64, c_uint8, c_void_p
from typing import Any, Callable, List, Optional

DONE, OUT_OF_MEMORY, BOARD, NOT_OPEN, BAD_SETUP, NO_WORLD, TOO_LONG, BAD_OPTIONS, NO_TRIAL = 0, 23, 24, 25, 28, 29, 30, 32, 33
NONE = ctypes.c_size_t(-1).value
FEW = 8   # elements of a list for which there is room at first


class Handle(ctypes.Structure):
    """A world, a walk, a shrinker or a session: zeros at first."""

    _fields_ = [("at", c_void_p), ("is_open", c_bool)]


class StepNumbers(ctypes.Structure):
    _fields_ = [("c", c_uint64), ("a", c_uint32), ("b", c_uint8), ("kind", c_uint8), ("member", c_uint8)]


class Effect(ctypes.Structure):
    _fields_ = [("refusal", c_uint32), ("first", c_uint32), ("count", c_uint32)]


class MessageNumbers(ctypes.Structure):
    _fields_ = [("value", c_uint64), ("number", c_uint32), ("origin", c_uint8), ("command", c_uint8), ("reg", c_uint8)]


class Letter(ctypes.Structure):
    _fields_ = [("message", MessageNumbers), ("instance", c_uint32), ("round", c_uint32), ("ts", c_uint32), ("kind", c_uint8),
                ("to", c_uint8), ("source", c_uint8)]


class StandingNumbers(ctypes.Structure):
    _fields_ = [("instance", c_uint32), ("round", c_uint32), ("ts", c_uint32), ("heard_ts", c_uint32 * 16), ("heard", c_uint16),
                ("acked", c_uint16), ("replied", c_uint16), ("member", c_uint8), ("phase", c_uint8), ("has_crashed", c_bool)]


class WalkNumbers(ctypes.Structure):
    _fields_ = [*((name, c_uint32) for name in ("turns", "seed", "batch", "every")),
                *((name, c_uint16) for name in ("rate", "cells", "submit", "postpone", "lose", "repeat", "scatter", "lasting", "cut")),
                *((name, c_uint8) for name in ("members", "crash", "crashes"))]


class TurnNumbers(ctypes.Structure):
    _fields_ = [("step", StepNumbers), ("kind", c_uint8)]


_AT = POINTER(Handle)
_STEP = [_AT, c_uint8, c_uint8, c_uint32, c_uint8, c_uint64]
_CALLS = {
    "ct_world_open": (c_uint32, [_AT, c_uint8, c_uint16, c_uint32]),
    "ct_world_close": (None, [_AT]),
    "ct_copy": (c_uint32, [_AT, _AT]),
    "ct_apply": (Effect, _STEP),
    "ct_enabled": (c_uint32, _STEP),
    "ct_next": (StepNumbers, [_AT, c_uint8]),
    "ct_standing_of": (StandingNumbers, [_AT, c_uint8]),
    "ct_steps": (c_size_t, [_AT, c_size_t, POINTER(StepNumbers), c_size_t]),
    "ct_waiting": (c_size_t, [_AT, c_uint8, POINTER(c_uint32), c_size_t]),
    "ct_envelope": (Letter, [_AT, c_uint32]),
    "ct_value": (c_size_t, [_AT, c_uint32, POINTER(MessageNumbers), c_size_t]),
    "ct_received": (c_size_t, [_AT, c_uint8, POINTER(MessageNumbers), c_size_t]),
    "ct_decided": (c_size_t, [_AT, c_uint8, c_uint32, POINTER(MessageNumbers), c_size_t]),
    "ct_delivered": (c_size_t, [_AT, c_uint8, POINTER(MessageNumbers), c_size_t]),
    "ct_table": (c_size_t, [_AT, c_uint8, POINTER(c_uint64), c_size_t]),
    "ct_walk_open": (c_uint32, [_AT, POINTER(WalkNumbers)]),
    "ct_walk_close": (None, [_AT]),
    "ct_walk_turn": (TurnNumbers, [_AT, _AT]),
    "ct_shrink_open": (c_uint32, [_AT, _AT, c_bool, c_uint32]),
    "ct_shrink_close": (None, [_AT]),
    "ct_shrink_next": (c_uint32, [_AT]),
    "ct_shrink_turn": (TurnNumbers, [_AT, _AT]),
    "ct_shrink_told": (c_uint32, [_AT, _AT, c_bool]),
    "ct_shrink_is_least": (c_bool, [_AT]),
    "ct_session_open": (c_uint32, [_AT]),
    "ct_session_close": (None, [_AT]),
    "ct_tell": (c_uint32, [_AT, c_char_p, c_size_t]),
    "ct_answers": (c_size_t, [_AT, c_void_p, c_size_t]),
    "ct_record": (c_uint32, [_AT]),
    "ct_diagram": (c_uint32, [_AT]),
}


def _load() -> Optional[ctypes.PyDLL]:
    """The library, or None where there is none that can be loaded. Its calls hold the interpreter's lock, so there is one at a time."""
    here = os.path.dirname(os.path.abspath(__file__))
    named = os.environ.get("CT_LIB")
    paths = [named] if named else [os.path.join(here, "libct.so"), os.path.join(here, "..", "..", "out", "libct.so")]
    for path in paths:
        if named or os.path.exists(path):
            try:
                library = ctypes.PyDLL(path)
            except OSError:
                if named:
                    raise
                continue   # that of another machine, or of a part of a file
            for name, (gives, takes) in _CALLS.items():
                call = getattr(library, name)
                call.restype, call.argtypes = gives, takes
            return library
    return None


_LIBRARY = None if os.environ.get("CT_LIB") == "" else _load()
IN_PROCESS = _LIBRARY is not None


def call(name: str) -> Any:
    """The call of this name."""
    return getattr(_LIBRARY, name)


def elements(kind: Any, fill: Callable[[Any, int], int]) -> Optional[List[Any]]:
    """The elements that `fill` writes, or None where it says that there is no such list. It takes a room and its length, writes no more
    than that, and answers how many elements there are."""
    room = (kind * FEW)()
    count = fill(room, FEW)
    if count == NONE:
        return None
    if count > FEW:
        room = (kind * count)()
        fill(room, count)
    written: List[Any] = room[:count]
    return written
