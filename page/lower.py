#!/usr/bin/env python3
"""Lowers a WebAssembly module with 64-bit memory to one with 32-bit memory, which more engines take, and which they run quicker: each
address is cut to its lower half where it is used, and the size of the memory is widened. Functions keep their types, and data its layout.

    lower.py MODULE OUT

The table goes. A module that uses it, or has an instruction that isn't known here, is refused.
"""
import sys
from typing import Dict, List, Tuple

I32, I64, F32, F64, V128 = 0x7F, 0x7E, 0x7D, 0x7C, 0x7B
WRAP, SIGNED, UNSIGNED = b"\xa7", b"\xac", b"\xad"   # i32.wrap_i64, i64.extend_i32_s, i64.extend_i32_u
GET, SET = b"\x20", b"\x21"                          # of a local
STORES = {0x36: I32, 0x37: I64, 0x38: F32, 0x39: F64, 0x3A: I32, 0x3B: I32, 0x3C: I64, 0x3D: I64, 0x3E: I64}
ONE_NUMBER = {0x02, 0x03, 0x04, 0x0C, 0x0D, 0x10, 0x20, 0x21, 0x22, 0x23, 0x24, 0x41, 0x42}   # instructions with one number behind them
SIZE, GROW, BR_TABLE, SELECT, F32_CONST, F64_CONST, BULK, VECTOR = 0x3F, 0x40, 0x0E, 0x1C, 0x43, 0x44, 0xFC, 0xFD
UNKNOWN = {0x11, 0x25, 0x26, *range(0xC5, 0x100)}    # those with a table among them
COPY, FILL = 10, 11
TYPES, FUNCTIONS, TABLE, MEMORY, ELEMENTS, CODE, DATA = 1, 3, 4, 5, 9, 10, 11


class Reader:
    """Bytes that are read from the front on."""

    def __init__(self, data: bytes) -> None:
        self.data, self.at = data, 0

    def take(self, count: int) -> bytes:
        self.at += count
        return self.data[self.at - count:self.at]

    def byte(self) -> int:
        return self.take(1)[0]

    def number(self) -> int:
        found = shift = 0
        while True:
            byte = self.byte()
            found |= (byte & 127) << shift
            shift += 7
            if byte < 128:
                return found


def number(value: int) -> bytes:
    """As short as it can be, which the linker's are not."""
    out = bytearray()
    while value > 127:
        out.append(value & 127 | 128)
        value >>= 7
    return bytes(out) + bytes([value])


class Function:
    """The body of a function with so many parameters."""

    def __init__(self, body: bytes, parameters: int) -> None:
        self.read = Reader(body)
        self.groups = [(self.read.number(), self.read.byte()) for _ in range(self.read.number())]
        self.next = parameters + sum(count for count, _ in self.groups)
        self.own: Dict[Tuple[int, int], bytes] = {}

    def lowered(self) -> bytes:
        out = bytearray()
        while self.read.at < len(self.read.data):
            out += self.instruction()
        groups = b"".join(number(count) + bytes([kind]) for count, kind in self.groups)
        return number(len(self.groups)) + groups + bytes(out)

    def local(self, kind: int, which: int = 0) -> bytes:
        """A local of this type that the function had not."""
        if (kind, which) not in self.own:
            self.own[kind, which] = number(self.next)
            self.groups.append((1, kind))
            self.next += 1
        return self.own[kind, which]

    def under(self, kind: int) -> bytes:
        """Cuts the address that lies below a value of this type."""
        value = self.local(kind)
        return SET + value + WRAP + GET + value

    def place(self) -> bytes:
        align, offset = self.read.number(), self.read.number()
        if align & 64 or offset >> 32:
            raise ValueError("a place in another memory, or beyond 4 GB")
        return number(align) + number(offset)

    def instruction(self) -> bytes:
        begin, code = self.read.at, self.read.byte()
        if 0x28 <= code <= 0x3E:
            return (self.under(STORES[code]) if code in STORES else WRAP) + bytes([code]) + self.place()
        if code == BULK:
            return self.bulk(begin)
        if code == VECTOR:
            return self.vector()
        if code in UNKNOWN:
            raise ValueError(f"the instruction {code:#x}")
        if code in ONE_NUMBER or code in (SIZE, GROW):
            self.read.number()
        elif code == BR_TABLE:
            for _ in range(self.read.number() + 1):
                self.read.number()
        elif code in (SELECT, F32_CONST, F64_CONST):
            self.read.take({F32_CONST: 4, F64_CONST: 8}.get(code) or self.read.number())
        same = self.read.data[begin:self.read.at]
        return same + UNSIGNED if code == SIZE else WRAP + same + SIGNED if code == GROW else same

    def bulk(self, begin: int) -> bytes:
        """A copy or a fill of memory, whose size lies above a place, or a byte, above a place; or a number that is cut."""
        code = self.read.number()
        if code > 7 and code not in (COPY, FILL):
            raise ValueError(f"the instruction {BULK:#x} {code}")
        self.read.take({COPY: 2, FILL: 1}.get(code, 0))
        same = self.read.data[begin:self.read.at]
        if code <= 7:
            return same
        size, middle = self.local(I32), self.local(I32, 1)
        return WRAP + SET + size + (WRAP if code == COPY else b"") + SET + middle + WRAP + GET + middle + GET + size + same

    def vector(self) -> bytes:
        code = self.read.number()
        has_lane, has_value = 84 <= code <= 91, code == 11 or 84 <= code <= 91
        out = bytes([VECTOR]) + number(code)
        if code <= 11 or 84 <= code <= 93:
            out = (self.under(V128) if has_value else WRAP) + out + self.place()
        count = 16 if code in (12, 13) else 1 if 21 <= code <= 34 or has_lane else 0
        return out + self.read.take(count)


def parameters(body: bytes) -> List[int]:
    """How many parameters each type has."""
    read, found = Reader(body), []
    for _ in range(read.number()):
        read.byte()
        found.append(len(read.take(read.number())))
        read.take(read.number())
    return found


def functions(body: bytes, counts: List[int]) -> bytes:
    read = Reader(body)
    read.number()
    bodies = [Function(read.take(read.number()), count).lowered() for count in counts]
    return number(len(bodies)) + b"".join(number(len(it)) + it for it in bodies)


def data(body: bytes) -> bytes:
    """Segments, each at a constant."""
    read = Reader(body)
    out = bytearray(number(read.number()))
    while read.at < len(body):
        if read.take(2) != b"\x00\x42":
            raise ValueError("a segment of data at no constant")
        begin = read.at
        read.number()
        out += b"\x00\x41" + body[begin:read.at] + read.take(1)
        size = read.number()
        out += number(size) + read.take(size)
    return bytes(out)


def lowered(module: bytes) -> bytes:
    read, counts, types = Reader(module), [], []
    out = bytearray(read.take(8))
    while read.at < len(module):
        kind, body = read.byte(), read.take(read.number())
        if kind == TYPES:
            types = parameters(body)
        elif kind == FUNCTIONS:
            inner = Reader(body)
            counts = [types[inner.number()] for _ in range(inner.number())]
        elif kind == MEMORY:
            body = body[:1] + bytes([body[1] & 3]) + body[2:]   # without the bit of 64-bit memory
        elif kind == CODE:
            body = functions(body, counts)
        elif kind == DATA:
            body = data(body)
        if kind not in (TABLE, ELEMENTS):
            out += bytes([kind]) + number(len(body)) + body
    return bytes(out)


def main() -> int:
    with open(sys.argv[1], "rb") as file:
        module = file.read()
    try:
        made = lowered(module)
    except ValueError as fault:
        sys.exit(f"lower.py: {sys.argv[1]}: {fault} has no lowered form here")
    with open(sys.argv[2], "wb") as file:
        file.write(made)
    return 0


if __name__ == "__main__":
    sys.exit(main())
