"""Members for the driver's tests: right ones in three styles, and edits of them."""
from typing import Any, List


def execute(table: List[int], command: Any) -> None:
    """A command, on registers."""
    kind, first, second = command
    if kind == "set":
        table[first] = second
    elif kind == "add":
        table[first] = min(table[first] + second, 2**64 - 1)
    else:
        table[second] = table[first]
