#!/usr/bin/env python3
"""steps.py FILE: does the steps of a file by typed calls, and prints the record that the world has then. The file has the numbers of
members, of cells and the bound, and then five numbers a step, as bindings/tests/inputs.py writes them. The steps a second go to standard
error."""
import os
import sys
import time

sys.path.insert(0, os.path.join(os.path.dirname(os.path.abspath(__file__)), ".."))

from malletochre import World   # noqa: E402
from malletochre.steps import step_of_numbers   # noqa: E402


def main() -> None:
    with open(sys.argv[1], encoding="utf-8") as file:
        setup = map(int, file.readline().split())
        steps = [step_of_numbers(*map(int, line.split())) for line in file]
    with World(*setup) as world:
        apply = world.apply
        start = time.perf_counter()
        for step in steps:
            apply(step)
        took = time.perf_counter() - start
        print(f"Python: {len(steps)} steps, {took:.3f} s, {len(steps) / took:.0f} steps/s", file=sys.stderr)
        print(world.record())


if __name__ == "__main__":
    main()
