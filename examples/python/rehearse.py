#!/usr/bin/env python3
"""Runs broadcast.py against a session of the package `malletochre` (bindings/python), which judges each step as it happens.

    rehearse.py [--tool PROGRAM] [--runs R] [--members N] [--seed S] [--turns T] [--submit M] [--crash C]

The session is in process where bindings/build.sh has made the library, else, and with --tool, over a pipe to `ct_tool`. With --runs R runs
the seeds S, S + 1, .. are rehearsed. Ends with status 0 where each step is allowed and each member delivered what
the judge says, else with the first line that is refused and status 1; where PROGRAM doesn't start or answer with status 2.
"""
from __future__ import annotations

import argparse
import os
import sys
from typing import Tuple

import broadcast

sys.path.insert(0, os.path.join(os.path.dirname(os.path.realpath(__file__)), "..", "..", "bindings", "python"))
from malletochre import LineRefused, Session   # noqa: E402


def rehearse(options: argparse.Namespace) -> Tuple[int, int]:
    """The number of lines, and of messages that the member with most of them delivered."""
    with Session(tool=options.tool) as judge:
        run = broadcast.Run(options, judge.tell)
        run.play()
        for line in run.expectations():
            judge.tell(line)
        return judge.lines, max(len(member.delivered) for member in run.members.values())


def main() -> int:
    made = broadcast.parser(__doc__)
    made.add_argument("--tool", metavar="PROGRAM", help="the built ct_tool, to be used in place of the library")
    made.add_argument("--runs", type=int, default=1, metavar="R", help="how many seeds (default 1)")
    options = broadcast.parsed(made)
    for options.seed in range(options.seed, options.seed + options.runs):
        try:
            lines, delivered = rehearse(options)
        except LineRefused as fault:
            print(f"seed {options.seed}, {fault}", file=sys.stderr)
            return 1
        except (OSError, EOFError) as error:
            print(error, file=sys.stderr)
            return 2
        print(f"seed {options.seed}: {lines} lines, {delivered} delivered")
    return 0


if __name__ == "__main__":
    sys.exit(main())
