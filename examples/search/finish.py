#!/usr/bin/env python3
"""Makes a run that shows a goal smaller than `ct_tool shrink` does alone: after each of some beginnings of what that leaves, all members or a
majority of them take turns, by no loss and no wrong suspicion; where that shows the goal it is made smaller, and so on with the smallest.

    finish.py --goal GOAL [--tool PROGRAM] [--quiet] [RECORD]

Writes the record of the smallest run. Each is one that `ct_tool shrink` wrote, so what that promises holds of it: it shows the goal, and
none of its steps can be taken out. Ctrl-C writes the smallest that was made so far, if any.

Status: 0, the record was written; 130, Ctrl-C ended the search; 2, there is no program; else that of `ct_tool`.
"""
from __future__ import annotations

import argparse
import json
import os
import signal
import subprocess
import sys
from concurrent.futures import ThreadPoolExecutor
from typing import Any, List, NamedTuple, NoReturn, Optional, Sequence

TOOL = os.path.join(os.path.dirname(os.path.abspath(__file__)), "..", "..", "crates", "ct_tool", "out", "ct_tool")
BEGINNINGS = 12   # of the run, at even distances
TURNS = 60        # of each member behind one


class Refused(Exception):
    """The program wrote no record."""

    def __init__(self, status: int, told: str) -> None:
        super().__init__(told)
        self.status = status


class Run(NamedTuple):
    record: bytes
    steps: int


class Search:
    def __init__(self, tool: str, goal: str) -> None:
        self.tool, self.goal = tool, goal

    def wrote(self, *words: str, given: bytes) -> bytes:
        done = subprocess.run([self.tool, *words], input=given, stdout=subprocess.PIPE, stderr=subprocess.PIPE)
        if done.returncode:
            raise Refused(done.returncode, done.stderr.decode(errors="replace").strip())
        return done.stdout

    def smaller(self, record: bytes) -> Run:
        """What `ct_tool shrink` leaves of it."""
        left = self.wrote("shrink", "--quiet", "--record", "--goal", self.goal, given=record)
        return Run(left, len(json.loads(left)["steps"]))

    def finished(self, lines: Sequence[str], end: str) -> Optional[Run]:
        """The smallest run of these lines and that end, where it shows the goal."""
        try:
            return self.smaller(self.wrote("record", given="".join(f"{line}\n" for line in (*lines, end)).encode()))
        except Refused as refused:
            if refused.status > 1:
                raise
            return None

    def next(self, run: Run, pool: ThreadPoolExecutor) -> Run:
        """The smallest run that an end makes of the run's beginnings; the run itself, where none is smaller."""
        members = json.loads(run.record)["n"]
        text = self.wrote("schedule", given=run.record).decode()
        lines = [line for line in text.splitlines() if line and not line.startswith("expect")]
        head = len(lines) - run.steps
        tries = [pool.submit(self.finished, lines[:head + run.steps * part // BEGINNINGS], end)
                 for part in range(BEGINNINGS) for end in ends(members)]
        try:
            made = [it for it in (each.result() for each in tries) if it]
        finally:
            for each in tries:
                each.cancel()
        return min([run, *made], key=lambda it: it.steps)


def ends(members: int) -> List[str]:
    """Turns of all members; and of each majority of neighbours, who suspect the others."""
    made = [f"all turns {TURNS}"]
    for first in range(members if members > 2 else 0):
        few = sorted((first + i) % members + 1 for i in range(members // 2 + 1))
        others = [member for member in range(1, members + 1) if member not in few]
        made.append(f"{','.join(map(str, few))} turns {TURNS} suspecting {','.join(map(str, others))}")
    return made


def fail(status: int, told: str) -> NoReturn:
    print(told, file=sys.stderr)
    sys.exit(status)


def options() -> Any:
    parser = argparse.ArgumentParser(description="Make a run that shows a goal smaller than `ct_tool shrink` does alone.")
    parser.add_argument("record", nargs="?", default="-", metavar="RECORD", help="the file; - for standard input (the default)")
    parser.add_argument("--goal", required=True, metavar="GOAL", help="what the run has to show, in one word for the shell")
    parser.add_argument("--tool", default=TOOL, metavar="PROGRAM", help="ct_tool (default: where the repository builds it)")
    parser.add_argument("--quiet", action="store_true", help="tell nothing but what is wrong")
    return parser.parse_args()


def main() -> None:
    given = options()
    try:
        with (sys.stdin.buffer if given.record == "-" else open(given.record, "rb")) as file:
            record = file.read()
    except OSError as error:
        fail(4, f"{given.record}: {error.strerror}")
    search, run, status = Search(given.tool, given.goal), None, 0
    tell = (lambda text: None) if given.quiet else (lambda text: print(text, file=sys.stderr, flush=True))
    try:
        run = search.smaller(record)
        tell(f"{run.steps} steps are left")
        with ThreadPoolExecutor(os.cpu_count()) as pool:
            while (smaller := search.next(run, pool)).steps < run.steps:
                run = smaller
                tell(f"{run.steps} steps are left")
    except KeyboardInterrupt:
        status = 130
    except OSError as error:
        fail(2, f"{given.tool} is not run: {error.strerror}")
    except Refused as refused:
        if refused.status != -signal.SIGINT:
            fail(refused.status, str(refused))
        status = 130
    if run:
        sys.stdout.buffer.write(run.record)
    sys.exit(status)


if __name__ == "__main__":
    main()
