#!/usr/bin/env python3
"""Checks examples/search/finish.py: what it leaves can't be made smaller line by line; where something is wrong it says what; Ctrl-C writes
what was reached. How small runs become checks goals.py.

    finish.py CT_TOOL        the last line is N passed, M failed
"""
from __future__ import annotations

import json
import os
import signal
import subprocess
import sys
import tempfile
from typing import List, NamedTuple

FINISH = os.path.join(os.path.dirname(os.path.abspath(__file__)), "..", "examples", "search", "finish.py")
WALK = "--members 3 --turns 300 --rate 32 --lose 40 --repeat 80 --batch 1".split()
SECONDS = 120
# A goal, the first seed of WALK that shows it, how many steps shrink leaves, and how many it leaves of what is finished otherwise.
SHOWN, SEED, LEFT, FINISHED = "any delivered 2.1 before 1.1", 23, 90, 40


class Done(NamedTuple):
    status: int
    output: bytes
    errors: str


def ran(words: List[str], given: bytes = b"") -> Done:
    done = subprocess.run(words, input=given, stdout=subprocess.PIPE, stderr=subprocess.PIPE, timeout=SECONDS)
    return Done(done.returncode, done.stdout, done.stderr.decode())


def finish(tool: str, *words: str) -> List[str]:
    return [sys.executable, FINISH, "--tool", tool, *words]


def small(tool: str, run: bytes) -> str:
    done = ran(finish(tool, "--goal", SHOWN), run)
    if done.status or done.errors != "".join(f"{steps} steps are left\n" for steps in (LEFT, FINISHED)):
        return f"status {done.status}, {done.errors!r}"
    again = ran([tool, "shrink", "--record", "--goal", SHOWN], done.output)
    return "" if again.output == done.output else f"shrink leaves another run: {again.errors!r}"


def refused(words: List[str], given: bytes, status: int, told: str) -> str:
    done = ran(words, given)
    is_so = done.status == status and not done.output and told in done.errors and "Traceback" not in done.errors
    return "" if is_so else f"status {done.status}, {done.errors!r}"


def stopped(tool: str, path: str) -> str:
    """Ctrl-C once the first run is made."""
    with subprocess.Popen(finish(tool, "--goal", SHOWN, path), stdout=subprocess.PIPE, stderr=subprocess.PIPE, text=True,
                          start_new_session=True) as started:
        first = started.stderr.readline()
        os.killpg(started.pid, signal.SIGINT)
        output, errors = started.communicate(timeout=SECONDS)
    if started.returncode != 130 or "Traceback" in errors:
        return f"status {started.returncode}, {first!r}, {errors!r}"
    return "" if len(json.loads(output)["steps"]) in (LEFT, FINISHED) else f"{len(output)} bytes are written"


def main() -> None:
    tool = os.path.abspath(sys.argv[1])
    run = ran([tool, "find", *WALK, "--goal", SHOWN, "--seeds", f"{SEED}..{SEED}", "--quiet"]).output
    with tempfile.NamedTemporaryFile() as file:
        file.write(run)
        file.flush()
        cases = [
            ("a run that is finished otherwise", small(tool, run)),
            ("a goal that is not shown", refused(finish(tool, "--goal", "any instance >= 30"), run, 1, "the goal is not shown")),
            ("no record", refused(finish(tool, "--goal", SHOWN), b"{", 2, "record: not JSON")),
            ("no goal", refused(finish(tool, "--goal", "any roun >= 2"), run, 3, "not understood")),
            ("no file", refused(finish(tool, "--goal", SHOWN, "/no/such/file"), b"", 4, "/no/such/file: ")),
            ("no program", refused(finish("/no/such/program", "--goal", SHOWN), run, 2, "/no/such/program is not run: ")),
            ("Ctrl-C", stopped(tool, file.name)),
        ]
    failed = [(name, told) for name, told in cases if told]
    for name, told in failed:
        print(f"FAILED {name}: {told}")
    print(f"{len(cases) - len(failed)} passed, {len(failed)} failed")
    sys.exit(1 if failed else 0)


if __name__ == "__main__":
    main()
