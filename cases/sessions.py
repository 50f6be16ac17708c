#!/usr/bin/env python3
"""Runs the sessions of sessions.txt, whose first lines say how they are written: each line has to be answered as it says there.

    sessions.py CT_TOOL

Prints a line for each session that is answered otherwise, and last `N passed, M failed`. Needs Python 3.8.
"""
from __future__ import annotations

import json
import os
import re
import subprocess
import sys
from typing import Dict, List, NamedTuple

FILE = os.path.join(os.path.dirname(os.path.abspath(__file__)), "sessions.txt")
ESCAPE = re.compile(r"\\(t|r|x[0-9a-f]{2})")
SECONDS = 60


class Session(NamedTuple):
    """What is said, and what is answered to each line; and the steps, envelopes and batches that it comes to."""
    name: str
    counts: List[int]
    said: List[bytes]
    wanted: List[bytes]


def written_out(text: str) -> bytes:
    """The text's bytes, with its escapes written out."""
    return ESCAPE.sub(lambda it: {"t": "\t", "r": "\r"}.get(it[1]) or chr(int(it[1][1:], 16)), text).encode()


def lines_of(lines: List[str], parts: Dict[str, List[str]]) -> List[str]:
    """The lines, with those of the parts that they name."""
    return [each for line in lines for each in (lines_of(parts[line[1:]], parts) if line.startswith("@") else [line])]


def session(head: str, lines: List[str]) -> Session:
    name, counts = head.split(" == ")
    told = [line.partition(" => ") for line in lines]
    said, wanted = [written_out(line) for line, _, _ in told], [written_out(answer or "ok") for _, _, answer in told]
    return Session(name, [int(count) for count in counts.split()], said, wanted)


def sessions(text: str) -> List[Session]:
    blocks = [block.rstrip("\n").split("\n") for block in ("\n" + text).split("\n== ")[1:]]
    parts = {head: lines for head, *lines in blocks if " == " not in head}
    return [session(head, lines_of(lines, parts)) for head, *lines in blocks if " == " in head]


def faults(tool: str, told: Session) -> List[str]:
    """What is answered otherwise: the session ends by asking for the report, which has what it came to."""
    spoken = b"".join(line + b"\n" for line in [*told.said, b"report"])
    ended = subprocess.run([tool, "interact"], input=spoken, stdout=subprocess.PIPE, stderr=subprocess.PIPE, timeout=SECONDS)
    *answers, report, rest = ended.stdout.split(b"\n")
    if ended.returncode != 0 or ended.stderr or rest or len(answers) != len(told.said):
        return [f"status {ended.returncode}, {len(answers)} answers to {len(told.said)} lines, {ended.stderr!r}"]
    wrong = [f"{line!r} is answered by {answer!r}, not {wanted!r}"
             for line, answer, wanted in zip(told.said, answers, told.wanted) if answer != wanted]
    found = json.loads(report[len(b"report "):])
    counts = [found["steps"], found["sent"], found["posted"]]
    return wrong + ([] if counts == told.counts else [f"it comes to {counts}, not {told.counts}"])


def main() -> int:
    with open(FILE, encoding="utf-8") as file:
        all_of_them = sessions(file.read())
    failed = 0
    for told in all_of_them:
        wrong = faults(sys.argv[1], told)
        failed += bool(wrong)
        if wrong:
            print(f"FAILED session {told.name}: {'; '.join(wrong)}")
    print(f"{len(all_of_them) - failed} passed, {failed} failed")
    return 1 if failed else 0


if __name__ == "__main__":
    sys.exit(main())
