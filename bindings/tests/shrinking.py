#!/usr/bin/env python3
"""Writes walks that show a goal, of up to 40 seeds for each goal, and what `ct_tool shrink` leaves of them.

    shrinking.py TOOL FOLDER

`shrinks_asked` has a run a line: the place of its goal in GOALS; 1 where that names members, else 0; how many trials are made at most; and
the record, which ends where it shows the goal. `shrinks_answered` has the record that is left.
"""
import os
import subprocess
import sys

GOALS = ["any delivered count >= 2", "any round >= 3", "1 decided 1", "all phase Wait and all round >= 2"]
WITH_MEMBERS = 2
SEEDS, FEW, MANY = 40, 12, 10_000
KINDS = [["--members", "3", "--rate", "48", "--postpone", "9"],
         ["--members", "3", "--rate", "16", "--scatter", "64", "--lose", "3", "--repeat", "9", "--batch", "1"],
         ["--members", "4", "--rate", "32", "--cut", "2", "--crashes", "1"]]


def told(*words: str, given: str = "") -> str:
    """What the program writes; nothing where a walk doesn't show its goal."""
    done = subprocess.run(words, input=given, stdout=subprocess.PIPE, stderr=subprocess.PIPE, encoding="utf-8")
    if done.returncode > 1:
        raise SystemExit(done.stderr)
    return done.stdout


def main() -> None:
    tool, folder = sys.argv[1:]
    asked, answered = (open(os.path.join(folder, name), "w", encoding="utf-8") for name in ("shrinks_asked", "shrinks_answered"))
    with asked, answered:
        for place, goal in enumerate(GOALS):
            for seed in range(SEEDS):
                trials = FEW if seed % 4 == 0 else MANY
                record = told(tool, "walk", "--turns", "100", "--seed", str(seed), *KINDS[seed % 3], "--until", goal)
                if record:
                    print(place, int(place == WITH_MEMBERS), trials, record, end="", file=asked)
                    answered.write(told(tool, "shrink", "--goal", goal, "--tries", str(trials), "--record", given=record))


if __name__ == "__main__":
    main()
