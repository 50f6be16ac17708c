#!/usr/bin/env python3
"""Writes what the bindings are tested and timed with: a record, its steps as numbers, and lines of a session.

    inputs.py CT_TOOL FOLDER [--members N] [--steps S] [--seed R] [--lossy]

makes in FOLDER, of a record of the whole algorithm by bench/generate.py, with --lossy of a network that loses and repeats, in which a
member crashes,

    record.json    the record, as `ct_tool record` writes it
    steps_taken    its steps as numbers: of the group, and then five a step (kind, member, a, b, c)
    lines_told     a schedule of it by what envelopes carry, with questions and refused lines in between
    serials_told   the same steps alone, each envelope by its serial
"""
import argparse
import os
import subprocess
import sys
from typing import Iterator, List

HERE = os.path.dirname(os.path.abspath(__file__))
sys.path.insert(0, os.path.join(HERE, "..", "python"))
os.environ.setdefault("CT_LIB", "")   # the steps' numbers need no library

import json   # noqa: E402

from malletochre.steps import step_of_entry   # noqa: E402
from malletochre.tool_world import act   # noqa: E402

QUESTIONS = ("enabled {p}", "next {p}", "state {p}", "# a comment", "limits", "expect {p} up", "waiting {p}", "")
REFUSED = ("{p} receive #0", "nonsense", "{p} begin now", "members 3", "all choose 17", "{p} receive data 99.1", "expect {p} instance 4000")


def arguments() -> argparse.Namespace:
    parser = argparse.ArgumentParser(description="Write what the bindings are tested with.")
    parser.add_argument("tool", metavar="CT_TOOL")
    parser.add_argument("folder", metavar="FOLDER")
    parser.add_argument("--members", type=int, default=5)
    parser.add_argument("--steps", type=int, default=200_000)
    parser.add_argument("--seed", type=int, default=1)
    parser.add_argument("--lossy", action="store_true")
    return parser.parse_args()


def lines_of(schedule: str, members: int) -> Iterator[str]:
    """The schedule's lines with others in between: a question after each 50th, a line that is refused after each 10,000th."""
    for number, line in enumerate(schedule.splitlines(), 1):
        yield line
        if number > 3 and number % 50 == 0:
            yield QUESTIONS[number // 50 % len(QUESTIONS)].format(p=number // 50 % members + 1)
        if number % 10_000 == 0:
            yield REFUSED[number // 10_000 % len(REFUSED)].format(p=number // 10_000 % members + 1)


def output(words: List[str], text: str) -> str:
    """What a program prints, given a text."""
    return subprocess.run(words, input=text, stdout=subprocess.PIPE, stderr=subprocess.DEVNULL, check=True, encoding="utf-8").stdout


def main() -> None:
    options = arguments()
    words = ["--whole"] + (["--crash", "1", "--lose", "20", "--repeat", "20"] if options.lossy else [])
    numbers = ["--members", options.members, "--steps", options.steps, "--seed", options.seed]
    generator = os.path.join(HERE, "..", "..", "bench", "generate.py")
    made = output([sys.executable, generator, *words, *map(str, numbers)], "")
    schedule = output([options.tool, "schedule"], made)
    whole = output([options.tool, "record"], schedule)
    record = json.loads(whole)
    steps = [step_of_entry(entry) for entry in record["steps"]]
    texts = {
        "record.json": whole,
        "steps_taken": f"{record['n']} {record['cells']} {record['batch']}\n"
        + "".join(" ".join(map(str, it.numbers())) + "\n" for it in steps),
        "lines_told": "\n".join(lines_of(schedule, options.members)) + "\n",
        "serials_told": f"members {record['n']}\ncells {record['cells']}\nbatch {record['batch']}\n"
        + "".join(f"{it.member} {act(it)}\n" for it in steps),
    }
    for name, text in texts.items():
        with open(os.path.join(options.folder, name), "w", encoding="utf-8") as file:
            file.write(text)


if __name__ == "__main__":
    main()
