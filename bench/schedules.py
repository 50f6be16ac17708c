#!/usr/bin/env python3
"""Times `ct_tool schedule`, and `ct_tool record` and `ct_tool interact` on long schedules.

    bench/schedules.py [--members N] [--steps S] [--once] [CT_TOOL]

CT_TOOL: the built program; crates/ct_tool/out/ct_tool if left out. The schedules are of one record of the whole algorithm that
bench/generate.py makes; `ct_tool schedule` writes the one, which has envelopes by what they carry, the other has each by its serial.
A table row for each of:

    schedule   from the record to the schedule
    record     the whole schedule
    interact   a session over pipes, each line told when the last one was answered; with --once all lines are told at once

with the seconds, start and end of the program with them, and the lines a second. Ends with status 1 where a line is refused.
"""
import argparse
import json
import os
import subprocess
import sys
import tempfile
import time

HERE = os.path.dirname(os.path.abspath(__file__))
TOOL = os.path.join(HERE, "..", "crates", "ct_tool", "out", "ct_tool")


def arguments():
    parser = argparse.ArgumentParser(description="Time `ct_tool record` and `ct_tool interact` on long schedules.")
    parser.add_argument("tool", nargs="?", default=TOOL, metavar="CT_TOOL", help="the built program")
    parser.add_argument("--members", type=int, default=5, metavar="N", help="members (default 5)")
    parser.add_argument("--steps", type=int, default=200_000, metavar="S", help="steps (default 200000)")
    parser.add_argument("--once", action="store_true", help="tell a session all lines at once")
    options = parser.parse_args()
    if not os.access(options.tool, os.X_OK):
        parser.error(f"no program at {options.tool}")
    return options


def by_content(options, made):
    """The schedule that the program writes of the record, and the seconds that it takes."""
    start = time.perf_counter()
    lines = subprocess.run([options.tool, "schedule"], input=made, stdout=subprocess.PIPE, check=True).stdout
    return lines.decode().splitlines(), time.perf_counter() - start


def by_serial(made):
    """The lines of the record's schedule in which each envelope has its serial."""
    record = json.loads(made)
    yield f"members {record['n']}"
    yield f"cells {record['cells']}"
    if "batch" in record:
        yield f"batch {record['batch']}"
    for name, member, *rest in record["steps"]:
        if name == "submit":
            rest = rest[0]
        elif name in ("receive", "postpone", "lose", "repeat"):
            rest = [f"#{rest[0]}"]
        yield " ".join(map(str, [member, name, *rest]))


def recorded(options, path):
    """Seconds of `record` on the schedule."""
    start = time.perf_counter()
    subprocess.run([options.tool, "record", path], stdout=subprocess.DEVNULL, check=True)
    return time.perf_counter() - start


def checked(answer, at):
    if not answer.startswith(b"ok"):
        raise RuntimeError(f"line {at}: {answer.decode().strip() or 'no answer'}")


def told(options, path):
    """Seconds of a session on the schedule."""
    start = time.perf_counter()
    if options.once:
        with open(path, "rb") as file:
            answers = subprocess.run([options.tool, "interact"], stdin=file, stdout=subprocess.PIPE, check=True).stdout
        for at, answer in enumerate(answers.splitlines(), 1):
            checked(answer, at)
        return time.perf_counter() - start
    with open(path, "rb") as file, subprocess.Popen([options.tool, "interact"], stdin=subprocess.PIPE,
                                                    stdout=subprocess.PIPE) as session:
        for at, line in enumerate(file, 1):
            session.stdin.write(line)
            session.stdin.flush()
            checked(session.stdout.readline(), at)
    return time.perf_counter() - start


def main():
    options = arguments()
    words = [sys.executable, os.path.join(HERE, "generate.py"), "--whole", "--members", options.members, "--steps", options.steps]
    made = subprocess.run([str(word) for word in words], stdout=subprocess.PIPE, stderr=subprocess.DEVNULL, check=True).stdout
    form = "{:<9} {:<8} {:>7} {:>8} {:>8} {:>10}"

    def row(program, named, lines, seconds):
        print(form.format(program, named, options.members, lines, f"{seconds:.2f}", f"{lines / seconds:.0f}"), flush=True)

    print(form.format("program", "named by", "members", "lines", "seconds", "lines/s"), flush=True)
    content, took = by_content(options, made)
    row("schedule", "content", len(content), took)
    with tempfile.TemporaryDirectory() as folder:
        path = os.path.join(folder, "run.schedule")
        for named, lines in (("content", content), ("serial", list(by_serial(made)))):
            with open(path, "w") as file:
                file.write("\n".join(lines) + "\n")
            for program, timed in (("record", recorded), ("interact", told)):
                try:
                    seconds = timed(options, path)
                except (subprocess.CalledProcessError, RuntimeError) as fault:
                    sys.exit(f"bench/schedules.py: {program}: {fault}")
                row(program, named, len(lines), seconds)


if __name__ == "__main__":
    main()
