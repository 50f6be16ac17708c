#!/usr/bin/env python3
"""Checks that long schedules and logs are judged in time where much waits that nobody receives: those of bench/waiting.py.

    waiting.py CT CT_TOOL        the last line is N passed, M failed
"""
import os
import subprocess
import sys
import tempfile

HERE = os.path.dirname(os.path.abspath(__file__))
sys.dont_write_bytecode = True
sys.path.insert(0, os.path.join(HERE, "..", "bench"))
from waiting import ahead, half, lost, relays, rounds, written_logs, written_schedule  # noqa: E402

SECONDS = 20
# By name what makes the lines, and how many: each took over 20 s with one of the commands when what waits was looked through.
RUNS = {"relays": (relays, 100_000), "half": (half, 100_000), "ahead": (ahead, 120_000), "lost": (lost, 400_000), "rounds": (rounds, 108_000)}


def ended(command, text=None):
    """What the command wrote; ends with a fault where it does not end well in time."""
    done = subprocess.run(command, input=text, stdout=subprocess.PIPE, stderr=subprocess.PIPE, timeout=SECONDS, check=False)
    if done.returncode:
        raise ValueError(f"{' '.join(command)}: status {done.returncode}: {done.stderr.decode().strip()}")
    return done.stdout


def checked(ct, tool, folder, makes, lines):
    """The schedule is a run; so are its lines as logs, and the schedule that is written of these is that record's."""
    members, made = makes(lines)
    ended([ct, "replay"], ended([tool, "record", written_schedule(folder, members, made)]))
    logs = written_logs(folder, members, made)
    record = ended([tool, "merge", "--record", *logs])
    if ended([tool, "record"], ended([tool, "merge", *logs])) != record:
        raise ValueError("merge writes a schedule of another run than --record does")


def main():
    passed = failed = 0
    for name, (makes, lines) in RUNS.items():
        with tempfile.TemporaryDirectory() as folder:
            try:
                checked(sys.argv[1], sys.argv[2], folder, makes, lines)
                passed += 1
            except (ValueError, subprocess.TimeoutExpired) as fault:
                failed += 1
                print(f"FAILED {name}, {lines} lines: {fault}")
    print(f"{passed} passed, {failed} failed")


if __name__ == "__main__":
    main()
