#!/usr/bin/env python3
"""Runs `ct free` many times, with a seed of its own each, and prints what the runs came to. With --walk it runs
`ct_tool walk`.

    bench/free.py [options] [PROGRAM] [-- OPTIONS]

PROGRAM: the built program; crates/ct/out/ct if left out, with --walk crates/ct_tool/out/ct_tool. OPTIONS go to each
run, as `-- --submit 10 --crash 2`. A row for each number of members and each rate:

    posted    runs of 100 that post a batch, so that some member delivers it
    all       runs of 100 in which each member that is up delivers every message
    batches   batches posted, of a run
    rounds    the round that decided, of an instance that was decided
    suspects  suspicions, of such an instance
    after     steps of 100 of members that come after a step of another member
    ms        median milliseconds of a run, the start of the program and its output with it
    turns/s   turns of members and scripts in a second, over all runs

How busy the cores are is the caller's to choose: `taskset -c 0 bench/free.py` runs on one core.
"""
import argparse
import os
import statistics
import subprocess
import sys
import time

import model

HERE = os.path.dirname(os.path.abspath(__file__))
CRATES = os.path.join(HERE, "..", "crates")
FROM_OUTSIDE = ("submit", "crash", "postpone", "lose", "repeat")   # steps that members don't take by themselves


def numbers(text):
    return [int(word) for word in text.split(",")]


def arguments():
    own, given = sys.argv[1:], []
    if "--" in own:
        at = own.index("--")
        own, given = own[:at], own[at + 1:]
    parser = argparse.ArgumentParser(description="Run `ct free` or `ct_tool walk` many times and print what they came to.",
                                     usage="%(prog)s [options] [PROGRAM] [-- OPTIONS]")
    parser.add_argument("program", nargs="?", metavar="PROGRAM",
                        help="the built program (default crates/ct/out/ct, with --walk crates/ct_tool/out/ct_tool)")
    parser.add_argument("--walk", action="store_true", help="run `ct_tool walk`")
    parser.add_argument("--seeds", type=int, default=200, help="runs of a row, with the seeds 1, 2, .. (default 200)")
    parser.add_argument("--members", type=numbers, default=[1, 2, 3, 5, 8, 16], metavar="N,..",
                        help="rows for these (default 1,2,3,5,8,16)")
    parser.add_argument("--rate", type=numbers, default=[64], metavar="R,..", help="rows for these (default 64)")
    parser.add_argument("--turns", type=int, default=1_000, help="turns of each member (default 1000)")
    parser.add_argument("--cpu", type=numbers, metavar="C,..", help="run on these cores alone")
    options = parser.parse_args(own)
    name, options.subcommand = ("ct_tool", "walk") if options.walk else ("ct", "free")
    options.program = options.program or os.path.join(CRATES, name, "out", name)
    if not os.access(options.program, os.X_OK):
        parser.error(f"no program at {options.program}")
    return options, given


class Run:
    """What one record came to."""

    def __init__(self, record):
        world, steps = model.read(record)
        self.outside = self.suspicions = self.own = self.after = 0
        self.deciding = {}   # by instance: the round that decided first
        last = None
        for step in steps:
            name, p = step[:2]
            here, sent = world.members[p].open, world.sent()
            world.apply(*step)
            if name == "conclude" and world.sent() > sent:
                self.deciding.setdefault(here.k, here.round)
            self.suspicions += name == "suspect"
            if name in FROM_OUTSIDE:
                self.outside += 1
                continue
            self.own += 1
            self.after += last not in (None, p)
            last = p
        up = [member for member in world.members.values() if member.up]
        self.batches = world.posted()
        self.all = len(world.commands) > 0 and all(len(member.delivered) == len(world.commands) for member in up)


def measure(options, given, members, rate):
    """The runs of one row, and the seconds of each."""
    runs, seconds = [], []
    for seed in range(1, options.seeds + 1):
        words = [options.program, options.subcommand, "--members", members, "--rate", rate, "--turns", options.turns,
                 "--seed", seed]
        start = time.perf_counter()
        done = subprocess.run([str(word) for word in words] + given, stdout=subprocess.PIPE, check=True)
        seconds.append(time.perf_counter() - start)
        runs.append(Run(done.stdout))
    return runs, seconds


def share(part, whole):
    return f"{100 * part / whole:.1f}" if whole else "-"


def each(total, count):
    return f"{total / count:.2f}" if count else "-"


def row(options, members, rate, runs, seconds):
    decided = sum(len(run.deciding) for run in runs)
    made = sum(members * options.turns + run.outside for run in runs)
    return (members, rate, options.turns, len(runs),
            share(sum(run.batches > 0 for run in runs), len(runs)),
            share(sum(run.all for run in runs), len(runs)),
            each(sum(run.batches for run in runs), len(runs)),
            each(sum(sum(run.deciding.values()) for run in runs), decided),
            each(sum(run.suspicions for run in runs), decided),
            share(sum(run.after for run in runs), sum(run.own for run in runs)),
            f"{1000 * statistics.median(seconds):.1f}",
            f"{made / sum(seconds):.0f}")


def main():
    options, given = arguments()
    if options.cpu:
        os.sched_setaffinity(0, options.cpu)
    form = "{:>7} {:>4} {:>6} {:>5} {:>6} {:>5} {:>7} {:>6} {:>8} {:>7} {:>7} {:>8}"
    print(form.format("members", "rate", "turns", "runs", "posted", "all", "batches", "rounds", "suspects", "after",
                      "ms", "turns/s"), flush=True)
    for rate in options.rate:
        for members in options.members:
            print(form.format(*row(options, members, rate, *measure(options, given, members, rate))), flush=True)


if __name__ == "__main__":
    main()
