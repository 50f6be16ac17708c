#!/usr/bin/env python3
"""Times `ct replay` and `ct_tool` where much waits, beside as many ordinary lines.

    bench/waiting.py [--only WORD] [--runs R] [--least] [CT CT_TOOL]

CT, CT_TOOL: the built programs; those of crates/NAME/out/NAME if left out. Each row is a schedule, or its lines as a log of each
member, in which envelopes wait that nobody receives, or a record that takes serials from deep in its lines; with a number of lines and
with ten times as many:

    relays   no relay is ever received
    ahead    a member submits all before another receives the first
    lost     of three members that receive and relay all, every hundredth envelope is lost
    half     every second one
    rounds   one instance in which each round's proposal is suspected
    deep     a record of five members that takes serials from lines of some 60,000 (bench/generate.py)

A table row has the processor seconds of both (the least of R runs), what ten times the lines take times as much, what as many ordinary
lines take, times as much, and the peak memory. --least ends with status 1 where a line takes over 1.5 times an ordinary one, or ten
times the lines over 15 times as long.
"""
import argparse
import os
import resource
import subprocess
import sys
import tempfile

HERE = os.path.dirname(os.path.abspath(__file__))
OUT = os.path.join(HERE, "..", "crates")
MOST_BESIDE, MOST_GROWTH = 1.5, 15


def arguments():
    parser = argparse.ArgumentParser(description="Time programs where much waits, beside as many ordinary lines.")
    parser.add_argument("ct", nargs="?", default=os.path.join(OUT, "ct", "out", "ct"), metavar="CT")
    parser.add_argument("tool", nargs="?", default=os.path.join(OUT, "ct_tool", "out", "ct_tool"), metavar="CT_TOOL")
    parser.add_argument("--only", default="", metavar="WORD", help="rows whose name has the word")
    parser.add_argument("--runs", type=int, default=3, metavar="R", help="runs of each, of which the least counts (default 3)")
    parser.add_argument("--least", action="store_true", help="status 1 where a row is past its bound")
    options = parser.parse_args()
    for path in (options.ct, options.tool):
        if not os.access(path, os.X_OK):
            parser.error(f"no program at {path}")
    return options


def broadcasts(members, lines, keeps):
    """So many lines in which members submit in turn, and receive and relay what `keeps` keeps of the envelopes, by their count."""
    made, count, number = [], 0, 0
    while len(made) < lines:
        origin, number = number % members + 1, number + 1
        name = f"data {origin}.{(number - 1) // members + 1}"
        made.append(f"{origin} submit set 0 7")
        relayers, sent = {origin}, [(origin, to) for to in range(1, members + 1)]
        for sender, to in sent:
            count += 1
            if keeps(count, sender == origin):
                made.append(f"{to} receive {name} from {sender}")
                if to not in relayers:
                    relayers.add(to)
                    sent += [(to, other) for other in range(1, members + 1)]
    return made[:lines]


def ordinary(lines):
    return 3, broadcasts(3, lines, lambda count, is_first: True)


def relays(lines):
    return 3, broadcasts(3, lines, lambda count, is_first: is_first)


def lost(lines):
    return 3, broadcasts(3, lines, lambda count, is_first: count % 100)


def half(lines):
    return 3, broadcasts(3, lines, lambda count, is_first: count % 2)


def ahead(lines):
    count = lines // 2
    return 2, ["1 submit set 0 7"] * count + [f"2 receive data 1.{i} from 1" for i in range(1, count + 1)]


def rounds(lines):
    made = ["1 submit set 0 7"]
    made += [f"{p} receive data 1.1 from 1" for p in (1, 2, 3)] + [f"{p} begin" for p in (1, 2, 3)]
    for r in range(1, lines // 12 + 1):
        leader = r % 3 + 1
        others = [p for p in (1, 2, 3) if p != leader]
        made += [f"{p} enter" for p in (1, 2, 3)]
        made += [f"{leader} receive est 1/{r} from {p}" for p in (leader, others[0])]
        made += [f"{leader} choose {leader}"]
        made += [f"{p} suspect" for p in (1, 2, 3)]
        made += [f"{leader} receive nack 1/{r} from {p}" for p in (leader, others[0])]
        made += [f"{leader} conclude"]
    return 3, made


def measured(runs, command, text=None):
    """The least processor seconds of the runs of the command on the text, and its peak memory in MiB; it has to end well."""
    least, peak = None, 0
    for _ in range(runs):
        with open(text or os.devnull, "rb") as file:
            started = subprocess.Popen(command, stdin=file, stdout=subprocess.DEVNULL, stderr=subprocess.PIPE)
            said = started.stderr.read().decode()
            _, status, used = os.wait4(started.pid, 0)
        if status:
            sys.exit(f"{' '.join(command)}: status {status}: {said.strip()}")
        seconds = used.ru_utime + used.ru_stime
        least = seconds if least is None else min(least, seconds)
        peak = max(peak, used.ru_maxrss / 1024)
    return least, peak


class Row:
    """What is timed: a name, the numbers of lines, what makes them, and the command on the schedule or on the logs."""

    def __init__(self, name, lines, makes, command, is_of_logs):
        self.name, self.lines, self.makes, self.command, self.is_of_logs = name, lines, makes, command, is_of_logs

    def timed(self, runs, folder, makes, lines):
        members, made = makes(lines)
        if self.is_of_logs:
            return measured(runs, self.command + written_logs(folder, members, made))
        return measured(runs, self.command + [written_schedule(folder, members, made)])

    def shown(self, runs, folder):
        """The table row, and whether it is within the bounds."""
        few, _ = self.timed(runs, folder, self.makes, self.lines // 10)
        many, peak = self.timed(runs, folder, self.makes, self.lines)
        beside, _ = self.timed(runs, folder, ordinary, self.lines)
        return row(self.name, self.lines, few, many, beside, peak)


class Deep(Row):
    """Records in place of schedules."""

    def timed(self, runs, folder, makes, lines):
        path = os.path.join(folder, "run.json")
        words = ["--depth", "100000", "--mix", "1", "1", "1"] if makes is self.makes else []
        with open(path, "wb") as file:
            subprocess.run([sys.executable, os.path.join(HERE, "generate.py"), "--members", "5", "--steps", str(lines), *words],
                           stdout=file, check=True)
        return measured(runs, self.command, path)


def row(name, lines, few, many, beside, peak):
    growth, times = many / few, many / beside
    print(f"| {name} | {lines:,} | {few:.3f} | {many:.2f} | {growth:.1f} | {beside:.2f} | {times:.2f} | {peak:.0f} |", flush=True)
    return growth <= MOST_GROWTH and times <= MOST_BESIDE


def write(path, lines):
    with open(path, "w", encoding="utf-8") as file:
        file.writelines(f"{line}\n" for line in lines)
    return path


def written_schedule(folder, members, lines):
    """The path of the lines as a schedule."""
    return write(os.path.join(folder, "run.schedule"), [f"members {members}", "cells 0", *lines])


def written_logs(folder, members, lines):
    """The paths of the lines as logs of the members."""
    logs = [[] for _ in range(members)]
    for line in lines:
        member, act = line.split(" ", 1)
        logs[int(member) - 1].append(act)
    return [write(os.path.join(folder, f"{number}.log"), [f"members {members}", *log]) for number, log in enumerate(logs, 1)]


def rows(ct, tool):
    yield Row("relays, `record`", 400_000, relays, [tool, "record"], False)
    yield Row("half, `record`", 400_000, half, [tool, "record"], False)
    yield Row("rounds, `record`", 108_000, rounds, [tool, "record"], False)
    for name, lines, makes in (("relays", 400_000, relays), ("ahead", 120_000, ahead), ("lost", 1_000_000, lost),
                               ("half", 400_000, half), ("rounds", 108_000, rounds)):
        yield Row(f"{name}, `merge --record`", lines, makes, [tool, "merge", "--record"], True)
        yield Row(f"{name}, `merge`", lines, makes, [tool, "merge"], True)
    yield Deep("deep, `replay`", 1_000_000, rows, [ct, "replay"], False)


def main():
    options = arguments()
    resource.setrlimit(resource.RLIMIT_CORE, (0, 0))
    print("| row | lines | a tenth, s | s | times | ordinary, s | times | MiB |\n|---|---|---|---|---|---|---|---|")
    with tempfile.TemporaryDirectory() as folder:
        within = [it.shown(options.runs, folder) for it in rows(options.ct, options.tool) if options.only in it.name]
    sys.exit(1 if options.least and not all(within) else 0)


if __name__ == "__main__":
    main()
