#!/usr/bin/env python3
"""What each command of `ct_tool` takes on a long run, and where its time goes.

    bench/commands.py [--members N] [--steps S] [--runs R] [--lines L] [CT_TOOL]

CT_TOOL: the built program; crates/ct_tool/out/ct_tool if left out. A table row for each command: processor seconds (user and
system, the least of R runs), peak memory in MiB, and the share of the kernel. With --lines L the L functions that perf saw most often
follow each row (Debian: linux-perf). What is shown is a record of the whole algorithm that bench/generate.py makes; `record` and
`interact` judge its schedule, `merge` its logs, `diagram` draws its last steps; `walk`, `find` and `shrink` make runs of their own.
Ends with status 1 where a command fails.
"""
import argparse
import os
import resource
import subprocess
import sys
import tempfile

HERE = os.path.dirname(os.path.abspath(__file__))
TOOL = os.path.join(HERE, "..", "crates", "ct_tool", "out", "ct_tool")
WALK = ["--members", "5", "--turns"]


def arguments():
    parser = argparse.ArgumentParser(description="Time each command of `ct_tool`, and tell where its time goes.")
    parser.add_argument("tool", nargs="?", default=TOOL, metavar="CT_TOOL", help="the built program")
    parser.add_argument("--members", type=int, default=5, metavar="N", help="members (default 5)")
    parser.add_argument("--steps", type=int, default=200_000, metavar="S", help="steps (default 200000)")
    parser.add_argument("--runs", type=int, default=3, metavar="R", help="runs of each command (default 3)")
    parser.add_argument("--lines", type=int, default=0, metavar="L", help="functions that are told of each (default 0)")
    options = parser.parse_args()
    if not os.access(options.tool, os.X_OK):
        parser.error(f"no program at {options.tool}")
    if options.runs < 1:
        parser.error("--runs is 1 or more")
    return options


def made(words, source=None):
    """What the program writes."""
    return subprocess.run(words, stdin=source, stdout=subprocess.PIPE, check=True).stdout


def prepared(options, folder):
    """The record, its schedule with serials, and its logs, as files in the folder."""
    record, schedule, logs = (os.path.join(folder, name) for name in ("record.json", "schedule", "logs"))
    words = ["--whole", "--members", str(options.members), "--steps", str(options.steps)]
    with open(record, "wb") as to:
        to.write(subprocess.run([sys.executable, os.path.join(HERE, "generate.py"), *words], stdout=subprocess.PIPE,
                                stderr=subprocess.DEVNULL, check=True).stdout)
    with open(schedule, "wb") as to:
        to.write(made([options.tool, "schedule", record]))
    with open(record, "rb") as source:
        subprocess.run([sys.executable, os.path.join(HERE, "split.py"), "--bare", logs], stdin=source, check=True)
    return record, schedule, [os.path.join(logs, f"{p}.log") for p in range(1, options.members + 1)]


def commands(options, folder):
    """Each command: its name, its words, and the file on its standard input."""
    record, schedule, logs = prepared(options, folder)
    walk = os.path.join(folder, "walk.json")
    with open(walk, "wb") as to:
        to.write(made([options.tool, "walk", *WALK, "400", "--seed", "7"]))
    last = str(options.steps)
    return [
        ("steps", ["steps", record], None),
        ("steps --json", ["steps", "--json", record], None),
        ("state", ["state", record], None),
        ("state --json", ["state", "--json", record], None),
        ("report", ["report", record], None),
        ("check", ["check", record], None),
        ("diagram", ["diagram", "--from", str(options.steps - 399), "--to", last, record], None),
        ("schedule", ["schedule", record], None),
        ("complete", ["complete", record], None),
        ("record", ["record", schedule], None),
        ("interact", ["interact"], schedule),
        ("merge", ["merge", *logs], None),
        ("merge --record", ["merge", "--record", *logs], None),
        ("walk", ["walk", *WALK, "100000", "--cells", "1024", "--submit", "1000"], None),
        ("find", ["find", *WALK, "600", "--goal", "any decided 1", "--seeds", "1..400", "--jobs", "1", "--count"], None),
        ("shrink", ["shrink", "--goal", "any decided 1", walk], None),
    ]


def run(words, source):
    """Processor seconds, those of the kernel, and MiB of one run."""
    with open(source or os.devnull, "rb") as read, open(os.devnull, "wb") as write:
        child = subprocess.Popen(words, stdin=read, stdout=write, stderr=write)
        _, status, used = os.wait4(child.pid, 0)
        child.returncode = os.waitstatus_to_exitcode(status)
    if child.returncode != 0:
        sys.exit(f"bench/commands.py: {' '.join(words[:2])} ended with status {child.returncode}")
    return used.ru_utime + used.ru_stime, used.ru_stime, used.ru_maxrss / 1024


def functions(words, source, lines, folder):
    """The functions that perf saw most often, a line for each."""
    samples = os.path.join(folder, "samples")
    with open(source or os.devnull, "rb") as read, open(os.devnull, "wb") as write:
        subprocess.run(["perf", "record", "-q", "-F", "5000", "-o", samples, *words], stdin=read, stdout=write, stderr=write, check=True)
    words = ["perf", "report", "-i", samples, "--stdio", "--percentage", "relative", "-g", "none", "--sort", "symbol"]
    told = subprocess.run(words, stdout=subprocess.PIPE, stderr=subprocess.DEVNULL, text=True, check=True).stdout.split("\n")
    return [line.rstrip(" -") for line in told if line.strip() and not line.startswith("#")][:lines]


def main():
    options = arguments()
    print("| command | seconds | kernel | MiB |\n|---|---|---|---|")
    with tempfile.TemporaryDirectory() as folder:
        for name, words, source in commands(options, folder):
            words = [options.tool, *words]
            runs = [run(words, source) for _ in range(options.runs)]
            seconds, kernel, _ = min(runs)
            print(f"| `{name}` | {seconds:.3f} | {kernel / seconds:.0%} | {max(peak for _, _, peak in runs):.0f} |", flush=True)
            if options.lines:
                print("\n".join(functions(words, source, options.lines, folder)), flush=True)


if __name__ == "__main__":
    resource.setrlimit(resource.RLIMIT_CORE, (0, 0))
    main()
