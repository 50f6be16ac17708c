#!/usr/bin/env python3
"""Runs groups of members (node.py), kills some of them, and has `ct_tool merge` judge their logs.

    run.py [--members N] [--kill K] [--runs R] [--break NAME] [--keep DIR] [options]

Tells a line a run. Ends with status 0 where all logs are accepted, 1 where some are refused, else 6 where some are incomplete, 8 where some
meet a limit of the judge, 2 where a member or the judge fails.
"""
from __future__ import annotations

import argparse
import os
import random
import re
import signal
import socket
import subprocess
import sys
import tempfile
import time
from typing import Dict, List, Tuple

HERE = os.path.dirname(os.path.abspath(__file__))
TOOL = os.path.join(HERE, "..", "..", "crates", "ct_tool", "out", "ct_tool")
SECONDS_MORE = 10         # that a member may take longer than it is to run
SECONDS_OF_JUDGE = 60
VERDICTS = {0: "accepted", 1: "refused", 6: "incomplete", 8: "limit"}
PASSED_ON = ("seconds", "submit", "batch", "delay", "loss", "timeout", "growth", "written", "stated", "broken")


class Failed(Exception):
    """A member or the judge failed."""


def started(options: argparse.Namespace, folder: str) -> Dict[int, "subprocess.Popen[str]"]:
    """Starts the members, each with a socket of its own on a free port; the ports are theirs alone."""
    sockets = {p: socket.socket(socket.AF_INET, socket.SOCK_DGRAM) for p in range(1, options.members + 1)}
    running = {}
    try:
        for sock in sockets.values():
            sock.bind(("127.0.0.1", 0))
        ports = ",".join(str(sock.getsockname()[1]) for sock in sockets.values())
        for p, sock in sockets.items():
            words = [sys.executable, os.path.join(HERE, "node.py"), "--member", str(p), "--ports", ports, "--socket", str(sock.fileno()),
                     "--log", os.path.join(folder, f"{p}.log")]
            for name in PASSED_ON:
                if getattr(options, name) is not None:
                    words += ["--break" if name == "broken" else f"--{name}", str(getattr(options, name))]
            with open(os.path.join(folder, f"{p}.err"), "w", encoding="utf-8") as errors:
                running[p] = subprocess.Popen(words, stdin=subprocess.DEVNULL, stdout=errors, stderr=errors,
                                              pass_fds=[sock.fileno()], universal_newlines=True)
    except BaseException:
        end(running)
        raise
    finally:
        for sock in sockets.values():
            sock.close()
    return running


def end(running: Dict[int, "subprocess.Popen[str]"]) -> None:
    """Kills those that still run."""
    for process in running.values():
        if process.poll() is None:
            process.kill()
        process.wait()


def play(options: argparse.Namespace, folder: str) -> Tuple[int, List[str]]:
    """One run: how many members were killed, and the logs that it left."""
    running = started(options, folder)
    try:
        start = time.monotonic()
        victims = random.sample(sorted(running), options.kill)
        for at, p in sorted((random.uniform(0.2, 0.9) * options.seconds, p) for p in victims):
            time.sleep(max(0.0, start + at - time.monotonic()))
            running[p].kill()   # SIGKILL
        for p, process in running.items():
            status = process.wait(timeout=options.seconds + SECONDS_MORE)
            if status and p not in victims:
                raise Failed(f"member {p} ended with status {status}: {text(os.path.join(folder, f'{p}.err')).strip()}")
    except subprocess.TimeoutExpired as late:
        raise Failed(f"a member doesn't end: {late}") from None
    finally:
        end(running)
    logs = [os.path.join(folder, f"{p}.log") for p in running]
    return sum(process.returncode == -signal.SIGKILL for process in running.values()), [path for path in logs if os.path.exists(path)]


def text(path: str) -> str:
    with open(path, encoding="utf-8") as file:
        return file.read()


def judged(tool: str, logs: List[str]) -> Tuple[int, str]:
    """The status of the judge, and the first line of what it says."""
    try:
        done = subprocess.run([tool, "merge", *logs], stdin=subprocess.DEVNULL, stdout=subprocess.PIPE, stderr=subprocess.PIPE,
                              universal_newlines=True, timeout=SECONDS_OF_JUDGE)
    except (OSError, subprocess.TimeoutExpired) as error:
        raise Failed(str(error)) from None
    if done.returncode not in VERDICTS:
        raise Failed(f"{tool} merge ends with status {done.returncode}: {done.stderr.strip()}")
    said = (done.stderr.strip() or done.stdout.strip()).splitlines()
    return done.returncode, said[0] if said else ""


def counts(logs: List[str]) -> str:
    """What the logs show."""
    lines = [line for path in logs for line in text(path).split("\n")[3:] if line]
    delivered = [len(re.findall(r"\d+\.\d+", line.partition("{")[2])) for line in lines if re.match(r"\d+ (deliver|follow) ", line)]
    rounds = [int(found) for found in re.findall(r"receive est \d+/(\d+)", "\n".join(lines))]
    suspicions = sum(line.endswith(" suspect") for line in lines)
    return f"{len(lines)} lines, {sum(delivered)} deliveries, {suspicions} suspicions, rounds up to {max(rounds, default=0)}"


def run(options: argparse.Namespace, number: int, folder: str) -> int:
    """A run of this number, whose logs go to the folder; its status."""
    os.makedirs(folder)
    killed, logs = play(options, folder)
    status, said = judged(options.tool, logs)
    verdict = said if status else VERDICTS[status]
    print(f"run {number}: {killed} of {options.members} killed, {counts(logs)}: {verdict}", flush=True)
    return status


def parsed() -> argparse.Namespace:
    from node import add_options
    made = argparse.ArgumentParser(description=(__doc__ or "").split("\n")[0])
    made.add_argument("--members", type=int, default=3, metavar="N", help="members, 1 to 16 (default 3)")
    made.add_argument("--kill", type=int, default=0, metavar="K", help="members that are killed, fewer than half (default 0)")
    made.add_argument("--runs", type=int, default=1, metavar="R", help="how many runs (default 1)")
    made.add_argument("--keep", metavar="DIR", help="a new folder, in which the logs of run R stay as R/P.log")
    made.add_argument("--tool", default=TOOL, metavar="PROGRAM", help="the built ct_tool (default that of crates/)")
    add_options(made)
    options = made.parse_args()
    if not 1 <= options.members <= 16:
        made.error(f"argument --members: {options.members}: 1 to 16")
    if not 0 <= 2 * options.kill < options.members:
        made.error(f"argument --kill: {options.kill}: 0 to {(options.members - 1) // 2}, fewer than half of the members")
    return options


def main() -> int:
    options = parsed()
    with tempfile.TemporaryDirectory() as folder:
        home = options.keep or os.path.join(folder, "runs")
        try:
            os.makedirs(home)
            statuses = [run(options, number, os.path.join(home, str(number))) for number in range(1, options.runs + 1)]
        except (Failed, OSError) as fault:
            print(fault, file=sys.stderr)
            return 2
    return next((status for status in (1, 6, 8) if status in statuses), 0)


if __name__ == "__main__":
    sys.exit(main())
