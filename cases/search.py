#!/usr/bin/env python3
"""Checks examples/search/search.py: over workers of which one is killed, over a cluster of its own of which a program is, where ^C is
pressed, and where something is missing. It finds what one `ct_tool find` finds. Everything listens on 127.0.0.1.

    search.py CT_TOOL        the last line is N passed, M failed; needs the package distributed (Debian's python3-distributed)
"""
from __future__ import annotations

import argparse
import contextlib
import json
import logging
import os
import random
import re
import runpy
import signal
import subprocess
import sys
import tempfile
import time
from typing import IO, Callable, Dict, Iterator, List, NamedTuple, Set, Tuple, Union
from unittest import mock

import psutil
from terminal import Late, told as told_on_terminal

HERE = os.path.dirname(os.path.abspath(__file__))
SEARCH = os.path.join(HERE, "..", "examples", "search")
sys.dont_write_bytecode = True
sys.path.insert(0, SEARCH)
from ranges import Ranges, Seeds  # noqa: E402

SECONDS = 60         # that a search may take
SECONDS_TO_COME = 20  # that a program may take until it is there
ORDERS = 2_000       # in which ranges come back
GOAL = "any follows 2"
WALK = "--members 3 --turns 300 --rate 32 --lose 40 --repeat 80 --batch 1".split()
SEEDS, BLOCK = "1..2000", 20
SOUGHT = ["--goal", GOAL, "--seeds", SEEDS, *WALK]
NOTHING = "any instance >= 30"
NOWHERE = "tcp://127.0.0.1:1"
MISSING = "/no/such/program"
LOCAL = "127.0.0.1"
PROGRESS = r"\r\d+ seeds on 2 workers, \d+ a second, (?:\d+ s left|no range came back yet); none up to 0\x1b\[K"


class Done(NamedTuple):
    status: int
    output: bytes
    errors: str


def ran(words: List[str], output: Union[int, IO[bytes]] = subprocess.PIPE) -> Done:
    done = subprocess.run(words, stdin=subprocess.DEVNULL, stdout=output, stderr=subprocess.PIPE, timeout=SECONDS)
    return Done(done.returncode, done.stdout or b"", done.stderr.decode())


def searched(tool: str, *words: str) -> List[str]:
    """The words that search by this tool."""
    return [sys.executable, os.path.join(SEARCH, "search.py"), "--tool", tool, "--block", str(BLOCK), *words]


def differences(made: Done, wanted: Done) -> List[str]:
    """How what a search comes to differs from what is wanted."""
    wrong = [] if made.status == wanted.status else [f"status {made.status}, not {wanted.status}"]
    wrong += [] if made.output == wanted.output else ["another record"]
    return wrong + ([] if made.errors == wanted.errors else [f"it tells {made.errors!r}, not {wanted.errors!r}"])


def comes(what: str, is_there: Callable[[], bool]) -> None:
    """Waits until it is there."""
    end = time.monotonic() + SECONDS_TO_COME
    while not is_there():
        if time.monotonic() > end:
            raise Late(f"{what} does not come within {SECONDS_TO_COME} seconds")
        time.sleep(0.05)


class Cluster:
    """A scheduler and two workers, each a process of its own."""

    def __init__(self, folder: str) -> None:
        self.folder, self.running = folder, {}  # type: str, Dict[str, subprocess.Popen[bytes]]
        told = os.path.join(folder, "scheduler.json")
        self.start("scheduler", "--port", "0", "--scheduler-file", told)
        comes("the scheduler", lambda: os.path.exists(told) and os.path.getsize(told) > 0)
        with open(told, encoding="utf-8") as file:
            self.address: str = json.load(file)["address"]
        self.workers = [self.start_worker("worker 1"), self.start_worker("worker 2")]

    def start_worker(self, name: str) -> int:
        """Starts a worker, and answers its process."""
        self.start(name, self.address, "--nthreads", "1", "--no-nanny", "--local-directory", os.path.join(self.folder, name))
        return self.running[name].pid

    def start(self, name: str, *words: str) -> None:
        command = [sys.executable, "-m", f"distributed.cli.dask_{name.split()[0]}", *words,
                   "--host", LOCAL, "--no-dashboard", "--dashboard-address", f"{LOCAL}:0"]
        with open(os.path.join(self.folder, f"{name}.log"), "wb") as log:
            self.running[name] = subprocess.Popen(command, stdin=subprocess.DEVNULL, stdout=log, stderr=log)

    def end(self) -> None:
        for process in self.running.values():
            if process.poll() is None:
                process.kill()
            process.wait()


@contextlib.contextmanager
def cluster() -> Iterator[Cluster]:
    with tempfile.TemporaryDirectory() as folder:
        made = None
        try:
            made = Cluster(folder)
            yield made
        finally:
            if made:
                made.end()


class Holder:
    """A program in place of the tool: the first try of a range stops, others go on as the tool does. Each try of the range notes its own
    process and that of its worker."""

    def __init__(self, folder: str, tool: str, held: Seeds) -> None:
        self.tries, self.path = os.path.join(folder, "tries"), os.path.join(folder, "holder")
        program(self.path, f"""
case " $* " in
*" --seeds {held} "*)
    echo $$ $PPID >> '{self.tries}'
    [ "$(wc -l < '{self.tries}')" -gt 1 ] || exec sleep {SECONDS} ;;
esac
exec '{tool}' "$@"
""")

    def noted(self) -> List[Tuple[int, int]]:
        """The processes of each try, and of its worker."""
        if not os.path.exists(self.tries):
            return []
        with open(self.tries, encoding="utf-8") as file:
            return [(int(line.split()[0]), int(line.split()[1])) for line in file if line.endswith("\n")]

    def end(self) -> None:
        for process, _ in self.noted()[:1]:
            with contextlib.suppress(ProcessLookupError):
                os.kill(process, signal.SIGKILL)


def program(path: str, text: str) -> str:
    """Writes a program of the shell."""
    with open(path, "w", encoding="utf-8") as file:
        file.write(f"#!/bin/sh\n{text}")
    os.chmod(path, 0o755)
    return path


def found(tool: str) -> Tuple[Done, Seeds]:
    """What one `ct_tool find` comes to, and the range of the seed that it finds."""
    wanted = ran([tool, "find", *SOUGHT])
    seed = re.match(r"seed (\d+): [1-9]\d* steps\n", wanted.errors)
    if wanted.status or not seed:
        raise Late(f"one find comes to status {wanted.status}: {wanted.errors}")
    first = int(SEEDS.split("..", 1)[0])
    start = int(seed.group(1)) - (int(seed.group(1)) - first) % BLOCK
    if start < first + 2 * BLOCK:
        raise Late(f"seed {seed.group(1)} is in one of the first two ranges")
    return wanted, Seeds(start, start + BLOCK - 1)


def struck(holder: Holder, words: List[str], strike: Callable[["subprocess.Popen[bytes]", int, int], None]) -> Done:
    """What a search comes to that is struck while a range is held: itself, at the process of the try, or at that of its worker."""
    search = subprocess.Popen(searched(holder.path, *words, *SOUGHT), stdin=subprocess.DEVNULL, stdout=subprocess.PIPE,
                              stderr=subprocess.PIPE)
    try:
        comes("a try of the range", lambda: bool(holder.noted()))
        strike(search, *holder.noted()[0])
        output, errors = search.communicate(timeout=SECONDS)
    finally:
        search.kill()
        search.wait()
        holder.end()
    return Done(search.returncode, output, errors.decode())


def faults_of_killed(tool: str) -> List[str]:
    """The worker is killed that tries the range of the hit; the other one tries it again, and is killed before the search takes what it
    came to. A third one comes."""
    from distributed import Client
    wanted, held = found(tool)
    with cluster() as made, Client(made.address) as client:
        def is_there() -> bool:
            """Some worker has what the range came to."""
            return any(workers and key.endswith(f"-{held}") for key, workers in client.who_has().items())

        def strike(search: "subprocess.Popen[bytes]", _: int, worker: int) -> None:
            search.send_signal(signal.SIGSTOP)
            os.kill(worker, signal.SIGKILL)
            comes("the end of the second try", is_there)
            os.kill(sum(made.workers) - worker, signal.SIGKILL)
            comes("its loss", lambda: not is_there())
            search.send_signal(signal.SIGCONT)
            made.start_worker("worker 3")

        holder = Holder(made.folder, tool, held)
        wrong = differences(struck(holder, ["--scheduler", made.address], strike), wanted)
        tries = [worker for _, worker in holder.noted()]
        return wrong + ([] if len(tries) == len(set(tries)) == 3 else [f"the range was tried by {tries}"])


def faults_of_lost(tool: str) -> List[str]:
    """The scheduler is killed."""
    _, held = found(tool)
    with cluster() as made:
        holder = Holder(made.folder, tool, held)
        done = struck(holder, ["--scheduler", made.address], lambda *_: made.running["scheduler"].kill())
    is_told = re.fullmatch(r"search\.py: the scheduler was lost; no seed up to \d+ shows the goal\n", done.errors)
    return [] if done.status == 2 and not done.output and is_told else [f"status {done.status}: {done.errors!r}"]


def faults_of_own(tool: str) -> List[str]:
    """Two workers of its own find the same, where the program is killed that tries the range of the hit."""
    wanted, held = found(tool)
    with tempfile.TemporaryDirectory() as folder:
        holder = Holder(folder, tool, held)
        wrong = differences(struck(holder, ["--workers", "2"], lambda _, process, __: os.kill(process, signal.SIGKILL)), wanted)
        return wrong + ([] if len(holder.noted()) == 2 else [f"the range was tried {len(holder.noted())} times"])


def heard_at() -> Set[str]:
    """The addresses at which processes listen that were started here."""
    own = {process.pid for process in psutil.Process().children(recursive=True)}
    return {it.laddr.ip for it in psutil.net_connections("tcp") if it.pid in own and it.status == psutil.CONN_LISTEN}


def faults_of_interrupted(tool: str) -> List[str]:
    """^C is pressed while the first range is tried: what is left is told. Until then there is progress, and all listens here alone."""
    heard: Set[str] = set()

    def is_enough(text: str, _: float) -> bool:
        if re.search(PROGRESS, text):
            heard.update(heard_at())
        return bool(heard)

    with tempfile.TemporaryDirectory() as folder:
        holder = Holder(folder, tool, Seeds(1, BLOCK))
        try:
            made = told_on_terminal(searched(holder.path, "--workers", "2", *SOUGHT), is_enough)
        finally:
            holder.end()
    rest = re.sub(PROGRESS, "", made.text).replace("^C", "", 1)
    wrong = [] if heard == {LOCAL} else [f"it listens on {sorted(heard)}"]
    stopped = f"\r\x1b[K\r\nstopped: no seed before 1 shows it; --seeds {SEEDS} goes on\r\n"
    return wrong + differences(Done(made.status, made.output, rest), Done(130, b"", stopped))


def faults_of_full(tool: str) -> List[str]:
    """There is no room for the record."""
    with open("/dev/full", "wb") as full:
        made = ran(searched(tool, "--workers", "1", *SOUGHT), full)
    return differences(made, Done(4, b"", "write failed\n"))


def faults_of_nothing(tool: str) -> List[str]:
    """No seed shows it."""
    made = ran(searched(tool, "--workers", "2", "--goal", NOTHING, "--seeds", "1..1000", *WALK))
    return differences(made, Done(1, b"", f"no seed of 1..1000 shows {NOTHING}\n"))


def wrong_words(tool: str, unlike: str) -> List[Tuple[List[str], int, str]]:
    """Words, the status that they end with, and what is told of them. unlike: a program that each worker has another of."""
    goal = ["--goal", GOAL, "--seeds", "7..7"]
    refused = (["--jobs", "2"], ["--count"], ["--best=5"], ["--seed", "7"])
    return [
        (searched(tool, "--goal", GOAL), 3, r"search\.py: the following arguments are required: --seeds; .*"),
        (searched(tool, "--goal", GOAL, "--seeds", "5..1"), 3, r"search\.py: argument --seeds: 5\.\.1: A\.\.B, .* A no larger than B; .*"),
        (searched(MISSING, *goal, "--block", "0"), 3, r"search\.py: argument --block: 0: a whole number, 1 or more; .*"),
        (searched(MISSING, *goal), 2, rf"search\.py: no program at {MISSING}; --tool names the built ct_tool"),
        ([sys.executable, "-S", *searched(tool, *goal)[1:]], 2, rf"search\.py: no package distributed for {re.escape(sys.executable)} .*"),
        (searched(tool, *goal, "--scheduler", NOWHERE), 2, rf"search\.py: --scheduler {re.escape(NOWHERE)}: none answers there: .*"),
        (searched(unlike, *goal, "--workers", "2"), 2, r"search\.py: the workers' programs differ: (\S+ has ct_tool \d+(, |$)){2}"),
        (searched(tool, "--workers", "1", "--goal", "any one", "--seeds", "1..9", *WALK), 3, r".*not understood: .*"),
        (searched(tool, "--workers", "1", *goal), 3, r".*--members.*"),
        *((searched(MISSING, *goal, *option), 3, rf"search\.py: {option[0].split('=')[0]}: not here: .*") for option in refused),
    ]


def faults_of_words(tool: str) -> List[str]:
    """What is wrong is told."""
    wrong = []
    with tempfile.TemporaryDirectory() as folder:
        for words, status, text in wrong_words(tool, program(os.path.join(folder, "unlike"), "echo ct_tool $PPID")):
            made = ran(words)
            if made.status != status or made.output or not re.fullmatch(text, made.errors.rstrip("\n"), re.S):
                wrong.append(f"`{' '.join(words[4:])}` ends with status {made.status}: {made.errors[-300:]!r}")
    return wrong


def faults_of_orders() -> List[str]:
    """The ranges part the seeds; in whatever order they come back, the first one with a hit is sure once those before it came back, and
    not before."""
    draws = random.Random(7)
    for _ in range(ORDERS):
        seeds = Seeds(draws.randrange(5), draws.randrange(5, 60))
        hits = {seed for seed in range(seeds.first, seeds.last + 1) if draws.random() < 0.05}
        ranges = Ranges(seeds, draws.randrange(1, 8))
        out: List[Seeds] = []
        back: Set[int] = set()
        first = seeds.first
        while not ranges.is_over:
            handed = ranges.next() if draws.random() < 0.6 or not out else None
            if handed:
                if handed.first != first or not first <= handed.last <= seeds.last:
                    return [f"seeds {seeds}: {handed} is handed out, and {first} is the next one"]
                first = handed.last + 1
                out.append(handed)
            if out and (not handed or draws.random() < 0.5):
                one = out.pop(draws.randrange(len(out)))
                back.update(range(one.first, one.last + 1))
                off = ranges.came_back(one, any(one.first <= seed <= one.last for seed in hits))
                out = [other for other in out if other not in off]
            if any(seed not in back or seed in hits for seed in range(seeds.first, ranges.passed + 1)):
                return [f"seeds {seeds} with hits {sorted(hits)}: passed {ranges.passed}, back {sorted(back)}"]
        least = min(hits, default=-1)
        if (ranges.hit is None) == bool(hits) or (ranges.hit and not ranges.hit.first <= least <= ranges.hit.last):
            return [f"seeds {seeds} with hits {sorted(hits)}: the hit is in {ranges.hit}"]
    return []


def faults_of_calling_off() -> List[str]:
    """Once a range has a hit the later ones are called off; those before it go on."""
    client = mock.Mock(status="running")
    client.submit.side_effect = lambda *_, **__: mock.Mock(status="finished", **{"result.return_value": (0, b"", b"")})
    search = runpy.run_path(os.path.join(SEARCH, "search.py"))["Search"]
    made = search(client, argparse.Namespace(tool="", goal="", given=[], quiet=True), Ranges(Seeds(1, 9), 1))
    made.hand_out(2)
    first, hit, *later = made.running
    made.take(hit)
    is_right = later and client.cancel.mock_calls == [mock.call(later)] and list(made.running) == [first]
    return [] if is_right else [f"of {later} it called off {client.cancel.mock_calls}, and {list(made.running)} go on"]


def main() -> int:
    tool = os.path.abspath(sys.argv[1])
    logging.disable(logging.CRITICAL)   # of Dask, which is here to look at its scheduler
    checks: List[Tuple[str, Callable[[str], List[str]]]] = [
        ("ranges that come back in any order", lambda _: faults_of_orders()),
        ("ranges that are called off", lambda _: faults_of_calling_off()),
        ("a worker killed", faults_of_killed),
        ("the scheduler killed", faults_of_lost),
        ("a cluster of its own, a program killed", faults_of_own),
        ("nothing is found", faults_of_nothing),
        ("^C", faults_of_interrupted),
        ("no room for the record", faults_of_full),
        ("wrong words", faults_of_words),
    ]
    failed = 0
    for name, faults in checks:
        try:
            wrong = faults(tool)
        except (Late, subprocess.TimeoutExpired) as late:
            wrong = [str(late)]
        if wrong:
            failed += 1
            print(f"FAILED search, {name}: {'; '.join(wrong)}")
    print(f"{len(checks) - failed} passed, {failed} failed")
    return 1 if failed else 0


if __name__ == "__main__":
    sys.exit(main())
