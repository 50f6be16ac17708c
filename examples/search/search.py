#!/usr/bin/env python3
"""Runs `ct_tool find` over ranges of seeds on the workers of a Dask cluster, and writes what it writes: the record of the least seed
whose walk shows the goal.

    search.py --goal GOAL --seeds A..B [--workers N | --scheduler ADDRESS] [--tool PROGRAM] [--block N] [--quiet] [options of ct_tool find]

Status: 0, the record was written; 1, no walk shows the goal; 2, there is no cluster, no program or no package distributed; else that
of `ct_tool find`. Stopped by Ctrl-C it tells up to which seed none shows the goal.
"""
from __future__ import annotations

import argparse
import contextlib
import logging
import os
import re
import shutil
import signal
import subprocess
import sys
import tempfile
import time
import uuid
from typing import Any, Dict, Iterator, List, NoReturn, Tuple

sys.dont_write_bytecode = True
from ranges import Ranges, Seeds

TOOL = os.path.join(os.path.dirname(os.path.abspath(__file__)), "..", "..", "crates", "ct_tool", "out", "ct_tool")
LAST_SEED = 4_294_967_295
SEEDS_A_RANGE = 1_000
RANGES_A_THREAD = 2      # that are handed out ahead
RETRIES = 3              # of a range whose program was killed; of one whose worker was lost Dask has a number of its own
SECONDS_TO_CONNECT = 10
SECONDS_OF_A_LINE = 1    # of progress
WRONG_WORDS = 3
WRITE_FAILED = 4

Answer = Tuple[int, bytes, bytes]   # the status of a program, and what it wrote to standard output and error


class Failed(Exception):
    """What there is to be isn't there."""


class Wrong(Exception):
    """A range that the program refused, as its words are wrong or memory was refused."""

    def __init__(self, status: int, told: str) -> None:
        super().__init__(told)
        self.status = status


class Progress:
    """A line on a terminal that is written again and again."""

    def __init__(self, ranges: Ranges, is_told: bool) -> None:
        self.ranges = ranges
        self.is_told = is_told and sys.stderr.isatty()
        self.start = self.last = time.monotonic()

    def tell(self, workers: int) -> None:
        now = time.monotonic()
        if not self.is_told or now - self.last < SECONDS_OF_A_LINE:
            return
        self.last = now
        pace = self.ranges.tried / (now - self.start)
        left = (self.ranges.seeds.last - self.ranges.passed) / pace if pace else 0
        ahead = f"{left:.0f} s left" if pace else "no range came back yet"
        print(f"\r{self.ranges.tried} seeds on {workers} workers, {pace:.0f} a second, {ahead}; none up to {self.ranges.passed}\x1b[K",
              end="", file=sys.stderr, flush=True)

    def end(self) -> None:
        if self.is_told:
            print("\r\x1b[K", end="", file=sys.stderr, flush=True)


# What runs on the workers.

def ran(words: List[str]) -> Answer:
    """What the program comes to. One that is killed raises, so that it is tried again."""
    done = subprocess.run(words, stdin=subprocess.DEVNULL, stdout=subprocess.PIPE, stderr=subprocess.PIPE)
    if done.returncode < 0:
        raise RuntimeError(f"{words[0]} was ended by signal {-done.returncode}")
    return done.returncode, done.stdout, done.stderr


def version(tool: str) -> str:
    """The version of the program, or what is wrong with it."""
    try:
        done = subprocess.run([tool, "--version"], stdin=subprocess.DEVNULL, stdout=subprocess.PIPE, stderr=subprocess.PIPE)
    except OSError as error:
        return f"{tool} is not run: {error.strerror}"
    return done.stdout.decode(errors="replace").strip() or f"{tool} tells no version"


# The cluster.

def has_distributed() -> bool:
    try:
        import distributed  # noqa: F401
    except ImportError:
        return False
    return True


def local_cluster(workers: int, folder: str) -> Any:
    """So many workers on this machine, which Ctrl-C does not stop by itself."""
    from distributed import LocalCluster
    heard = signal.signal(signal.SIGINT, signal.SIG_IGN)   # what is started meanwhile keeps to it
    try:
        return LocalCluster(n_workers=workers, threads_per_worker=1, host="127.0.0.1", dashboard_address="127.0.0.1:0",
                            worker_dashboard_address="127.0.0.1:0", silence_logs=logging.CRITICAL, local_directory=folder)
    finally:
        signal.signal(signal.SIGINT, heard)


@contextlib.contextmanager
def connected(options: argparse.Namespace) -> Iterator[Any]:
    """A client of the scheduler that is named, or of a cluster on this machine."""
    from distributed import Client, TimeoutError as Late
    logging.disable(logging.CRITICAL)   # that of Dask, too
    if options.scheduler:
        try:
            client = Client(options.scheduler, timeout=SECONDS_TO_CONNECT)
        except (OSError, ValueError, Late) as error:
            raise Failed(f"--scheduler {options.scheduler}: none answers there: {str(error).splitlines()[0]}") from None
        try:
            yield client
        finally:
            with contextlib.suppress(OSError, Late):   # where the scheduler is lost
                client.close()
        return
    with tempfile.TemporaryDirectory() as folder, local_cluster(options.workers, folder) as cluster, Client(cluster) as client:
        yield client


def check_workers(client: Any, options: argparse.Namespace) -> None:
    """There is a worker, and all have the same program."""
    from distributed import TimeoutError as Late
    try:
        client.wait_for_workers(1, timeout=SECONDS_TO_CONNECT)
    except Late:
        raise Failed(f"--scheduler {options.scheduler}: no worker came within {SECONDS_TO_CONNECT} seconds; "
                     f"`dask-worker {options.scheduler}` starts one") from None
    told: Dict[str, str] = client.run(version, options.tool, on_error="ignore")
    for worker, text in told.items():
        if not re.match(r"ct_tool \d", text):
            raise Failed(f"worker {worker}: {text}; --tool names the program as it lies on the workers' machines")
    if len(set(told.values())) > 1:
        each = ", ".join(f"{worker} has {text}" for worker, text in sorted(told.items()))
        raise Failed(f"the workers' programs differ: {each}")


def first_done(running: Dict[Any, Seeds]) -> List[Any]:
    """Those that came back, after a second at most."""
    from distributed import CancelledError, TimeoutError as Late, wait
    with contextlib.suppress(Late, CancelledError):
        wait(list(running), timeout=SECONDS_OF_A_LINE, return_when="FIRST_COMPLETED")
    return [future for future in running if future.done()]


def answer_of(future: Any, seeds: Seeds) -> Answer:
    """What came back of the range; an OSError where the scheduler was lost."""
    from distributed import KilledWorker
    if future.status == "cancelled":
        raise ConnectionError("the scheduler was lost")
    if future.status == "error":
        error = future.exception()
        raise Failed(f"seeds {seeds}: " + ("each worker that tried them was lost" if isinstance(error, KilledWorker) else str(error)))
    answer: Answer = future.result()
    status, _, errors = answer
    if status not in (0, 1):
        raise Wrong(status, errors.decode(errors="replace").rstrip("\n"))
    return answer


class Search:
    """What is tried on the workers, and what came back."""

    def __init__(self, client: Any, options: argparse.Namespace, ranges: Ranges) -> None:
        self.client, self.ranges = client, ranges
        self.words = [options.tool, "find", "--goal", options.goal, *options.given, "--jobs", "1", "--quiet"]
        self.name = uuid.uuid4().hex               # of this search among those of the cluster
        self.running: Dict[Any, Seeds] = {}        # by future
        self.hits: Dict[Seeds, Answer] = {}
        self.progress = Progress(ranges, not options.quiet)

    def hand_out(self, threads: int) -> None:
        """Hands out ranges for so many threads."""
        while len(self.running) < RANGES_A_THREAD * max(1, threads):
            seeds = self.ranges.next()
            if seeds is None:
                return
            future = self.client.submit(ran, self.words + ["--seeds", str(seeds)], key=f"{self.name}-{seeds}", retries=RETRIES,
                                        priority=-seeds.first)
            self.running[future] = seeds

    def take(self, future: Any) -> None:
        """Takes what came back, and calls off what need not be tried any more."""
        seeds = self.running.pop(future, None)
        if seeds is None:
            return   # it was called off
        answer = answer_of(future, seeds)
        if answer[0] == 0:
            self.hits[seeds] = answer
        off = self.ranges.came_back(seeds, answer[0] == 0)
        called_off = [other for other in self.running if self.running[other] in off]
        self.call_off(called_off)
        for other in called_off:
            del self.running[other]

    def call_off(self, futures: List[Any]) -> None:
        """Calls them off where the scheduler still listens."""
        from distributed import TimeoutError as Late
        if futures and self.client.status == "running":
            with contextlib.suppress(OSError, Late):
                self.client.cancel(futures)

    def run(self) -> Answer:
        """What `ct_tool find` comes to over all the seeds."""
        try:
            while not self.ranges.is_over:
                threads = self.client.nthreads()
                self.hand_out(sum(threads.values()))
                for future in first_done(self.running):
                    self.take(future)
                self.progress.tell(len(threads))
        except (Failed, Wrong):
            raise
        except Exception as error:   # what Dask raises of a lost scheduler depends on where it notices
            if not isinstance(error, OSError) and self.client.status == "running":
                raise
            self.running.clear()
            raise Failed(f"the scheduler was lost; no seed up to {self.ranges.passed} shows the goal") from None
        finally:
            self.call_off(list(self.running))
            self.progress.end()
        return self.hits[self.ranges.hit] if self.ranges.hit else (1, b"", b"")


# The command line.

class Parser(argparse.ArgumentParser):
    def error(self, message: str) -> NoReturn:
        print(f"search.py: {message}; --help tells all options", file=sys.stderr)
        sys.exit(WRONG_WORDS)


def seeds_of(text: str) -> Seeds:
    found = re.match(r"(\d{1,10})\.\.(\d{1,10})\Z", text, re.ASCII)
    if not found or not int(found.group(1)) <= int(found.group(2)) <= LAST_SEED:
        raise argparse.ArgumentTypeError(f"{text}: A..B, whole numbers from 0 to {LAST_SEED}, A no larger than B")
    return Seeds(int(found.group(1)), int(found.group(2)))


def count_of(text: str) -> int:
    if not re.match(r"\d{1,10}\Z", text, re.ASCII) or not 1 <= int(text) <= LAST_SEED + 1:
        raise argparse.ArgumentTypeError(f"{text}: a whole number, 1 or more")
    return int(text)


def parsed() -> argparse.Namespace:
    made = Parser(description=(__doc__ or "").split("\n\n")[0], allow_abbrev=False,
                  epilog="Other options are those of ct_tool find, as --members and --rate.")
    made.add_argument("--goal", required=True, metavar="GOAL", help="what is looked for, as ct_tool find takes it")
    made.add_argument("--seeds", required=True, type=seeds_of, metavar="A..B", help="the seeds, from A to B, both of them too")
    where = made.add_mutually_exclusive_group()
    where.add_argument("--workers", type=count_of, default=os.cpu_count() or 1, metavar="N",
                       help="a cluster of its own on this machine, of so many workers (default one a core)")
    where.add_argument("--scheduler", metavar="ADDRESS", help="the scheduler of a cluster that stands, as tcp://10.0.0.1:8786")
    made.add_argument("--tool", metavar="PROGRAM", help="ct_tool as it lies on the workers' machines (default that of crates/, else that "
                                                        "on the path)")
    made.add_argument("--block", type=count_of, default=SEEDS_A_RANGE, metavar="N", help=f"seeds of a range (default {SEEDS_A_RANGE})")
    made.add_argument("--quiet", action="store_true", help="tell no progress on a terminal")
    options, given = made.parse_known_args()
    for name in ("--jobs", "--count", "--best", "--seed"):
        if any(word.partition("=")[0] == name for word in given):
            made.error(f"{name}: not here: each range is tried by one ct_tool find with --jobs 1, for the record of its least seed")
    options.given = given
    options.tool = options.tool or (os.path.normpath(TOOL) if os.access(TOOL, os.X_OK) else "ct_tool")
    return options


def write(answer: Answer, missed: str) -> int:
    """Writes what the program wrote, or that no seed shows the goal."""
    status, record, told = answer
    try:
        sys.stdout.buffer.write(record)
        sys.stdout.flush()
    except BrokenPipeError:
        os.dup2(os.open(os.devnull, os.O_WRONLY), sys.stdout.fileno())
    except OSError:
        print("write failed", file=sys.stderr)
        return WRITE_FAILED
    sys.stderr.buffer.write(told or f"{missed}\n".encode())
    return status


def main() -> int:
    options = parsed()
    ranges = Ranges(options.seeds, options.block)
    try:
        if not has_distributed():
            raise Failed(f"no package distributed for {sys.executable} (Debian's python3-distributed is for /usr/bin/python3)")
        if not options.scheduler and shutil.which(options.tool) is None:
            raise Failed(f"no program at {options.tool}; --tool names the built ct_tool")
        with connected(options) as client:
            check_workers(client, options)
            answer = Search(client, options, ranges).run()
        return write(answer, f"no seed of {ranges.seeds} shows {options.goal}")
    except Wrong as wrong:
        print(wrong, file=sys.stderr)
        return wrong.status
    except Failed as fault:
        print(f"search.py: {fault}", file=sys.stderr)
        return 2
    except KeyboardInterrupt:
        rest = Seeds(ranges.passed + 1, ranges.seeds.last)
        print(f"\nstopped: no seed before {rest.first} shows it; --seeds {rest} goes on", file=sys.stderr)
        return 130


if __name__ == "__main__":
    sys.exit(main())
