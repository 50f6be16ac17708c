#!/usr/bin/env python3
"""Checks what `ct_tool find`, `shrink` and `order` tell on a terminal, and that ^C ends searches at once, with nothing written.

    terminal.py CT_TOOL        the last line is N passed, M failed
"""
from __future__ import annotations

import fcntl
import os
import pty
import re
import select
import signal
import subprocess
import sys
import tempfile
import termios
import time
from typing import Callable, Dict, List, NamedTuple, Optional

SECONDS = 60         # that a program may take
QUIET_SECONDS = 2.5  # after which it would have told something
JOBS = 2
FIRST, LAST = 101, 4_000_000_000

SEARCH = ["find", "--members", "1", "--turns", "0", "--submit", "1", "--goal", "any crashed", "--seeds", f"{FIRST}..{LAST}",
          "--jobs", str(JOBS)]
FOUND = ["find", "--members", "3", "--goal", "any round >= 3", "--seeds", "1..9"]
LONG_WALK = ["walk", "--members", "5", "--turns", "20000", "--rate", "16", "--submit", "1000", "--lose", "100", "--repeat", "100"]
LONG_SHRINK = ["shrink", "--goal", "any delivered count >= 300"]
PACED = ["find", "--members", "3", "--goal", "any round >= 90", "--seeds", "1..1000000"]
PACED_JOBS = ["1", "64"]
PACED_LINES = 6      # that are waited for
PAUSE = 2.5          # seconds between two lines, at most
COLUMNS = 40
TRIED = re.compile(r"\r(\d+) of (\d+) seeds up to (\d+), \d+/s, (?:(?:\d\d?|1[01]\d) (?:s|min|h)|\d+ days) left\x1b\[K")
LEFT = re.compile(r"\r(\d+) trials, (\d+) steps left; --tries \1 writes these\x1b\[K")


class Late(Exception):
    """A program doesn't tell in time what it has to."""


class Told(NamedTuple):
    """What stood on the terminal, how the program ended, and what it wrote to standard output."""
    text: str
    status: int
    output: bytes


def read_some(terminal: int) -> bytes:
    """What comes on the terminal in a while; nothing at its end."""
    if not select.select([terminal], [], [], 0.1)[0]:
        return b""
    try:
        return os.read(terminal, 65_536)
    except OSError:
        return b""


def told(words: List[str], is_enough: Callable[[str, float], bool], columns: Optional[int] = None) -> Told:
    """Runs the program with standard error on a terminal, where ^C is pressed once that is enough."""
    environment: Dict[str, str] = {name: value for name, value in os.environ.items() if name != "COLUMNS"}
    environment.update({} if columns is None else {"COLUMNS": str(columns)})
    terminal, its_side = pty.openpty()

    def take_terminal() -> None:
        signal.signal(signal.SIGINT, signal.SIG_DFL)   # what a shell starts in the background ignores it
        os.setsid()
        fcntl.ioctl(its_side, termios.TIOCSCTTY, 0)

    with tempfile.TemporaryFile() as output:
        # pylint: disable-next=subprocess-popen-preexec-fn
        run = subprocess.Popen(words, stdin=subprocess.DEVNULL, stdout=output, stderr=its_side, preexec_fn=take_terminal,
                               env=environment)
        began, text, is_pressed = time.monotonic(), b"", False
        while run.poll() is None:
            text += read_some(terminal)
            seconds = time.monotonic() - began
            if not is_pressed and is_enough(text.decode(), seconds):
                os.write(terminal, b"\x03")
                is_pressed = True
            if seconds > SECONDS:
                run.kill()
                run.wait()
                raise Late(f"{' '.join(words[1:3])} .. told {text!r} in {SECONDS} s")
        text += read_some(terminal)
        output.seek(0)
        made = Told(text.decode(), run.returncode, output.read())
    os.close(its_side)
    os.close(terminal)
    return made


def faults_of_end(made: Told) -> List[str]:
    """It ended by the signal, with nothing written."""
    wrong = [] if made.status == -signal.SIGINT else [f"status {made.status}"]
    return wrong + ([f"it wrote {made.output[:80]!r}"] if made.output else [])


def rest(line: "re.Pattern[str]", text: str) -> str:
    """What is told besides such lines, and the ^C that the terminal shows."""
    return line.sub("", text).replace("^C", "", 1)


def faults_of_search(tool: str) -> List[str]:
    """Each line of a search that is interrupted names the last seed of a block."""
    made = told([tool, *SEARCH], lambda text, _: len(TRIED.findall(text)) >= 2)
    wrong = faults_of_end(made)
    for tried, of, last in TRIED.findall(made.text):
        if int(tried) % JOBS or int(last) != FIRST - 1 + int(tried) or int(of) != LAST - FIRST + 1:
            wrong.append(f"it tells {tried} of {of} seeds up to {last}")
    return wrong + ([f"it tells {made.text!r}"] if rest(TRIED, made.text) else [])


def faults_of_pace(tool: str) -> List[str]:
    """With any number of jobs a line comes each second, whatever a walk takes."""
    wrong = []
    for jobs in PACED_JOBS:
        moments: List[float] = []

        def is_enough(text: str, seconds: float, moments: List[float] = moments) -> bool:
            moments += [seconds] * (len(TRIED.findall(text)) - len(moments))
            return len(moments) >= PACED_LINES

        told([tool, *PACED, "--jobs", jobs], is_enough)
        pauses = [after - before for before, after in zip(moments, moments[1:])]
        wrong += [f"with {jobs} jobs lines come {moments} s after the beginning"] if max(pauses) > PAUSE else []
    return wrong


def faults_of_width(tool: str) -> List[str]:
    """A line ends before the terminal does."""
    made = told([tool, *SEARCH], lambda text, _: text.count("\x1b[K") >= 2, COLUMNS)
    lines = re.findall(r"\r([^\r]*)\x1b\[K", made.text)
    return [] if {len(line) for line in lines} == {COLUMNS - 1} else [f"with {COLUMNS} columns it tells {made.text!r}"]


def faults_of_shrink(tool: str) -> List[str]:
    """So do those of trials that are interrupted: more trials each time, and no more steps; what was reached can be written."""
    with tempfile.NamedTemporaryFile() as record:
        subprocess.run([tool, *LONG_WALK], stdout=record, check=True, timeout=SECONDS)
        made = told([tool, *LONG_SHRINK, record.name], lambda text, _: len(LEFT.findall(text)) >= 2)
        trials, steps = LEFT.findall(made.text)[-1]
        again = subprocess.run([tool, *LONG_SHRINK, "--tries", trials, record.name], stdout=subprocess.DEVNULL, stderr=subprocess.PIPE,
                               check=True, timeout=SECONDS)
    wrong = faults_of_end(made)
    reached = f" steps {steps} are left; stopped after {trials} trials\n"
    wrong += [] if again.stderr.decode().endswith(reached) else [f"--tries {trials} tells {again.stderr.decode()!r}, not {reached!r}"]
    lines = [(int(trials), -int(steps)) for trials, steps in LEFT.findall(made.text)]
    wrong += [] if all(a[0] < b[0] and a[1] <= b[1] for a, b in zip(lines, lines[1:])) else [f"it tells {lines}"]
    return wrong + ([f"it tells {made.text!r}"] if rest(LEFT, made.text) else [])


def faults_of_quiet(tool: str) -> List[str]:
    """Nothing is told with --quiet."""
    made = told([tool, *SEARCH, "--quiet"], lambda _, seconds: seconds > QUIET_SECONDS)
    return faults_of_end(made) + ([] if made.text == "^C" else [f"it tells {made.text!r}"])


def faults_of_found(tool: str) -> List[str]:
    """Where a seed is found at once, that alone is told."""
    made = told([tool, *FOUND], lambda _text, _seconds: False)
    wanted = "seed 1: 23 steps\r\nct_tool walk --members 3 --seed 1 --until 'any round >= 3'\r\n"
    wrong = [] if made.text == wanted else [f"it tells {made.text!r}"]
    return wrong + ([] if made.status == 0 and made.output.endswith(b'"version":3}\n') else [f"status {made.status}"])


def faults_of_reading(tool: str) -> List[str]:
    """How much of a log was read is told while it comes slowly, and is gone before the verdict."""
    wrong = []
    for last, verdict in [("deliver x", "accepted: 1 log, 1 delivery"),
                          ("from x", "{} line 2: from x: expected a number of deliveries, 0 to 4294967295")]:
        with tempfile.TemporaryDirectory() as folder:
            log = os.path.join(folder, "log")
            os.mkfifo(log)
            writer = subprocess.Popen(["sh", "-c", f"(echo broadcast x; sleep 1.4; echo {last}) >{log}"])
            made = told(["sh", "-c", f"exec {tool} order {log} >&2"], lambda text, seconds: False)
            writer.wait()
        shown = re.fullmatch(r"(?:\r0 MB read\x1b\[K)+\r\x1b\[K(.*)\r\n(?:\r\x1b\[K)?", made.text)
        if shown is None or shown[1] != verdict.format(log):
            wrong.append(f"told {made.text!r}")
    return wrong


CHECKS = [("a search that is interrupted", faults_of_search), ("the pace of a search", faults_of_pace),
          ("a search on a narrow terminal", faults_of_width), ("trials that are interrupted", faults_of_shrink),
          ("a quiet search that is interrupted", faults_of_quiet), ("a search that finds", faults_of_found),
          ("a log that comes slowly", faults_of_reading)]


def main() -> int:
    tool = os.path.abspath(sys.argv[1])
    failed = 0
    for name, faults in CHECKS:
        try:
            wrong = faults(tool)
        except (Late, subprocess.SubprocessError) as late:
            wrong = [str(late)]
        if wrong:
            failed += 1
            print(f"FAILED terminal, {name}: {'; '.join(wrong)}")
    print(f"{len(CHECKS) - failed} passed, {failed} failed")
    return 1 if failed else 0


if __name__ == "__main__":
    sys.exit(main())
