#!/usr/bin/env python3
"""Checks what `ct_tool order` says of small logs by hand, and compares random sets of logs with a search and with what was put wrong.

    orders.py CT_TOOL        the last line is N passed, M failed
"""
from __future__ import annotations

import json
import os
import subprocess
import sys
import tempfile
import time
from typing import Dict, List, NamedTuple, Sequence

HERE = os.path.dirname(os.path.abspath(__file__))
SECONDS = 20
SECONDS_OF_SETS = 240
SETS = 300


class Case(NamedTuple):
    name: str
    logs: Dict[str, str]
    status: int
    told: str
    options: Sequence[str] = ()


A = "broadcast x\nbroadcast y\ndeliver x\ndeliver y\nstate s2\nend\n"
WORDS = "broadcast ID, deliver ID, state WORD, from N, restart N, crash or end"
CASES = [
    Case("one log", {"a": A}, 0, "accepted: 1 log, 2 deliveries\n"),
    Case("an empty log", {"a": ""}, 0, "accepted: 1 log, 0 deliveries\n"),
    Case("one is behind", {"a": A, "b": "deliver x\nend\n"}, 0, "accepted: 2 logs, 2 deliveries; b is 1 behind\n"),
    Case("a crash", {"a": A, "b": "deliver x\ncrash\nend\n"}, 0, "accepted: 2 logs, 2 deliveries; b is 1 behind; b crashed\n"),
    Case("a restart", {"a": A, "b": "deliver x\ncrash\nrestart 0\ndeliver x\ndeliver y\n"}, 0, "accepted: 2 logs, 2 deliveries\n"),
    Case("a restart that differs", {"a": A, "b": "deliver x\nrestart 0\ndeliver y\n"}, 1,
         "refused: b line 3: deliver y: position 1: a line 3 delivered x\n"),
    Case("a snapshot", {"a": A, "b": "from 1\ndeliver y\nstate s2\n"}, 0, "accepted: 2 logs, 2 deliveries\n"),
    Case("a snapshot that goes back", {"a": A, "b": "deliver x\nfrom 0\n"}, 1, "refused: b line 2: from 0: behind 1 deliveries: a snapshot has no fewer\n"),
    Case("a position of which nothing is told", {"a": "broadcast x\nfrom 7\ndeliver x\n"}, 0, "accepted: 1 log, 8 deliveries\n"),
    Case("another order", {"a": A, "b": "deliver y\n"}, 1, "refused: b line 1: deliver y: position 1: a line 3 delivered x\n"),
    Case("delivered again", {"a": A, "b": "deliver x\ndeliver y\ndeliver x\n"}, 1,
         "refused: b line 3: deliver x: position 3: a line 3 delivered it at position 1\n"),
    Case("another state", {"a": A, "b": "# b\ndeliver x\ndeliver y\nstate s1\n"}, 1, "refused: b line 4: state s1: behind 2 deliveries: a line 5 has s2\n"),
    Case("never broadcast", {"a": "deliver x\nend\n", "b": "end\n"}, 1,
         "refused: a line 1: deliver x: no log broadcasts it, and all are whole\n"),
    Case("a broadcast may be cut off", {"a": "deliver x\nend\n", "b": "broadcast y\n"}, 6,
         "incomplete: a line 1: deliver x: no log broadcasts it, and b has no end\n"),
    Case("broadcast behind its delivery", {"a": "deliver x\nend\n", "b": "broadcast x\nend\n"}, 0, "accepted: 2 logs, 1 delivery; b is 1 behind\n"),
    Case("blanks", {"a": "\n  broadcast \t x  \r\n#\n\tdeliver x\n"}, 0, "accepted: 1 log, 1 delivery\n"),
    Case("a torn line", {"a": A + "deliver"}, 0,
         "accepted: 1 log, 2 deliveries\nnote: a line 7: no line feed ends it, so it is left out\n"),
    Case("no line of a log", {"a": "submit x\n"}, 2, f"a line 1: submit x: expected {WORDS}\n"),
    Case("no word", {"a": "deliver\n"}, 2, "a line 1: deliver: expected a word of 1 to 64 bytes, without blanks and control bytes\n"),
    Case("a word too long", {"a": "\ndeliver " + 65 * "m" + "\n"}, 2,
         "a line 2: deliver " + 65 * "m" + ": expected a word of 1 to 64 bytes, without blanks and control bytes\n"),
    Case("no number", {"a": "from x\n"}, 2, "a line 1: from x: expected a number of deliveries, 0 to 4294967295\n"),
    Case("behind the end", {"a": "end\ncrash\n"}, 2, "a line 2: crash: expected nothing stands behind end\n"),
    Case("behind a crash", {"a": "crash\ndeliver x\n"}, 2, "a line 2: deliver x: expected restart N or end stands behind crash\n"),
    Case("JSON", {"a": '{"broadcast":"x","at":3}\n {"deliver":"x"}\n{"from":1}\n{"crash":true}\n{"restart":0}\n{"state":"s"}\n{"end":true}\n'}, 0,
         "accepted: 1 log, 0 deliveries\n"),
    Case("two keys", {"a": '{"broadcast":"x","deliver":"x"}\n'}, 2,
         'a line 1: {"broadcast":"x","deliver":"x"}: expected an object with one of broadcast, deliver, state, from, restart, crash and end\n'),
    Case("no JSON", {"a": '{"deliver":"x"\n'}, 2,
         'a line 1: {"deliver":"x": expected an object with one of broadcast, deliver, state, from, restart, crash and end\n'),
    Case("settled", {"a": A, "b": "deliver x\ndeliver y\n"}, 0, "accepted: 2 logs, 2 deliveries\n", ["--settled"]),
    Case("behind the others", {"a": A, "b": "deliver x\n"}, 1, "unsettled: b line 1: position 2 is missing: y, delivered in a line 4\n", ["--settled"]),
    Case("behind, and crashed", {"a": A, "b": "deliver x\ncrash\n"}, 0, "accepted: 2 logs, 2 deliveries; b is 1 behind; b crashed\n", ["--settled"]),
    Case("nobody delivers it", {"a": "broadcast x\n", "b": "\n"}, 1, "unsettled: a line 1: no process that did not crash delivered it\n", ["--settled"]),
    Case("in the order of broadcasts", {"a": A}, 0, "accepted: 1 log, 2 deliveries\n", ["--fifo"]),
    Case("overtaken", {"a": "broadcast y\nbroadcast x\ndeliver x\ndeliver y\n"}, 1,
         "overtaken: a line 3: deliver x: its process broadcast another before it (a line 1), which is not delivered before it\n", ["--fifo"]),
    Case("overtaken for good", {"a": "broadcast y\nbroadcast x\ndeliver x\n"}, 1,
         "overtaken: a line 3: deliver x: its process broadcast another before it (a line 1), which is not delivered before it\n", ["--fifo"]),
    Case("all that is refused", {"a": A, "b": "deliver y\ndeliver y\n", "c": "deliver x\nstate\n", "d": "deliver x\ndeliver y\nstate s1\n"}, 1,
         "refused: b line 1: deliver y: position 1: a line 3 delivered x\n"
         "also c line 2: state: expected a word of 1 to 64 bytes, without blanks and control bytes\n"
         "also refused: d line 3: state s1: behind 2 deliveries: a line 5 has s2\n", ["--all"]),
    Case("one is refused of all", {"a": A, "b": "deliver y\n", "c": "deliver x\n"}, 1,
         "refused: b line 1: deliver y: position 1: a line 3 delivered x\n", ["--all"]),
    Case("all that is not broadcast", {"a": "deliver x\ndeliver y\nend\n", "b": "deliver x\ndeliver y\ndeliver z\nend\n"}, 1,
         "refused: a line 1: deliver x: no log broadcasts it, and all are whole\n"
         "also refused: b line 3: deliver z: no log broadcasts it, and all are whole\n", ["--all"]),
    Case("all that are behind", {"a": A, "b": "deliver x\n", "c": ""}, 1,
         "unsettled: b line 1: position 2 is missing: y, delivered in a line 4\n"
         "also unsettled: c line 0: position 1 is missing: x, delivered in a line 3\n", ["--settled", "--all"]),
    Case("overtaken, and behind", {"a": "broadcast y\nbroadcast x\ndeliver x\ndeliver y\n", "b": "deliver x\n"}, 1,
         "overtaken: a line 3: deliver x: its process broadcast another before it (a line 1), which is not delivered before it\n"
         "also unsettled: b line 1: position 2 is missing: y, delivered in a line 4\n", ["--settled", "--fifo", "--all"]),
    Case("followed to its end", {"a": A, "b": "deliver x\nend\n"}, 0, "accepted: 2 logs, 2 deliveries; b is 1 behind\n", ["--follow"]),
    Case("followed for a second", {"a": A, "b": "deliver x\n"}, 0, "accepted: 2 logs, 2 deliveries; b is 1 behind\n", ["--follow", "--idle", "1"]),
    Case("followed and refused", {"a": A, "b": "deliver y\n"}, 1, "refused: b line 1: deliver y: position 1: a line 3 delivered x\n", ["--follow"]),
]
SHOWN = [
    (Case("accepted", {"a": A}, 0, "", ["--json"]),
     {"verdict": "accepted", "deliveries": 2, "logs": [{"file": "a", "lines": 6, "deliveries": 2, "crashed": False, "whole": True, "torn": False}]}),
    (Case("refused", {"a": A, "b": "deliver y\n"}, 1, "", ["--json"]),
     {"verdict": "refused", "file": "b", "line": 1, "text": "deliver y", "why": "position 1: a line 3 delivered x", "other": {"file": "a", "line": 3}}),
    (Case("all that is refused", {"a": A, "b": "deliver y\n", "c": "from x\n"}, 1, "", ["--json", "--all"]),
     {"verdict": "refused", "file": "b", "line": 1, "text": "deliver y", "why": "position 1: a line 3 delivered x", "other": {"file": "a", "line": 3},
      "also": [{"verdict": "no log", "file": "c", "line": 1, "text": "from x", "why": "expected a number of deliveries, 0 to 4294967295"}]}),
]


def ran(tool: str, case: Case, folder: str) -> subprocess.CompletedProcess:
    for name, text in case.logs.items():
        with open(os.path.join(folder, name), "w", newline="") as file:
            file.write(text)
    return subprocess.run([tool, "order", *case.options, *case.logs], cwd=folder, capture_output=True, text=True, timeout=SECONDS)


def faults_of(tool: str, case: Case) -> List[str]:
    with tempfile.TemporaryDirectory() as folder:
        done = ran(tool, case, folder)
    told = (done.stdout, "") if case.status == 0 else ("", done.stderr)
    wrong = [] if done.returncode == case.status else [f"status {done.returncode}"]
    return wrong + ([] if "".join(told) == case.told and "".join(told) == done.stdout + done.stderr else [f"told {done.stdout + done.stderr!r}"])


def faults_of_json(tool: str, case: Case, wanted: dict) -> List[str]:
    with tempfile.TemporaryDirectory() as folder:
        done = ran(tool, case, folder)
    is_right = done.returncode == case.status and json.loads(done.stdout) == wanted
    return [] if is_right else [f"status {done.returncode}: {done.stdout}"]


def faults_of_growing(tool: str) -> List[str]:
    """A log that is written while it is followed is refused as soon as its line is there; one that is replaced is told."""
    wrong = []
    with tempfile.TemporaryDirectory() as folder:
        write(folder, "a", A)
        write(folder, "b", "deliver x\n")
        with following(tool, folder) as watch:
            time.sleep(0.5)
            write(folder, "b", "deliver x\nbroad", "r+")
            time.sleep(0.3)
            wrong += [f"ended with {watch.returncode}"] if watch.poll() is not None else []
            write(folder, "b", "deliver x\nbroadcast z\ndeliver z\n", "r+")
            wrong += told_by(watch, 1, "refused: b line 3: deliver z: position 2: a line 4 delivered y\n")
        write(folder, "b", "deliver x\n")
        with following(tool, folder) as watch:
            time.sleep(0.5)
            write(folder, "c", "deliver x\n")
            os.replace(os.path.join(folder, "c"), os.path.join(folder, "b"))
            wrong += told_by(watch, 4, "b: replaced\n")
        with following(tool, folder) as watch:
            time.sleep(0.5)
            write(folder, "b", "de")
            wrong += told_by(watch, 4, "b: shorter than what was read of it\n")
    return wrong


def write(folder: str, name: str, text: str, mode: str = "w") -> None:
    with open(os.path.join(folder, name), mode, newline="") as file:
        file.write(text)


def following(tool: str, folder: str) -> subprocess.Popen:
    return subprocess.Popen([tool, "order", "--follow", "a", "b"], cwd=folder, stdout=subprocess.PIPE, stderr=subprocess.STDOUT, text=True)


def told_by(watch: subprocess.Popen, status: int, told: str) -> List[str]:
    try:
        text = watch.communicate(timeout=SECONDS)[0]
    except subprocess.TimeoutExpired:
        watch.kill()
        return ["still followed"]
    return [] if (watch.returncode, text) == (status, told) else [f"status {watch.returncode}: {text!r}"]


def faults_of_sets(tool: str) -> List[str]:
    """Random sets agree with a search by definition, and large ones with what was put wrong."""
    program = os.path.join(HERE, "..", "bench", "orders.py")
    done = subprocess.run([sys.executable, program, tool, str(SETS)], capture_output=True, text=True, timeout=SECONDS_OF_SETS)
    return [] if done.returncode == 0 else [done.stdout + done.stderr]


def main() -> int:
    tool = os.path.abspath(sys.argv[1])
    checks = [(case.name, faults_of(tool, case)) for case in CASES]
    checks += [(f"JSON, {case.name}", faults_of_json(tool, case, wanted)) for case, wanted in SHOWN]
    checks.append(("logs that grow", faults_of_growing(tool)))
    checks.append(("random sets", faults_of_sets(tool)))
    for name, wrong in checks:
        if wrong:
            print(f"FAILED orders, {name}: {'; '.join(wrong)}")
    failed = sum(1 for _, wrong in checks if wrong)
    print(f"{len(checks) - failed} passed, {failed} failed")
    return 1 if failed else 0


if __name__ == "__main__":
    sys.exit(main())
