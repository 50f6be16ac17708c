#!/usr/bin/env python3
"""Checks the schedules that `ct_tool order --schedule` writes of logs: some by hand, and of random sets of logs that each is taken by
`ct_tool record`, and that the run delivers, message by message, what the logs do.

    enact.py CT_TOOL         the last line is N passed, M failed
"""
from __future__ import annotations

import json
import os
import random
import subprocess
import sys
import tempfile
from concurrent.futures import ThreadPoolExecutor
from typing import Dict, List, NamedTuple, Optional, Tuple

sys.path.insert(0, os.path.join(os.path.dirname(os.path.abspath(__file__)), "..", "bench"))
from orders import facts, lines_of

SECONDS = 60
SETS = 1000
THREADS = 4


class Case(NamedTuple):
    name: str
    logs: Dict[str, str]
    status: int
    told: str


A = "broadcast x\nbroadcast y\ndeliver x\ndeliver y\nend\n"
SIXTEEN = "".join(f"broadcast m{i}\ndeliver m{i}\n" for i in range(16))
CASES = [
    Case("no deliveries", {"a": ""}, 0, "# accepted: 1 log, 0 deliveries\nmembers 1\ncells 0\n"),
    Case("one is behind", {"a": A, "b": "deliver x\nend\n"}, 0,
         "# accepted: 2 logs, 2 deliveries; b is 1 behind\nmembers 3\ncells 2\n1 submit set 0 1 # x\n1,2,3 settle\n1 submit set 0 2 # y\n"
         "1,3 settle suspecting 2\n"),
    Case("one of three is at the end", {"a": A, "b": "", "c": "end\n"}, 0,
         "# accepted: 3 logs, 2 deliveries; b is 2 behind; c is 2 behind\nmembers 5\ncells 2\n1 submit set 0 1 # x\n1 submit set 0 2 # y\n"
         "1,4,5 settle suspecting 2,3\n"),
    Case("a lesser origin", {"a": "broadcast y\ndeliver x\ndeliver y\n", "b": "broadcast x\ndeliver x\ndeliver y\n"}, 0,
         "# accepted: 2 logs, 2 deliveries\nmembers 2\ncells 2\n2 submit set 0 1 # x\n1,2 settle\n1 submit set 0 2 # y\n1,2 settle\n"),
    Case("a snapshot", {"a": A, "b": "from 1\ndeliver y\n"}, 0,
         "# accepted: 2 logs, 2 deliveries\nmembers 2\ncells 2\n1 submit set 0 1 # x\n1 submit set 0 2 # y\n1,2 settle\n"),
    Case("a restart", {"a": A, "b": "deliver x\ncrash\nrestart 0\n", "c": "from 2\n"}, 0,
         "# accepted: 3 logs, 2 deliveries; b is 2 behind\nmembers 3\ncells 2\n1 submit set 0 1 # x\n1,2,3 settle\n1 submit set 0 2 # y\n"
         "1,3 settle suspecting 2\n"),
    Case("a crash", {"a": A, "b": "broadcast z\ncrash\nend\n", "c": "deliver x\ndeliver y\n"}, 0,
         "# accepted: 3 logs, 2 deliveries; b is 2 behind; b crashed\nmembers 3\ncells 2\n1 submit set 0 1 # x\n1 submit set 0 2 # y\n"
         "1,3 settle suspecting 2\n2 submit set 0 3 # z\ncrash 2\n"),
    Case("a note", {"a": A + "deliver"}, 0,
         "# accepted: 1 log, 2 deliveries\n# note: a line 6: no line feed ends it, so it is left out\nmembers 1\ncells 2\n"
         "1 submit set 0 1 # x\n1 submit set 0 2 # y\n1 settle\n"),
    Case("a gap", {"a": SIXTEEN + "broadcast n\nfrom 17\ndeliver n\n"}, 8, "limit: position 17: no log tells what is delivered there\n"),
    Case("17 processes", {f"{i}": "" for i in range(17)}, 8, "limit: 17 members are needed, and a group has at most 16\n"),
    Case("9 processes, one of them at the end", {"a": A, **{f"{i}": "" for i in range(8)}}, 8,
         "limit: 17 members are needed, and a group has at most 16\n"),
    Case("1,025 deliveries", {"a": "from 1025\n"}, 8, "limit: 1025 deliveries, and a schedule has at most 1024\n"),
    Case("a limit of runs", {"a": "".join(f"broadcast {i}\n" for i in range(65536))}, 8,
         "limit: its schedule, line 65539: 1 submit set 0 65536 # 65535: refused 1 Full(Submissions): 65535 at most\n"),
    Case("refused", {"a": A, "b": "deliver y\n"}, 1, "refused: b line 1: deliver y: position 1: a line 3 delivered x\n"),
    Case("incomplete", {"a": "deliver x\n"}, 6, "incomplete: a line 1: deliver x: no log broadcasts it, and a has no end\n"),
    Case("no log", {"a": "submit x\n"}, 2,
         "a line 1: submit x: expected broadcast ID, deliver ID, state WORD, from N, restart N, crash or end\n"),
]


def ran(tool: str, logs: Dict[str, str], folder: str) -> subprocess.CompletedProcess:
    for name, text in logs.items():
        with open(os.path.join(folder, name), "w", newline="") as file:
            file.write(text)
    return subprocess.run([tool, "order", "--schedule", *logs], cwd=folder, capture_output=True, text=True, timeout=SECONDS)


def faults_of(tool: str, case: Case) -> List[str]:
    with tempfile.TemporaryDirectory() as folder:
        done = ran(tool, case.logs, folder)
    told = (case.told, "") if case.status == 0 else ("", case.told)
    wrong = [] if done.returncode == case.status else [f"status {done.returncode}"]
    return wrong + ([] if (done.stdout, done.stderr) == told else [f"told {done.stdout + done.stderr!r}"])


def most_of(log: List[str]) -> int:
    """The most deliveries that the process had."""
    at = most = 0
    for line in log:
        word, _, rest = line.partition(" ")
        at = at + 1 if word == "deliver" else int(rest) if word in ("from", "restart") else at
        most = max(most, at)
    return most


def mismatch(logs: List[List[str]], members: List[dict]) -> Optional[str]:
    """Where the deliveries of the members are not those of the logs."""
    named: Dict[str, str] = {}
    for i, log in enumerate(logs):
        if len(members[i]["delivered"]) != most_of(log):
            return f"member {i + 1} delivered {members[i]['delivered']}"
    for kind, at, word in (fact for log in logs for fact in facts(log)[0]):
        for member in members:
            delivered = member["delivered"]
            if kind == "deliver" and at < len(delivered) and named.setdefault(word, delivered[at]) != delivered[at]:
                return f"member {member['member']} delivered {delivered[at]} as {word}, which is {named[word]}"
    if len(set(named.values())) < len(named):
        return f"one message has two words: {named}"
    for word, message in named.items():
        if f"broadcast {word}" not in logs[int(message.split(".")[0]) - 1]:
            return f"the origin of {message} does not broadcast {word}"
    return None


def fault_of_set(tool: str, logs: List[List[str]]) -> Optional[str]:
    with tempfile.TemporaryDirectory() as folder:
        made = ran(tool, {f"{i}": "".join(line + "\n" for line in log) for i, log in enumerate(logs)}, folder)
    if made.returncode != 0:
        return made.stderr
    record = subprocess.run([tool, "record"], input=made.stdout, capture_output=True, text=True, timeout=SECONDS)
    if record.returncode != 0:
        return f"{record.stderr}{made.stdout}"
    report = subprocess.run([tool, "report"], input=record.stdout, capture_output=True, text=True, timeout=SECONDS)
    wrong = mismatch(logs, json.loads(report.stdout)["members"])
    return f"{wrong}\n{made.stdout}" if wrong else None


def random_set(rng: random.Random) -> List[List[str]]:
    """Logs that are accepted, and of whose deliveries each is told."""
    while True:
        order = [f"m{i}" for i in rng.sample(range(1, 30), rng.randrange(1, 13))]
        owners: List[List[str]] = [[] for _ in range(rng.randrange(1, 9))]
        for word in rng.sample(order, len(order)) + [f"x{i}" for i in range(rng.randrange(3))]:
            rng.choice(owners).append(word)
        logs = [lines_of(rng, order, mine, False) for mine in owners]
        delivered = {(at, word) for log in logs for kind, at, word in facts(log)[0] if kind == "deliver"}
        mosts = [most_of(log) for log in logs]
        fits = 2 * (len(logs) - mosts.count(max(mosts))) + 1 <= 16
        if fits and len(delivered) == max(mosts) and all(any(f"broadcast {word}" in log for log in logs) for _, word in delivered):
            return logs


def large_set(count: int, deliveries: int) -> List[List[str]]:
    """Each delivers all, and every second one a little less."""
    return [[f"broadcast {k}" for k in range(deliveries) if k % count == i]
            + [f"deliver {k}" for k in range(deliveries - 3 * (i % 2) * (i < count - 2))] for i in range(count)]


def main() -> int:
    tool = os.path.abspath(sys.argv[1])
    checks: List[Tuple[str, List[str]]] = [(case.name, faults_of(tool, case)) for case in CASES]
    rng = random.Random(1)
    sets = [random_set(rng) for _ in range(SETS)] + [large_set(16, 1024), large_set(3, 1024), large_set(1, 1024)]
    with ThreadPoolExecutor(THREADS) as pool:
        found = [fault for fault in pool.map(lambda logs: fault_of_set(tool, logs), sets) if fault]
    checks.append((f"{len(sets)} sets", [f"{len(found)} of them are wrong, as {found[0]}"] if found else []))
    for name, wrong in checks:
        if wrong:
            print(f"FAILED enact, {name}: {'; '.join(wrong)}")
    failed = sum(1 for _, wrong in checks if wrong)
    print(f"{len(checks) - failed} passed, {failed} failed")
    return 1 if failed else 0


if __name__ == "__main__":
    sys.exit(main())
