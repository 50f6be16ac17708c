#!/usr/bin/env python3
"""Checks `ct_tool find` and `ct_tool shrink` over many goals: what is found is the same with 1, 2 and 4 jobs, and the least of the seeds
by the model of bench/, and so is what is counted; what is left of a run is a run that shows its goal, and no longer does without any of
its lines; the smallest run that is left of several walks is that of one after the other; the table of docs/GOALS.md is right; random runs
are settled, stuck and completed as the model says.

    goals.py CT_TOOL        the last line is N passed, M failed
"""
from __future__ import annotations

import functools
import json
import os
import re
import shlex
import subprocess
import sys
from typing import Any, Callable, Dict, List, NamedTuple, Optional, Tuple

HERE = os.path.dirname(os.path.abspath(__file__))
sys.dont_write_bytecode = True
sys.path.insert(0, os.path.join(HERE, "..", "bench"))
import goal_model  # noqa: E402
import model  # noqa: E402
import shrink  # noqa: E402

JOBS = ("1", "2", "4")
SECONDS = 60
FINISH = os.path.join(HERE, "..", "examples", "search", "finish.py")
COUNTED = 30    # seeds that the model counts
MODELLED = 4   # that the model goes through where nothing is found; before a seed that is found it goes through all

RUNS = 100     # random runs, in which each of KINDS is seen
KINDS = {"settled", "stuck", "waiting", "allowed", "limited", "left", "outvoted", "lost", "completed",
         *(f"not completed ({kind})" for kind in ("limited", "outvoted", "lost"))}

QUICK = "--members 3 --turns 60"
LOSSY = "--members 3 --turns 300 --rate 32 --lose 40 --repeat 80 --batch 1"
CRASHED = "--members 5 --turns 100 --crash 2 --rate 16"
CALM = "--members 2 --turns 60 --rate 2"


class Case(NamedTuple):
    """A goal, the options of the walks, their seeds, and whether one of them shows it."""
    goal: str
    options: str
    first: int
    last: int
    is_found: bool


CASES = [Case(goal, options, first, last, is_found) for options, first, last, is_found, texts in (
    (QUICK, 1, 400, True, """
        any round >= 5
        any round >= 8
        all round >= 3
        2 round 4
        1,3 phase Gather
        any decided 1
        any decided 2
        all decided count 1
        any refuses choose NotLargest
        any concludes again
        any waiting >= 20
        all received count >= 3
        3 heard 1,2,3
        any decided 1 and ever any suspects up
        any refuses enter WrongPhase
    """),
    (QUICK, 900, 1000, True, """
        any suspects up
        any round >= 6 and 1 round >= 1
        any may conclude and any phase Wait
        2 instance 1 and 1 instance 0
    """),
    (QUICK, 188, 1000, True, "any decided 2"),   # seed 472: beyond the first block of four jobs
    (QUICK, 101, 187, True, "any decided 2"),    # the last seed
    (QUICK, 101, 186, False, "any decided 2"),
    (QUICK, 100, 100, True, "any decided 2"),
    (QUICK, 4_294_967_295, 4_294_967_295, True, "any suspects up"),
    (QUICK, 1, 300, False, """
        any round >= 60
        any crashed
        any follows 9
        any instance >= 30
        any decided 1 and never any instance >= 1
        any refuses choose Crashed
        any stuck
    """),
    (LOSSY, 1, 1000, True, """
        any chooses unseen
        any estimate {2.1} ts 1
        any instance >= 3 and any instance 1
        any delivered 2.1 before 1.1
        any delivered count >= 2 and any delivered count 0
        any decided 1 and never any suspects up
        all delivered count >= 3 and all waiting 0
        all phase Wait and all round >= 2
        any may follow
        any decided 1 and ever any chooses unseen
        any table 0=1
        all idle and all delivered count >= 2
        ever 1 waits dec 1/2 from 3
        any stuck
        any stuck and any decided 1
        all settled and any decided 2
    """),
    (LOSSY, 1, 60, False, """
        any decided count >= 9
        all acked 1,2,3 and all instance >= 1
        any delivered 1.2 before 1.1 and any delivered 1.1 before 1.2
        any settled and any stuck
    """),
    (CRASHED, 1, 400, True, """
        2 crashed and any delivered count >= 1
        up delivered count >= 1
        up round >= 2 and any crashed
        any crashed and any refuses begin Crashed
        never any suspects up and any decided 1
        ever 2 phase Gather and 2 crashed
        any crashed and all settled and any delivered count >= 1
    """),
    (CRASHED, 1, 40, False, """
        1 crashed
        all delivered count >= 8
        any chooses unseen and never any round >= 2
        any stuck
    """),
    (CALM, 1, 400, True, """
        all delivered count >= 4
        all settled and all delivered count >= 4
        2 delivered 1.1 before 2.1
        any decided 1 and never any round >= 3
        any decided 1:1.1
        1 received 1.1 2.1
        any waiting >= 6
    """),
    (CALM, 1, 100, False, """
        any round >= 30
        any follows 1 and any round >= 2
    """)) for goal in map(str.strip, texts.strip().splitlines())]

NO_GOALS = [
    "", "any", "up", "ever", "any round", "any round >=", "any round >= many", "any rounds >= 4", "any round >= 4 and", "and any up",
    "any up and and any up", "nobody up", "any suspects", "any suspects down", "any follows", "any chooses seen", "never ever any up",
    "any settle", "any settled 1", "any stuck up", "any refuses choose Nothingness", "any delivered 1 before 2.1", "1, 3 up",
]

# What is counted: goals, and the options of the walks.
TALLIES = [
    Case("any round >= 5", QUICK, 1, COUNTED, True),
    Case("any decided 2", LOSSY, 1, COUNTED, True),
    Case("any chooses unseen", LOSSY, 1, COUNTED, True),
    Case("any stuck", LOSSY, 1, COUNTED, True),
    Case("any round >= 90", QUICK, 1, COUNTED, False),
    Case("any suspects up", CALM, 7, 7, True),
    Case("any suspects up", CALM, 9, 9, False),
]

# Of how many walks the smallest run is wanted: goals, and the options of the walks and their seeds.
BESTS = [
    (3, Case("any suspects up", QUICK, 1, 50, True)),
    (4, Case("any round >= 3", CALM, 1, 400, True)),
    (9, Case("any decided 2", QUICK, 188, 480, True)),    # fewer walks show it
    (1, Case("any chooses unseen", LOSSY, 3, 9, True)),
    (5, Case("any round >= 60", QUICK, 1, 30, False)),
]

# What is shrunk: goals, and the options of the walks in which they are found.
SHRUNK = [
    ("any round >= 5", QUICK),
    ("any refuses choose NotLargest", QUICK),
    ("any concludes again", QUICK),
    ("any chooses unseen", LOSSY),
    ("any delivered count >= 2 and any delivered count 0", LOSSY),
    ("2 crashed and any delivered count >= 1", CRASHED),
    ("any decided 1 and never any suspects up", LOSSY),
    ("any stuck", LOSSY),
    ("all settled and any decided 1", CALM),
]


def ran(words: List[str]) -> "subprocess.CompletedProcess[bytes]":
    return subprocess.run(words, stdin=subprocess.DEVNULL, stdout=subprocess.PIPE, stderr=subprocess.PIPE, timeout=SECONDS)


def find(tool: str, case: Case, *words: str) -> Tuple[int, bytes, str]:
    done = ran([tool, "find", "--goal", case.goal, "--seeds", f"{case.first}..{case.last}", *case.options.split(), *words])
    return done.returncode, done.stdout, done.stderr.decode()


def faults_of(tool: str, case: Case) -> List[str]:
    """What is wrong with what is found for the case."""
    made = [find(tool, case, "--jobs", jobs) for jobs in JOBS]
    status, record, told = made[0]
    wrong = [f"with {jobs} jobs it is another answer: {other[2]!r}" for jobs, other in zip(JOBS, made) if other != made[0]]
    if status != (0 if case.is_found else 1):
        return wrong + [f"status {status}: {told!r}"]
    if not case.is_found:
        wrong += [] if told == f"no seed of {case.first}..{case.last} shows {case.goal}\n" and not record else [f"it tells {told!r}"]
        return wrong + faults_of_missed(tool, case, some(range(case.first, case.last + 1)))
    lines = re.fullmatch(r"seed (\d+): (\d+) steps\n(ct_tool walk .*)\n", told)
    if not lines:
        return wrong + [f"it tells {told!r}"]
    seed, steps = int(lines.group(1)), int(lines.group(2))
    again = ran([tool, *shlex.split(lines.group(3))[1:]])
    wrong += [] if again.stdout == record else [f"`{lines.group(3)}` makes another record"]
    return wrong + faults_of_found(tool, case, seed, steps, record) + faults_of_missed(tool, case, range(case.first, seed))


@functools.lru_cache(maxsize=None)
def walk_of(tool: str, options: str, seed: int) -> bytes:
    return ran([tool, "walk", *options.split(), "--seed", str(seed)]).stdout


def walk(tool: str, case: Case, seed: int) -> bytes:
    """The whole walk of the seed."""
    return walk_of(tool, case.options, seed)


def faults_of_found(tool: str, case: Case, seed: int, steps: int, record: bytes) -> List[str]:
    """The record is what the model says of the walk: its steps up to where the goal is first shown."""
    whole = walk(tool, case, seed)
    first = goal_model.shown(whole, goal_model.goal_of(case.goal)).first
    taken = model.read(record)[1]
    wrong = [] if first == steps == len(taken) else [f"seed {seed} shows it after {steps} steps, by the model after {first}"]
    return wrong + ([] if taken == model.read(whole)[1][:steps] else [f"the record of seed {seed} is not its walk's"])


def some(seeds: range) -> range:
    """MODELLED of the seeds at most, from the first on."""
    return seeds[::max(1, -(-len(seeds) // MODELLED))]


def faults_of_missed(tool: str, case: Case, seeds: range) -> List[str]:
    """The model finds the goal in none of the seeds."""
    goal = goal_model.goal_of(case.goal)
    shown = [seed for seed in seeds if goal_model.shown(walk(tool, case, seed), goal).first is not None]
    return [f"the model says that seed {seed} shows it" for seed in shown]


def faults_of_shrunk(tool: str, goal: str, options: str) -> List[str]:
    """What is wrong with what is left of the first walk that shows the goal."""
    status, record, told = find(tool, Case(goal, options, 1, 1_000, True))
    if status:
        return [f"nothing is found: {told}"]
    left = shrink.shrunk(tool, record, goal)
    return left.faults + ([] if 0 < left.after < left.before else [f"{left.after} of {left.before} steps are left"])


def hits_of(tool: str, case: Case, most: int) -> List[int]:
    """So many of the first seeds whose walks show the goal, or all of them."""
    hits: List[int] = []
    first = case.first
    while first <= case.last and len(hits) < most:
        status, _, told = find(tool, case._replace(first=first))
        if status:
            break
        hits.append(int(told[len("seed "):told.index(":")]))
        first = hits[-1] + 1
    return hits


def faults_of_best(tool: str, most: int, case: Case) -> List[str]:
    """What is wrong with the smallest run that is left of so many walks."""
    best, wrong = ["--best", str(most)], []
    for words in ([], ["--record"], ["--tries", "7"]):
        made = [find(tool, case, *best, *words, "--jobs", jobs) for jobs in JOBS]
        wrong += [f"with {jobs} jobs it is another answer: {other[2]!r}" for jobs, other in zip(JOBS, made) if other != made[0]]
        status, text, told = made[0]
        if not case.is_found:
            wrong += [] if (status, text, told) == (*find(tool, case)[:2], find(tool, case)[2]) else [f"it tells {told!r}"]
            continue
        hits = hits_of(tool, case, most)
        left = {}
        for seed in hits:
            record = find(tool, case._replace(first=seed, last=seed))[1]
            left[seed] = shrink.ran([tool, "shrink", "--goal", case.goal, *words], record)
        sizes = {seed: int(done.stderr.split()[3]) for seed, done in left.items()}
        ends = {seed: ", stopped" if b"stopped" in done.stderr else "" for seed, done in left.items()}
        each = "".join(f"seed {seed}: {sizes[seed]} steps{ends[seed]}\n" for seed in hits)
        seed = min(hits, key=lambda seed: (sizes[seed], seed))
        again = find(tool, case._replace(first=seed, last=seed))[2].splitlines()[1]
        wanted = f"{each}seed {seed}, best of {len(hits)}: {left[seed].stderr.decode()}{again}\n"
        wrong += [] if (status, told) == (0, wanted) else [f"{words}: it tells {told!r}, not {wanted!r}"]
        wrong += [] if text == left[seed].stdout else [f"{words}: it writes another run than `shrink` of seed {seed}"]
    return wrong


def sizes_of(tool: str, case: Case) -> List[Tuple[int, int]]:
    """By the model, of each seed whose walk shows the goal: its steps up to there, and the largest round in them."""
    sizes = []
    for seed in range(case.first, case.last + 1):
        stage, steps = goal_model.stage_of(walk(tool, case, seed))
        watch = goal_model.Watch(stage, goal_model.goal_of(case.goal))
        made = largest = 0
        while made < len(steps) and not (made and watch.shows()):
            watch.step(steps[made])
            made += 1
            largest = max(largest, *(goal_model.amount(stage, p, "round") for p in stage.members))
        if watch.shows():
            sizes.append((made, largest))
    return sizes


def spread(values: List[int]) -> Optional[Dict[str, int]]:
    """Five of the values, once they are in order."""
    names = ("least", "lower", "median", "upper", "greatest")
    ends = [-(-len(values) * quarters // 4) for quarters in range(5)]
    return {name: sorted(values)[max(end - 1, 0)] for name, end in zip(names, ends)} if values else None


def faults_of_count(tool: str, case: Case) -> List[str]:
    """What is wrong with what is counted for the case."""
    made = [find(tool, case, "--count", "--json", "--jobs", jobs) for jobs in JOBS]
    wrong = [f"with {jobs} jobs it is another answer: {other!r}" for jobs, other in zip(JOBS, made) if other != made[0]]
    sizes, tried = sizes_of(tool, case), case.last - case.first + 1
    tenths = 1000 * len(sizes) // tried
    wanted: Dict[str, Any] = {"first": case.first, "last": case.last, "tried": tried, "shown": len(sizes), "share": tenths / 10,
              "steps": spread([steps for steps, _ in sizes]), "round": spread([largest for _, largest in sizes])}
    status, text, told = made[0]
    if status not in (0, 1) or json.loads(text) != wanted:
        return wrong + [f"it counts {text!r}, and by the model it is {json.dumps(wanted)}"]
    missed = "" if sizes else f"no seed of {case.first}..{case.last} shows {case.goal}\n"
    wrong += [] if (status, told) == (0 if sizes else 1, missed) else [f"it ends with status {status} and tells {told!r}"]
    wrong += [] if bool(sizes) == case.is_found else [f"{len(sizes)} seeds show it"]
    head, columns, *rows = find(tool, case, "--count")[1].decode().splitlines()
    wanted_rows = [[name, *(str(n) for n in (wanted[name] or dict.fromkeys(range(5), "-")).values())] for name in ("steps", "round")]
    if [row.split() for row in rows] != wanted_rows or not all(len(row) == len(columns) for row in rows):
        wrong.append(f"the table has the rows {rows}")
    share = f"{len(sizes)} of {tried} seeds {case.first}..{case.last} show it, {tenths // 10}.{tenths % 10} %"
    return wrong + ([] if head == share else [f"the table begins with {head!r}"])


def faults_of_json_alone(tool: str) -> List[str]:
    """`--json` asks for `--count`."""
    status, record, told = find(tool, CASES[0], "--json")
    return [] if status == 3 and not record and "--count" in told else [f"status {status}: {told!r}"]


def faults_of_words(tool: str) -> List[str]:
    """What is no goal is refused, and by the model too."""
    wrong = []
    for text in NO_GOALS:
        for words in (["find", "--members", "3", "--seeds", "1..2"], ["shrink"]):
            done = shrink.ran([tool, *words, "--goal", text])
            if done.returncode != 3 or done.stdout or b"not understood" not in done.stderr:
                wrong.append(f"{words[0]} {text!r} ends with status {done.returncode}: {done.stderr.decode()!r}")
        try:
            goal_model.goal_of(text)
            wrong.append(f"the model takes {text!r}")
        except goal_model.NoGoal:
            pass
    return wrong


def faults_of_rest(tool: str) -> List[str]:
    """A record that doesn't show the goal is refused."""
    record = walk(tool, CASES[0], 1)
    done = shrink.ran([tool, "shrink", "--goal", "any crashed"], record)
    is_right = done.returncode == 1 and not done.stdout and done.stderr.decode() == "the goal is not shown\n"
    return [] if is_right else [f"status {done.returncode}: {done.stderr.decode()!r}"]


def faults_of_runs(tool: str) -> List[str]:
    """Random runs are what the model says, and each kind of them is there."""
    done = shrink.ran([sys.executable, os.path.join(HERE, "..", "bench", "rest.py"), tool, "0", str(RUNS)])
    told = done.stdout.decode()
    seen = re.fullmatch(rf"{RUNS} runs: (.*); 0 differences\n", told)
    if done.returncode or not seen:
        return [told or done.stderr.decode()]
    missing = KINDS - {kind.partition(" ")[2] for kind in seen.group(1).split(", ")}
    return [f"none is {', '.join(sorted(missing))}"] if missing else []


def faults_of_row(tool: str, options: List[str], row: "shrink.Entry") -> List[str]:
    """The row of docs/GOALS.md has what is found, what is left, and what examples/search/finish.py leaves."""
    status, record, told = find(tool, Case(row.goal, " ".join(options), 1, row.seed, True))
    if status or not told.startswith(f"seed {row.seed}: {row.before} steps\n"):
        return [f"not seed {row.seed} with {row.before} steps: {told!r}"]
    left = shrink.shrunk(tool, record, row.goal)
    done = subprocess.run([sys.executable, FINISH, "--tool", tool, "--goal", row.goal], input=record, stdout=subprocess.PIPE,
                          stderr=subprocess.PIPE, timeout=SECONDS)
    finished = len(json.loads(done.stdout)["steps"]) if done.returncode == 0 else done.stderr
    return (left.faults + ([] if left.after == row.after else [f"{left.after} steps are left, not {row.after}"])
            + ([] if finished == row.finished else [f"finished otherwise {finished}, not {row.finished}"]))


def main() -> int:
    tool = os.path.abspath(sys.argv[1])
    options, rows = shrink.table()
    checks: List[Tuple[str, Callable[[], List[str]]]] = []
    for case in CASES:
        checks.append((f"find {case.goal}, seeds {case.first}..{case.last}", lambda case=case: faults_of(tool, case)))
    for case in TALLIES:
        checks.append((f"count {case.goal}, seeds {case.first}..{case.last}", lambda case=case: faults_of_count(tool, case)))
    checks.append(("--json alone", lambda: faults_of_json_alone(tool)))
    for most, case in BESTS:
        checks.append((f"best of {most}, {case.goal}", lambda most=most, case=case: faults_of_best(tool, most, case)))
    for goal, walks in SHRUNK:
        checks.append((f"shrink {goal}", lambda goal=goal, walks=walks: faults_of_shrunk(tool, goal, walks)))
    checks.append(("what is no goal", lambda: faults_of_words(tool)))
    checks.append(("shrink what is not shown", lambda: faults_of_rest(tool)))
    checks.append(("random runs", lambda: faults_of_runs(tool)))
    for row in rows:
        checks.append((f"docs/GOALS.md, {row.goal}", lambda row=row: faults_of_row(tool, options, row)))
    failed = 0
    for name, faults in checks:
        try:
            wrong = faults()
        except subprocess.TimeoutExpired as late:
            wrong = [str(late)]
        if wrong:
            failed += 1
            print(f"FAILED goals, {name}: {'; '.join(wrong)}")
    print(f"{len(checks) - failed} passed, {failed} failed")
    return 1 if failed else 0


if __name__ == "__main__":
    sys.exit(main())
