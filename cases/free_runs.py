#!/usr/bin/env python3
"""Whether free runs do what their options ask for: it runs `CT free`, and follows each record with ../bench/model.py.

    free_runs.py CT CHECK

CHECK is one of

    detectors   each member's suspicions are the answers of the generator that its seed and the rate ask for
    postpone    the second script postpones, at each member
    lossy       the third script loses and the fourth repeats, each at each member

In each record each step of a member is the one that a turn tries there, and each step of a script is an entry of that
script, in its order. Prints what is wrong; status 0 only where nothing is.
"""
import json
import os
import subprocess
import sys

sys.dont_write_bytecode = True
sys.path.insert(0, os.path.join(os.path.dirname(os.path.abspath(__file__)), "..", "bench"))
import model

SCRIPTS = ("submit", "crash", "postpone", "lose", "repeat")   # steps that no member takes by itself
RUNS = 20   # the most runs in which something has to be seen
WORD, LONG = (1 << 32) - 1, (1 << 64) - 1
MULTIPLIER = 6_364_136_223_846_793_005


def output_of(state):
    """PCG's output, XSH RR, of 64 bits of state."""
    word, turn = ((state >> 18 ^ state) >> 27) & WORD, state >> 59
    return (word >> turn | word << (32 - turn)) & WORD


class Answers:
    """The answers of a detector: whether each next word of `Pcg32::seed_from_u64(seed)` is below the rate, modulo 256."""

    def __init__(self, seed, rate):
        words = []
        for _ in range(4):
            seed = (seed * MULTIPLIER + 11_634_580_027_462_260_723) & LONG
            words.append(output_of(seed))
        self.increment = words[2] | words[3] << 32 | 1
        self.state = self.after(words[0] + (words[1] << 32) + self.increment)
        self.rate, self.known = rate, []

    def after(self, state):
        return (state * MULTIPLIER + self.increment) & LONG

    def at(self, place):
        while len(self.known) <= place:
            self.known.append(output_of(self.state) % 256 < self.rate)
            self.state = self.after(self.state)
        return self.known[place]


def next_local(world, p):
    """The step that a member takes next by itself, None where it has none."""
    member = world.members[p]
    here = member.open
    if not member.up:
        return None
    if here is None:
        if member.last + 1 in member.decisions:
            return ["follow", p]
        return ["begin", p] if member.pending else None
    if here.k in member.decisions:
        return ["deliver", p]
    there = here.k, here.round
    if here.phase == "Gather":
        heard = member.estimates.get(there, {})
        if len(heard) < world.majority:
            return None
        return ["choose", p, min(heard, key=lambda sender: (-heard[sender][1], sender))]
    if here.phase == "Tally":
        return ["conclude", p] if len(member.replied.get(there, ())) >= world.majority else None
    if here.phase == "Wait":
        return ["adopt", p] if there in member.proposals else ["suspect", p]
    return ["enter", p]


class Asked:
    """What can be known of how often a member's detector was asked. Where its waiting line stayed empty turns may have rested
    after an answer no, which no record shows."""

    def __init__(self, answers):
        self.answers, self.places = answers, {0}

    def hear(self, answer, may_have_rested):
        """Whether the detector can have answered so."""
        places = set(self.places)
        if may_have_rested:
            for place in self.places:
                while not self.answers.at(place):
                    place += 1
                    places.add(place)
        self.places = {place + 1 for place in places if self.answers.at(place) == answer}
        return bool(self.places)


def follow(text, detectors=None):
    """What is wrong with the record as the one of a free run, None where nothing is. DETECTORS: the answers of each member's."""
    world, steps = model.read(text)
    asked = {p: Asked(detectors[p - 1]) for p in world.members} if detectors else {}
    rested = {p: True for p in world.members}
    for at, step in enumerate(steps, 1):
        name, p = step[:2]
        line = world.members[p].line
        if name not in SCRIPTS:
            wanted = next_local(world, p)
            receipt = ["receive", p, next(iter(line))] if line else None
            if step not in ([wanted, receipt] if wanted in (None, ["suspect", p]) else [wanted]):
                return f"step {at} is {step}, where a turn tries {wanted or receipt}"
            if asked and wanted == ["suspect", p] and not asked[p].hear(name == "suspect", rested[p]):
                return f"step {at} is {step}, where the detector answers otherwise"
        elif name in ("postpone", "lose") and step[2:] != list(line)[:1]:
            return f"step {at} is {step}, where {list(line)[:1]} is first in the line"
        world.apply(*step)
        if name not in SCRIPTS:
            rested[p] = not line
    return None


def places_in_script(steps, name, count, n):
    """What is wrong with the steps as those of a script of so many entries, the j-th at member ((j - 1) mod n) + 1."""
    entry = 0
    for step in (step for step in steps if step[0] == name):
        last, entry = entry, step[2] if name == "repeat" else entry + 1 + (step[1] - 1 - entry) % n
        if not last < entry <= count or (entry - 1) % n + 1 != step[1]:
            return f"{step} is of no entry of {count} behind number {last}"
    return None


def run(ct, options):
    """The record's text and its steps of a free run."""
    words = [str(word) for pair in options.items() for word in ("--" + pair[0], pair[1])]
    done = subprocess.run([ct, "free", *words], stdout=subprocess.PIPE, check=True, timeout=20)
    return done.stdout, json.loads(done.stdout)["steps"]


def check_run(text, steps, options, detectors=None):
    """Ends the program where the record is none of such a run."""
    n = options["members"]
    submissions = [["submit", (i - 1) % n + 1, ["add", (i - 1) % 16, i]] for i in range(1, options["submit"] + 1)]
    wrong = follow(text, detectors)
    for name in ("postpone", "lose", "repeat"):
        wrong = wrong or places_in_script(steps, name, options.get(name, 0), n)
    if [step for step in steps if step[0] == "submit"] != submissions:
        wrong = wrong or "other submissions"
    if wrong:
        sys.exit(f"{options}: {wrong}")


def detectors_of(options, seed=None, rate=None):
    seed = options["seed"] if seed is None else seed
    return [Answers(seed + m, options["rate"] if rate is None else rate) for m in range(1, options["members"] + 1)]


def check_detectors(ct):
    """The records are those of these detectors, and of no others that might be taken for them."""
    others = {"in the other order": lambda o: detectors_of(o)[::-1],
              "of seed 0": lambda o: detectors_of(o, seed=0),
              "of the next seed": lambda o: detectors_of(o, seed=o["seed"] + 1),
              "of half the rate": lambda o: detectors_of(o, rate=o["rate"] // 2),
              "of twice the rate": lambda o: detectors_of(o, rate=o["rate"] * 2)}
    for seed in range(100, 100 + RUNS):
        options = {"members": 3, "turns": 150, "submit": 6, "rate": 96, "seed": seed}
        text, steps = run(ct, options)
        check_run(text, steps, options, detectors_of(options))
        others = {name: made for name, made in others.items() if follow(text, made(options)) is None}
        if not others and seed >= 104:
            return
    sys.exit(f"the runs might be those of detectors {', '.join(others)}")


def check_scripts(ct, names, options):
    """In some runs each of these scripts takes steps at each member."""
    seen = {name: set() for name in names}
    for seed in range(1, 1 + RUNS):
        options["seed"] = seed
        text, steps = run(ct, options)
        check_run(text, steps, options)
        for step in steps:
            if step[0] in names:
                seen[step[0]].add(step[1])
        if all(len(members) == options["members"] for members in seen.values()):
            return
    sys.exit(f"{RUNS} runs {options}: steps at members {seen}")


def main():
    ct, check = sys.argv[1:]
    if check == "detectors":
        check_detectors(ct)
    elif check == "postpone":
        check_scripts(ct, ["postpone"], {"members": 3, "turns": 50, "submit": 8, "rate": 64, "postpone": 60})
    else:
        options = {"members": 3, "turns": 50, "submit": 8, "rate": 64, "lose": 60, "repeat": 90}
        check_scripts(ct, ["lose", "repeat"], options)


if __name__ == "__main__":
    main()
