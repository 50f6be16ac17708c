#!/usr/bin/env python3
"""Splits a record into the logs of its members, for `ct_tool merge`.

    bench/split.py [--bare] DIR < record.json

Writes DIR/1.log, DIR/2.log and so on: the own steps of each member in its order, each envelope by its full name, and what each step
came to (with --bare nothing of that). What the network does stands in no log. Merged, they are a run in which each member takes these
steps, though not always in the order of the record.
"""
import argparse
import os
import sys

sys.dont_write_bytecode = True
from model import BOUND, LENGTH, Fault, Refused, names, read

NETWORK = ("postpone", "lose", "repeat")


def arguments():
    parser = argparse.ArgumentParser(description="Split a record into the logs of its members.")
    parser.add_argument("--bare", action="store_true", help="state nothing of what steps came to")
    parser.add_argument("dir", metavar="DIR", help="the folder for the logs; it is made where there is none")
    return parser.parse_args()


def value(messages):
    return "{" + names(messages, ",") + "}"


def carried(wire):
    """What the wire carries, as lines name it."""
    if wire[0] == "Data":
        return f"data {names([wire[1]], '')}"
    return f"{wire[0].lower()} {wire[1]}/{wire[2]}"


def load(world, wire):
    """What a receipt of the wire comes to."""
    if wire[0] == "Data":
        return " ".join(map(str, world.commands[wire[1]]))
    if wire[0] == "Est":
        return f"{value(wire[4])} ts {wire[5]}"
    return value(wire[3]) if wire[0] in ("Prop", "Dec") else ""


def act(name, rest, world, senders):
    """The act as a log has it."""
    if name == "submit":
        return "submit " + " ".join(map(str, rest[0]))
    if name == "receive":
        return f"receive {carried(world.wires[rest[0]])} from {senders[rest[0]]}"
    return " ".join(map(str, [name, *rest]))


def outcome(name, member, rest, world, before):
    """What the step came to, after it; before it the member had delivered so many messages."""
    here = member.open
    if name == "receive":
        return load(world, world.wires[rest[0]])
    if name in ("begin", "choose"):
        return value(here.estimate)
    if name in ("enter", "adopt"):
        return f"{value(here.estimate)} ts {here.ts}"
    if name in ("deliver", "follow"):
        return value(list(member.delivered)[before:])
    return ""


def head(world):
    return [f"members {world.n}", f"cells {world.cells}"] + ([f"batch {world.bound}"] if world.bound != BOUND else [])


def split(world, steps, bare):
    """The lines of each member's log."""
    logs = {p: head(world) for p in world.members}
    senders = [0]   # by serial
    for at, (name, p, *rest) in enumerate(steps, 1):
        before = len(world.members[p].delivered) if p in world.members else 0
        try:
            world.apply(name, p, *rest)
        except Refused as refusal:
            sys.exit(f"step {at}: {refusal}")
        senders += [p] * (world.sent() + 1 - len(senders))
        if name in NETWORK:
            continue
        line = act(name, rest, world, senders)
        said = "" if bare else outcome(name, world.members[p], rest, world, before)
        logs[p].append(f"{p} {line} {said}".rstrip())
    return logs


def main():
    options = arguments()
    try:
        world, steps = read(sys.stdin.buffer.read(LENGTH + 1))
        logs = split(world, steps, options.bare)
    except Fault as fault:
        sys.exit(f"record: {fault}")
    os.makedirs(options.dir, exist_ok=True)
    for p, lines in logs.items():
        with open(os.path.join(options.dir, f"{p}.log"), "w", encoding="utf-8") as log:
            log.write("\n".join(lines) + "\n")


if __name__ == "__main__":
    main()
