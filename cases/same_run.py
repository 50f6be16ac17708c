#!/usr/bin/env python3
"""Whether two records are of the same run: group, cells, bound and steps are equal; the version may differ.

    same_run.py MADE WANTED [STEPS]        with STEPS only so many steps of WANTED count
"""
import json
import sys

BOUND = 1_048_560   # of records that don't name one


def run(name, steps=None):
    with open(name) as file:
        record = json.load(file)
    return record["n"], record["cells"], record.get("batch", BOUND), record["steps"][:steps]


made, wanted, *rest = sys.argv[1:]
sys.exit(run(made) != run(wanted, int(rest[0]) if rest else None))
