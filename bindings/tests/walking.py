#!/usr/bin/env python3
"""Writes the options of walks, 200 seeds of each kind, and the records that `ct_tool walk` makes of them.

    walking.py TOOL FOLDER

`walks_asked` has the options of a walk a line, by their numbers in the order of ct_walk_options in ct.h, `walks_answered` its record.
"""
import os
import subprocess
import sys

USUAL = {"turns": 1000, "seed": 0, "batch": 1_048_560, "every": 0, "rate": 64, "cells": 64, "submit": 8, "postpone": 0, "lose": 0,
         "repeat": 0, "scatter": 0, "lasting": 0, "cut": 0, "members": 0, "crash": 0, "crashes": 0}
KINDS = [{"members": 3, "turns": 100}, {"members": 3, "turns": 150, "rate": 128, "submit": 20, "every": 7, "scatter": 64},
         {"members": 5, "turns": 100, "crash": 2, "crashes": 2, "lasting": 200, "postpone": 10},
         {"members": 4, "turns": 120, "cut": 5, "scatter": 128, "lose": 10, "repeat": 20},
         {"members": 1, "turns": 50, "cells": 2, "batch": 1, "submit": 4},
         {"members": 16, "turns": 20, "cut": 2, "crashes": 7, "rate": 200, "lasting": 256}]


def main() -> None:
    tool, folder = sys.argv[1:]
    asked, answered = (open(os.path.join(folder, name), "w", encoding="utf-8") for name in ("walks_asked", "walks_answered"))
    with asked, answered:
        for kind in KINDS:
            for seed in range(200):
                given = {**kind, "seed": 2**32 - 1 - seed if seed % 2 else seed}
                print(*{**USUAL, **given}.values(), file=asked)
                words = [word for name, number in given.items() for word in (f"--{name}", str(number))]
                answered.write(subprocess.run([tool, "walk", *words], stdout=subprocess.PIPE, check=True, encoding="utf-8").stdout)


if __name__ == "__main__":
    main()
