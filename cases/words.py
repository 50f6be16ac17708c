#!/usr/bin/env python3
"""cases/words.py [ROOT]: README.md and each document of docs/ and bindings/ has a measure in MEASURES and less than a tenth more words than
that, as `wc -w` counts them. Names each that hasn't, and ends with 1 where there is one."""

import glob
import os
import sys

# By document, in words.
MEASURES = {
    "README.md": 1500,
    "bindings/README.md": 1500,
    "docs/ALGORITHM.md": 1600,
    "docs/ARCHITECTURE.md": 900,
    "docs/BELIEVE.md": 1500,
    "docs/DECISIONS.md": 1200,
    "docs/DRIVE.md": 1200,
    "docs/FORMATS.md": 1900,
    "docs/GLOSSARY.md": 400,
    "docs/GOALS.md": 1400,
    "docs/LIBRARY.md": 800,
    "docs/LOGS.md": 1600,
    "docs/ORDER.md": 500,
    "docs/PAPER.md": 700,
    "docs/PROOFS.md": 1200,
    "docs/SCHEDULES.md": 1600,
    "docs/TEN_MINUTES.md": 900,
}


def counted(root):
    """The words of each document that is there."""
    paths = [path for of in ("README.md", "docs/*.md", "bindings/*.md") for path in sorted(glob.glob(f"{root}/{of}"))]
    counts = {}
    for path in paths:
        with open(path, encoding="utf-8") as file:
            counts[os.path.relpath(path, root)] = len(file.read().split())
    return counts


def faults(counts):
    """What is wrong, a line each."""
    for name, count in counts.items():
        measure = MEASURES.get(name)
        if measure is None:
            yield f"{name}: {count} words, and no measure"
        elif 10 * count >= 11 * measure:
            yield f"{name}: {count} words, its measure is {measure}"
    for name in MEASURES.keys() - counts.keys():
        yield f"{name}: its measure is {MEASURES[name]}, and there is no such document"


def main():
    counts = counted(sys.argv[1] if len(sys.argv) > 1 else os.path.dirname(os.path.dirname(os.path.abspath(__file__))))
    wrong = sorted(faults(counts))
    for it in wrong:
        print(it)
    print(f"{len(counts)} documents, {sum(counts.values())} words; {len(wrong)} faults")
    sys.exit(1 if wrong else 0)


if __name__ == "__main__":
    main()
