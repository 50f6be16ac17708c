#!/usr/bin/env python3
"""Makes the man pages and the bash completions of `ct` and `ct_tool` from what their `--help` prints.

    docs/man/make.py CT CT_TOOL [--check]

CT, CT_TOOL: the built programs. It asks each of them, and each subcommand that they name, for its help, and writes
ct.1 and ct_tool.1 beside this script and ct.bash and ct_tool.bash in ../completions. With --check it writes nothing,
and prints a line for each of the four files that differs from what it would write.

What help doesn't tell stands beside this script in ct.text and ct_tool.text: paragraphs under the name of a part of
the page, as [DESCRIPTION]; under [DATE] the day when the text was last gone over; and under the name of a subcommand
what its help could have behind its options: lists headed `Examples:` and `Status:`, which are gathered in parts of the
page, and others, which stand with the subcommand.

Status: 0, the files were written, or with --check none differs; 1, one differs; 2, a program or a text can't be read.
"""
import argparse
import os
import sys

sys.dont_write_bytecode = True

from completion import completion
from page import DATE, ORDER, page
from reading import Program, Unreadable, program_of

HERE = os.path.dirname(os.path.abspath(__file__))
COMPLETIONS = os.path.join(os.path.dirname(HERE), "completions")
NAMES = ("ct", "ct_tool")


def read(name: str, path: str) -> Program:
    """The program of this name at the path."""
    program = program_of(name, os.path.abspath(path), os.path.join(HERE, f"{name}.text"))
    for part in program.texts:
        if part not in (DATE, *ORDER):
            raise Unreadable(f"{name}.text: [{part}] is neither a part of the page nor a subcommand")
    return program


def files_of(program: Program) -> dict:
    """The text of each file that is made of the program, by its path."""
    others = [name for name in NAMES if name != program.name]
    return {
        os.path.join(HERE, f"{program.name}.1"): page(program, others),
        os.path.join(COMPLETIONS, f"{program.name}.bash"): completion(program),
    }


def difference(path: str, text: str) -> str:
    """How the file differs from the text; empty where it doesn't."""
    try:
        with open(path, encoding="utf-8", newline="") as file:
            there = file.read().split("\n")
    except FileNotFoundError:
        return "is missing"
    except (OSError, UnicodeError) as error:
        return f"can't be read: {error}"
    wanted = text.split("\n")
    if there == wanted:
        return ""
    same = next((at for at, pair in enumerate(zip(there, wanted)) if pair[0] != pair[1]), min(len(there), len(wanted)))
    return f"differs from line {same + 1} on"


def check(files: dict) -> int:
    """Prints a line for each file that differs."""
    status = 0
    for path, text in files.items():
        how = difference(path, text)
        if how:
            print(f"{os.path.relpath(path, os.path.join(HERE, '..', '..'))} {how}: docs/man/make.py CT CT_TOOL writes it anew")
            status = 1
    return status


def write(files: dict) -> int:
    """Writes the files."""
    os.makedirs(COMPLETIONS, exist_ok=True)
    for path, text in files.items():
        with open(path, "w", encoding="utf-8", newline="") as file:
            file.write(text)
    return 0


def main() -> int:
    parser = argparse.ArgumentParser(description="Make the man pages and bash completions of ct and ct_tool from their --help.")
    for name in NAMES:
        parser.add_argument(name, metavar=name.upper(), help=f"the built program {name}")
    parser.add_argument("--check", action="store_true", help="write nothing, and tell which files differ")
    options = parser.parse_args()
    files = {}
    try:
        for name in NAMES:
            files.update(files_of(read(name, getattr(options, name))))
    except Unreadable as error:
        print(f"docs/man/make.py: {error}", file=sys.stderr)
        return 2
    return check(files) if options.check else write(files)


if __name__ == "__main__":
    sys.exit(main())
