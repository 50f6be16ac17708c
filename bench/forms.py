#!/usr/bin/env python3
"""Writes a record in other ways, each of which says the same.

    python3 forms.py FOLDER < record.json

makes the folder where it isn't there, and writes a file for each way: `spaces.json` with a space behind each comma and
colon, `lines.json` with a line end between each two steps, `indented_steps.json` with each step on a line of its own
behind four spaces, `indented.json` and `tabs.json` with each name and number on a line of its own, `first.json` with the
steps before all else, `late.json` with the bound behind them, and `padded.json` with two line ends behind the record.
`ct replay` gives the same report of each.
"""
import json
import pathlib
import sys


def close(value):
    """The value without white space."""
    return json.dumps(value, separators=(",", ":"))


def forms(record):
    """The texts of the record, by their names."""
    steps = record["steps"]
    others = {key: value for key, value in record.items() if key != "steps"}
    before = {key: value for key, value in others.items() if key not in ("batch", "version")}
    behind = {key: others[key] for key in ("version", "batch") if key in others}
    each = [close(step) for step in steps]
    spaced = ["    " + json.dumps(step) for step in steps]
    yield "spaces", json.dumps(record)
    yield "lines", close(others)[:-1] + ',"steps":[\n' + ",\n".join(each) + "\n]}\n"
    yield "indented_steps", json.dumps(others, indent=2)[:-2] + ',\n  "steps": [\n' + ",\n".join(spaced) + "\n  ]\n}\n"
    yield "indented", json.dumps(record, indent=2) + "\n"
    yield "tabs", json.dumps(record, indent="\t") + "\n"
    yield "first", close({"steps": steps, **others})
    yield "late", close({**before, "steps": steps, **behind})
    yield "padded", close(record) + "\n\n"


def main():
    if len(sys.argv) != 2:
        sys.exit("usage: forms.py FOLDER < record.json")
    folder = pathlib.Path(sys.argv[1])
    folder.mkdir(parents=True, exist_ok=True)
    for name, text in forms(json.load(sys.stdin)):
        (folder / f"{name}.json").write_text(text)


main()
