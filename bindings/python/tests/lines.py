#!/usr/bin/env python3
"""lines.py FILE [once]: tells a session the lines of a file, one at a time or all at once, and prints the answers. The lines a second go
to standard error."""
import os
import sys
import time

sys.path.insert(0, os.path.join(os.path.dirname(os.path.abspath(__file__)), ".."))

from malletochre.session import LibrarySession   # noqa: E402


def main() -> None:
    with open(sys.argv[1], "rb") as file:
        text = file.read()
    told = [text] if len(sys.argv) > 2 else text.splitlines(keepends=True)
    session = LibrarySession()
    start = time.perf_counter()
    answers = [session.tell(line) for line in told]
    took = time.perf_counter() - start
    session.close()
    said = b"".join(answers)
    count = said.count(b"\n")
    print(f"Python: {count} lines, {took:.3f} s, {count / took:.0f} lines/s", file=sys.stderr)
    sys.stdout.buffer.write(said)


if __name__ == "__main__":
    main()
