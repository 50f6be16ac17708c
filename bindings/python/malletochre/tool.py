"""The program `ct_tool`, for where the library isn't there."""
from __future__ import annotations

import os
import shutil
import subprocess
from typing import List, Optional

OF_CLONE = os.path.realpath(os.path.join(os.path.dirname(__file__), "..", "..", "..", "crates", "ct_tool", "out", "ct_tool"))


def found(tool: Optional[str] = None) -> str:
    """The program: the one that is given, that the variable CT_TOOL names, of the clone, or on the path."""
    named = tool or os.environ.get("CT_TOOL")
    if named:
        return named
    on_path = shutil.which("ct_tool")
    return OF_CLONE if os.path.exists(OF_CLONE) or not on_path else on_path


def output(tool: str, words: List[str], text: str) -> str:
    """What the program prints with these words, given a text."""
    done = subprocess.run([tool, *words], input=text, stdout=subprocess.PIPE, stderr=subprocess.PIPE, encoding="utf-8")
    if done.returncode:
        raise OSError(f"{tool} {' '.join(words)}: status {done.returncode}: {done.stderr.strip()}")
    return done.stdout


class Pipe:
    """`ct_tool interact`: a line in, an answer out."""

    def __init__(self, tool: str, *words: str) -> None:
        self.tool = tool
        try:
            self._process = subprocess.Popen([tool, "interact", *words], stdin=subprocess.PIPE, stdout=subprocess.PIPE, encoding="utf-8",
                                             bufsize=1)
        except OSError as error:
            what = "`bindings/build.sh` makes libct.so, and `(cd crates/ct_tool && rt run -- --help)` builds ct_tool"
            where = "ct_tool is what the variable CT_TOOL names, else that of the clone, else that on PATH"
            raise OSError(f"{tool}: {error.strerror}; {where}; {what}") from None

    def ask(self, line: str) -> str:
        """The answer to the line, without its line feed; EOFError where the program has ended, ValueError where it was closed."""
        answer = ""
        self.look()
        assert self._process.stdin and self._process.stdout
        try:
            self._process.stdin.write(line + "\n")
            answer = self._process.stdout.readline()
        except BrokenPipeError:
            pass
        if not answer.endswith("\n"):
            raise EOFError(f"{line}: no answer")
        return answer[:-1]

    def look(self) -> None:
        """It wasn't closed."""
        if self._process.stdin and self._process.stdin.closed:
            raise ValueError("the world or the session is closed")

    def close(self) -> int:
        """Ends it, and gives its status."""
        for stream in (self._process.stdin, self._process.stdout):
            try:
                if stream:
                    stream.close()
            except BrokenPipeError:
                pass
        return self._process.wait()


def serials(answer: str) -> Optional[range]:
    """The serials that an answer `ok`, `ok 9` or `ok 9-11` tells; None where it is another."""
    word, _, told = answer.partition(" ")
    if word != "ok":
        return None
    first, _, last = told.partition("-")
    return range(int(first), int(last or first) + 1) if told else range(0)
