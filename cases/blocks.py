#!/usr/bin/env python3
"""Runs what the documents show: the indented blocks of README.md, docs/*.md and examples/README.md, and the examples of the
programs' help and of docs/man/*.text.

    blocks.py CT CT_TOOL

All is run in a copy of docs/, examples/, bench/, cases/ and bindings/python/, in which crates/NAME/out/NAME and, on the path, NAME are the
built programs. At the beginning of each document and each help run.json and another.json are a record, run.txt a schedule, 1.log, 2.log
and 3.log the logs of a run's members (about `order` a.log, b.log and c.log those of processes); commands find what those before them wrote.
A block is told by its first line:

    members N               a schedule: `ct_tool record` writes its record, which is replayed; a line `..` stands for others
    {"batch": ..            a record, which is replayed; commands behind it find it as record.json
    # NAME.py               a program in Python of this name; a command behind it names it
    $ COMMAND               commands, each behind a `$`, and what each writes to standard output and error
    #![tactic(auto)]        a program in Rattle, which `rt try` runs; its libraries stand behind `NAME:` in the paragraph above
    ct, ct_tool, crates/.., examples/.., printf, python3, sed, rt, export, PYTHONPATH=.., (cd crates/..
                            commands, each line one
    anything else           what the commands or the program above wrote, with one paragraph between: to standard output where that
                            says `prints` or `lines`; where it says `ends with` or `refused` the end of standard error, with a status
                            above 0

`(cd crates/NAME && rt run -- ..)` runs the built program, and so does `rt try`. Commands end with status 0, or with that of a file
NAME.fault beside a file that they name. In what is written a line that begins with `..` stands for any text, and line ends don't count
where the paragraph says `line ends added`. What `ct free` writes is not compared: its runs are not the same twice.

A block that is none of these fails, unless NOT_RUN has it. Prints a line for each failure, how long each document took, how many blocks
were run, those that were not, and last `N passed, M failed`. Needs Python 3.8 and, for programs in Rattle, `rt` on the path.
"""
from __future__ import annotations

import glob
import os
import re
import shutil
import subprocess
import sys
import tempfile
import time
from typing import Any, Dict, Iterator, List, NamedTuple, Optional

ROOT = os.path.dirname(os.path.dirname(os.path.abspath(__file__)))
KINDS = {
    "schedule": re.compile(r"members \d"),
    "record": re.compile(r'\{"batch":'),
    "python": re.compile(r"# (\w+)\.py$"),
    "transcript": re.compile(r"\$ "),
    "program": re.compile(r"#!\[tactic\(auto\)\]$"),
    "command": re.compile(r"(ct|ct_tool|printf|python3|sed|rt|export) |crates/|examples/|PYTHONPATH=|\(cd crates/"),
}
# By document and first line: why a block is not run.
NOT_RUN = {
    ("README.md", "rt ci"): "the gate, which runs this",
    **{("README.md", line): "for a release; release/test.sh runs it" for line in (
        "sha256sum --check --quiet SHA256SUMS", "export PKG_CONFIG_PATH=$PWD/malletochre-0.1.0-x86_64-linux/lib/pkgconfig",
        "python3 -m venv python", "for it in *.crate; do tar xf $it; done", "tar xf malletochre-go-0.1.0.tar.gz",
        "npm install --silent --offline ./malletochre-0.1.0.tgz", "refused TooFew")},
    ("docs/ALGORITHM.md", "Enter               Choose             Adopt or Suspect             Conclude"): "a drawing",
    ("docs/LOGS.md", "# the log of member 1"): "a log without those of the others",
    ("docs/ARCHITECTURE.md", "programs               ct             ct_tool             ct_growths"): "a drawing",
    ("docs/ORDER.md", "broadcast a1      it submitted the message of this name"): "each line of a log, with what it says",
}
# What the processes a, b and c log, where it is about `order`.
ORDERED = {name: f"broadcast {name}1\ndeliver a1\ndeliver b1\ndeliver c1\nend\n" for name in "abc"}
# So many of each kind are there at least.
LEAST = {"schedule": 1, "record": 1, "python": 2, "transcript": 7, "program": 1, "command": 25, "output": 9, "example": 22}
BUILT = re.compile(r"\(cd crates/(ct|ct_tool) && rt (?:run|try) -- ")
FREE = re.compile(r"\bct(/out/ct)? free\b")
SECONDS = 60
SECONDS_OF_TRY = 1200   # `rt try` compiles the libraries, too


class Done(NamedTuple):
    """What commands came to."""
    status: int
    output: str
    errors: str


class Part(NamedTuple):
    """A block or a paragraph of a document, from its first line on, which has this number."""
    number: int
    is_block: bool
    lines: List[str]

    @property
    def text(self) -> str:
        return "\n".join(self.lines) + "\n"

    @property
    def kind(self) -> Optional[str]:
        return next((kind for kind, first in KINDS.items() if first.match(self.lines[0])), None)


def parts(text: str) -> List[Part]:
    """The parts of a document; blocks with blank lines between them are one."""
    lines = text.split("\n")
    found: List[Part] = []
    for number, line in enumerate(lines, 1):
        is_block = line.startswith("    ") and (bool(found and found[-1].is_block) or not lines[number - 2].strip())
        if not line.strip():
            continue
        joined = found and found[-1].is_block == is_block and (is_block or lines[number - 2].strip())
        if joined and is_block:
            found[-1].lines.extend([""] * (number - found[-1].number - len(found[-1].lines)))
        if not joined:
            found.append(Part(number, is_block, []))
        found[-1].lines.append(line[4:] if is_block else line)
    return found


def read(*path: str) -> str:
    with open(os.path.join(ROOT, *path), encoding="utf-8") as file:
        return file.read()


def start_of(text: str) -> str:
    """The text's beginning on one line."""
    return " ".join(text[:200].split())


def is_like(wanted: str, made: str) -> bool:
    """Whether a text is as wanted, where a line that begins with `..` stands for any text."""
    return re.fullmatch(".*".join(map(re.escape, re.split(r"^\.\.\n?", wanted, flags=re.M))), made, re.S) is not None


def ended(words: List[str], seconds: int, text: str = "", **how: Any) -> Done:
    """What a program on this text comes to; status 124 where it takes longer."""
    try:
        done = subprocess.run(words, timeout=seconds, input=text, stdout=subprocess.PIPE, stderr=subprocess.PIPE,
                              universal_newlines=True, **how)
    except subprocess.TimeoutExpired:
        return Done(124, "", f"{words[0]} takes more than {seconds} seconds")
    return Done(done.returncode, done.stdout, done.stderr)


class Tree:
    """A copy of what the commands name, and the programs."""

    def __init__(self, folder: str, ct: str, tool: str) -> None:
        self.folder = folder
        for name in ("docs", "examples", "bench", "cases", "bindings/python"):
            shutil.copytree(os.path.join(ROOT, name), os.path.join(folder, name))
        for name, program in (("ct", ct), ("ct_tool", tool)):
            for place in (os.path.join("crates", name, "out"), "bin"):
                os.makedirs(os.path.join(folder, place), exist_ok=True)
                os.symlink(os.path.abspath(program), os.path.join(folder, place, name))
        self.around = {**os.environ, "LC_ALL": "C", "PYTHONDONTWRITEBYTECODE": "1",
                       "PATH": os.path.join(folder, "bin") + os.pathsep + os.environ["PATH"]}

    def write(self, name: str, text: str) -> None:
        with open(os.path.join(self.folder, name), "w", encoding="utf-8") as file:
            file.write(text)

    def renew(self, where: str) -> None:
        """Makes run.json, another.json, run.txt and the logs, which are those of any atomic broadcast where it is about `order`."""
        self.run("rm -f *.log; ct_tool walk --members 3 --seed 7 --turns 60 > run.json")
        self.run("cp run.json another.json; cp examples/followers.schedule run.txt")
        if re.search("order( --help|.md)$", where, re.IGNORECASE):
            for name, text in ORDERED.items():
                self.write(f"{name}.log", text)
        else:
            self.run("python3 bench/split.py . < run.json")

    def run(self, command: str, text: str = "") -> Done:
        """Runs a command on the text."""
        return ended(["bash", "-o", "pipefail", "-c", command], SECONDS, text, cwd=self.folder, env=self.around)

    def try_program(self, text: str, libraries: str) -> Done:
        """Runs a program in Rattle, without proofs, in a copy of the crates."""
        with tempfile.TemporaryDirectory() as folder:
            shutil.copytree(os.path.join(ROOT, "crates"), os.path.join(folder, "crates"),
                            ignore=shutil.ignore_patterns("out", "must-fail", "BUILD.bazel"))
            source = os.path.join(folder, "crates", "of_document", "src")
            os.makedirs(source)
            for path, content in ((os.path.join(source, "main.rt"), text),
                                  (os.path.join(folder, "crates.txt"), f"{read('crates.txt')}of_document: {libraries}\n")):
                with open(path, "w", encoding="utf-8") as file:
                    file.write(content)
            return ended(["rt", "try"], SECONDS_OF_TRY, cwd=os.path.dirname(source))

    def statuses(self, command: str) -> List[int]:
        """The statuses that the command may end with."""
        allowed = [0]
        for word in re.findall(r"[\w./*-]+", command):
            for path in glob.glob(os.path.join(self.folder, word)):
                fault = os.path.splitext(path)[0] + ".fault"
                if os.path.isfile(fault):
                    with open(fault) as file:
                        allowed.append(int(file.read().split()[-1]))
        return allowed


class Cases:
    """What was run and what it came to."""

    def __init__(self, tree: Tree) -> None:
        self.tree, self.wrong, self.blocks = tree, 0, 0
        self.counts = dict.fromkeys(LEAST, 0)
        self.not_run: Dict[str, str] = {}

    def count(self, kind: str, where: str, wrong: str) -> None:
        self.counts[kind] = self.counts.get(kind, 0) + 1
        if wrong:
            self.wrong += 1
            print(f"FAILED {kind} at {where}: {wrong}")

    def is_left_out(self, name: str, line: str) -> bool:
        """Whether the block with this first line is one that isn't run; notes it."""
        reason = NOT_RUN.get((name, line.strip()))
        if reason is not None:
            self.not_run[f"{name} `{start_of(line)}`"] = reason
        return reason is not None

    def command(self, kind: str, where: str, command: str, is_refused: bool = False) -> Done:
        """Runs a command, which is to be refused or not."""
        command = BUILT.sub(r"(cd crates/\1 && out/\1 ", command)
        done = self.tree.run(command)
        is_right = done.status > 0 if is_refused else done.status in self.tree.statuses(command)
        self.count(kind, where, "" if is_right else f"`{command}` ends with status {done.status}: {start_of(done.errors)}")
        return done

    def total(self) -> str:
        """Tells the blocks, and answers the last line."""
        few = [f"{kind}: {self.counts[kind]} are run, not {least}" for kind, least in LEAST.items() if self.counts[kind] < least]
        few += [f"block: there is no {name} `{start_of(line)}`, which is not to be run" for name, line in NOT_RUN
                if f"{name} `{start_of(line)}`" not in self.not_run]
        for wrong in few:
            print(f"FAILED {wrong}")
        not_run = ", ".join(f"{what} ({reason})" for what, reason in self.not_run.items())
        print(f"{self.blocks} blocks of documents are run; not run: {not_run}")
        return f"{sum(self.counts.values()) - self.wrong} passed, {self.wrong + len(few)} failed"


class Document:
    """A document whose blocks are run in their order."""

    def __init__(self, cases: Cases, name: str) -> None:
        self.cases, self.name = cases, name
        self.parts = parts(read(name))
        self.compared: List[int] = []   # places of blocks that were compared with what commands wrote

    def run(self) -> None:
        self.cases.tree.renew(self.name)
        for place, part in enumerate(self.parts):
            if not part.is_block or self.cases.is_left_out(self.name, part.lines[0]):
                continue
            if part.kind:
                getattr(self, part.kind)(place, f"{self.name}:{part.number}", part)
            elif place not in self.compared:
                self.cases.count("block", f"{self.name}:{part.number}", f"no case runs `{start_of(part.lines[0])}`")
            self.cases.blocks += 1

    def paragraph(self, place: int) -> str:
        return " ".join(self.parts[place].lines) if 0 <= place < len(self.parts) else ""

    def behind(self, place: int) -> Optional[Part]:
        """What the document says that this block writes."""
        if place + 2 >= len(self.parts) or self.parts[place + 1].is_block:
            return None
        part = self.parts[place + 2]
        return part if part.is_block and part.kind is None and (self.name, part.lines[0].strip()) not in NOT_RUN else None

    def is_refused(self, place: int) -> bool:
        """Whether the document says that the block's last command is refused."""
        return self.behind(place) is not None and re.search(r"\b(ends with|refused)\b", self.paragraph(place + 1)) is not None

    def compare(self, place: int, done: Done) -> None:
        """Compares what was written with what the document says."""
        part, said = self.behind(place), self.paragraph(place + 1)
        if part is None:
            return
        if self.is_refused(place):
            made, is_right = done.errors, ("\n" + done.errors).endswith("\n" + part.text)
        elif re.search(r"\b(prints|lines)\b", said):
            made = done.output
            is_right = is_like(part.text, made) if "line ends added" not in said else self.is_joined(part.text, made)
        else:
            return
        self.compared.append(place + 2)
        self.cases.count("output", f"{self.name}:{part.number}", "" if is_right else f"it writes {made[-400:]!r}")

    @staticmethod
    def is_joined(wanted: str, made: str) -> bool:
        pieces = [piece.replace("\n", "") for piece in re.split(r"^\.\.", wanted, flags=re.M)]
        return re.fullmatch(".*".join(map(re.escape, pieces)), made.replace("\n", "")) is not None

    def text(self, kind: str, where: str, command: str, text: str) -> None:
        done = self.cases.tree.run(command, text)
        self.cases.count(kind, where, f"status {done.status}: {start_of(done.errors)}" if done.status else "")

    def schedule(self, _place: int, where: str, part: Part) -> None:
        self.text("schedule", where, "ct_tool record | ct replay", "".join(f"{line}\n" for line in part.lines if line != ".."))

    def record(self, _place: int, where: str, part: Part) -> None:
        self.cases.tree.write("record.json", part.text)
        self.text("record", where, "ct replay", part.text)

    def python(self, place: int, where: str, part: Part) -> None:
        name = part.lines[0][2:]
        self.cases.tree.write(name, part.text)
        commands = [line for later in self.parts[place:] if later.kind == "command" for line in later.lines]
        self.cases.count("python", where, "" if any(f"python3 {name}" in line for line in commands) else "no command behind it runs it")

    def transcript(self, _place: int, where: str, part: Part) -> None:
        for told in re.split(r"^\$ ", part.text, flags=re.M)[1:]:
            command, _, wanted = told.partition("\n")
            made = self.cases.tree.run(f"({command}) 2>&1").output
            self.cases.count("transcript", where, "" if made == wanted else f"`{command}` writes {start_of(made)}")

    def program(self, place: int, where: str, part: Part) -> None:
        named = re.search(r"`NAME: ([\w ]+)`", self.paragraph(place - 1))
        done = self.cases.tree.try_program(part.text, named.group(1) if named else "")
        self.cases.count("program", where, f"status {done.status}: {done.errors[-400:]}" if done.status else "")
        self.compare(place, done)

    def command(self, place: int, where: str, part: Part) -> None:
        outputs, done = "", Done(0, "", "")
        for line in part.lines:
            is_refused = line == part.lines[-1] and self.is_refused(place)
            done = self.cases.command("command", f"{where}, `{line}`", line, is_refused)
            outputs += done.output
        if not any(FREE.search(line) for line in part.lines):
            self.compare(place, Done(done.status, outputs, done.errors))


def examples_in(text: str) -> Iterator[str]:
    """The commands under `Examples:`."""
    inside = False
    for line in text.split("\n"):
        if line == "Examples:":
            inside = True
        elif inside and line.startswith("  "):
            yield line.strip()
        else:
            inside = False


def subcommands(help_text: str) -> List[str]:
    """The names under `Commands:`."""
    listed = help_text.partition("\nCommands:\n")[2].partition("\n\n")[0]
    return re.findall(r"^  (\w+)", listed, re.M)


def run_examples(cases: Cases) -> None:
    for program in ("ct", "ct_tool"):
        texts = {f"{program} --help": cases.tree.run(f"{program} --help").output}
        for name in subcommands(texts[f"{program} --help"]):
            texts[f"{program} {name} --help"] = cases.tree.run(f"{program} {name} --help").output
        texts[f"docs/man/{program}.text"] = read("docs", "man", f"{program}.text")
        for where, text in texts.items():
            cases.tree.renew(where)
            for command in examples_in(text):
                cases.command("example", where, command)


def main() -> None:
    with tempfile.TemporaryDirectory() as folder:
        cases = Cases(Tree(folder, *sys.argv[1:]))
        names = sorted(os.path.relpath(path, ROOT) for path in glob.glob(os.path.join(ROOT, "docs", "*.md")))
        waited = []
        for name in ["README.md", "examples/README.md", *names]:
            start = time.monotonic()
            Document(cases, name).run()
            waited.append(f"{name} {time.monotonic() - start:.1f}")
        run_examples(cases)
        print(f"seconds that a reader waits: {', '.join(waited)}")
        print(cases.total())


if __name__ == "__main__":
    main()
