"""Reads what a program's `--help` prints, and the texts that say what help doesn't tell."""
from __future__ import annotations

import os
import re
import subprocess
from dataclasses import dataclass, field

SECONDS = 20                        # a program that prints its help takes less
HELP = "help"                       # the subcommand that prints help takes no --help
FLAG = re.compile(r"(?<![\w-])--?[A-Za-z0-9][\w-]*")
VALUE = re.compile(r"<([^<>]+)>")
OPERAND = re.compile(r"[\[<]([^\[\]<>]+)[\]>]")
CHOICES = re.compile(r"\[possible values: ([^\]]*)\]")
A_FILE = re.compile(r"(the|a) files?\b", re.IGNORECASE)


class Unreadable(Exception):
    """A program or a text that can't be read; the message says why."""


@dataclass
class Entry:
    """A line of a list in help: a subcommand, an operand or an option, as `--seed <seed>`, and its text."""
    term: str
    text: str

    @property
    def flags(self) -> list[str]:
        """The names of an option, as -h and --help."""
        return FLAG.findall(re.split(r"[<\[=]", self.term)[0])

    @property
    def values(self) -> list[str]:
        """The names of an option's values."""
        return VALUE.findall(self.term)

    @property
    def operand(self) -> str:
        """The name of an operand, as FILE of `[FILE]`."""
        found = OPERAND.search(self.term)
        return found.group(1) if found else self.term

    @property
    def is_repeated(self) -> bool:
        """Whether any number of words may stand here."""
        return self.term.endswith("...")

    @property
    def choices(self) -> list[str]:
        """The words that an option or an operand takes, where help tells them; none with a space or a quote."""
        found = CHOICES.search(self.text)
        return [word for word in found.group(1).split(", ") if re.fullmatch(r"[\w.+-]+", word)] if found else []

    @property
    def names_file(self) -> bool:
        """Whether a file is wanted: help shows FILE, or the text begins with `The file`."""
        names = self.values or [self.operand]
        return names[0].upper() in ("FILE", "FILES") or A_FILE.match(self.text) is not None


@dataclass
class Block:
    """Lines of help that begin at the margin, joined, and the indented lines below them."""
    head: str
    body: list[str] = field(default_factory=list)

    @property
    def title(self) -> str:
        """The head without its colon."""
        return self.head[:-1] if self.head.endswith(":") else self.head


@dataclass
class Help:
    """What help tells of a program or of one of its subcommands."""
    name: str
    about: str
    usage: list[str]                                                    # without the program's name
    commands: list[Entry] = field(default_factory=list)
    operands: list[Entry] = field(default_factory=list)
    options: list[tuple[str, list[Entry]]] = field(default_factory=list)    # under each title
    notes: list[Block] = field(default_factory=list)                    # what stands behind the options

    @property
    def all_options(self) -> list[Entry]:
        """The options under all titles."""
        return [entry for _, entries in self.options for entry in entries]


def printed(program: str, name: str, words: list[str]) -> str:
    """What the program prints when it is called by this name with these words."""
    called = " ".join([name, *words])
    try:
        done = subprocess.run([name, *words], executable=program, stdin=subprocess.DEVNULL, capture_output=True,
                              encoding="utf-8", timeout=SECONDS, check=False)
    except (OSError, subprocess.SubprocessError, UnicodeError) as error:
        raise Unreadable(f"{called}: {error}") from error
    if done.returncode != 0:
        raise Unreadable(f"{called}: status {done.returncode}")
    return done.stdout


def blocks_of(lines: list[str]) -> list[Block]:
    """The blocks of a text."""
    blocks: list[Block] = []
    is_open = False                     # whether the last line belongs to the head of the last block
    for line in lines:
        if not line or line[0].isspace():
            if blocks:
                blocks[-1].body.append(line.rstrip())
            is_open = False
        elif is_open:
            blocks[-1].head += " " + line
        else:
            blocks.append(Block(line))
            is_open = True
    for block in blocks:
        while block.body and not block.body[-1]:
            block.body.pop()
    return blocks


def is_term(line: str) -> bool:
    """Whether the line begins an entry, and isn't the rest of the text of one."""
    return re.match(r" {2}\S| {6}--\w", line) is not None


def entries_of(block: Block) -> list[Entry]:
    """The entries of a list; the text stands behind its term, in lines below it, or both."""
    entries: list[Entry] = []
    for line in filter(None, block.body):
        if is_term(line) or not entries:
            term, *text = re.split(r" {2,}", line.strip(), maxsplit=1)
            entries.append(Entry(term, "".join(text)))
        else:
            entries[-1].text = (entries[-1].text + " " + line.strip()).strip()
    return entries


def lists_options(block: Block) -> bool:
    """Whether the block is a list of options."""
    return bool(block.body) and re.match(r" {2}-\w| {2,6}--\w", block.body[0]) is not None


def help_of(name: str, text: str) -> Help:
    """What the text of help tells."""
    blocks = blocks_of(text.splitlines())
    places = [place for place, block in enumerate(blocks) if block.head.startswith("Usage: ")]
    if not places:
        raise Unreadable(f"{name}: its help has no usage")
    about, usage, rest = blocks[:places[0]], blocks[places[0]], blocks[places[0] + 1:]
    lines = [usage.head[len("Usage: "):]] + [line.strip() for line in usage.body]
    made = Help(name, " ".join(block.head for block in about), [line.partition(" ")[2] for line in lines])
    if rest and rest[0].head.endswith(":") and "COMMAND" in usage.head and rest[0].head != "Arguments:":
        made.commands = entries_of(rest.pop(0))
    if rest and rest[0].head == "Arguments:":
        made.operands = entries_of(rest.pop(0))
    while rest and lists_options(rest[0]):
        block = rest.pop(0)
        made.options.append((block.title, entries_of(block)))
    made.notes = rest
    return made


@dataclass
class Program:
    """A program, its subcommands, and what its text says besides."""
    name: str
    version: str
    help: Help
    subcommands: list[Help]
    texts: dict[str, list[Block]]


def texts_of(path: str) -> dict[str, list[Block]]:
    """The blocks under each `[NAME]` of a text; lines that begin with # are left out."""
    try:
        with open(path, encoding="utf-8") as file:
            lines = [line.rstrip() for line in file if not line.startswith("#")]
    except (OSError, UnicodeError) as error:
        raise Unreadable(f"{path}: {error}") from error
    parts: dict[str, list[str]] = {}
    name = None
    for line in lines:
        found = re.fullmatch(r"\[(.+)\]", line)
        if found:
            name = found.group(1)
            parts[name] = []
        elif name:
            parts[name].append(line)
        elif line:
            raise Unreadable(f"{path}: text before the first [NAME]")
    return {name: blocks_of(lines) for name, lines in parts.items()}


def add_notes(subcommand: Help, blocks: list[Block], path: str) -> None:
    """Adds what a text says of a subcommand; its own help tells none of it."""
    for block in blocks:
        if any(block.title == note.title for note in subcommand.notes):
            raise Unreadable(f"{path}: the help of {subcommand.name} tells {block.title}")
        subcommand.notes.append(block)


def program_of(name: str, program: str, path: str) -> Program:
    """The program of this name, what its help tells and what the text in the file says."""
    version = printed(program, name, ["--version"]).strip()
    if not version.startswith(f"{name} "):
        raise Unreadable(f"{program} is another program than {name}: its version is {version[:40]!r}")
    whole = help_of(name, printed(program, name, ["--help"]))
    subcommands = []
    for entry in whole.commands:
        words = [HELP, HELP] if entry.term == HELP else [entry.term, "--help"]
        subcommands.append(help_of(entry.term, printed(program, name, words)))
    texts = texts_of(path)
    for subcommand in subcommands:
        add_notes(subcommand, texts.pop(subcommand.name, []), os.path.basename(path))
    return Program(name, version, whole, subcommands, texts)
