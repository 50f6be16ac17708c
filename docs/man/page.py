"""Writes a man page in troff, from what a program's help tells and what its text says besides."""
from __future__ import annotations

import re
import textwrap
from typing import Iterable

from reading import HELP, Block, Entry, Help, Program

WIDTH = 79                              # of a line of prose
COMMAND_WIDTH = 73                      # of a row of an example, which is set in by 7
ORDER = ("NAME", "SYNOPSIS", "DESCRIPTION", "OPTIONS", "COMMANDS", "EXIT STATUS", "FILES", "EXAMPLES", "NOTES", "SEE ALSO")
DATE = "DATE"                           # in a program's text, when it was last gone over
MARKED = re.compile(r"`([^`]+)`|(?<![\w-])(--?[A-Za-z][\w-]*)|\b(\w+)\((\d)\)")
RAGGED = (".nh", ".ad l")               # no word is parted and no line filled with spaces; .YS and .EE undo it
WORD = re.compile(r"<([^<>]+)>|\[([A-Za-z_]+)\]|(--?\w[\w-]*)|(\w[\w-]*)")
NOTE = re.compile(r"\[((?:default|possible values|alias|aliases|env): [^\]]*)\]")
STATUS = re.compile(r"Status(?:, (.*))?:")
COLUMNS = re.compile(r"(\S.*?) {2,}(\S.*)")
ROW = re.compile(r" +(\d+) {2,}(.*)")


def literal(text: str) -> str:
    """The text as it is typed."""
    text = text.replace("\\", "\\e").replace("-", "\\-")
    return text.replace("'", "\\(aq").replace("`", "\\(ga").replace("^", "\\(ha").replace("~", "\\(ti")


def plain(text: str) -> str:
    """A text in which only a dash between letters is a hyphen."""
    return re.sub(r"(?<!\w)-|-(?!\w)", r"\\-", text.replace("\\", "\\e"))


def bold(text: str) -> str:
    """The text as it is typed, in bold."""
    return f"\\fB{literal(text)}\\fR"


def italic(text: str) -> str:
    """The name of what is to be put in its place."""
    return f"\\fI{literal(text)}\\fR"


def marked(text: str) -> str:
    """A sentence: options, names of pages, and what stands between backticks are bold."""
    pieces, end = [], 0
    for found in MARKED.finditer(text):
        pieces.append(plain(text[end:found.start()]))
        code, flag, page, section = found.groups()
        pieces.append(bold(code or flag or page) + (f"({section})" if page else ""))
        end = found.end()
    return "".join(pieces) + plain(text[end:])


def line_of(text: str) -> str:
    """The line, which isn't to be read as a request."""
    return "\\&" + text if text[:1] in (".", "'") else text


def ended(text: str) -> str:
    """The text with a stop at its end."""
    return text if not text or text[-1] in ".!?:" else text + "."


def prose(text: str) -> list[str]:
    """The lines of a paragraph, in which each sentence begins a line."""
    text = NOTE.sub(r"(\1)", text.strip())
    lines = []
    for sentence in re.split(r"(?<=[.!?]) +(?=[A-Z`])", text):
        lines += textwrap.wrap(marked(sentence), WIDTH, break_long_words=False, break_on_hyphens=False)
    return [line_of(line) for line in lines]


def shown(term: str) -> str:
    """A usage or the term of an entry: what is typed in bold, what is to be replaced in italics."""
    def replace(found: re.Match) -> str:
        value, name, flag, word = found.groups()
        if name:
            return f"[{italic(name)}]"
        return italic(value) if value else bold(flag or word)
    return WORD.sub(replace, term)


def continued(row: str) -> list[str]:
    """The rows of a command, of which each has a place on a terminal of 80 columns."""
    if len(row) <= COMMAND_WIDTH:
        return [row]
    at = max(found.start() for found in re.finditer(r" (?=[|>]|--)", row) if found.start() < COMMAND_WIDTH - 1)
    return [row[:at] + " \\", "    " + row[at + 1:]]


def verbatim(lines: list[str]) -> list[str]:
    """Lines that stand as they are."""
    rows = textwrap.dedent("\n".join(lines)).split("\n")
    return [".EX", *(line_of(literal(row)) for row in rows), ".EE", *RAGGED]


def entry(term: str, text: str) -> list[str]:
    """An entry of a list."""
    return [".TP", shown(term), *prose(ended(text))]


def explained(row: str) -> list[str]:
    """What may be typed, and what stands beside it."""
    found = COLUMNS.fullmatch(row)
    typed, text = found.groups() if found else (row, "")
    return [".TP", bold(typed), *(prose(text) or ["\\&"])]


def block_lines(block: Block) -> list[str]:
    """A paragraph, and below it the lines that it leads to."""
    lines = [".PP", *prose(ended(block.head))]
    rows = textwrap.dedent("\n".join(block.body)).split("\n")
    if any(COLUMNS.fullmatch(row) for row in rows):
        return lines + [line for row in rows for line in explained(row)]
    return lines + [".RS 4", *verbatim(block.body), ".RE"] if block.body else lines


def status_of(note: Block) -> re.Match | None:
    """Of a list of statuses the match of its head."""
    found = STATUS.fullmatch(note.head)
    return found if found and note.body and ROW.fullmatch(note.body[0]) else None


def is_examples(note: Block) -> bool:
    """Whether the block lists examples."""
    return note.head in ("Example:", "Examples:")


def helps_of(program: Program) -> list[Help]:
    """The help of the program and of each subcommand."""
    return [program.help, *program.subcommands]


def other_notes(help_text: Help) -> list[str]:
    """What the help says behind its options besides examples and statuses."""
    notes = [note for note in help_text.notes if not status_of(note) and not is_examples(note)]
    return [line for note in notes for line in block_lines(note)]


def name_lines(program: Program) -> list[str]:
    """The name and what the program does."""
    about = program.help.about.rstrip(".")
    return prose(f"{program.name} - {about[:1].lower()}{about[1:]}")


def synopsis_lines(program: Program) -> list[str]:
    """The usage of each subcommand, and the options that stand without one."""
    usages = [f"{program.name} {usage}" for subcommand in program.subcommands for usage in subcommand.usage]
    usages += [f"{program.name} {option.flags[-1]}" for option in program.help.all_options]
    lines = []
    for usage in usages:
        first, _, rest = usage.partition(" ")
        lines += [f".SY {first}", shown(rest)]
    return [*lines, ".YS", *RAGGED]


def text_lines(program: Program, name: str) -> list[str]:
    """What the program's text says under the name."""
    return [line for block in program.texts.get(name, []) for line in block_lines(block)]


def own_options(program: Program, subcommand: Help) -> list[tuple[str, list[Entry]]]:
    """The subcommand's options but those of the program, which stand once."""
    shared = {option.term for option in program.help.all_options}
    parts = [(title, [option for option in options if option.term not in shared]) for title, options in subcommand.options]
    return [(title, options) for title, options in parts if options]


def options_lines(program: Program) -> list[str]:
    """The options of the program, and which of them each subcommand takes."""
    lines = []
    others = [subcommand for subcommand in program.subcommands if subcommand.name != HELP]
    for option in program.help.all_options:
        everywhere = others and all(option.term in {each.term for each in other.all_options} for other in others)
        lines += entry(option.term, option.text) + (["Each subcommand takes it too."] if everywhere else [])
    return lines


def commands_lines(program: Program) -> list[str]:
    """A part for each subcommand: what it does, its operands and options, and what its help says else."""
    lines = []
    for subcommand in program.subcommands:
        lines += [f".SS {subcommand.name}", *prose(ended(subcommand.about))]
        for each in subcommand.operands + subcommand.commands:
            lines += entry(each.term, each.text)
        for title, options in own_options(program, subcommand):
            lines += [] if title == "Options" else [".PP", *prose(title + ":")]
            for option in options:
                lines += entry(option.term, option.text)
        lines += other_notes(subcommand)
    return lines


def rows_of(note: Block) -> list[tuple[int, str]]:
    """The rows of a list of statuses: the status and what it means."""
    rows: list[tuple[int, str]] = []
    for line in filter(None, note.body):
        row = ROW.fullmatch(line)
        if row:
            rows.append((int(row.group(1)), row.group(2)))
        else:
            number, meaning = rows.pop()
            rows.append((number, f"{meaning} {line.strip()}"))
    return rows


def statuses(program: Program) -> dict[int, dict[str, list[str]]]:
    """Of each status what it means, and for which subcommands."""
    found: dict[int, dict[str, list[str]]] = {}
    for each in helps_of(program):
        for note in filter(status_of, each.notes):
            for number, meaning in rows_of(note):
                found.setdefault(number, {}).setdefault(meaning, []).append(each.name)
    return dict(sorted(found.items()))


def status_lines(program: Program) -> list[str]:
    """A row for each status; where it means the same for each subcommand that tells its statuses, it names none."""
    telling = [each.name for each in helps_of(program) if any(map(status_of, each.notes))]
    lines = []
    for number, meanings in statuses(program).items():
        lines += [".TP", bold(str(number))]
        for place, (meaning, names) in enumerate(meanings.items()):
            of_whom = "" if names == telling else ", ".join(f"`{name}`" for name in names) + ": "
            lines += ([".br"] if place else []) + prose(of_whom + meaning)
    for each in helps_of(program):
        for found in filter(None, map(status_of, each.notes)):
            if found.group(1):
                lines += [".PP", *prose(ended(f"Of `{each.name}` it is {found.group(1)}"))]
    return lines


def examples_lines(program: Program) -> list[str]:
    """The examples of the program and of each subcommand."""
    lines = []
    for each in helps_of(program):
        for note in filter(is_examples, each.notes):
            lines += [".PP", *verbatim([part for row in note.body for part in continued(row.strip())])]
    return lines


def see_also_lines(others: Iterable[str]) -> list[str]:
    """The pages of the other programs."""
    return [f".BR {other} (1)" for other in others]


def head_lines(program: Program) -> list[str]:
    """What stands before the first part."""
    date = " ".join(block.head for block in program.texts.get(DATE, []))
    return [
        f'.\\" docs/man/make.py writes this page from what {program.name} --help prints and from {program.name}.text.',
        f'.TH {program.name.upper()} 1 "{date}" "{program.version}"',
        *RAGGED,
    ]


def page(program: Program, others: Iterable[str]) -> str:
    """The man page."""
    made = {
        "NAME": name_lines(program),
        "SYNOPSIS": synopsis_lines(program),
        "OPTIONS": options_lines(program),
        "COMMANDS": commands_lines(program),
        "EXIT STATUS": status_lines(program),
        "EXAMPLES": examples_lines(program),
        "NOTES": other_notes(program.help),
        "SEE ALSO": see_also_lines(others),
    }
    lines = head_lines(program)
    for name in ORDER:
        part = made.get(name, []) + text_lines(program, name)
        if part and part[0] == ".PP":
            part = part[1:]                 # .SH begins a paragraph
        if part:
            lines += [f".SH {name}", *part]
    return "\n".join(lines) + "\n"
