#!/usr/bin/env python3
"""cases/pinned.py [ROOT]: each function that a library exports is pinned: some clause of its contract equates what it answers or
leaves with a definition, or an edit of its crate's must-fail/ turns it. Names each that is neither, and ends with 1 where there is one.

An equation counts where one side is what the function answers or leaves (`result`, `x.new`, or what `IfOk`, `OnOk`, `IfSome` take
out of it), a field of it, one word of it or a record of such, and no premise stands before it but C's `result ≡ 0`; for all values of
some variables, too; but not what says only which fault it is, that something stays as it was, or that it is None. `IsTrue result ↔ ..`
counts, `IsTrue x.new.field`, and a word of specs/ that EQUATIONS has. An edit turns the function that its `old:` text stands in, and
the one that cases/turned.txt names beside it. What C calls is exported, too."""

import glob
import os
import re
import sys

# Words of specs/ that equate, each with the equation that it stands for; one that a crate has alone behind the crate's name.
EQUATIONS = {
    "Adds": "the text is the one before with the definition's at its end",
    "Gives": "the result, seen as a value, is the definition's",
    "Appends": "what was written is what was written before, and the text",
    "ct_rounds/IsTurn": "what is left, and the mail, are those of the algorithm's row, where its tests allow it",
    "ct_world/IsDone": "the record is the one before and the step, and its state the algorithm's next one",
    "ct_told/IsToldAs": "the line is the definition's of the fault, but for the place where an input stops being JSON",
    "ct_records/WritesReport": "what was written, with the report of the record's world",
    "ct_views/IsAnswer": "the text, and the first refused step, are what the view shows of the record",
    "ct_views/Checks": "what was written is a line for what each file comes to, and the status the largest of theirs",
    "ct_views/Shows": "what was written, with that text",
    "ct_diagram/IsDiagram": "the text is the record's diagram",
    "ct_diagram/Draws": "what was written, with the record's diagram",
    "ct_judge/IsRecordOf": "the line is the record of the schedule's world",
    "ct_judge/Writes": "what was written, with that line",
    "ct_judge/Keeps": "the files made are those before, and one of this name with that line",
    "ct_judge/Says": "what was written, with the session's answers",
    "ct_listing/IsScheduleOf": "the judge makes of the text that very record",
    "ct_listing/IsExpectingOf": "the judge makes of the text that very record, and behind it stands the goal's line",
    "ct_listing/WritesSchedule": "what was written, with a text of which the judge makes the record that was read",
    "ct_complete/WritesCompleted": "what was written, with the record to which turns of all lead from the one that was read",
    "ct_find/IsTallyOf": "each number is that of the seeds' hits",
    "ct_embed/asked_number": "the number is that of whether a trial is asked for, unless memory was refused",
    "ct_embed/IsTold": "the run is what the trial left where that is smaller, one more was made, and none is asked for",
}

# Exported functions that need neither, each with the reason.
EXCEPTIONS = {
    "ct_order::accepted_text": "a text for people alone, which cases/orders.py compares",
    "ct_streams::FileChange::told": "a text for people alone, which cases/orders.py compares",
}

NEITHER = "no clause equates what it answers or leaves, and no edit turns it: add one of both, or a line of EXCEPTIONS"

# A word of a result that leaves most of it open.
LOOSE = {"length", "vec_len", "is_some", "is_ok", "is_none", "is_err"}

FUNCTION = re.compile(r"^[ \t]*(pub(?:\([a-z ]+\))? )?(?:const )?(?:unsafe )?(?:extern\s+)?fn (\w+)", re.M)
OWNER = re.compile(r"^(?:unsafe )?(impl\b[^{;]*|(?:pub(?:\([a-z]+\))? )?trait\b[^{;]*)\{", re.M)
CLAUSE = re.compile(r"(requires|ensures)\b\s*\w*\*?\s*\{")
BOUND = re.compile(r"\(([\w ]+) : [^()]*\) → ")
IS_TRUE = re.compile(r"(OnOk result \()?IsTrue \(?[^→()]*\.new\b[^→()]*\)*")
TAKEN = re.compile(r"(?:OnOk|IfOk|IfSome)\s+\(?[\w.« »]+?\)?\s+\(λ\s*([\w ]+)\.")


def text_of(path):
    with open(path, encoding="utf-8") as file:
        return file.read()


def blanked(text):
    """The code with comments, and what stands in quotes, as spaces: places stay."""
    found = re.compile(r"//[^\n]*|\"(?:\\.|[^\"\\])*\"|b?'(?:\\[^']*|[^'\\])'")
    return found.sub(lambda it: re.sub(r"[^\n]", " ", it[0]), text)


def closed(text, at):
    """The place behind the brace that closes the one at the place."""
    depth = 0
    for found in re.finditer(r"[{}]", text[at:]):
        depth += 1 if found[0] == "{" else -1
        if depth == 0:
            return at + found.end()
    return len(text)


class Function:
    """A function: the file and the part of it that it stands in, its owner's type, and the clauses that it ensures."""

    def __init__(self, file, found, text, code):
        self.file, self.name, self.is_pub = file, found[2], (found[1] or "").strip() == "pub"
        self.start, self.ensures, at, depth = found.start(), [], found.end(), 0
        while at < len(code):
            clause = CLAUSE.match(code, at) if depth == 0 and code[at - 1].isspace() else None
            if clause:
                end = closed(code, clause.end() - 1)
                if clause[1] == "ensures":
                    self.ensures.append(" ".join(text[clause.end() : end - 1].split()))
                at = end
                continue
            if depth == 0 and code[at] in "{;":
                break
            depth += {"(": 1, "[": 1, ")": -1, "]": -1}.get(code[at], 0)
            at += 1
        self.end = closed(code, at) if code[at : at + 1] == "{" else at
        self.owner, self.is_called_by_c = None, code[: found.start()].rstrip().endswith("#[unsafe(no_mangle)]")


    @property
    def called(self):
        return f"{self.owner[0]}::{self.name}" if self.owner else self.name


def owner_of(text):
    """The type that an impl is of, its trait where it has one, or the trait that is declared."""
    words = " ".join(text.split()).split(" where ")[0]
    if "trait " in words:
        return re.search(r"trait (\w+)", words)[1], None
    words = re.sub(r"^impl\s*(<(?:[^<>]|<[^<>]*>)*>)?\s*", "", words)
    trait, _, kind = words.rpartition(" for ")
    return re.match(r"[&']*\s*(?:\w+::)*(\w+)", kind)[1], trait or None


def functions_of(crate, root):
    """The functions of the crate's sources, without its tests."""
    for path in sorted(glob.glob(f"{root}/crates/{crate}/src/**/*.rt", recursive=True)):
        text = text_of(path)
        code = blanked(text)
        blocks = [(it.start(), closed(code, it.end() - 1), owner_of(it[1])) for it in OWNER.finditer(code)]
        tests = [(it.start(), closed(code, it.end() - 1)) for it in re.finditer(r"#\[cfg\(test\)\]\s*mod \w+ \{", code)]
        for found in FUNCTION.finditer(code):
            if any(start <= found.start() < end for start, end in tests):
                continue
            function = Function(os.path.relpath(path, f"{root}/crates/{crate}"), found, text, code)
            function.owner = next((of for start, end, of in blocks if start <= function.start < end), None)
            yield function


def names_exported(crate, root):
    """What the library's root file hands on."""
    code = blanked(text_of(f"{root}/crates/{crate}/src/lib.rt"))
    found = set()
    for line in re.findall(r"pub use ([^;]+);", code):
        for name in re.sub(r"^.*\{|\}", "", " ".join(line.split())).split(",") if "{" in line else [line.split("::")[-1]]:
            found.add(name.split(" as ")[0].strip())
    return found


def is_exported(function, names):
    if function.owner is None:
        return function.is_pub and (function.name in names or function.is_called_by_c)
    kind, trait = function.owner
    return trait is None and function.is_pub and kind in names


def is_taken(side, taken, bound):
    """Whether the side of an equation is what the function answers or leaves, a field or one word of it or of it and the variables that
    are bound, or a record of such."""
    is_of = lambda it: it.split(".")[0] in taken or ".new" in it
    made = re.fullmatch(r"(?:Some \()?record \{ (.*) \}\)?", side)
    if made:
        return all(is_of(it) for it in re.findall(r"= ([\w.]+)", made[1]))
    words = [it for it in re.findall(r"[\w.«»]+", side) if it not in bound]
    if not 0 < len(words) <= 3 or words[0] in LOOSE:
        return False
    return any(is_of(it) for it in (words[1:] or words))


def says_nothing(left, right):
    """Whether that is the same before and after, what is left itself, or a field that is None."""
    right = right.strip("()")
    is_field = re.search(r"(\.new|\b\w+)\.\w+$", left) is not None and not left.endswith(".new")
    return right == re.sub(r"\.new\b", ".old", left) or (".new" in left and ".new" in right) or (is_field and right == "None")


def has_word(clause, crate):
    """Whether the clause, which has no premise, has a word that equates."""
    words = [it.split("/")[-1] for it in EQUATIONS if it.split("/")[0] in (it, crate)]
    return "→" not in clause and any(re.search(rf"\b{word}\b", clause) for word in words)


def equates(clause, crate):
    """Whether the clause of a function of the crate equates what it answers or leaves with a definition."""
    if re.match(r"(IfErr|OnErr|IfNone) ", clause):
        return False
    clause, bound = clause.removeprefix("result ≡ 0 → "), set()
    while found := BOUND.match(clause):
        clause, bound = clause[found.end() :], bound | set(found[1].split())
    if has_word(clause, crate) or clause.startswith("IsTrue result ↔") or IS_TRUE.fullmatch(clause):
        return True
    taken = {"result"} | {name for names in TAKEN.findall(clause) for name in names.split()}
    for part in re.split(r" × ", clause):
        if "→" in part or part.count(" ≡ ") != 1:
            continue
        left, right = (it.strip() for it in part.split(" ≡ "))
        left = re.split(r"λ [\w ]+\. |(?:OnOk|OnErr) result ", left)[-1].lstrip("(").strip()
        right = re.sub(r"\)+$", "", right) if right.count(")") > right.count("(") else right
        if (is_taken(left, taken, bound) or is_taken(right, taken, bound)) and not says_nothing(left, right):
            return True
    return False


def turned(root):
    """By crate and edit the function that cases/turned.txt says that the edit turns."""
    lines = text_of(f"{root}/cases/turned.txt").splitlines()
    return dict(it.split(": ") for it in lines if it and not it.startswith("#"))


def edits_of(crate, root):
    """The crate's edits: by name where their texts stand, as a file and a place."""
    found = {}
    for path in sorted(glob.glob(f"{root}/crates/{crate}/must-fail/*.edit")):
        lines = text_of(path).splitlines()
        file = next(it[6:] for it in lines if it.startswith("file: "))
        source = f"{root}/crates/{crate}/{file}"
        text = text_of(source) if os.path.isfile(source) else ""
        found[os.path.basename(path)[:-5]] = [(file, text.find(it[5:])) for it in lines if it.startswith("old: ")]
    return found


def pinned(root):
    """The numbers of functions that are pinned by a clause, by an edit and by an exception, and what is wrong, a line each."""
    counts, wrong, elsewhere = [0, 0, 0], [], turned(root)
    lines = [it.split("#")[0] for it in text_of(f"{root}/crates.txt").splitlines()]
    for crate in [it.split(":")[0].split()[0] for it in lines if ":" in it]:
        if not os.path.isfile(f"{root}/crates/{crate}/src/lib.rt"):
            continue
        names, edits = names_exported(crate, root), edits_of(crate, root)
        named = {elsewhere.pop(f"{crate}/{it}") for it in edits if f"{crate}/{it}" in elsewhere}
        wrong += [f"crates/{crate}/must-fail/{it}.edit: its text stands nowhere" for it, found in edits.items() if found[0][1] < 0]
        places = [it for found in edits.values() for it in found]
        functions = [it for it in functions_of(crate, root) if is_exported(it, names)]
        for it in functions:
            if any(equates(clause, crate) for clause in it.ensures):
                counts[0] += 1
            elif it.called in named or any(file == it.file and it.start <= at < it.end for file, at in places):
                counts[1] += 1
            elif f"{crate}::{it.called}" in EXCEPTIONS:
                counts[2] += 1
            else:
                wrong.append(f"crates/{crate}/{it.file}: {it.called}: {NEITHER}")
        gone = named - {it.called for it in functions}
        wrong += [f"cases/turned.txt: {crate}: {it} is no exported function" for it in sorted(gone)]
    return counts, wrong + [f"cases/turned.txt: {it}: there is no such edit" for it in sorted(elsewhere)]


def main():
    root = sys.argv[1] if len(sys.argv) > 1 else os.path.dirname(os.path.dirname(os.path.abspath(__file__)))
    counts, wrong = pinned(root)
    for it in wrong:
        print(it)
    print(f"exported functions: {counts[0]} pinned by a clause, {counts[1]} by an edit, {counts[2]} excepted; {len(wrong)} faults")
    sys.exit(1 if wrong else 0)


if __name__ == "__main__":
    main()
