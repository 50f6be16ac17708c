#!/usr/bin/env python3
"""The numbers and names of what calls answer are the same everywhere: in ct.h, in the crate whose calls are proved, in the packages.

    names.py COMMAND..

Each COMMAND prints lines `NUMBER NAME` of at least all the causes of a step. Status 1 where something differs, which is told.
"""
import os
import re
import subprocess
import sys
from typing import Dict, List

HERE = os.path.dirname(os.path.abspath(__file__))
sys.path.insert(0, os.path.join(HERE, "..", "python"))
os.environ.setdefault("CT_LIB", "")

import malletochre   # noqa: E402
from malletochre import library   # noqa: E402

CAUSES = set(range(1, 25))
STATUSES = "DONE", "OUT_OF_MEMORY", "BOARD", "NOT_OPEN", "BAD_SETUP", "NO_WORLD", "TOO_LONG", "BAD_OPTIONS", "NO_TRIAL"
CRATE = "../../crates/ct_embed"
KINDS = {"StepCodes": r"step_code \((\w+) .*\) = \w*code (\d+) ", "MessageCodes": r"told_code .* \((\w+) .*command = (\d+)",
         "LetterCodes": r"wire_code to \((\w+) .*vote_code (\d+) ",   # how definitions have the numbers of steps, commands, envelopes
         "StandingCodes": r"phase_code (\w+) = (\d+)",                # phases
         "WalkCodes": r"turn_code \(?(\w+).*kind = (\d+)"}             # and turns


def text(path: str) -> str:
    with open(os.path.join(HERE, path), encoding="utf-8") as file:
        return file.read()


def name(constant: str) -> str:
    """TOO_FEW is TooFew, FULL_CELLS is Full(Cells)."""
    words = "".join(word.capitalize() for word in constant.split("_"))
    return re.sub("^Full(.+)", r"Full(\1)", words)


def of_header() -> Dict[int, str]:
    return {int(number): name(constant) for constant, number in re.findall(r"CT_([A-Z_]+) = (\d+)", enums()[0])}


def enums() -> List[str]:
    """Those of the header: what calls answer, and the kinds of steps, commands, envelopes, phases and turns."""
    return re.findall(r"\nenum \{\n(.*?)\n\};", text("../ct.h"), re.DOTALL)


def same_kinds() -> bool:
    """The numbers of kinds are those of the definitions."""
    header = [dict(re.findall(r"CT_(?:TURN_)?([A-Z]+) = (\d+)", enum)) for enum in enums()[1:]]
    crate = [{name.upper(): number for name, number in re.findall(pattern, text(f"{CRATE}/specs/{file}.antt"))}
             for file, pattern in KINDS.items()]
    return header == crate


def of_crate() -> Dict[int, str]:
    refusals = text(f"{CRATE}/src/refusal_number.rt")
    found = {int(number): name for name, number in re.findall(r"Refusal::(\w+) => (\d+)", refusals)}
    found.update({int(number): f"Full({name})" for name, number in re.findall(r"Limit::(\w+) => (\d+)", refusals)})
    numbers = re.findall(r"const ([A-Z_]+): u32 = (\d+)", text(f"{CRATE}/src/numbers.rt"))
    return {0: "Done", **found, **{int(number): name(constant) for constant, number in numbers}}


def of_rust() -> Dict[int, str]:
    return {int(number): name(constant) for constant, number in re.findall(r"const ([A-Z_]+): u32 = (\d+)", text("../rust/sys/src/lib.rs"))}


def of_python() -> Dict[int, str]:
    return {number: name(constant) for constant, number in vars(library).items() if constant in STATUSES}


def version_numbers() -> Dict[str, str]:
    """The numbers of the version: of the header, of the crate, and what that of the header's text is."""
    first, second, third = map(int, versions()["ct.h"].split("."))
    sources = {"../ct.h": r"#define CT_VERSION_NUMBER (\d+)", f"{CRATE}/src/version.rt": r"\{ result ≡ (\d+) \}"}
    found = {path: "".join(re.findall(pattern, text(path))) for path, pattern in sources.items()}
    return {"of the text": str(10_000 * first + 100 * second + third), **found}


def versions() -> Dict[str, str]:
    """Those of the header and of the packages."""
    sources = {"ct.h": r'#define CT_VERSION "(.*)"', "python/pyproject.toml": r'\nversion = "(.*)"',
               "rust/Cargo.toml": r'\nversion = "(.*)"', "rust/sys/Cargo.toml": r'\nversion = "(.*)"',
               "node/package.json": r'"version": "(.*)"', "../VERSION": r"(.*)\n"}
    found = {path: "".join(re.findall(pattern, text(f"../{path}"))) for path, pattern in sources.items()}
    return {"malletochre.__version__": malletochre.__version__, **found}


def main() -> int:
    header = of_header()
    told = {"the crate": of_crate(), "library.py": of_python(), "malletochre-sys": of_rust()}
    for command in sys.argv[1:]:
        lines = subprocess.run(command.split(), stdout=subprocess.PIPE, check=True, encoding="utf-8").stdout.splitlines()
        told[command] = {int(line.split()[0]): line.split()[1] for line in lines}
    faults = [f"{where}: {number} is {it}, in ct.h {header.get(number)}" for where, names in told.items() for number, it in names.items()
              if header.get(number) != it]
    faults += [f"{command}: not all causes of a step are named" for command in sys.argv[1:] if not CAUSES <= set(told[command])]
    if told["the crate"] != header:
        faults.append("ct.h and the crate name different numbers")
    if not same_kinds():
        faults.append("ct.h and the definitions of the crate have different kinds")
    faults += [f"versions differ: {told}" for told in (versions(), version_numbers()) if len(set(told.values())) != 1]
    print("\n".join(faults) or "the same names everywhere")
    return int(bool(faults))


if __name__ == "__main__":
    sys.exit(main())
