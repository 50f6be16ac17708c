#!/usr/bin/env python3
"""Builds the static library of crates/ct_embed, or the program ct_tool, over the libraries that `rt ci` left in the folders of the crates
below it: it is proved once more, and none of those is, as `rt lib` would.

    archive.py              writes crates/ct_embed/out/libct_embed.a; status 1 where a library below is missing or older than its sources
    archive.py ct_tool      keeps the program's bitcode alone

In the crate's folder out stays NAME.bc, the LLVM bitcode that it was compiled from, of which page/module.sh makes a WebAssembly module.
"""
from __future__ import annotations

import os
import shutil
import subprocess
import sys
import tempfile
from typing import Dict, List

# The crates that are built, and how: the library's file stays, the program's does not.
CRATES = {"ct_embed": ["src/lib.rt", "--crate-type", "staticlib"], "ct_tool": ["src/main.rt"]}
KEPT = {"ct_embed": "libct_embed.a"}
KEEPING = """#!/bin/bash
for it in "$@"; do case $it in *.bc) /bin/cp "$it" "{kept}";; esac; done
exec "{clang}" {words}
"""
ALL_WORDS = '"$@"'
QUICK_WORDS = '"${@/#-O3/-O0}"'  # for an object file that nobody runs
MOST_JOBS = 2  # each further one loads the libraries once more, and takes as much memory
ROOT = os.path.normpath(os.path.join(os.path.dirname(os.path.abspath(__file__)), ".."))


def crates() -> Dict[str, List[str]]:
    """The crates of the repository, each with the libraries that it uses."""
    table = {}
    with open(os.path.join(ROOT, "crates.txt"), encoding="utf-8") as file:
        for line in file:
            head, _, libraries = line.split("#")[0].partition(":")
            if head.strip():
                table[head.split()[0]] = libraries.split()
    return table


def below(table: Dict[str, List[str]], crate: str) -> List[str]:
    """The crates of the repository that this one stands on."""
    found: List[str] = []
    for name in table[crate]:
        if name in table:
            found += [it for it in [*below(table, name), name] if it not in found]
    return found


def library(crate: str) -> str:
    return os.path.join(ROOT, "crates", crate, "out", "rlib", f"{crate}.rlib")


def is_missing(crate: str) -> bool:
    """There is no library of the crate, or one of its sources is newer."""
    path = library(crate)
    if not os.path.isdir(path):
        return True
    made = os.stat(path).st_mtime
    sources = [os.path.join(ROOT, "crates", crate, it) for it in ("src", "specs", "proofs")]
    return any(os.stat(os.path.join(folder, name)).st_mtime > made
               for source in sources for folder, _, names in os.walk(source) for name in names)


def keeping(kit: str, folder: str, kept: str, words: str) -> str:
    """A toolchain in this folder that is the kit's, and keeps the bitcode that its clang compiles, by these words."""
    real = os.path.join(kit, "toolchain")
    os.makedirs(os.path.join(folder, "bin"))
    os.symlink(os.path.join(real, "lib"), os.path.join(folder, "lib"))
    for name in os.listdir(os.path.join(real, "bin")):
        if name != "clang":
            os.symlink(os.path.join(real, "bin", name), os.path.join(folder, "bin", name))
    clang = os.path.join(folder, "bin", "clang")
    with open(clang, "w", encoding="utf-8") as file:
        file.write(KEEPING.format(kept=kept, clang=os.path.join(real, "bin", "clang"), words=words))
    os.chmod(clang, 0o755)
    return folder


def main() -> int:
    crate = sys.argv[1] if len(sys.argv) > 1 else "ct_embed"
    table = crates()
    under = below(table, crate)
    if any(is_missing(it) for it in under):
        return 1
    kit = os.path.normpath(os.path.join(os.path.dirname(os.path.realpath(shutil.which("rt") or "rt")), ".."))
    words = [os.path.join(kit, "bin", "rattle"), "build", "--crate-name", crate, *CRATES[crate]]
    for name in ["std", *table[crate]]:
        words += ["--extern", f"{name}={library(name) if name in table else os.path.join(kit, 'rlibs', f'{name}.rlib')}"]
    for folder in [os.path.join(kit, "rlibs"), *(os.path.dirname(library(it)) for it in under)]:
        words += ["-L", f"dependency={folder}"]
    words += ["--antt-project", os.path.join(kit, "rattle", "logic", "antt-project.json")]
    words += ["--logic-built", os.path.join(kit, "logic_built"), "--jobs", str(min(os.cpu_count() or 1, MOST_JOBS))]
    out = os.path.join(ROOT, "crates", crate, "out")
    os.makedirs(out, exist_ok=True)
    with tempfile.TemporaryDirectory() as folder:
        words += ["-o", os.path.join(out, KEPT[crate]) if crate in KEPT else os.path.join(folder, f"{crate}.o")]
        compiled = ALL_WORDS if crate in KEPT else QUICK_WORDS
        words += ["--toolchain", keeping(kit, os.path.join(folder, "toolchain"), os.path.join(out, f"{crate}.bc"), compiled)]
        return subprocess.run(words, cwd=os.path.join(ROOT, "crates", crate), check=False).returncode


if __name__ == "__main__":
    sys.exit(main())
