#!/usr/bin/env python3
"""Makes the page of its parts: one file that needs nothing else.

    assemble.py MODULE TOOL OUT     MODULE, TOOL: the WebAssembly modules of the library and of ct_tool; OUT: the page
    assemble.py --again PAGE        makes the page anew, with the modules that it has
    assemble.py --differ PAGE OTHER tells in what the first page is another than the second
"""
import base64
import gzip
import hashlib
import json
import os
import re
import shutil
import subprocess
import sys
from typing import List

HERE = os.path.dirname(os.path.abspath(__file__))
SOURCES = os.path.join(HERE, "src")
PACKAGE = os.path.join(HERE, "..", "bindings", "node")  # what the page and all others have of the modules
EXAMPLES = [os.path.join(HERE, "..", "examples"), os.path.join(HERE, "..", "examples", "python")]
MODULE_SOURCES = ["crates", *(f"page/{it}" for it in ("module.sh", "module.c", "heap.c", "wide.c", "system.c", "bytes_of.ll", "lower.py"))]
MODULES = {"module": "LIBRARY", "tool": "PROGRAM"}
MADE = re.compile(r'<p id="made">.*?</p>', re.S)
FIRST = "boot.js"
IMPORT = re.compile(r'^import \{ ([^}]*) \} from "(?:\./|\.\./\.\./bindings/node/)([a-z_]+\.js)";\n', re.M)
EXPORT = re.compile(r"^export ((?:async )?(?:class|function|const|let) )(\w+)", re.M)


def read(*names: str) -> str:
    with open(os.path.join(*names), encoding="utf-8") as file:
        return file.read()


def script(name: str) -> str:
    """The text of a module of the page, or of the package that it stands on."""
    return read(SOURCES if os.path.exists(os.path.join(SOURCES, name)) else PACKAGE, name)


def order(name: str, before: list) -> list:
    """The modules that this one imports, directly or not, and then itself; each once."""
    for other in [found[1] for found in IMPORT.findall(script(name))]:
        if other not in before:
            order(other, before)
    return before.append(name) or before


def scope(name: str) -> str:
    """A module as a block of its own, that answers what it exports."""
    text = script(name)
    names = [found[1] for found in EXPORT.findall(text)]
    text = IMPORT.sub(lambda found: f'const {{ {found[1]} }} = modules["{found[2]}"];\n', text)
    text = EXPORT.sub(r"\1\2", text)
    if re.search(r"^(import|export)\b", text, re.M):
        sys.exit(f"assemble.py: {name}: an import or export of another form")
    return f'modules["{name}"] = await (async () => {{\n{text}return {{ {", ".join(names)} }};\n}})();\n'


def examples() -> str:
    """The schedules of examples/ and examples/python/, by name."""
    found = [(folder, it) for folder in EXAMPLES for it in sorted(os.listdir(folder)) if it.endswith(".schedule")]
    return json.dumps({it[:-len(".schedule")]: read(folder, it) for folder, it in found}).replace("</", "<\\/")


def packed(path: str) -> str:
    """The module as the page holds it."""
    with open(path, "rb") as file:
        return base64.b64encode(gzip.compress(file.read(), 9, mtime=0)).decode()


def git(*words: str) -> str:
    """What git answers, or nothing."""
    if not shutil.which("git"):
        return ""
    ran = subprocess.run(["git", "-C", HERE, *words], stdout=subprocess.PIPE, stderr=subprocess.DEVNULL, check=False, text=True)
    return ran.stdout.strip()


def commit() -> str:
    """The last commit that changed what modules are made of."""
    sources = [f":/{it}" for it in MODULE_SOURCES]
    changed = git("status", "--porcelain", "--", *sources)
    return (git("log", "-1", "--format=%h", "--abbrev=12", "--", *sources) or "unknown") + (" and changes" if changed else "")


def kit() -> str:
    """The name of the toolchain."""
    path = os.path.join(os.path.dirname(os.path.realpath(shutil.which("rt") or "")), "..", "KIT-ID")
    return read(path).split()[0] if os.path.exists(path) else "unknown"


def sum_of(module: str) -> str:
    return hashlib.sha256(gzip.decompress(base64.b64decode(module))).hexdigest()


def hashes(text: str, element: str) -> str:
    """By what a policy lets these elements be: the sums of their texts."""
    found = re.findall(rf"^<{element}(?: id=\"[a-z-]*\"| type=\"module\")?>(.*?)</{element}>", text, re.S | re.M)
    return " ".join(f"'sha256-{base64.b64encode(hashlib.sha256(it.encode()).digest()).decode()}'" for it in found)


def page(module: str, tool: str, made: List[str]) -> str:
    """The page with these modules, which were made of this commit with this kit."""
    text = read(SOURCES, "page.html")
    parts = {
        "/*STYLE*/": read(SOURCES, "style.css"),
        "/*SEARCH-STYLE*/": read(SOURCES, "search.css"),
        "/*PRINT-STYLE*/": read(SOURCES, "print.css"),
        "/*DIAGRAM*/": read(SOURCES, "diagram.css"),
        "<!--TRUST-->": read(SOURCES, "trust.html"),
        "<!--SEARCH-->": read(SOURCES, "search.html"),
        "<code>VERSION<": f"<code>{read(HERE, '..', 'VERSION').strip()}<",
        "<code>COMMIT<": f"<code>{made[0]}<",
        "<code>KIT<": f"<code>{made[1]}<",
        "<code>LIBRARY<": f"<code>{sum_of(module)}<",
        "<code>PROGRAM<": f"<code>{sum_of(tool)}<",
        "/*SCRIPT*/": "const modules = {};\n" + "".join(scope(it) for it in order(FIRST, [])),
        "HASHES-OF-SCRIPTS": None,
        "HASHES-OF-STYLES": None,
        "/*MODULE*/": module,
        "/*TOOL*/": tool,
        "/*SCENARIOS*/": examples(),
    }
    for mark, part in parts.items():
        if text.count(mark) != 1:
            sys.exit(f"assemble.py: {mark} stands {text.count(mark)} times in page.html")
        if part is None:
            part = hashes(text, "script" if mark.endswith("SCRIPTS") else "style")
        text = text.replace(mark, part.strip("\n"))
    return text


def modules(path: str) -> List[str]:
    """The modules of the page that is there."""
    found = [re.search(rf'id="{name}">([^<]*)<', read(path)) for name in MODULES]
    return [it[1] for it in found] if all(found) else sys.exit(f"assemble.py: {path}: a module is missing")


def made_of(path: str) -> List[str]:
    """The commit, the kit and the sums that a page tells."""
    found = MADE.search(read(path))
    return re.findall(r"<code>([^<]*)</code>", found[0]) if found else ["unknown", "unknown"]


def without_modules(path: str) -> str:
    """What a page shows and does, without its modules and what it tells of them."""
    text = MADE.sub("", read(path))
    for module in modules(path):
        text = text.replace(module, "")
    return text


def differ(path: str, other: str) -> None:
    """Tells in what a page is another than the other page."""
    there, here = made_of(path), made_of(other)
    for name, *sums in zip(("library", "ct_tool"), map(sum_of, modules(path)), map(sum_of, modules(other))):
        if sums[0] != sums[1]:
            print(f"{path} has another {name} than {other}: {sums[0][:12]}, of commit {there[0]} with {there[1]}, and not {sums[1][:12]}, "
                  f"of commit {here[0]} with {here[1]}")
    if without_modules(path) != without_modules(other):
        print(f"{path} has other scripts, styles, texts or examples than {other}")


def main() -> int:
    *words, path = sys.argv[1:]
    if words[:1] == ["--differ"]:
        return differ(words[1], path) or 0
    again = words == ["--again"]
    text = page(*modules(path), made_of(path)[:2]) if again else page(*(packed(it) for it in words), [commit(), kit()])
    with open(path, "w", encoding="utf-8") as file:
        file.write(text)
    return 0


if __name__ == "__main__":
    sys.exit(main())
