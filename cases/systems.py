#!/usr/bin/env python3
"""The examples of real systems whose order is judged (examples/order): what `ct_tool order` says of each.

    systems.py CT_TOOL

What isn't installed, needs root or doesn't start is left out, and told. On a busy machine a system may take another part for crashed, so
each is tried up to three times. Ends with a line `N passed, M failed`, and status 1 where something failed.
"""
import os
import shutil
import subprocess
import sys

FOLDER = os.path.join(os.path.dirname(os.path.abspath(__file__)), "..", "examples", "order")
SECONDS = 300
TRIES = 3
FEW = {"etcd.py": ["--writes", "60"], "corosync.py": ["--messages", "60"]}
# The script, its words, the status, and how the first line of the answer begins.
ROWS = [
    ("etcd.py", [], 0, "accepted"),
    ("etcd.py", ["--missing"], 1, "refused: "),
    ("etcd.py", ["--apart"], 1, "refused: "),
    ("corosync.py", [], 0, "accepted"),
    ("corosync.py", ["--late"], 1, "refused: "),
    ("corosync.py", ["--apart"], 1, "refused: "),
]


def left_out(script):
    """Why the script can't run here; empty where it can."""
    program = script[:-3]
    if not shutil.which(program):
        return f"there is no {program}"
    return "it needs root" if program == "corosync" and os.getuid() != 0 else ""


def run(script, words, tool):
    """The status of the script and what it writes, line by line; status 2 where it takes too long."""
    try:
        ran = subprocess.run([sys.executable, os.path.join(FOLDER, script), *FEW[script], *words, "--tool", tool], capture_output=True,
                             text=True, timeout=SECONDS, check=False)
    except subprocess.TimeoutExpired:
        return 2, [f"nothing for {SECONDS} seconds"]
    return ran.returncode, (ran.stdout + ran.stderr).splitlines()


def main():
    tool = os.path.abspath(sys.argv[1])
    passed = failed = 0
    for script, words, status, says in ROWS:
        name = " ".join([script, *words])
        why = left_out(script)
        if why:
            print(f"left out, as {why}: {name}")
            continue
        for _ in range(TRIES):
            ended, told = run(script, words, tool)
            is_right = ended == status and any(it.startswith(says) for it in told)
            if is_right:
                break
        if is_right:
            passed += 1
        elif ended == 2:
            print(f"left out, as it ends with {told[-1:]}: {name}")
        else:
            failed += 1
            print(f"FAILED {name}: status {ended}, {told[-3:]}")
    print(f"{passed} passed, {failed} failed")
    return 1 if failed else 0


if __name__ == "__main__":
    sys.exit(main())
