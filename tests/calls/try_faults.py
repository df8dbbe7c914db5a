#!/usr/bin/env python3
"""try_faults.py [NAME..]: plants the faults of tests/calls/faults/NAME.fault, which no contract can refuse. Of the calls of the system the prover
sees only that each is noted, and of a text for a person or of a reader's fault the contracts say little. Each is planted in a copy of the tree,
the program is built there with checks and no proof, and the check that the fault names must fail. That takes some minutes a fault. The last
line is 'N passed, M failed'.

A fault is a text of lines `WORD: REST`. Those that begin with `#` say what is wrong.

    run: WORDS      the check that must find it, with its words
    file: FILE      the file that the next lines change
    old: TEXT       a text that stands there once, and
    new: TEXT       what stands there in its place
"""
import glob
import os
import re
import shutil
import subprocess
import sys
import tempfile

TOP = os.path.dirname(os.path.dirname(os.path.dirname(os.path.abspath(__file__))))
# What a build reads of the tree: no built files, nothing of the version control.
APART = shutil.ignore_patterns(".git", "target", "out", "__pycache__", ".mypy_cache", ".pytest_cache")


class BadFault(Exception):
    """Why a fault can't be planted."""


def plant(path: str, tree: str) -> list[str]:
    """Plants the fault that a file describes in a copy of the tree, and returns the words of the check that must find it."""
    words: list[str] = []
    file = old = ""
    with open(path, encoding="utf-8") as lines:
        for line in lines.read().split("\n"):
            word, _, rest = line.partition(": ")
            if word == "run":
                words = rest.split()
            elif word == "file":
                file = f"{tree}/{rest}"
            elif word == "old":
                old = rest
            elif word == "new":
                change(file, old, rest)
    if not words or not file:
        raise BadFault("it changes nothing, or names no check")
    return words


def change(file: str, old: str, new: str) -> None:
    """Changes a text that stands in a file once."""
    with open(file, encoding="utf-8") as source:
        text = source.read()
    if text.count(old) != 1:
        raise BadFault(f"an old text is in {os.path.basename(file)} {text.count(old)} times, and not once")
    with open(file, "w", encoding="utf-8") as source:
        source.write(text.replace(old, new))


def is_found(path: str) -> bool:
    """Whether the check that a fault names finds it."""
    with tempfile.TemporaryDirectory(prefix="pdp8-fault-") as room:
        tree = f"{room}/tree"
        shutil.copytree(TOP, tree, ignore=APART, symlinks=True)
        words = plant(path, tree)
        name = "host_trial" if words[0] == "tests/hosts/check_saves.py" else "pdp8"
        built = subprocess.run([f"{tree}/build/unproved.py", name], cwd=tree, stdout=subprocess.PIPE, stderr=subprocess.STDOUT, text=True)
        if built.returncode:
            raise BadFault(built.stdout[-400:])
        given = ["--unproved"] if words[0] == "tests/run_sessions.py" else ["--program", f"target/unproved/{name}/{name}"]
        ran = subprocess.run([words[0], *given, *words[1:]], cwd=tree, stdin=subprocess.DEVNULL, stdout=subprocess.PIPE, stderr=subprocess.STDOUT, text=True)
        last = ran.stdout.rstrip("\n").split("\n")[-1]
        counts = re.match(r"(\d+) passed, (\d+) failed", last)
        if not counts:
            raise BadFault(f"{words[0]} broke off: {last[:200]}")
        return int(counts[2]) > 0


def main(names: list[str]) -> int:
    passed, failed = 0, 0
    for path in sorted(glob.glob(f"{TOP}/tests/calls/faults/*.fault")):
        name = os.path.basename(path).removesuffix(".fault")
        if names and name not in names:
            continue
        try:
            said = "found" if is_found(path) else "NOT FOUND"
        except (BadFault, OSError) as error:
            said = f"BAD FAULT: {error}"
        passed, failed = passed + (said == "found"), failed + (said != "found")
        print(f"{name}: {said}", flush=True)
    print(f"{passed} passed, {failed} failed")
    return 1 if failed or not passed else 0


if __name__ == "__main__":
    sys.exit(main(sys.argv[1:]))
