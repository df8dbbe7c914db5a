#!/usr/bin/env python3
"""try_faults.py [--gate] [--program FILE] [NAME..]: plants small faults in the page, one by one. A test must notice each.

They are tests/page/faults/*.edit and, with --gate, those of its folder gate/ alone; NAME takes those whose names have it. A fault has lines `file:
FILE` of web/, `old: TEXT`, which is there once, and `new: TEXT`. A line `test: FILE: PART` says which tests must fail: those of tests/page/FILE.mjs
whose names have PART. The page is laid once, with the module that ./page made, and one file of it is another for each fault. Without --gate the tests
are first run without a fault, and must pass. One browser runs at a time. The last line is 'N passed, M failed'.
"""
import glob
import os
import re
import shutil
import subprocess
import sys
import tempfile

sys.dont_write_bytecode = True
HERE = os.path.dirname(os.path.abspath(__file__))
TOP = os.path.dirname(os.path.dirname(HERE))
sys.path.insert(0, TOP)
from build.page import Page, library_of
from build.proved import Wanted

# How long a test waits for what a fault may keep from coming, in milliseconds.
PATIENCE = "8000"


class Fault:
    """A fault: the file that it changes, how, and which tests must notice it."""

    def __init__(self, path: str) -> None:
        self.name = os.path.basename(path).removesuffix(".edit")
        self.changes, self.file, old = list[tuple[str, str]](), "", ""
        self.test: tuple[str, ...] = ("", "")
        for line in open(path, encoding="utf-8").read().split("\n"):
            word, _, rest = line.partition(": ")
            if word == "file":
                self.file = rest
            elif word == "old":
                old = rest
            elif word == "new":
                self.changes.append((old, rest))
            elif word == "test":
                self.test = tuple(rest.split(": ", 1))

    def laid(self, text: str) -> tuple[str, str]:
        """The file's text with the fault in it, and nothing, or in words why there is none."""
        for old, new in self.changes:
            if text.count(old) != 1:
                return "", f"BAD FAULT: the old text is in {self.file} {text.count(old)} times, and not once"
            text = text.replace(old, new)
        return text, ""

    def tell(self, said: str) -> None:
        print(f"{self.name}: {said}", flush=True)


def run(program: str, folder: str, test: tuple[str, ...]) -> tuple[int, int, str]:
    """How many of these tests passed and failed, and what they printed."""
    file, *parts = test
    words = ["node", f"{HERE}/{file}.mjs", program, folder, *parts]
    patience = {**os.environ, "PATIENCE": os.environ.get("PATIENCE", PATIENCE), "TRIES": "1"}
    ran = subprocess.run(words, cwd=TOP, env=patience, stdin=subprocess.DEVNULL, stdout=subprocess.PIPE, stderr=subprocess.STDOUT, text=True)
    last = re.search(r"(\d+) passed, (\d+) failed\n$", ran.stdout)
    return (int(last[1]), int(last[2]), ran.stdout) if last else (0, 0, ran.stdout)


def is_noticed(fault: Fault, program: str, folder: str) -> bool:
    """Whether the fault's tests fail where it is in the page."""
    path = f"{folder}/{fault.file}"
    with open(path, encoding="utf-8") as laid:
        before = laid.read()
    text, why = fault.laid(before)
    if why:
        fault.tell(why)
        return False
    with open(path, "w", encoding="utf-8") as laid:
        laid.write(text)
    passed, failed, said = run(program, folder, fault.test)
    with open(path, "w", encoding="utf-8") as laid:
        laid.write(before)
    told = re.search(r"(?m)^\w+: NOT .*", said)
    fault.tell(told[0] if failed and told else f"NOT NOTICED by {' '.join(fault.test)}" if passed else f"NO TEST {' '.join(fault.test)}\n{said}")
    return failed > 0 and passed == 0


def are_sound(faults: list[Fault], program: str, folder: str) -> list[int]:
    """How many of the tests pass without a fault, and how many don't."""
    counts = [0, 0]
    for file in sorted({it.test[0] for it in faults}):
        parts = sorted({it.test[1] for it in faults if it.test[0] == file})
        passed, failed, said = run(program, folder, (file, *parts))
        print(said, end="", flush=True)
        counts = [counts[0] + passed, counts[1] + failed + (passed == 0)]
    return counts


def main(words: list[str]) -> int:
    program, is_gate = f"{TOP}/pdp8", "--gate" in words
    if "--program" in words:
        at = words.index("--program")
        program = os.path.abspath(words[at + 1])
        words = words[:at] + words[at + 2 :]
    names = [it for it in words if it != "--gate"]
    faults = [Fault(it) for it in sorted(glob.glob(f"{HERE}/faults/{'gate/' if is_gate else '**/'}*.edit", recursive=True))]
    faults = [it for it in faults if not names or any(name in it.name for name in names)]
    if not faults:
        print("try_faults: there is no such fault", file=sys.stderr)
        return 2
    wanted = Wanted()
    page = Page(wanted, library_of(wanted))
    if not os.path.exists(page.made):
        page.build()
    folder = tempfile.mkdtemp(prefix="pdp8-faults-")
    try:
        page.lay(folder)
        passed, failed = (0, 0) if is_gate else are_sound(faults, program, folder)
        noticed = sum(is_noticed(it, program, folder) for it in faults)
    finally:
        shutil.rmtree(folder, ignore_errors=True)
    print(f"{passed + noticed} passed, {failed + len(faults) - noticed} failed")
    return 1 if failed or noticed < len(faults) else 0


if __name__ == "__main__":
    sys.exit(main(sys.argv[1:]))
