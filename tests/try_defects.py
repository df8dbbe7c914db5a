#!/usr/bin/env python3
"""try_defects.py [--breaks] [--quick] [--day DAY] [--seconds N] [NAME..]: plants the defects of tests/defects/*.defect, or those whose names have NAME, one by one
in a copy of the tree. With --breaks these are tests/breaks/*.defect, of which each has a check of the program find less than it must. The liars of that
check must find it, so the copy has the programs that are built with checks. The check that a defect names must find it: it must fail with a line that has the wanted text. Before that each check must pass in the
copy as it stands. A check may take N seconds. Some defects go into any file of a kind: into which one, the day decides, which is today's date or DAY,
as 2026-11-29. It is printed, so that a day can be tried again. With --quick only those are planted whose turn it is on the day, every fourth. The last
line is 'N passed, M failed'.

A defect is a text of lines `WORD: REST`. Those that begin with `#` say what is wrong.

    run: WORDS      the check that must find it, with its words
    needs: COMMAND  the defect is left out where there is no such command, unless CI is set
    finds: TEXT     what one line of the check's output must have; of several such lines all must be in it
    file: FILE      the file that the next lines change, or
    file: any PATTERN .. [but REGEX]
                    one of the files that a pattern finds and REGEX doesn't, in which each of the next lines can be followed. In the lines of the
                    defect {file} is this file, {crate} its second folder, {name} its name, {below} its path below the second folder
    old: TEXT       a text that stands there once, and
    new: TEXT       what stands there in its place
    add: TEXT       one more line at the file's end; the file is made where there is none
    drop: REGEX     the first line that REGEX finds is deleted
    mode: MODE      the file gets these rights, in octal
    remove:         the file or the folder is deleted
"""
import argparse
import concurrent.futures
import datetime
import glob
import hashlib
import os
import queue
import re
import shutil
import subprocess
import sys
import tempfile
from dataclasses import dataclass, field, replace

TOP = os.path.dirname(os.path.dirname(os.path.abspath(__file__)))
# The programs that are built with checks, which a check with broken conditions runs.
BUILT = "target/unproved"
# What a check reads of the tree: no built files, nothing of the version control.
APART = shutil.ignore_patterns(".git", "target", "out", "__pycache__", ".mypy_cache", ".pytest_cache")
SECONDS = 900
DAY = datetime.datetime.now(datetime.timezone.utc).date().isoformat()
# The days after which each defect has had its turn in the quick gate.
TURNS = 4


class BadDefect(Exception):
    """Why a defect can't be planted."""


@dataclass
class Defect:
    """A defect: what is changed, which check must find it, and what that must print."""

    name: str
    words: list[str] = field(default_factory=list)
    finds: list[str] = field(default_factory=list)
    needs: str = ""
    changes: list[tuple[str, str, str]] = field(default_factory=list)


def read_defect(path: str) -> Defect:
    """The defect that a file describes."""
    defect = Defect(os.path.basename(path).removesuffix(".defect"))
    file = old = ""
    with open(path, encoding="utf-8") as lines:
        for line in lines.read().split("\n"):
            word, _, rest = line.partition(": ")
            if word == "run":
                defect.words = rest.split()
            elif word == "finds":
                defect.finds.append(rest)
            elif word == "needs":
                defect.needs = rest
            elif word == "file":
                file = rest
            elif word == "old":
                old = rest
            elif word == "new":
                defect.changes.append((file, old, rest))
            elif word in ("add", "drop", "mode"):
                defect.changes.append((file, word, rest))
            elif line == "remove:":
                defect.changes.append((file, "remove", ""))
            elif line and not line.startswith("#"):
                raise BadDefect(f"{path} has a line of no known form: {line}")
    if not (defect.words and defect.finds and defect.changes):
        raise BadDefect(f"{path} lacks a line `run:`, `finds:` or one that changes a file")
    return defect


def changed(text: str, how: str, what: str, file: str) -> str:
    """A file's text after one change."""
    if how == "mode":
        return text
    if how == "add":
        return f"{text}{what}\n"
    if how == "drop":
        lines = text.split("\n")
        at = next((number for number, line in enumerate(lines) if re.search(what, line)), None)
        if at is None:
            raise BadDefect(f"no line of {file} is found by {what}")
        return "\n".join(lines[:at] + lines[at + 1 :])
    if text.count(how) != 1:
        raise BadDefect(f"the old text stands in {file} {text.count(how)} times, and not once: {how}")
    return text.replace(how, what)


def can_be_changed(path: str, changes: list[tuple[str, str]]) -> bool:
    """Whether each of these changes can be made to a file of the tree."""
    with open(f"{TOP}/{path}", encoding="utf-8") as there:
        text = there.read()
    try:
        for how, what in changes:
            text = changed(text, how, what, path)
    except BadDefect:
        return False
    return True


def number_of(text: str) -> int:
    """A number that a text draws."""
    return int(hashlib.sha256(text.encode()).hexdigest(), 16)


def has_turn(name: str, day: str) -> bool:
    """Whether it is a defect's turn on a day."""
    return (number_of(name) + datetime.date.fromisoformat(day).toordinal()) % TURNS == 0


def drawn(defect: Defect, day: str) -> Defect:
    """A defect, with a file of the day in place of `any` file."""
    kind = next((file for file, _, _ in defect.changes if file.startswith("any ")), "")
    if not kind:
        return defect
    patterns, _, but = kind.removeprefix("any ").partition(" but ")
    found = {os.path.relpath(it, TOP) for pattern in patterns.split() for it in glob.glob(f"{TOP}/{pattern}", recursive=True) if os.path.isfile(it)}
    changes = [(how, what) for file, how, what in defect.changes if file == kind]
    fits = [it for it in sorted(found) if not (but and re.search(but, it)) and can_be_changed(it, changes)]
    if not fits:
        raise BadDefect(f"{defect.name}: no file fits {kind}")
    path = fits[number_of(f"{day} {defect.name}") % len(fits)]
    parts = path.split("/")
    names = {"{file}": path, "{crate}": parts[min(1, len(parts) - 1)], "{name}": parts[-1], "{below}": "/".join(parts[2:])}

    def filled(text: str) -> str:
        for name, value in names.items():
            text = text.replace(name, value)
        return text

    print(f"try_defects: {defect.name} goes into {path} of {len(fits)} files (--day {day})")
    laid = [(path if file == kind else file, filled(how), filled(what)) for file, how, what in defect.changes]
    return replace(defect, words=[*map(filled, defect.words)], finds=[*map(filled, defect.finds)], changes=laid)


class Tree:
    """A copy of the tree, which shares its files with the first copy. A defect's files are written anew and are put back."""

    def __init__(self, folder: str, first: str, seconds: float = SECONDS) -> None:
        self.top, self.first, self.seconds = folder, first, seconds
        shutil.copytree(first, folder, copy_function=os.link)

    def path(self, file: str) -> str:
        return f"{self.top}/{file}"

    def plant(self, defect: Defect) -> None:
        """Makes the changes of a defect."""
        for file, how, what in defect.changes:
            path = self.path(file)
            if how == "remove":
                if os.path.isdir(path):
                    shutil.rmtree(path)
                else:
                    os.remove(path)
                continue
            mode, text = 0o644, ""
            if os.path.exists(path):
                mode = os.stat(path).st_mode
                with open(path, encoding="utf-8") as there:
                    text = there.read()
                os.remove(path)  # the first copy has the same file
            elif how != "add":
                raise BadDefect(f"there is no file {file}")
            os.makedirs(os.path.dirname(path), exist_ok=True)
            with open(path, "w", encoding="utf-8") as laid:
                laid.write(changed(text, how, what, file))
            os.chmod(path, int(what, 8) if how == "mode" else mode)

    def mend(self, defect: Defect) -> None:
        """Puts back what a defect has changed."""
        for file in {file for file, _, _ in defect.changes}:
            path, first = self.path(file), f"{self.first}/{file}"
            if os.path.isdir(first):
                shutil.rmtree(path, ignore_errors=True)
                shutil.copytree(first, path, copy_function=os.link)
                continue
            if os.path.exists(path):
                os.remove(path)
            if os.path.exists(first):
                os.link(first, path)

    def run(self, words: list[str]) -> tuple[int, str]:
        """The status of a check in this copy, and what it prints."""
        env = {**os.environ, "PYTHONDONTWRITEBYTECODE": "1"}
        ran = subprocess.run(words, cwd=self.top, env=env, timeout=self.seconds, stdin=subprocess.DEVNULL, stdout=subprocess.PIPE, stderr=subprocess.STDOUT)
        return ran.returncode, ran.stdout.decode(errors="replace")


def why_not_sound(tree: Tree, words: list[str]) -> str:
    """Why a check does not pass in the copy as it stands, or nothing."""
    try:
        status, printed = tree.run(words)
    except (OSError, subprocess.TimeoutExpired) as fault:
        return f"{' '.join(words)}: {fault}"
    is_sound = status == 0 and re.search(r"(?m)^[1-9]\d* passed, 0 failed$", printed)
    return "" if is_sound else f"{' '.join(words)} fails without a defect, with status {status}:\n{printed[-2000:]}"


def why_not_found(tree: Tree, defect: Defect) -> str:
    """Why a check does not find a defect, or nothing."""
    try:
        tree.plant(defect)
        status, printed = tree.run(defect.words)
    except (BadDefect, OSError, subprocess.TimeoutExpired) as fault:
        return f"{defect.name}: {fault}"
    finally:
        tree.mend(defect)
    if status == 0 or re.search(r"(?m)^\d+ passed, 0 failed\n\Z", printed):
        return f"{defect.name}: {' '.join(defect.words)} does not find it: status {status}, {printed[-200:]!r}"
    if not any(all(it in line for it in defect.finds) for line in printed.split("\n")):
        return f"{defect.name}: {' '.join(defect.words)} fails, but prints no line with {' and '.join(map(repr, defect.finds))}:\n{printed[-2000:]}"
    return ""


def defects_of(names: list[str], day: str = DAY, folder: str = "defects") -> list[Defect]:
    """The defects of a folder, or those of them whose names have one of these, as they are on a day."""
    every = [read_defect(path) for path in sorted(glob.glob(f"{TOP}/tests/{folder}/*.defect"))]
    every = [it for it in every if not it.needs or shutil.which(it.needs) or os.environ.get("CI")]
    return [drawn(it, day) for it in every if not names or any(name in it.name for name in names)]


def faults(defects: list[Defect], room: str, seconds: float, has_programs: bool = False) -> list[str]:
    """What is wrong: one text for each check and each defect, empty where it is as it should be."""
    lanes = len(os.sched_getaffinity(0))
    shutil.copytree(TOP, f"{room}/first", ignore=APART, symlinks=True)
    if has_programs:
        shutil.copytree(f"{TOP}/{BUILT}", f"{room}/first/{BUILT}")
    trees: queue.Queue[Tree] = queue.Queue()
    for number in range(lanes):
        trees.put(Tree(f"{room}/{number}", f"{room}/first", seconds))

    def tried(work: "list[str] | Defect") -> str:
        tree = trees.get()
        try:
            return why_not_found(tree, work) if isinstance(work, Defect) else why_not_sound(tree, work)
        finally:
            trees.put(tree)

    checks = [list(words) for words in dict.fromkeys(tuple(defect.words) for defect in defects)]
    with concurrent.futures.ThreadPoolExecutor(lanes) as pool:
        return list(pool.map(tried, [*checks, *defects]))


def main(words: list[str]) -> int:
    parser = argparse.ArgumentParser(description=__doc__, formatter_class=argparse.RawDescriptionHelpFormatter)
    parser.add_argument("--breaks", action="store_true")
    parser.add_argument("--quick", action="store_true")
    parser.add_argument("--day", default=DAY)
    parser.add_argument("--seconds", type=float, default=SECONDS)
    parser.add_argument("names", nargs="*")
    given = parser.parse_args(words)
    try:
        defects = defects_of(given.names, given.day, "breaks" if given.breaks else "defects")
        defects = [it for it in defects if not given.quick or has_turn(it.name, given.day)]
    except BadDefect as bad:
        print(f"try_defects: {bad}\n0 passed, 1 failed")
        return 1
    with tempfile.TemporaryDirectory(prefix="pdp8-defects-") as room:
        found = faults(defects, room, given.seconds, given.breaks)
    for fault in filter(None, found):
        print(f"try_defects: {fault}")
    failed = sum(map(bool, found))
    print(f"{len(found) - failed} passed, {failed} failed")
    return 1 if failed or not found else 0


if __name__ == "__main__":
    sys.exit(main(sys.argv[1:]))
