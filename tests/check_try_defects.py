#!/usr/bin/env python3
"""check_try_defects.py [NAME..]: what tests/try_defects.py makes of defects of its own, in a small tree with a small check. A defect counts as found only
where its check fails and prints the wanted line. One that can't be planted fails, as does one whose check passes, breaks off or never ends, or fails
without it. What a defect changes is put back, and the tree itself stays as it is. A defect that goes into any file of a kind goes into the day's. NAME
takes the defects whose names have it, those that are `drawn`, or those that are `mended`. The last line is 'N passed, M failed'.
"""
import concurrent.futures
import os
import re
import shutil
import subprocess
import sys
from typing import Iterator

TOP = os.path.dirname(os.path.dirname(os.path.abspath(__file__)))
sys.path.insert(0, TOP)
from tests.stand_ins import Result, report, results, write

# The check of the small tree: each file of data/ must have no line `bad`, and be no longer than three lines. With words it ends in other ways.
CHECK = """#!/bin/sh
case "$1" in
breaks-off) grep -rq bad data && kill -9 $$ ;;
never-ends) ! grep -rq bad data || while :; do :; done ;;
always-fails) echo 'data/one.txt is bad'; echo '0 passed, 1 failed'; exit 1 ;;
passes) echo '1 passed, 0 failed'; exit 0 ;;
counts-nothing) grep -rq bad data && { echo 'data/one.txt is bad'; exit 1; }; echo '0 passed, 0 failed'; exit 0 ;;
ends-at-0) grep -rq bad data && { echo 'data/one.txt is bad'; echo '0 passed, 1 failed'; exit 0; } ;;
ends-well) grep -rq bad data && echo 'data/one.txt is bad' ;;
says-well) grep -rq bad data && { echo 'data/one.txt is bad'; echo '1 passed, 0 failed'; exit 1; } ;;
esac
failed=0
for file in $(find data -type f | sort); do
    if grep -q bad "$file"; then echo "$file is bad"; failed=1; fi
    [ "$(wc -l <"$file")" -le 3 ] || { echo "$file is long"; failed=1; }
    [ ! -x "$file" ] || { echo "$file can be run"; failed=1; }
done
[ -e data/one.txt ] || { echo "data/one.txt is lost"; failed=1; }
[ "$1" != ends-well ] || failed=0
[ $failed = 0 ] && echo '1 passed, 0 failed' || echo '0 passed, 1 failed'
exit $failed
"""
FILES = {"data/one.txt": "first\nsecond\n", "data/deep/two.txt": "first\n", "data/deep/deeper/three.txt": "first\nthird\n"}
ONE = ["run: ./check-data", "file: data/one.txt"]
BAD = ["old: second", "new: bad", "finds: data/one.txt is bad"]
FOUND, NOT_FOUND = "2 passed, 0 failed", "1 passed, 1 failed"
# Defects, what must be counted of each with its check, and what must be printed.
ROWS: list[tuple[str, list[str], str, str]] = [
    ("a defect that is found", [*ONE, *BAD], FOUND, ""),
    ("a line that is added", [*ONE, "add: more", "add: more", "finds: data/one.txt is long"], FOUND, ""),
    ("a line that is dropped", [*ONE, "drop: ^first", "old: second", "new: bad", "finds: data/one.txt is bad"], FOUND, ""),
    ("a file that is removed", [*ONE, "remove:", "finds: data/one.txt is lost"], FOUND, ""),
    ("a file that is new", ["run: ./check-data", "file: data/new.txt", "add: bad", "finds: data/new.txt is bad"], FOUND, ""),
    ("a file with other rights", [*ONE, "mode: 755", "finds: data/one.txt can be run"], FOUND, ""),
    ("a text that is not there", [*ONE, "old: fourth", *BAD[1:]], NOT_FOUND, "stands in data/one.txt 0 times"),
    ("a text that stands there twice", [*ONE, "old: s", *BAD[1:]], NOT_FOUND, "stands in data/one.txt 2 times"),
    ("a file that is not there", ["run: ./check-data", "file: data/lost.txt", *BAD], NOT_FOUND, "there is no file data/lost.txt"),
    ("a removed file that is not there", ["run: ./check-data", "file: data/lost.txt", "remove:", "finds: is lost"], NOT_FOUND, "data/lost.txt"),
    ("a line that no line is like", [*ONE, "drop: ^fourth", "finds: data/one.txt is bad"], NOT_FOUND, "no line of data/one.txt is found by ^fourth"),
    ("a check that passes", [*ONE, "old: second", "new: good", "finds: data/one.txt is bad"], NOT_FOUND, "does not find it: status 0"),
    ("a check that looks at nothing", ["run: ./check-data passes", *ONE[1:], *BAD], NOT_FOUND, "does not find it: status 0"),
    ("a check that prints the fault and ends well", ["run: ./check-data ends-well", *ONE[1:], *BAD], NOT_FOUND, "does not find it: status 0"),
    ("a check that counts a failure and ends with 0", ["run: ./check-data ends-at-0", *ONE[1:], *BAD], NOT_FOUND, "does not find it: status 0"),
    ("a check that fails and counts no failure", ["run: ./check-data says-well", *ONE[1:], *BAD], NOT_FOUND, "does not find it: status 1"),
    ("a wanted line that doesn't come", [*ONE, *BAD[:2], "finds: data/two.txt is bad"], NOT_FOUND, "prints no line with 'data/two.txt is bad'"),
    ("one of two wanted texts", [*ONE, *BAD, "finds: is long"], NOT_FOUND, "prints no line with 'data/one.txt is bad' and 'is long'"),
    ("two wanted texts in one line", [*ONE, *BAD, "finds: bad"], FOUND, ""),
    ("a check that breaks off", ["run: ./check-data breaks-off", *ONE[1:], *BAD], NOT_FOUND, "prints no line with"),
    ("a check that never ends", ["run: ./check-data never-ends", *ONE[1:], *BAD], NOT_FOUND, "timed out after"),
    ("a check that fails without a defect", ["run: ./check-data always-fails", *ONE[1:], *BAD], NOT_FOUND, "fails without a defect, with status 1"),
    ("a check that counts nothing", ["run: ./check-data counts-nothing", *ONE[1:], *BAD], NOT_FOUND, "fails without a defect, with status 0"),
    ("a check that is not there", ["run: ./check-nothing", *ONE[1:], *BAD], "0 passed, 2 failed", "No such file or directory: './check-nothing'"),
    ("a line of no known form", [*ONE, *BAD, "olds: second"], "0 passed, 1 failed", "has a line of no known form: olds: second"),
    ("a defect that changes nothing", [*ONE, "finds: data/one.txt is bad"], "0 passed, 1 failed", "lacks a line"),
    ("a defect with no check", [*ONE[1:], *BAD], "0 passed, 1 failed", "lacks a line"),
    ("a defect with no wanted line", [*ONE, *BAD[:2]], "0 passed, 1 failed", "lacks a line"),
    ("a defect whose command is missing", ["needs: no-such-command", *ONE, *BAD], "0 passed, 0 failed", ""),
    ("a kind of which no file is", ["run: ./check-data", "file: any lost/*.txt", *BAD], "0 passed, 1 failed", "no file fits any lost/*.txt"),
    ("a kind of which no file can be changed", ["run: ./check-data", "file: any data/**/*.txt", "old: fourth", *BAD[1:]], "0 passed, 1 failed", "no file fits any"),
]
ANY = ["run: ./check-data", "file: any data/**/*.txt", "add: bad", "finds: {file} is bad"]


class Tree:
    """A small tree, with what tries its defects."""

    def __init__(self, room: str, defects: dict[str, list[str]]) -> None:
        self.top = f"{room}/tree"
        os.makedirs(f"{self.top}/tests")
        shutil.copy(f"{TOP}/tests/try_defects.py", f"{self.top}/tests")
        write(f"{self.top}/check-data", CHECK)
        for file, text in FILES.items():
            write(f"{self.top}/{file}", text)
            os.chmod(f"{self.top}/{file}", 0o644)
        for name, lines in defects.items():
            write(f"{self.top}/tests/defects/{name}.defect", "\n".join(lines) + "\n")

    def tries(self, *words: str, **env: str) -> tuple[str, str]:
        """What is printed, and the last line, with the status where that is another than the line's."""
        own = {name: value for name, value in os.environ.items() if name != "CI"} | env
        ran = subprocess.run([f"{self.top}/tests/try_defects.py", *words], env=own, stdin=subprocess.DEVNULL, capture_output=True, text=True)
        *printed, last = ran.stdout.splitlines() or [""]
        is_right = (ran.returncode == 0) == (bool(re.fullmatch(r"[1-9]\d* passed, 0 failed", last)))
        return "\n".join(printed) + ran.stderr, last if is_right else f"{last} (status {ran.returncode})"

    def is_as_it_was(self) -> bool:
        found = {os.path.relpath(f"{at}/{it}", self.top): open(f"{at}/{it}", encoding="utf-8").read() for at, _, files in os.walk(f"{self.top}/data") for it in files}
        return found == FILES and not os.access(f"{self.top}/data/one.txt", os.X_OK)


def one_defect(room: str, row: tuple[str, list[str], str, str]) -> Iterator[Result]:
    """What becomes of a defect that stands alone."""
    what, lines, counted, wanted = row
    tree = Tree(room, {"one": lines})
    printed, last = tree.tries("--seconds", "2" if "never" in what else "60")
    yield f"{what}: {counted}, {wanted}; it was {last}, {printed}", last == counted and wanted in printed
    yield f"{what}: the tree is as it was", tree.is_as_it_was()


def mended_defects(room: str) -> Iterator[Result]:
    """Many defects of the same files, one after the other: each is planted where no other is."""
    every = {f"{number:02}": lines for number, (_, lines, counted, _) in enumerate(ROWS) if counted == FOUND}
    tree = Tree(room, {f"{turn}-{name}": lines for turn in range(6) for name, lines in every.items()})
    printed, last = tree.tries()
    yield f"each is found: {last}, {printed}", last == f"{6 * len(every) + 1} passed, 0 failed" and tree.is_as_it_was()
    tree = Tree(f"{room}/wrong", {"right": [*ONE, *BAD], "wrong": [*ONE, "old: second", "new: good", "finds: data/one.txt is bad"]})
    yield "one of two that is not found", tree.tries()[1] == "2 passed, 1 failed"
    yield "the one that is named", tree.tries("right")[1] == FOUND and tree.tries("wrong")[1] == NOT_FOUND
    yield "none has the name", tree.tries("other")[1] == "0 passed, 0 failed"
    missing = Tree(f"{room}/missing", {"one": ["needs: no-such-command", *ONE, *BAD]})
    yield "where CI is set no command may be missing", missing.tries(CI="1")[1] == FOUND


def drawn_defects(room: str) -> Iterator[Result]:
    """A defect that goes into any file of a kind: into one by the day, the same on a day, each on some day."""
    tree, seen = Tree(room, {"one": ANY}), set[str]()
    for number in range(1, 13):
        printed, last = tree.tries("--day", f"2026-01-{number:02}")
        at = re.search(r"one goes into (\S+) of 3 files \(--day 2026-01-\d\d\)", printed)
        yield f"it is found: {last}, {printed}", last == FOUND and bool(at)
        seen.add(at[1] if at else "")
    yield f"it goes into each file: {seen}", seen == {*FILES}
    yield "on a day it goes into the same", tree.tries("--day", "2026-01-05") == tree.tries("--day", "2026-01-05")
    yield "without a day it is that of today", tree.tries()[1] == FOUND and re.search(r"--day \d{4}-\d\d-\d\d", tree.tries()[0]) is not None
    others = Tree(f"{room}/others", {"but": [ANY[0], "file: any data/**/*.txt but deep/", *ANY[2:]], "old": [ANY[0], ANY[1], "old: third", "new: bad", ANY[3]]})
    for day in ("2026-01-01", "2026-01-02", "2026-01-03"):
        printed, last = others.tries("--day", day)
        yield f"only into files that fit: {printed}", "but goes into data/one.txt of 1 files" in printed and "old goes into data/deep/deeper/three.txt of 1 " in printed
        yield "and is found there", last == "3 passed, 0 failed"


def main(names: list[str]) -> int:
    rows = [row for row in ROWS if not names or any(it in row[0] for it in names)]
    with concurrent.futures.ThreadPoolExecutor(3) as lanes:
        found = [it for some in lanes.map(lambda row: results(lambda room: one_defect(room, row)), rows) for it in some]
    for work in (mended_defects, drawn_defects):
        found += results(work) if not names or any(it in work.__name__ for it in names) else []
    return report("check_try_defects", found)


if __name__ == "__main__":
    sys.exit(main(sys.argv[1:]))
