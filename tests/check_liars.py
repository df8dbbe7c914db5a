#!/usr/bin/env python3
"""check_liars.py [--quick | --table] [WORD..]: each check that runs a program finds out a program that lies. The liars are the scripts of tests/liars.
Each runs the built program and lies in one way: it crashes, turns a digit, stores nothing, never ends. The table there says which check is tried on
which, with few cases, and what it must print of some. A check must fail on each by its own last line, and pass with the stand-in that doesn't lie. One
that breaks off has found nothing. With --quick only liars are tried, those that the table has for the quick gate. With --table the table alone is
looked at: each part of the gate that takes a program has a row, each liar is used, none is twice in a row. With words only the checks and liars are
tried whose names have them all. The last line is 'N passed, M failed'.
"""
import concurrent.futures
import functools
import glob
import os
import re
import shlex
import shutil
import signal
import subprocess
import sys
import tempfile
from dataclasses import dataclass, field

sys.dont_write_bytecode = True
TOP = os.path.dirname(os.path.dirname(os.path.abspath(__file__)))
sys.path.insert(0, TOP)
from build.unproved import Build
from tests import gate
from tests.check_laid_program import MORE
from tests.stand_in_toolchain import Tree
from tests.stand_ins import write
from tests.tally import Tally, fault_in

HERE = f"{TOP}/tests/liars"
# What stands for the program, in braces in the words of a row: beside programs by their names a launcher, the folder of a page, and a tree whose proved
# program is the liar.
LAUNCHER, PAGE, TREE = "launch", "page", "tree"
# What lies in nothing.
HONEST = {LAUNCHER: "honest_launcher", PAGE: "honest_page"}
IS_HONEST = {"honest", *HONEST.values()}
# What every program is tried for.
ALWAYS = {"crashes", "never_ends"}
# Checks that a part of the gate runs, and the part, which has no row of its own.
INNER = {"tests/page/run_sessions.py": "tests/page/check_page.sh", "tests/page/losses.mjs": "tests/page/check_page.sh"}
# The commands without which the tests of the page are left out, as tests/page/check_page.sh does.
BROWSES = ("node", "chromium")
# The seconds that a check has for a liar, and those that a liar has for a command: one that may have no end, one in a page, one whose lie is named.
SECONDS, PATIENCE, OF_PAGES, OF_NAMED = 240, 3, 20, 120
# Half of those that are tried at once wait for a program that never ends.
LANES = 2 * len(os.sched_getaffinity(0))


@dataclass
class Row:
    """A check with the words that give it few cases, and the liars that it is tried on: those of both gates, and then those of the whole one alone.
    Where one condition of a check must find a liar, `finds` has what that prints."""

    words: list[str]
    quick: list[str] = field(default_factory=list)
    whole: list[str] = field(default_factory=list)
    finds: dict[str, str] = field(default_factory=dict)

    def name(self) -> str:
        return " ".join(self.words)

    def check(self) -> str:
        """The check, without what runs it."""
        return next(it for it in self.words if it.startswith("tests/"))

    def names(self) -> list[str]:
        """What is built for the row: the programs that it names, the first of them that of the liar."""
        found = re.findall(r"\{(liar)?:?(\w*)\}", " ".join(self.words))
        return [name or "pdp8" for _, name in sorted(found, reverse=True)]

    def kind(self) -> str:
        """What the liar stands for: a program by its name, a launcher, a page, a tree."""
        return self.names()[0]

    def honest(self) -> str:
        return HONEST.get(self.kind(), "honest")

    def liars(self, is_quick: bool = False) -> list[str]:
        return self.quick + (self.whole if not is_quick else [])

    def read(self, line: str) -> None:
        """Takes a line of liars, LIAR or LIAR="what must be printed", which begins with `whole:` where the whole gate alone tries them."""
        is_whole = line.strip().startswith("whole:")
        for word in shlex.split(line.strip().removeprefix("whole:")):
            liar, _, found = word.partition("=")
            (self.whole if is_whole else self.quick).append(liar)
            self.finds |= {liar: found} if found else {}


def rows() -> list[Row]:
    """The rows of the table."""
    found = list[Row]()
    with open(f"{HERE}/table.txt", encoding="utf-8") as table:
        for line in table:
            if line.startswith(" "):
                found[-1].read(line)
            elif line.strip() and not line.startswith("#"):
                found.append(Row(shlex.split(line)))
    return found


def liars() -> set[str]:
    """The names of all liars."""
    return {os.path.basename(path).removesuffix(".sh") for path in glob.glob(f"{HERE}/*.sh")} - IS_HONEST


def takes_a_program(check: str) -> bool:
    """Whether a part of the gate takes a program that it runs, or a tree that lays one."""
    with open(f"{TOP}/{check}", encoding="utf-8") as text:
        return check.startswith("tests/") and bool(re.search(r'"--(?:program|tree)"|--program (?:"\$|FILE)', text.read()))


def checks(is_quick: bool = False) -> set[str]:
    """The checks that must have a row: the parts of a gate, or of both, that take a program, and those that a part runs."""
    parts = {words[0] for some in {is_quick, True} for group in gate.parts(some) for words in group if words != gate.RT_CI}
    return {it for it in parts if takes_a_program(it)} - {*INNER.values(), "tests/check_liars.py"} | {*INNER}


def look_at_table(tally: Tally) -> None:
    """Counts what is so and what isn't so of the table."""
    table = rows()
    for check in sorted(checks() | {row.check() for row in table}):
        tally.add("checks", "" if check in checks() and any(row.check() == check for row in table) else f"{check} has no row of liars, or is no part of the gate")
    for liar in sorted(liars()):
        tally.add("liars", "" if any(liar in row.liars() for row in table) else f"no check is tried on the liar {liar}")
    for row in table:
        tried, least = row.liars(), set() if row.kind() in HONEST else ALWAYS
        is_right = least <= {*tried} <= liars() and len({*tried}) == len(tried) > 0 and (row.quick or row.check() not in checks(True))
        tally.add("rows", "" if is_right else f"{row.name()}: the liars {row.quick} and {row.whole} are not as they should be")


def built(kind: str) -> str:
    """The program of a name as it is built with checks, or the launcher."""
    return f"{TOP}/build/launch.sh" if kind == LAUNCHER else Build("pdp8" if kind == TREE else kind).program


def tree_of(text: str, room: str) -> Tree:
    """A tree with a stand-in for the toolchain, by which a liar is proved."""
    tree = Tree(f"{room}/stand-in", more=MORE, is_small=True)
    write(f"{tree.room}/program", f"#!/bin/sh\nexport BUILT='{built(TREE)}' KEPT='{room}/kept' PATH=\"$PATH:/usr/bin:/bin\"\n{text}")
    if tree.call("prove")[0]:
        raise OSError("the stand-in for the toolchain proves nothing")
    return tree


def laid(liar: str, row: Row, room: str, page: str) -> tuple[str, dict[str, str]]:
    """What stands for the program of a row, by a liar, and what that wants of the environment."""
    script, kind = f"{HERE}/{liar}.sh", row.kind()
    if kind == PAGE:
        shutil.copytree(page, f"{room}/page", copy_function=os.link)
        subprocess.run(["sh", script, f"{room}/page"], check=True)
        return f"{room}/page", {}
    if kind == TREE:
        with open(script, encoding="utf-8") as text:
            tree = tree_of(text.read(), room)
        return tree.top, tree.env
    shutil.copy(script, f"{room}/{kind}")
    os.chmod(f"{room}/{kind}", 0o755)
    return f"{room}/{kind}", {"BUILT": built(kind)}


def last_line(row: Row, liar: str, room: str, page: str) -> tuple[int | None, str]:
    """The status of a check that is given a liar, none where it took too long, and what it printed."""
    os.mkdir(f"{room}/kept")
    given, more = laid(liar, row, room, page)
    words = [given if it.startswith("{liar") else built(it[1:-1]) if it.startswith("{") else it for it in row.words]
    seconds = OF_NAMED if liar in row.finds else OF_PAGES if row.kind() == PAGE else PATIENCE
    patience = {"PATIENCE": str(seconds * (1000 if row.kind() == PAGE else 1))}
    env = {**os.environ, "KEPT": f"{room}/kept", "TRIES": "1", **({} if liar in IS_HONEST else patience), **more}
    with open(f"{room}/said", "w+b") as said:
        run = subprocess.Popen(words, cwd=TOP, env=env, stdin=subprocess.DEVNULL, stdout=said, stderr=subprocess.STDOUT, start_new_session=True)
        try:
            status: int | None = run.wait(SECONDS)
        except subprocess.TimeoutExpired:
            status = None
        end_group(run.pid)
        run.wait()
        said.seek(0)
        return status, said.read().decode(errors="replace")


def end_group(leader: int) -> None:
    """Ends what a check has left running."""
    try:
        os.killpg(leader, signal.SIGKILL)
    except ProcessLookupError:
        pass


def fault_of(row: Row, liar: str, page: str) -> str:
    """Why a check does not find a liar out, or does not pass with the one that doesn't lie; nothing where it does."""
    with tempfile.TemporaryDirectory(prefix="pdp8-liars-", ignore_cleanup_errors=True) as room:
        return judgment(row, liar, *last_line(row, liar, room, page))


def judgment(row: Row, liar: str, status: int | None, said: str) -> str:
    """What is wrong with how a check ended on a liar; nothing where it found it out, or passed with what lies in nothing."""
    counts = re.fullmatch(r"(\d+) passed, (\d+) failed", said.rstrip("\n").rsplit("\n", 1)[-1])
    if status is None or not counts or "Traceback" in said:
        return f"{row.name()} breaks off with {liar}, with status {status}: {said[-600:]}"
    is_passed = status == 0 and int(counts[1]) > 0 and counts[2] == "0"
    is_failed = status == 1 and counts[2] != "0"
    finds = row.finds.get(liar, "")
    if is_failed and finds not in said:
        return f"{row.name()} fails with {liar}, but does not print {finds!r}: {said[-600:]}"
    if is_passed if liar in IS_HONEST else is_failed:
        return ""
    return f"{row.name()} {'fails' if liar in IS_HONEST else 'passes'} with {liar}, with status {status}: {said[-600:]}"


def judge(tally: Tally) -> None:
    """Counts what ends of a check are taken for found, and what for not found."""
    row, found, passed = Row(["a check"], finds={"drops": "is lost"}), "2 passed, 1 failed\n", "3 passed, 0 failed\n"
    ends = [("crashes", 1, found, True), ("crashes", 0, passed, False), ("crashes", 1, passed, False), ("crashes", 0, found, False), ("crashes", None, found, False)]
    ends += [("crashes", 1, f"Traceback\n{found}", False), ("crashes", 1, "broken\n", False), ("crashes", -9, found, False), ("crashes", 1, "", False)]
    ends += [("drops", 1, f"V is lost\n{found}", True), ("drops", 1, f"V is there\n{found}", False), ("drops", 0, f"V is lost\n{passed}", False)]
    ends += [("honest", 0, passed, True), ("honest", 1, found, False), ("honest", 0, "0 passed, 0 failed\n", False), ("honest", 1, passed, False)]
    for liar, status, said, is_well in ends:
        tally.add("judgments", "" if is_well == (judgment(row, liar, status, said) == "") else f"not so: {liar} {status} {said!r} is {is_well}")


def are_made(asked: list[Row], page: str, is_quick: bool) -> bool:
    """Builds the programs that rows run, and the page."""
    names = {"pdp8" if name == TREE else name for row in asked for name in row.names()} - {LAUNCHER, PAGE}
    made = [[f"{TOP}/build/unproved.py", name] for name in sorted(names)]
    if any(row.kind() == PAGE for row in asked):
        made.append([f"{TOP}/page", *(["--unproved"] if is_quick else []), page])
    return all(subprocess.run(words, stdout=subprocess.DEVNULL).returncode == 0 for words in made)


def main(words: list[str]) -> int:
    tally, is_quick = Tally(sys.maxsize), "--quick" in words
    judge(tally)
    if "--table" in words:
        look_at_table(tally)
        return tally.end()
    words = [it for it in words if it != "--quick"]
    is_browsed = all(map(shutil.which, BROWSES)) or bool(os.environ.get("CI"))
    table = [row for row in rows() if row.liars(is_quick) and (is_browsed or row.kind() != PAGE)]
    # the quick gate runs each check with the program itself, too
    tried_of = {row.name(): [*([] if is_quick else [row.honest()]), *row.liars(is_quick)] for row in table}
    pairs = [(row, liar) for row in table for liar in tried_of[row.name()] if all(word in f"{row.name()} {liar}" for word in words)]
    with tempfile.TemporaryDirectory(prefix="pdp8-page-") as page, concurrent.futures.ThreadPoolExecutor(LANES) as lanes:
        if not are_made([row for row, _ in pairs], page, is_quick):
            print("0 passed, 1 failed")
            return 1
        tried = [(liar, lanes.submit(fault_in, functools.partial(fault_of, row, liar, page))) for row, liar in pairs]
        for liar, fault in tried:
            tally.add("honest" if liar in IS_HONEST else "liars", fault.result())
    return tally.end()


if __name__ == "__main__":
    sys.exit(main(sys.argv[1:]))
