#!/usr/bin/env python3
"""check_saves.py: what files hold after a save of which a call fails. It tries a host in memory, call by call, and the system, with the calls in the
order in which they were made. The last line is 'N passed, M failed'. With --kind it tries saves of one kind alone.

usage: check_saves.py [--program FILE] [--kind WORD]
"""
import errno
import functools
import itertools
import os
import re
import subprocess
import sys
import tempfile
from typing import Iterator

sys.dont_write_bytecode = True
TOP = os.path.dirname(os.path.dirname(os.path.dirname(os.path.abspath(__file__))))
sys.path.insert(0, TOP)
from build.unproved import Build, ready
from tests.options import option, patience
from tests.tally import Tally, fault_in

NAME = "host_trial"
CALLS = 12
# What a trial leaves where its call of a number fails, from the number 0 on; where a later one fails, the last row stands.
UNSAVED, CERTAIN, UNKNOWN = "as it was, file old", "certain, file new", "unknown, file new"
UNMADE, UNLAID, OLD = "unmade, file none", "not laid, file none", "not laid, file old"
PART, KEPT = "in part, file part", "in part, file old"
ROWS = {
    "save": [UNSAVED] * 8 + [UNKNOWN, CERTAIN],
    "save over": [UNSAVED, KEPT, PART, PART, CERTAIN],
    "save mount": [UNSAVED] * 8 + [CERTAIN, KEPT, PART, PART],
    "make": [UNMADE] * 6 + [CERTAIN, UNKNOWN, CERTAIN],
    "make unlinked": [UNMADE] * 8 + [UNKNOWN, CERTAIN],
    "lay": [UNLAID] * 4 + ["laid, file new"],
    "replace": [OLD] * 4 + ["laid, file new"],
    "lay dated": [UNLAID] * 3 + ["laid, file new"] + [UNLAID] + ["laid, file new"],
}
# The time that a file is laid with, in seconds after the begin of 1970; no other trial sets one, nor does a call that failed.
TIME, DATED = 200_000_000, "lay dated"
# The calls of a save of each kind, but those that open, lock and look.
SAVE = ["realpath", "dup", "dup", "write", "fsync", "rename", "fsync folder", "print"]
OVER = ["realpath", "dup", "write", "write", "fsync", "print"]
MAKE = ["dup", "write", "fsync", "link", "unlink", "fsync folder", "print"]
LAY = ["dup", "write", "date", "rename", "print"]

# A save, the calls that it makes in order, whether the file is there, and whether it is written over.
Kind = tuple[str, list[str], bool, bool]


def program() -> str:
    """The trial's program, which is built with checks unless one is given."""
    if "--program" in sys.argv:
        return os.path.abspath(sys.argv[sys.argv.index("--program") + 1])
    if ready(NAME):
        sys.exit(1)
    return Build(NAME).program


def wanted_rows() -> Iterator[str]:
    for trial, rows in ROWS.items():
        for number in range(CALLS):
            # of a mount the eighth call takes away the file beside it
            is_left = trial == "save mount" and number == 8
            left = rows[min(number, len(rows) - 1)]
            time = TIME if trial == DATED and number > 3 and left.startswith("laid") else 0
            yield f"{trial} {number}: {left}, beside {'true' if is_left else 'false'}, time {time}"


class Folder:
    """A folder with a file F, in which a save is made with a library laid before the system's."""

    def __init__(self, path: str, trial: str, library: str) -> None:
        self.path, self.trial, self.library = path, trial, library
        os.mkdir(path)

    def save(self, what: str, name: str, call: str = "", number: int = 1, error: int = 0) -> tuple[str, list[str], str | None]:
        """What the trial prints, the calls that it makes, and what F holds then; its call of this number may fail."""
        log = f"{self.path}.log"
        open(log, "w", encoding="utf-8").close()
        met = {"CALL": call, "NUMBER": str(number), "ERROR": str(error), "LOG": log, "LD_PRELOAD": self.library}
        run = subprocess.run([self.trial, what, name], cwd=self.path, env={**os.environ, **met}, input="NEW TEXT", capture_output=True, text=True, timeout=patience(20))
        if run.returncode or run.stderr:
            raise ValueError(f"status {run.returncode} and {run.stderr!r}")
        with open(log, encoding="utf-8") as lines:
            calls = [line for line in lines.read().split("\n")[:-1] if not line.startswith("open ")]
        try:
            with open(f"{self.path}/F", encoding="utf-8") as file:
                return run.stdout, calls, file.read()
        except FileNotFoundError:
            return run.stdout, calls, None

    def has_time(self) -> bool:
        """Whether F has the time that a file is laid with."""
        return os.stat(f"{self.path}/F").st_mtime == TIME

    def names(self) -> list[str]:
        """The names in the folder. Those that nobody can guess have their end as `*`."""
        return sorted(re.sub(r"(\.pdp8-)[a-z2-7]{10}$", r"\1*", name) for name in os.listdir(self.path))


def tried(room: str, kind: Kind, number: int | None, trial: str, library: str) -> bool:
    """Whether a save of a kind makes its calls in order, or leaves the old or the new bytes where one of them fails."""
    what, calls, is_there, is_over = kind
    folder = Folder(f"{room}/{what}{is_over}{number}", trial, library)
    old = "OLD" if is_there else None
    if old:
        with open(f"{folder.path}/F", "w", encoding="utf-8") as file:
            file.write(old)
    if is_over:
        os.link(f"{folder.path}/F", f"{folder.path}/G")
    ended = "unknown\n" if what == "lay" else "certain\n"
    if number is None:
        is_saved = folder.save(what, "F") == (ended, calls, "NEW TEXT") and folder.names() == (["F", "G"] if is_over else ["F"])
        return is_saved and folder.has_time() == (what == "lay")
    call = calls[number]
    said, _, found = folder.save(what, "F", call, calls[: number + 1].count(call), errno.EIO)
    if call == "date":
        return (said, found, folder.has_time()) == (ended, "NEW TEXT", False)
    if call == "fsync folder":
        return (said, found) == ("unknown\n", "NEW TEXT")
    if call == "unlink":
        return (said, found, folder.names()) == (ended, "NEW TEXT", [".F.pdp8-*", "F"])
    if call == "print":
        return (said, found) == ("", "NEW TEXT")
    is_whole = found in (old, "NEW TEXT") or is_over and call in ("write", "fsync")
    return said == "fault\n" and is_whole and (is_over or found == old) and folder.names() == (["F", "G"] if is_over else ["F"] if is_there else [])


def try_in_memory(trial: str, tally: Tally) -> str:
    """Counts each row that the trial prints of a host in memory. Says what is wrong with all of them."""
    ran = subprocess.run([trial], capture_output=True, text=True, timeout=patience(60))
    for row, wanted in itertools.zip_longest(ran.stdout.splitlines(), wanted_rows()):
        tally.add("rows", "" if row == wanted else f"{row!r}, not {wanted!r}")
    return f"status {ran.returncode} and {ran.stderr!r}" if ran.returncode or ran.stderr else ""


def fault_of(room: str, kind: Kind, number: int | None, trial: str, library: str) -> str:
    """What is wrong with a save of which a call of this number fails, or none."""
    which = "all calls pass" if number is None else f"{kind[1][number]} fails"
    return "" if tried(room, kind, number, trial, library) else f"{kind[0]}, {kind[1]}: wrong where {which}"


def main() -> int:
    trial, tally = program(), Tally()
    tally.add("trials", fault_in(functools.partial(try_in_memory, trial, tally)))
    with tempfile.TemporaryDirectory(prefix="pdp8-hosts-") as room:
        library = f"{room}/meet.so"
        subprocess.run(["cc", "-shared", "-fPIC", "-o", library, f"{TOP}/tests/calls/meet.c", "-ldl"], check=True)
        for kind in (("save", SAVE, True, False), ("save", OVER, True, True), ("make", MAKE, False, False), ("lay", LAY, True, False)):
            for number in (None, *range(len(kind[1]))) if kind[0] == option("--kind", kind[0]) else ():
                tally.add("written over" if kind[3] else kind[0], fault_in(functools.partial(fault_of, room, kind, number, trial, library)))
    return tally.end()


if __name__ == "__main__":
    sys.exit(main())
