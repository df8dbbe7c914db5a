#!/usr/bin/env python3
"""check_counts.py [--write | --part CHECK]: tests/counts.txt has a row for each part of the gate and of the quick one by all its words, and none besides. It has the
number of sessions of each text, of wrong bodies of each crate, of defects, faults and liars, as the tree has them. What compares counts with rows
finds another number, another kind, other words, and a part that is left out. With --write the rows of the tree are written anew. With --part the part
of the quick gate that runs a check is run alone, and must pass and count what its row says. The last line is 'N passed, M failed'.
"""
import collections
import contextlib
import io
import os
import subprocess
import sys
import time
from typing import Iterator
from unittest import mock

sys.dont_write_bytecode = True
TOP = os.path.dirname(os.path.dirname(os.path.abspath(__file__)))
sys.path.insert(0, TOP)
from tests import counts, gate
from tests.tally import Tally, fault_in

PLANTED = """
# a remark
whole | a | 3
whole | b --few | x 3, y at least 2
both | c | at least 4
quick | d | 1
quick | e | 9 | needs no-such-command
tree | f | 7, h at most 2
"""
RIGHT: dict[str, counts.Counts | None] = {"a": {"": 3}, "b --few": {"x": 3, "y": 2}, "c": {"": 4}}
# What is counted by the rows above, for a gate, and the beginnings of what must be said of it.
CASES: list[tuple[str, dict[str, counts.Counts | None], list[str]]] = [
    ("whole", RIGHT, []),
    ("whole", {**RIGHT, "a": {"x": 1, "y": 2}}, []),
    ("whole", {**RIGHT, "b --few": {"x": 3, "y": 9}}, []),
    ("whole", {**RIGHT, "a": None}, []),
    ("whole", {**RIGHT, "a": {"": 2}}, ["a: all are 2"]),
    ("whole", {**RIGHT, "a": {"": 4}}, ["a: all are 4"]),
    ("whole", {**RIGHT, "c": {"": 3}}, ["c: all are 3"]),
    ("whole", {**RIGHT, "b --few": {"x": 2, "y": 3}}, ["b --few: x are 2"]),
    ("whole", {**RIGHT, "b --few": {"x": 3, "y": 1}}, ["b --few: y are 1"]),
    ("whole", {**RIGHT, "b --few": {"": 5}}, ["b --few: x are 0", "b --few: y are 0", "b --few: all are 5"]),
    ("whole", {**RIGHT, "b --few": {"x": 3, "y": 2, "z": 1}}, ["b --few: z are 1"]),
    ("whole", {**RIGHT, "g": {"": 1}}, ["g: it has no row of the whole"]),
    ("whole", {"a": {"": 3}, "b": {"x": 3, "y": 2}, "c": {"": 4}}, ["b --few: it is no part of the whole", "b: it has no row"]),
    ("whole", {"a": {"": 3}, "c": None}, ["b --few: it is no part of the whole"]),
    ("quick", {"c": {"": 5}, "d": {"": 1}, "e": {"": 1}}, []),
    ("quick", RIGHT, ["d: it is no part of the quick", "e: it is no part of the quick", "a: it has no row", "b --few: it has no row"]),
    ("tree", {"f": {"": 6}}, ["f: all are 6"]),
    ("tree", {"f": {"": 7, "h": 2}}, []),
    ("tree", {"f": {"": 7, "h": 3}}, ["f: h are 3, and at most 2 in tests/counts.txt"]),
    ("tree", {}, ["f: it is no part of the tree"]),
]
# A part that counts three.
SAID = "printf 'by kind: a 1, b 2\\n3 passed, 0 failed\\n'"
# A part whose kinds are fewer than all that passed.
SAID_LESS = "printf 'by kind: a 1, b 2\\n4 passed, 0 failed\\n'"
BAD = ("whole | a | many", "whole | a | 1\nboth | a | 2", "whole | a", "whole | a | x 1, x 2")
LINES = {"by kind: a 3": {"a": 3}, "by kind: of many 1, of one 30": {"of many": 1, "of one": 30}, "3 passed, 0 failed": {}, "kinds: a 3": {}}


def judged() -> Iterator[tuple[str, bool]]:
    """Whether counts are judged as they must be, in each case."""
    rows, is_ci = counts.read_rows(PLANTED), os.environ.pop("CI", None)
    for gate_name, found, begins in CASES:
        said = counts.faults(gate_name, found, rows)
        yield f"{gate_name} {found}: {said}", len(said) == len(begins) and all(map(str.startswith, said, begins))
    os.environ["CI"] = "1"
    yield "in CI each command must be there", bool(counts.faults("quick", {"c": {"": 5}, "d": {"": 1}, "e": {"": 1}}, rows))
    del os.environ["CI"]
    if is_ci is not None:
        os.environ["CI"] = is_ci
    for text in BAD:
        yield f"{text!r} is refused", is_refused(text)
    for line, kinds in LINES.items():
        yield f"{line!r} counts {kinds}", counts.by_kind(line) == kinds


def by_gate() -> Iterator[tuple[str, bool]]:
    """Whether the gate fails by its rows alone: where a part counts as its row says, otherwise, or is left out, and where its kinds differ."""
    for rows, wanted in {"3": 0, "a 1, b 2": 0, "at least 2": 0, "2": 1, "a 2, b 1": 2, "3\nquick | echo | 1": 1}.items():
        last, status = last_of(["--quick"], f"quick | sh -c {SAID} | {rows}\nwhole | echo | 1")
        yield f"with {rows!r} the gate ends with {last!r} {status}", (last, status) == (f"3 passed, {wanted} failed (no proofs)", int(wanted > 0))
    last, status = last_of(["--quick"], f"quick | sh -c {SAID_LESS} | a 1, b 2", SAID_LESS)
    yield f"with kinds that are not all the gate ends with {last!r} {status}", (last, status) == ("4 passed, 3 failed (no proofs)", 1)
    last, status = last_of([], f"quick | echo | 1\nwhole | sh -c {SAID} | 3")
    yield f"the whole gate ends with {last!r} {status}", (last, status) == ("3 passed, 0 failed", 0)


def by_tally() -> Iterator[tuple[str, bool]]:
    """Whether a tally, by which the checks count, counts what failed and what passed, and takes a case that breaks off for a fault."""
    for given, wanted in {("", "wrong"): ("1 passed, 1 failed", 1), ("", ""): ("2 passed, 0 failed", 0), (): ("0 passed, 0 failed", 1)}.items():
        tally = Tally()
        with contextlib.redirect_stdout(io.StringIO()) as printed:
            for fault in given:
                tally.add("things", fault)
            status = tally.end()
        yield f"a tally of {given} ends with {printed.getvalue()!r} {status}", (printed.getvalue().splitlines()[-1], status) == wanted
    yield "a case that breaks off is a fault", bool(fault_in(lambda: str(1 // 0)))
    yield "a command that does not end in time is one", bool(fault_in(lambda: str(subprocess.run(["sleep", "9"], timeout=0.01))))


def last_of(words: list[str], rows: str, said: str = SAID) -> tuple[str, int]:
    """The last line of a gate that has one part, by these rows, and its status. The other gate has none."""
    planted, part = counts.read_rows(rows), [[("sh", "-c", said)]]
    with contextlib.ExitStack() as changed:
        printed = changed.enter_context(contextlib.redirect_stdout(io.StringIO()))
        changed.enter_context(mock.patch.object(gate.Part, "found", {}))
        changed.enter_context(mock.patch.object(counts, "all_rows", lambda: planted))
        changed.enter_context(mock.patch.object(gate, "parts", lambda is_quick: part if is_quick == bool(words) else []))
        for name in ("keep", "announce"):
            changed.enter_context(mock.patch.object(gate, name))
        status = gate.main(words)
    return printed.getvalue().splitlines()[-1], status


def is_refused(text: str) -> bool:
    try:
        counts.read_rows(text)
    except ValueError:
        return True
    return False


def listed() -> Iterator[tuple[str, list[str]]]:
    """What is wrong with the rows of each gate and of the tree, each that is as it must be with nothing."""
    rows = counts.all_rows()
    found: dict[str, dict[str, counts.Counts | None]] = {"tree": {**counts.tree()}}
    for name, is_quick in (("whole", False), ("quick", True)):
        found[name] = {" ".join(words): None for group in gate.parts(is_quick) for words in group}
    for name, parts in found.items():
        wrong = counts.faults(name, parts, rows)
        for it in wrong:
            yield f"rows of the {name}", [it]
        for _ in range(len(parts) - len(wrong)):
            yield f"rows of the {name}", []


def write() -> None:
    """Writes the rows of the tree anew, and leaves the others as they are."""
    with open(counts.FILE, encoding="utf-8") as text:
        others = [line for line in text if not line.startswith("tree |")]
    with open(counts.FILE, "w", encoding="utf-8") as text:
        text.writelines([*others, *(f"tree | {words} | {counts.written(kinds)}\n" for words, kinds in counts.tree().items())])


def try_part(check: str) -> int:
    """Runs the part of the quick gate that runs a check. The exit status."""
    part = next(gate.Part(words, time.monotonic()) for group in gate.parts(True) for words in group if words[0] == check)
    _, failed = part.run()
    row = next(row for row in counts.all_rows() if row.gate in ("quick", "both") and row.words == " ".join(part.words))
    found = part.found[row.words]
    wrong = [f"{row.words} fails"] if failed or found is None else row.faults(found)
    print(*(f"check_counts: {it}\n" for it in wrong), sep="", end="")
    print(f"{int(not wrong)} passed, {len(wrong)} failed")
    return 1 if wrong else 0


def main(words: list[str]) -> int:
    if words[:1] == ["--part"]:
        return try_part(words[1])
    if words == ["--write"]:
        write()
    found = [*listed(), *(("judgments", [] if is_so else [f"not so: {what}"]) for what, is_so in [*judged(), *by_gate(), *by_tally()])]
    failed = sum(bool(wrong) for _, wrong in found)
    print(*(f"check_counts: {it}\n" for _, wrong in found for it in wrong), sep="", end="")
    # a tally is what is tried here, so none counts this
    print("by kind:", counts.written(collections.Counter(kind for kind, _ in found)))
    print(f"{len(found) - failed} passed, {failed} failed")
    return 1 if failed or not found else 0


if __name__ == "__main__":
    sys.exit(main(sys.argv[1:]))
