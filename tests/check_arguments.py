#!/usr/bin/env python3
"""check_arguments.py: what a public function is given, its contract speaks of. A contract that leaves an argument out lets a body take any other.

It fails where a public function that has clauses has an argument that none of them names. It fails too where FREE lists one that is named, or that is
no more. Those of FREE give memory alone, or what the host of a test holds. Functions of a trait are not looked at. The last line is 'N passed, M failed'.
"""
import os
import re
import sys
from typing import Iterator

sys.dont_write_bytecode = True
TOP = os.path.dirname(os.path.dirname(os.path.abspath(__file__)))
sys.path.insert(0, TOP)
from tests.contracts import shown
from tests.rattle_sources import APART, Function, Source, closing, crate_of, files_of, source

# Arguments of which no clause speaks: an allocator, the system's runtime, and the caller, who has no contract.
LENT = {"alloc", "rt", "caller"}
FREE = {
    ("image_files", "end", "rooms"),
    ("outcome", "outcome_of", "room"),
    ("pal8_values", "word_value", "frames"),
    ("program", "run_task", "rooms"),
    ("program", "run_words", "rooms"),
}
ARGUMENT = re.compile(r"(?:&(?:'\w+ )?)?(?:mut )?(\w+)")


def arguments(file: Source, function: Function) -> Iterator[str]:
    """The names of the arguments of a function."""
    mask = file.mask
    at = re.compile(r"\bfn \w+").search(mask, function.start)
    start = at.end() if at else function.start
    if mask[start] == "<":
        depth = 0
        while True:
            depth += {"<": 1, ">": 0 if mask[start - 1] == "-" else -1}.get(mask[start], 0)
            start += 1
            if not depth:
                break
    end, depth, piece = closing(mask, start), 0, ""
    for sign in mask[start + 1 : end] + ",":
        depth += {"<": 1, "(": 1, "[": 1, ">": -1, ")": -1, "]": -1}.get(sign, 0)
        if sign == "," and not depth:
            if found := ARGUMENT.match(piece.strip()):
                yield found[1]
            piece = ""
        else:
            piece += sign


def unnamed() -> Iterator[tuple[str, str, str]]:
    """Each argument of a public function that has clauses which none of them names: its crate, the function and its name."""
    for path in files_of("*"):
        crate, file = crate_of(path), source(path)
        names, whole = shown(crate)
        is_whole = os.path.basename(path)[:-3] in whole
        for function in file.functions:
            block = file.block_at(function.start)
            is_shown = block.owner in names and not block.trait if block else is_whole or function.name in names
            if not function.is_public or not is_shown or not function.clauses:
                continue
            text = " ".join(file.text[it.start : it.end] for it in function.clauses)
            for name in arguments(file, function):
                if name not in LENT and not name.startswith("_") and not re.search(rf"\b{name}\b", text):
                    yield crate, function.name, name


def main() -> int:
    found = {it for it in unnamed() if not APART.search(it[0])}
    for crate, function, name in sorted(found - FREE):
        print(f"check_arguments: no clause of {crate}'s {function} names {name}")
    for crate, function, name in sorted(FREE - found):
        print(f"check_arguments: {name} of {crate}'s {function} is named, or is no more")
    failed = len(found ^ FREE)
    print(f"{len(FREE & found) + (not failed)} passed, {failed} failed")
    return 1 if failed else 0


if __name__ == "__main__":
    sys.exit(main())
