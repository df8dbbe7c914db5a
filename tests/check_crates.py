#!/usr/bin/env python3
"""check_crates.py: crates.txt lists each crate once, after those that it stands on. A crate names each library that is listed for it, in a source, a
definition or a proof. A library on which one crate of the program alone stands has at least 30 functions, or its reason stands below. The map of
docs/ARCHITECTURE.md has each crate but benches and tests once, in a line above those that it stands on. It fits one screen. The last line is 'N
passed, M failed'.
"""
import glob
import os
import re
import sys

sys.dont_write_bytecode = True
TOP = os.path.dirname(os.path.dirname(os.path.abspath(__file__)))
sys.path.insert(0, TOP)
from build.crates import Crates
from tests.rattle_sources import FUNCTION
from tests.tally import Tally

# A library that one crate stands on has as many functions at least.
LEAST = 30
# How many lines the map has at most, and how many columns.
SCREEN = 52, 120
# Where the crates of a line of the map begin; what they are for stands after two blanks.
COLUMN = 15
# Smaller libraries for one crate or none, and why they stand alone.
ALONE = {
    "instructions8": "laws over the assembler, the processor and the disassembler, which none of these can have",
    "keeper_laws": "laws over the commands of several verbs",
    "monitor8": "the public calls of the program",
    "salvage_commands": "the room of rescue and scan",
}


def text_of(crates: Crates, name: str) -> str:
    """All that a crate's sources, definitions and proofs say."""
    return "\n".join(open(path, encoding="utf-8").read() for path in crates.files(name))


def functions(crates: Crates, name: str) -> int:
    """How many functions the sources of a crate have."""
    return sum(len(FUNCTION.findall(open(path, encoding="utf-8").read())) for path in crates.files(name, ("src",)))


def look_at_uses(crates: Crates, tally: Tally) -> None:
    """Counts the libraries that are listed for a crate and named in it."""
    for name in crates.names:
        text = text_of(crates, name)
        for library in [*crates.own[name], *crates.of_toolchain[name]]:
            is_named = library == "std" or re.search(rf"\b{library}(?:::|\.)", text)
            tally.add("uses", "" if is_named else f"check_crates: crates.txt lists {library} for {name}, which doesn't name it")


def look_at_users(crates: Crates, tally: Tally) -> None:
    """Counts the libraries that several crates stand on, or that have many functions, or a reason."""
    program = {"pdp8", *crates.below("pdp8")}
    for name in crates.names:
        users = [it for it in crates.names if it in program and name in crates.own[it]]
        if crates.is_program(name) or name.endswith("_tests"):
            continue
        is_alone = len(users) < 2 and functions(crates, name) < LEAST
        reason = f"check_crates: {name} is small and has the users {users}, so it may be part of one" if is_alone else f"check_crates: {name} needs no reason any more"
        tally.add("libraries", "" if is_alone == (name in ALONE) else reason)


def look_at_order(crates: Crates, tally: Tally) -> None:
    """Counts the crates that are listed after those that they stand on, and the folders that are listed."""
    for place, name in enumerate(crates.names):
        late = [it for it in crates.own[name] if it not in crates.names[:place]]
        tally.add("places", f"check_crates: crates.txt lists {name} before {', '.join(late)}" if late else "")
    with open(f"{TOP}/crates.txt", encoding="utf-8") as text:
        listed = re.findall(r"(?m)^(\w+):", text.read())
    for name in crates.names:
        tally.add("lines", "" if listed.count(name) == 1 else f"check_crates: crates.txt lists {name} twice")
    folders = {os.path.basename(os.path.dirname(path)) for path in glob.glob(f"{TOP}/crates/*/src")}
    for name in sorted(folders ^ {*crates.names}):
        tally.add("places", f"check_crates: {name} has a folder or a line of crates.txt alone")


def look_at_map(crates: Crates, tally: Tally) -> None:
    """Counts the crates that the map has in their place, and the map."""
    with open(f"{TOP}/docs/ARCHITECTURE.md", encoding="utf-8") as text:
        page = text.read().partition("\n## The map\n")[2]
    lines = re.findall(r"(?m)^ {4}.*", page.partition("\n| ")[0])
    rows = [re.split(" {2,}", it[COLUMN:])[0].split(", ") for it in lines]
    wide = [it for it in lines if len(it) > SCREEN[1]]
    tally.add("maps", "" if len(lines) <= SCREEN[0] and not wide else f"check_crates: the map has {len(lines)} lines, and {len(wide)} that are too wide")
    place = {name: number for number, row in enumerate(rows) for name in row}
    for name in sorted({*place, *(it for it in crates.names if it == "pdp8" or not crates.is_program(it) and not it.endswith("_tests"))}):
        count = sum(row.count(name) for row in rows)
        early = [it for it in crates.own.get(name, []) if place.get(it, 0) <= place.get(name, -1)]
        wrong = f"{count} times" if count != 1 or name not in crates.names else f"not above {', '.join(early)}" if early else ""
        tally.add("places", f"check_crates: the map has {name} {wrong}" if wrong else "")


def main() -> int:
    tally, crates = Tally(sys.maxsize), Crates()
    look_at_order(crates, tally)
    look_at_uses(crates, tally)
    look_at_users(crates, tally)
    look_at_map(crates, tally)
    return tally.end()


if __name__ == "__main__":
    sys.exit(main())
