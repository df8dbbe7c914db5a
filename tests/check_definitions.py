#!/usr/bin/env python3
"""check_definitions.py: writes target/definitions.md, which lists every definition of specs/ that a public clause cites. They stand by the crates
from the lowest on, each with the comment that stands above it.

A public clause is a `requires` or `ensures` of a function, or an `impl Model`, that a crate's root shows. It fails where the page lacks one of them,
and where a file of them has no words above it. It fails too where a file of specs/ has both what public clauses unfold to and what only
private clauses cite. The last line is 'N passed, M failed'.
"""
import os
import re
import sys
from typing import Iterator

sys.dont_write_bytecode = True
TOP = os.path.dirname(os.path.dirname(os.path.abspath(__file__)))
sys.path.insert(0, TOP)
from tests.contracts import Cited, all_cited
from build.crates import Crates
from tests.definitions import closure
from tests.rattle_sources import definition_files, definitions

PAGE = f"{TOP}/target/definitions.md"
HEAD = """# The definitions

What the contracts of public functions cite, by the crates from the lowest on: {count} definitions in {files} files of `specs/`. Each is told in
the words that stand above it there. headline.md beside this page lists what the contracts of a session unfold to. The gate writes both.
"""


def of_files(wanted: Cited) -> list[tuple[tuple[str, str], set[str]]]:
    """The names of the definitions by their files, in the order of the crates and of each file."""
    order, files = Crates().names, dict[tuple[str, str], set[str]]()
    for crate, module, name in wanted:
        files.setdefault((crate, module.replace(".", "/")), set()).add(name)
    return sorted(files.items(), key=lambda it: (order.index(it[0][0]), it[0][1]))


def page(wanted: Cited) -> Iterator[str]:
    """The page, line by line."""
    files = of_files(wanted)
    yield from HEAD.format(count=len(wanted), files=len(files)).split("\n")
    crate = ""
    for (below, file), names in files:
        if below != crate:
            yield from ([""] if crate else []) + [f"## `{below}`", ""]
            crate = below
        known = definitions(crate, file)
        yield f"- [{file}.antt](../crates/{crate}/specs/{file}.antt): {known.head}"
        for name in sorted(names, key=list(known.comments).index):
            yield f"  - `{name}`" + f": {known.comments[name]}" * bool(known.comments[name])


def mixed(wanted: Cited) -> list[tuple[str, str, str]]:
    """The files that have definitions which public clauses unfold to, and others, with these."""
    unfolded, found = closure(wanted), []
    for crate, file in definition_files():
        # (an operator is cited by its signs)
        names = [it for it in definitions(crate, file).texts if "◌" not in it]
        private = [it for it in names if (crate, file, it) not in unfolded]
        if 0 < len(private) < len(names):
            found.append((crate, file, ", ".join(private)))
    return found


def unlisted(wanted: Cited) -> Iterator[str]:
    """The definitions that the page lacks, and its files that have no words above them."""
    with open(PAGE, encoding="utf-8") as text:
        page, listed, at = text.read(), set[tuple[str, str, str]](), ("", "")
    for line in page.split("\n"):
        if file := re.match(r"- \[.*\]\(\.\./crates/(\w+)/specs/(.+)\.antt\): (.*)", line):
            at = (file[1], file[2])
            if not file[3]:
                yield f"crates/{file[1]}/specs/{file[2]}.antt begins with no words that say what it defines"
        elif row := re.match(r"  - `([^`]+)`", line):
            listed.add((*at, row[1]))
    for crate, module, name in sorted({*wanted}):
        if (crate, module.replace(".", "/"), name) not in listed:
            yield f"the page lacks {name} of {crate}/specs/{module.replace('.', '/')}.antt"


def main() -> int:
    wanted = all_cited()
    os.makedirs(os.path.dirname(PAGE), exist_ok=True)
    with open(PAGE, "w", encoding="utf-8") as written:
        written.write("\n".join(page(wanted)) + "\n")
    faults = [*unlisted(wanted)]
    faults += ["no public clause cites a definition"] * (not wanted)
    faults += [f"only private clauses cite these of {crate}/specs/{file}.antt: {names}" for crate, file, names in mixed(wanted)]
    print(*faults, f"the definitions: {len(wanted)} are cited by public clauses, and listed in target/definitions.md", sep="\n")
    print(f"{int(not faults)} passed, {int(bool(faults))} failed")
    return 1 if faults else 0


if __name__ == "__main__":
    sys.exit(main())
