#!/usr/bin/env python3
"""check_links.py: each relative link of README.md and of the pages below docs/ leads to a file that is there, and to a heading where it names one.
What README.md, docs/ARCHITECTURE.md and docs/GLOSSARY.md name of the sources is there: each `crate/specs/File.antt` and `crate/src/file.rt`, and
each `crate::function`. Each name that is a link is in the file that it leads to. Each line of a quoted clause is in one of the files to which the
page links. The last line is 'N passed, M failed'.

    tests/check_links.py              those pages
    tests/check_links.py FILE..       other pages, as if they were docs/ARCHITECTURE.md
"""
import functools
import glob
import os
import re
import sys
from typing import Iterator

sys.dont_write_bytecode = True
TOP = os.path.dirname(os.path.dirname(os.path.abspath(__file__)))
sys.path.insert(0, TOP)
from tests.rattle_sources import crates, definitions, files_of, source

Line = tuple[int, str]
Link = tuple[int, str, str]
NAMING = [f"{TOP}/{name}.md" for name in ("README", "docs/ARCHITECTURE", "docs/GLOSSARY")]
LINK = re.compile(r"\[([^\]\n]*)\]\(([^)\s]+)\)")
CRATES = set(crates())


@functools.cache
def text_of(path: str) -> str:
    with open(path, encoding="utf-8") as text:
        return text.read()


def defines(path: str, name: str) -> bool:
    """Whether a file of sources defines a name, or a type's function: `push`, `Loader::push`, `tape_map`."""
    crate, _, file = os.path.relpath(path, f"{TOP}/crates").partition("/specs/")
    if file:
        return name in definitions(crate, file.removesuffix(".antt")).texts
    known, (*owners, last) = source(path), name.split("::")
    has_owner = all(any(it in (block.owner, block.trait) for block in known.blocks) for it in owners)
    return has_owner and any(it == last for _, it in known.declared)


def anchors(path: str) -> set[str]:
    """The names by which a page's headings are linked to."""
    heads = re.findall(r"(?m)^#+ (.*)$", text_of(path))
    return {re.sub(r"[^\w -]", "", it.lower()).replace(" ", "-") for it in heads}


def prose(text: str) -> tuple[list[Line], list[Line]]:
    """A page's numbered lines outside sessions and quoted clauses, and those of the clauses."""
    lines, quoted, inside = list[Line](), list[Line](), False
    for number, line in enumerate(text.splitlines(), 1):
        if line.lstrip().startswith("```"):
            inside = not inside
        elif inside:
            quoted.append((number, line.strip()))
        elif not line.startswith("    "):
            lines.append((number, line))
    return lines, quoted


def dead(path: str, lines: list[Line]) -> tuple[list[Line], list[Link]]:
    """What relative links lead to nothing, and the files that the others lead to."""
    told, files = list[Line](), list[Link]()
    for number, line in lines:
        for shown, to in LINK.findall(line):
            if re.match(r"[a-z]+:", to):
                continue
            file, _, anchor = to.partition("#")
            file = os.path.normpath(os.path.join(os.path.dirname(path), file)) if file else path
            if not os.path.exists(file):
                told.append((number, f"no file {to}"))
            elif anchor and anchor not in anchors(file):
                told.append((number, f"no heading {to}"))
            files.append((number, shown, file))
    return told, files


def absent(lines: list[Line], links: list[Link]) -> Iterator[Line]:
    """What a page names of the sources that is not there."""
    for number, shown, file in links:
        name = re.fullmatch(r"`([\w:']+)`", shown)
        if name and file.endswith((".rt", ".antt")) and os.path.isfile(file) and not defines(file, name[1]):
            yield number, f"{os.path.relpath(file, TOP)} has no {name[1]}"
    for number, line in lines:
        for crate, file in re.findall(r"\b(\w+)/((?:specs|src)/[\w/]+\.(?:antt|rt))\b", line):
            if not os.path.isfile(f"{TOP}/crates/{crate}/{file}"):
                yield number, f"no file {crate}/{file}"
        for path in re.findall(r"`(\w+(?:::\w+)+)`", line):
            crate, _, rest = path.partition("::")
            if crate in CRATES and not any(defines(it, rest.removeprefix("laws::")) for it in files_of(crate)):
                yield number, f"no {path}"


def unquoted(quoted: list[Line], links: list[Link]) -> list[Line]:
    """The lines of quoted clauses that stand in none of the files to which a page links."""
    paths = {file for _, _, file in links if file.endswith((".rt", ".antt")) and os.path.isfile(file)}
    known = "\n".join(text_of(it) for it in sorted(paths))
    return [(number, f"no source has: {line}") for number, line in quoted if line not in known]


def main(words: list[str]) -> int:
    pages = [os.path.abspath(it) for it in words] or [f"{TOP}/README.md", *sorted(glob.glob(f"{TOP}/docs/**/*.md", recursive=True))]
    passed = failed = 0
    for path in pages:
        lines, quoted = prose(text_of(path))
        told, links = dead(path, lines)
        if words or path in NAMING:
            told += [*absent(lines, links), *unquoted(quoted, links)]
        for number, why in sorted(told):
            print(f"{os.path.relpath(path)}:{number}: {why}")
        wrong = len({it for it in told})
        count = max(len(links) + (len(quoted) if words or path in NAMING else 0), wrong)
        passed, failed = passed + count - wrong, failed + wrong
    if not passed + failed:
        print("check_links: there is no link")
        failed = 1
    print(f"{passed} passed, {failed} failed")
    return 1 if failed else 0


if __name__ == "__main__":
    sys.exit(main(sys.argv[1:]))
