#!/usr/bin/env python3
"""check_fault_texts.py [--list]: the texts of the fault types are just those of tests/texts.txt, so a text that changes must change in two places.

Over the sources of all crates it reads each `#[error(..)]` and the body of each `Display` that is written by hand, and compares them whole with the
table. That has a line for each: crate, type, variant (`-` where the whole type has one text) and text as it is written in the source. A variant of a
fault type without a text fails too. --list prints the table. The last line is 'N passed, M failed', a text being one.
"""
import os
import re
import sys
from collections import Counter

sys.dont_write_bytecode = True
TOP = os.path.dirname(os.path.dirname(os.path.abspath(__file__)))
sys.path.insert(0, TOP)
from tests.rattle_sources import STRING, closing, crate_of, files_of, source, without_strings

TABLE = f"{TOP}/tests/texts.txt"
ATTRIBUTE = rf"#\s*\[(?:{STRING}|[^\]\"])*\]\s*"
TYPE = re.compile(rf"((?:{ATTRIBUTE})*)(?:pub(?:\([\w: ]+\))?\s+)?(enum|struct|union)\s+(\w+)", re.S)
VARIANT = re.compile(rf"((?:{ATTRIBUTE})*)(\w+)", re.S)
TEXT = re.compile(rf"#\s*\[\s*error\s*\(((?:{STRING}|[^\]\"])*)\)\s*\]", re.S)
DERIVED = re.compile(r"\bderive\s*\(([^)]*)\)")
DISPLAY = re.compile(r"\bimpl\b[^;{}]*?\bDisplay\s+for\s+([^{]*?)\s*\{")
WRITTEN = re.compile(r"(?m)^\s*#\s*!?\[.*\berror\s*\(|^(?!\s*//).*\bDisplay\s+for\b")
RENAMED = re.compile(r"\b(?:Display|thiserror::Error)\s+as\s+\w+|\bthiserror(?:::\{[^}]*?Error)?\s+as\s+\w+")


def squeezed(text: str) -> str:
    """A piece of a source on one line, with one blank for blanks that stand in no string."""
    pieces = re.sub(rf"({STRING})|\s+", lambda it: it[1].replace("\n", "\\n") if it[1] else " ", text)
    return pieces.strip().removesuffix(",")


def variants(body: str) -> list[tuple[str, str]]:
    """The variants of an enum with the attributes before them."""
    found, at, mask = [], 0, without_strings(body)
    while it := VARIANT.match(body, at := at + len(body[at:]) - len(body[at:].lstrip())):
        found.append((it[1], it[2]))
        at = it.end()
        while at < len(mask) and mask[at] != ",":
            at = closing(mask, at) + 1 if mask[at] in "{([" else at + 1
        at += 1
    return found


def fault_texts(text: str, mask: str) -> list[tuple[str, str, str]]:
    """The texts of the types of a source that `thiserror` makes faults of, and the variants that have none."""
    found = []
    for it in TYPE.finditer(text):
        traits = [name.strip().split("::")[-1] for names in DERIVED.findall(it[1]) for name in names.split(",")]
        own = [squeezed(said) for said in TEXT.findall(it[1])]
        found += [(it[3], "-", said) for said in own]
        found += [(it[3], "-", f"derive({name})") for name in traits if "Display" in name]
        opened = re.compile(r"[^;{]*\{").match(mask, it.end())
        if "Error" not in traits or own:
            continue
        body = text[opened.end() : closing(mask, opened.end() - 1)] if opened and it[2] == "enum" else ""
        for said, name in variants(body) or [("", "-")]:
            found += [(it[3], name, squeezed(one)) for one in TEXT.findall(said) or ["no text"]]
    return found


def shown_texts(text: str, mask: str) -> list[tuple[str, str, str]]:
    """The types of a source with a `Display` written by hand, each with the body of its `fmt`."""
    found = []
    for it in DISPLAY.finditer(text):
        head = re.compile(r"\bfn fmt\b.*?->\s*[\w:]+[^{]*\{", re.S).search(mask, it.end())
        body = text[head.end() : closing(mask, head.end() - 1)] if head else "no text"
        found.append((squeezed(it[1]), "-", squeezed(body)))
    return found


def texts() -> tuple[list[tuple[str, str, str, str]], list[str]]:
    """All texts of the sources, and what can't be read."""
    found, bad = [], list[str]()
    for path in files_of("*"):
        here, file = source(path), os.path.relpath(path, f"{TOP}/crates")
        rows = fault_texts(here.code, here.mask) + shown_texts(here.code, here.mask)
        found += [(crate_of(path), *row) for row in rows]
        read = sum(not said.startswith(("derive(", "no text")) for _, _, said in rows)
        seen = len(WRITTEN.findall(here.text))
        bad += [f"{file}: {seen} texts are written, {read} read"] * (seen != read)
        bad += [f"{file}: another name for what gives texts: {it}" for it in RENAMED.findall(here.code)]
    return found, bad


def main() -> int:
    found, bad = texts()
    rows = Counter(" ".join(row) for row in found)
    if "--list" in sys.argv:
        print(*rows.elements(), sep="\n")
        return 0
    with open(TABLE, encoding="utf-8") as table:
        listed = Counter(line.rstrip("\n") for line in table)
    bad += [f"in the sources, not in tests/texts.txt: {row}" for row in (rows - listed).elements()]
    bad += [f"in tests/texts.txt, not in the sources: {row}" for row in (listed - rows).elements()]
    bad += ["no text is read"] * (not rows)
    bad += [f"without a text: {row}" for row in rows if row.endswith(" no text")]
    for line in bad:
        print(f"check_fault_texts: {line}")
    print(f"{sum((rows & listed).values())} passed, {len(bad)} failed")
    return 1 if bad else 0


if __name__ == "__main__":
    sys.exit(main())
