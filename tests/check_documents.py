#!/usr/bin/env python3
"""check_documents.py: the documents, README.md and what is below docs/, have at most 2,700 lines, and README.md at most 80. No sentence of them has
more than 30 words, and no cell of a table more than 40; a piece of code is one word. No comment of a Rattle source begins with a CamelCase
word that the sources declare, but in the files that are listed here. The last line is 'N passed, M failed'.
"""
import glob
import os
import re
import sys
from typing import Iterator

sys.dont_write_bytecode = True
TOP = os.path.dirname(os.path.dirname(os.path.abspath(__file__)))
sys.path.insert(0, TOP)
from tests.rattle_sources import definition_files, definitions, files_of, source

MOST_LINES = {"all": 2720, "README.md": 80}
MOST_WORDS_OF_A_SENTENCE = 30
MOST_WORDS_OF_A_CELL = 40
# Where a sentence ends: at its mark, unless a small letter or a number goes on after that.
END = re.compile(r"(?<=[.?!])[)*_\"]*\s+(?=[^a-z\d\s])")
LIST_ITEM = re.compile(r"^\s*(?:[-*]|\d+\.)\s")
WORD = re.compile(r"\w")
CAMEL = re.compile(r"[A-Z][a-z\d]+(?:[A-Z][a-z\d]*)+\b")
COMMENT = re.compile(r"(?m)^[ \t]*(?:///?|--)[ \t]+(\S+)")
# Sources whose comments begin so. They are mended when their crates change next.
NOT_YET: set[str] = set()


def documents() -> list[str]:
    """README.md and the pages below docs/."""
    return [f"{TOP}/README.md", *sorted(glob.glob(f"{TOP}/docs/**/*.md", recursive=True))]


def text_of(path: str) -> str:
    with open(path, encoding="utf-8", newline="\n") as text:
        return text.read()


def words(text: str) -> int:
    """How many words a text has: code, an address of a link and a picture are none or one."""
    text = re.sub(r"!?\[([^\]]*)\]\([^)]*\)", r"\1", text)
    text = re.sub(r"`+[^`]*`+", "code", text)
    return sum(bool(WORD.search(it)) for it in text.split())


def paragraphs(text: str) -> Iterator[tuple[int, str]]:
    """The paragraphs, items of lists and rows of tables of a page, each with its first line's number; no sessions, no clauses, no headings."""
    begun, kept, is_fenced = 0, list[str](), False
    for number, line in enumerate([*text.split("\n"), ""], 1):
        is_fence = line.lstrip().startswith("```")
        is_prose = bool(line.strip()) and not (is_fence or is_fenced) and not line.startswith(("    ", "#"))
        if kept and (not is_prose or LIST_ITEM.match(line) or line.startswith("|") or kept[0].startswith("|")):
            yield begun, " ".join(kept)
            kept = []
        if is_prose:
            begun, kept = (begun, kept) if kept else (number, kept)
            kept.append(line.strip())
        is_fenced ^= is_fence


def long_texts(path: str) -> tuple[int, list[str]]:
    """How many sentences and cells a page has, and which of them have too many words."""
    count, found = 0, list[str]()
    for number, text in paragraphs(text_of(path)):
        is_row = text.startswith("|")
        pieces = re.split(r"(?<!\\)\|", text) if is_row else END.split(LIST_ITEM.sub("", text, count=1))
        most = MOST_WORDS_OF_A_CELL if is_row else MOST_WORDS_OF_A_SENTENCE
        for piece in filter(str.strip, pieces):
            count += 1
            if words(piece) > most:
                kind = "cell" if is_row else "sentence"
                found.append(f"{os.path.relpath(path, TOP)}:{number}: a {kind} of {words(piece)} words, {most} at most: {piece.strip()[:60]}")
    return count, found


def lengths() -> Iterator[tuple[bool, str]]:
    """Whether the documents have few enough lines, all of them and README.md."""
    counts = {os.path.relpath(it, TOP): text_of(it).count("\n") for it in documents()}
    counts["all"] = sum(counts.values())
    for name, most in MOST_LINES.items():
        what = "the documents have" if name == "all" else f"{name} has"
        yield counts[name] <= most, f"{what} {counts[name]} lines, {most} at most"


def comments() -> Iterator[tuple[str, int, str]]:
    """The comments of sources and definitions that begin with a CamelCase word which the code declares: file, line and word."""
    paths = [*files_of("*"), *(f"{TOP}/crates/{crate}/specs/{file}.antt" for crate, file in definition_files())]
    declared = {name for path in files_of("*") for _, name in source(path).declared}
    declared |= {name for crate, file in definition_files() for name in definitions(crate, file).texts}
    for path in paths:
        text = text_of(path)
        for it in COMMENT.finditer(text):
            word = it[1].rstrip(".,:;")
            if CAMEL.fullmatch(word) and word in declared:
                yield os.path.relpath(path, TOP), text[: it.start()].count("\n") + 1, word


def main() -> int:
    passed, faults, listed = 0, list[str](), set[str]()
    for path in documents():
        count, found = long_texts(path)
        passed, faults = passed + count - len(found), faults + found
    for is_so, what in lengths():
        passed, faults = passed + is_so, faults + [what] * (not is_so)
    for file, number, word in comments():
        listed.add(file)
        faults += [f"{file}:{number}: a comment begins with {word}, a word of the code"] * (file not in NOT_YET)
    faults += [f"{file} is listed, and has no such comment" for file in sorted(NOT_YET - listed)]
    passed += not listed - NOT_YET
    for fault in faults:
        print(f"check_documents: {fault}")
    print(f"{passed} passed, {len(faults)} failed")
    return 1 if faults else 0


if __name__ == "__main__":
    sys.exit(main())
