#!/usr/bin/env python3
"""check_planted_faults.py: each fault of tests/page/faults/ and tests/calls/faults/, and each break of tests/breaks/, can be planted, though few are
in the gate. Each text that it changes stands once in its file, and the text in its place is another. A fault of the page names a test of tests/page/,
by its file and a part of the test's name. The others name a check that is there. Each fault counts as one. The last line is 'N passed, M failed'.
"""
import glob
import os
import sys

sys.dont_write_bytecode = True
TOP = os.path.dirname(os.path.dirname(os.path.abspath(__file__)))
sys.path.insert(0, TOP)
from tests.tally import Tally, fault_in


def text_of(path: str) -> str:
    """The text of a file of the tree, nothing where there is none."""
    if not os.path.isfile(f"{TOP}/{path}"):
        return ""
    with open(f"{TOP}/{path}", encoding="utf-8") as file:
        return file.read()


def unplanted(lines: list[tuple[str, str]], folder: str) -> str:
    """Why the changes of a fault can't be made in the files of a folder; nothing where they can."""
    texts, file, old, count = dict[str, str](), "", "", 0
    for word, rest in lines:
        if word == "file":
            file = folder + rest
        elif word == "old":
            old = rest
        elif word == "new":
            text = texts.setdefault(file, text_of(file))
            if text.count(old) != 1:
                return f"its old text is in {file} {text.count(old)} times, and not once"
            if rest == old:
                return "its new text is the old one"
            texts[file], count = text.replace(old, rest), count + 1
    return "" if count else "it changes nothing"


def unjudged(words: dict[str, str]) -> str:
    """Why no test judges a fault; nothing where one does."""
    if "run" in words:
        return "" if text_of(words["run"].split()[0]) else f"there is no check {words['run']}"
    file, _, part = words.get("test", "").partition(": ")
    return "" if part and part in text_of(f"tests/page/{file}.mjs") else f"tests/page/{file}.mjs has no test '{part}'"


def fault_of(path: str) -> str:
    """What is wrong with a fault, with its name; nothing where it can be planted and judged."""
    with open(path, encoding="utf-8") as text:
        lines = [(word, rest) for word, colon, rest in (line.partition(": ") for line in text.read().split("\n")) if colon]
    why = unplanted(lines, "web/" * path.endswith(".edit")) or unjudged(dict(lines))
    return why and f"check_planted_faults: {os.path.relpath(path, TOP)}: {why}"


def main() -> int:
    tally = Tally(shown=20)
    for kind, pattern in (("page", "page/faults/**/*.edit"), ("calls", "calls/faults/*.fault"), ("breaks", "breaks/*.defect")):
        for path in sorted(glob.glob(f"{TOP}/tests/{pattern}", recursive=True)):
            tally.add(kind, fault_in(lambda: fault_of(path)))
    return tally.end()


if __name__ == "__main__":
    sys.exit(main())
