#!/usr/bin/env python3
"""check_headline.py: writes target/headline.md, which lists every definition that the public clauses of `Session` and of its laws unfold to. They
stand by the file of each, with the Rust types and constants that they name. Then comes what those of `Jobs` and of its laws unfold to besides, and what
those of `run_words` do, which is the whole program.

It fails where that page lacks one of them, and where a type doesn't stand where it is imported from. It fails too where docs/PROVED.md names a file,
a law or a wrong body that isn't there, and where a sentence of its numbered list names neither a law nor, after the mark that it has none, a definition.
It fails where a number that definitions of the program cite by name has no law with a numeral, in numbers.rt of program_laws. It fails where the
page answers fewer questions of a keeper than it did, or more, or where the laws of an answer stand elsewhere than its row says. So it does where a law
of an answer is read in more files than three (tests/answers.py), and where a law speaks of a contract that the program doesn't reach. The last line
is 'N passed, M failed'.
"""
import os
import re
import sys
from typing import Iterator

sys.dont_write_bytecode = True
TOP = os.path.dirname(os.path.dirname(os.path.abspath(__file__)))
sys.path.insert(0, TOP)
from tests.answers import far_answers, questions
from tests.contracts import cited, clauses
from build.crates import Crates
from tests.definitions import Found, closure, types, types_in
from tests.rattle_sources import definition_files, definitions, files_of, source
from tests.reached import LIBRARIES, idle_laws

PAGE = f"{TOP}/docs/PROVED.md"
LIST = f"{TOP}/target/headline.md"
NUMBERS = f"{TOP}/crates/program_laws/src/numbers.rt"
# The numbers that only their own crate can name: `inner_numbers` says what the definitions that cite them come to.
INNER = {
    ("image_kind", "BLOCK_BYTES"),
    ("image_kind", "BLOCK_WORDS"),
    ("image_kind", "DISK_BLOCKS"),
    ("image_kind", "LARGEST"),
    ("image_kind", "TAPE_BLOCKS"),
    ("image_kind", "TAPE_BLOCK_BYTES"),
    ("pal8_places", "LAST_STAY"),
    ("pal8_tape", "MOST_HARMLESS"),
    ("shown_text", "BLANK"),
}
# The tables of words, of letters and of pairs, which have laws of their own beside them.
TABLES = {"COMMANDS", "PAIRS"}, {"rows"}
CONSTANTS = re.compile(r"Rattle\.(\w+)\.specs\.declared\.(?:\w+\.)*(\w+)\.TheConstants\.\{([^}]*)\}")
# How many questions of a keeper the page answers.
QUESTIONS = 11
HEADING = "# Every definition of the headline\n"
FIRST = """
All that the contracts of `Session` and of its laws unfold to: {definitions} definitions in {files} files, the session first. With them
go the {types} Rust types and constants of the project that they name, listed below them, `Ran` beside `Session`, the trait `BlockStore` of a
store, and the toolchain's own words for numbers, lists and maps; nothing else need be read. How a session keeps what it has (its
`impl Model`) is no part of this, since the public clauses speak only of what is seen of it. definitions.md beside this page lists what the
other contracts cite besides.

"""
SECOND = """
The headline does not need what the contracts of `Jobs` and of its laws, on which a session stands, unfold to besides: {definitions}
definitions in {files} files, with {types} more types and constants.

"""
THIRD = """
What the whole program does is the contract of `run_words`: from the words of a command line, standard input and the calls so far to the calls that
are made and the exit status. It unfolds to these besides: {definitions} definitions in {files} files, with {types} more types and constants.

"""


def roots(crate: str, name: str) -> tuple[Found, Found]:
    """What the public clauses of a type and of its crate's laws cite: definitions and Rust types."""
    found, named = Found(), Found()
    for path in files_of(crate):
        file = source(path)
        public = clauses(file, {name}, os.path.basename(path) == "laws.rt", False)
        found |= cited(file, public)
        named |= types_in(public, file.code)
    if not found:
        raise SystemExit(f"check_headline: no public clause of {crate} cites a definition")
    return found, named


def rows(found: Found, suffix: str) -> Iterator[str]:
    """A table of names by the file where they stand, those of the upper crates first."""
    files: dict[tuple[str, str], list[str]] = {}
    for crate, file, name in found:
        files.setdefault((crate, file), []).append(name)
    order = Crates().names
    for crate, file in sorted(files, key=lambda row: (-order.index(row[0]), row[1])):
        yield f"| `{crate}/{suffix.format(file)}` | {', '.join(f'`{name}`' for name in sorted(files[crate, file]))} |\n"


def undeclared(named: Found) -> Iterator[str]:
    """The types and constants that do not stand where the definitions import them from."""
    for crate, file, name in sorted(named):
        path = f"{TOP}/crates/{crate}/src/{file}.rt"
        if not os.path.isfile(path) or not source(path).declared & {(kind, name) for kind in ("enum", "struct", "const")}:
            yield f"{crate}/src/{file}.rt declares no {name}"


def unfolded() -> tuple[str, Found, Found]:
    """The page, its definitions, and the types that it names."""
    told, before, named_before = HEADING, Found(), Found()
    for crate, name, words in (("system_session", "Session", FIRST), ("volume_jobs", "Jobs", SECOND), ("program", "run_words", THIRD)):
        begun, named = roots(crate, name)
        found = closure(begun)
        named = named.union(*(types(*it) for it in found)) - named_before
        found -= before
        told += words.format(definitions=len(found), files=len({it[:2] for it in found}), types=len(named))
        told += "| File | Definitions |\n|---|---|\n" + "".join(rows(found, "specs/{}.antt"))
        told += "\n| File | Rust types and constants |\n|---|---|\n" + "".join(rows(named, "src/{}.rt"))
        before, named_before = before | found, named_before | named
    return told, before, named_before


def missing(page: str) -> Iterator[str]:
    """The files that a page names and that are not there. One may be named by its place beside the one before."""
    folder = ""
    for number, line in enumerate(page.split("\n"), 1):
        folder = "" if line[:1] in ("", "|") else folder
        for path in re.findall(r"`([\w./-]+\.(?:antt|rt|edit|md|py)|(?:tests|crates|docs)/[\w./-]+)[^`]*`", line):
            places = [f"crates/{path}", path, f"{folder}/{path}"]
            found = [it for it in places if os.path.exists(f"{TOP}/{it}")]
            folder = os.path.dirname(found[0]) if found else folder
            if not found and not path.startswith("target/"):
                yield f"line {number} names {path}, which is not there"


def laws() -> set[str]:
    """The laws of the tree: the public functions of its files of laws, but for those of libraries that no command calls."""
    found = set()
    for path in (it for crate in Crates().names if crate not in LIBRARIES for it in files_of(crate)):
        if os.path.basename(path) == "laws.rt" or os.path.basename(os.path.dirname(os.path.dirname(path))).endswith("_laws"):
            with open(path, encoding="utf-8") as text:
                found.update(re.findall(r"(?m)^pub fn (\w+)", text.read()))
    return found


def all_definitions() -> set[str]:
    """The names of all definitions."""
    return {name for crate, file in definition_files() for name in definitions(crate, file).texts}


def unlawful(page: str) -> Iterator[str]:
    """The sentences of the numbered list that name neither a law nor the definition of a contract, and those names that are not there."""
    known, defined = laws(), all_definitions()
    for item in re.findall(r"(?ms)^\d+\. (.*?)(?=^\d+\. |^$)", page.partition("\n## What the whole program does\n")[2].partition("\n## ")[0]):
        for sentence in re.split(r"(?<=\.) (?=[A-Z`])", " ".join(item.split())):
            end = re.search(r" \[(† )?([^\]]+)\]\.$", sentence)
            if not end:
                yield f"this sentence has no law, and no mark: {sentence[:60]}"
                continue
            for name in re.findall(r"`(\w+)`", end[2]):
                if name not in (defined if end[1] else known):
                    yield f"the {'definition' if end[1] else 'law'} {name} is not there"


def constants(text: str) -> Iterator[tuple[str, str, str]]:
    """The numbers that a text imports: the crate, the name, and the name by which it goes here."""
    for crate, module, names in CONSTANTS.findall(text):
        for name, _, other in (it.strip().partition(" as ") for it in names.split(",")):
            if name not in TABLES[0] and module not in TABLES[1]:
                yield crate, name, other or name


def unnumbered() -> Iterator[str]:
    """The numbers that definitions of the program cite by name, and that no law has as a numeral."""
    with open(NUMBERS, encoding="utf-8") as text:
        law = text.read()
    known = {(crate, name) for crate, name, here in constants(law) if re.search(rf"\b{here} ≡ \d", law)} | INNER
    program, cited_by_name = Crates().below("pdp8"), set[tuple[str, str]]()
    for crate, file in definition_files():
        if crate in program:
            with open(f"{TOP}/crates/{crate}/specs/{file}.antt", encoding="utf-8") as text:
                cited_by_name |= {(owner, name) for owner, name, _ in constants(text.read())}
    for crate, name in sorted(cited_by_name - known):
        yield f"the number {name} of {crate}, which definitions cite by name, has no law with a numeral"
    for crate, name in sorted(INNER - cited_by_name):
        yield f"no definition cites {name} of {crate}"


def unanswered(page: str) -> Iterator[str]:
    """Whether the page has more or fewer questions of a keeper than it did, and the laws of the answers that do not stand where their rows say."""
    rows = questions(page)
    if len(rows) != QUESTIONS:
        yield f"the page answers {len(rows)} questions of a keeper, not {QUESTIONS}"
    for question, named, path in rows:
        text = open(f"{TOP}/crates/{path}", encoding="utf-8").read() if os.path.isfile(f"{TOP}/crates/{path}") else ""
        for name in named or [""]:
            if not re.search(rf"(?m)^pub fn {name}\b", text):
                yield f"the answer to this question has its law {name} not in {path}: {question}"


def unlisted(page: str, found: Found, named: Found) -> Iterator[str]:
    """The definitions that a page lacks, and the types and constants."""
    rows = re.findall(r"(?m)^\| `([^`]+)` \| (.*) \|$", page)
    listed = {(path, name) for path, names in rows for name in re.findall(r"`([^`]+)`", names)}
    wanted = [(f"{crate}/specs/{file}.antt", name) for crate, file, name in sorted(found)]
    wanted += [(f"{crate}/src/{file}.rt", name) for crate, file, name in sorted(named)]
    for path, name in wanted:
        if (path, name) not in listed:
            yield f"the page lacks {name} of {path}"


def main() -> int:
    told, found, named = unfolded()
    os.makedirs(os.path.dirname(LIST), exist_ok=True)
    with open(LIST, "w", encoding="utf-8") as written:
        written.write(told)
    with open(PAGE, encoding="utf-8") as text:
        page = text.read()
    faults = [*missing(page), *unlawful(page), *unanswered(page), *far_answers(page), *idle_laws(), *unnumbered(), *undeclared(named), *unlisted(told, found, named)]
    for fault in faults:
        print(f"check_headline: {fault}")
    print(f"{int(not faults)} passed, {int(bool(faults))} failed")
    return 1 if faults else 0


if __name__ == "__main__":
    sys.exit(main())
