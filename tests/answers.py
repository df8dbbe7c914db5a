"""How many files a reader needs for the answer to a question of a keeper in docs/PROVED.md: that of its law, and those of the definitions that the law
unfolds to. Not counted are the contracts of commands and of their steps, which laws take as their premises by name, with what these are given. Nor are
declared types, of Rust and of definitions, and the toolchain's own words.
"""
import functools
import os
import re
from typing import Iterator

from tests.contracts import cited
from tests.definitions import Found, names_in, owner_or_none
from tests.rattle_sources import TOP, Definitions, definition_files, definitions, source

# The rows of the page's table of questions: question, laws, file.
ROW = re.compile(r"(?m)^\| ([^|]+\?) \| [^|]+ \| ([^|]+) \| `([^`|]+)` \|$")
# How many files an answer needs at most: that of the law, and two of definitions.
MOST = 3
# The answers that need more as yet, with how many.
LONGER = {
    "Can `get --force` harm the image?": 6,
    "What if two of us change one image at once?": 4,
    "Does the status 0 mean that it is done?": 107,
    "What does `delete *.TM` take out?": 52,
    "What does the status 141 mean?": 18,
    "Which commands never write?": 7,
    "Is a rescued image sound?": 35,
}
# What a command is: a relation between the calls before it, its end or its status, and the calls after it.
COMMAND = re.compile(r"List Event → (?:Result .*→ List Event|List Event → ℕ) → Type 0$")
TYPE = re.compile(r"(?:pub )?(?:data|record) [^\s(:]+ : Type 0")


def questions(page: str) -> list[tuple[str, list[str], str]]:
    """Each question with its laws and their file."""
    table = page.partition("\n## A keeper's questions\n")[2].partition("\n## ")[0]
    return [(question, re.findall(r"`(\w+)`", laws), path) for question, laws, path in ROW.findall(table)]


@functools.cache
def commands() -> frozenset[tuple[str, str, str]]:
    """The contracts of commands."""
    found = set()
    for crate, file in definition_files():
        if crate.endswith("_commands") or crate in ("program", "image_files"):
            for name, text in definitions(crate, file).texts.items():
                if COMMAND.search(text.split("\n")[0]):
                    found.add((crate, file, name))
    return frozenset(found)


def end_of_premise(text: str, at: int) -> int:
    """Where what a relation is given ends, which begins at a place: at an arrow, a sign between facts, or the bracket around it."""
    depth = 0
    for it in re.compile(r"[(){}\[\]→×⊎\n]").finditer(text, at):
        depth += it[0] in "({["
        if not depth and it[0] in ")}]→×⊎" or it[0] == "\n" and not depth:
            return it.start()
        depth -= it[0] in ")}]"
    return len(text)


def without_commands(text: str, names: set[str]) -> str:
    """A text without the contracts of commands that go by these names in it, and without what they are given."""
    for name in names:
        while it := re.search(rf"(?<![\w.'])(?:{re.escape(name)})(?![\w'])", text):
            text = text[: it.start()] + text[end_of_premise(text, it.end()) :]
    return text


def is_type(known: Definitions, name: str) -> bool:
    """Whether a name is that of a declared type, or of a part of one."""
    owner = name if name in known.texts else owner_or_none(known, name)
    return bool(owner and TYPE.match(known.texts[owner]))


@functools.cache
def reads_as(crate: str, file: str, name: str) -> frozenset[tuple[str, str, str]]:
    """The definitions by which one is read."""
    known = definitions(crate, file)
    if name not in known.texts:
        return frozenset({known.uses[name]} if name in known.uses else ())
    ours = {here for here, there in known.uses.items() if there in commands()}
    return names_in(crate, file, name, without_commands(known.texts[name], ours))


def files_for(path: str, law: str) -> Found:
    """The definitions that a reader of a law needs."""
    file = source(f"{TOP}/crates/{path}")
    text = "\n".join(it for function in file.functions if function.name == law for it in file.contract(function))
    named = {(crate, module, name): name for crate, module, name in cited(file, text)}
    for it in re.findall(r"ghost use Rattle\.(\w+)\.specs\.(\w+)\.\{([^}]*)\}", file.code):
        for part in it[2].split(","):
            theirs, _, ours = part.strip().partition(" as ")
            if (it[0], it[1], theirs) in named:
                named[it[0], it[1], theirs] = ours or theirs
    text = without_commands(text, {ours for it, ours in named.items() if it in commands()})
    seen, waiting = Found(), list(cited(file, text))
    while waiting:
        it = waiting.pop()
        if it not in seen and it not in commands() and not is_type(definitions(it[0], it[1]), it[2]):
            seen.add(it)
            waiting.extend(reads_as(*it))
    return {it for it in seen if it[2] in definitions(it[0], it[1]).texts}


def far_answers(page: str) -> Iterator[str]:
    """The answers whose laws need more files than they should, or fewer than `LONGER` says."""
    for question, laws, path in questions(page):
        if not os.path.isfile(f"{TOP}/crates/{path}"):
            continue
        found = [{it[:2] for it in files_for(path, law)} for law in laws]
        count = 1 + max((len(it) for it in found), default=0)
        if count != LONGER.get(question, count) or count > LONGER.get(question, MOST):
            yield f"this answer needs {count} files to be read, not {LONGER.get(question, MOST)}: {question}"
