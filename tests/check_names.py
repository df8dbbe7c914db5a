#!/usr/bin/env python3
"""check_names.py: names and comments of the Rattle sources are in plain words.

No function, constant or field of src/ and no definition of specs/ is named by a participle alone, as `held` or `told_of`: a name is a noun, begins
with `is_` or `has_`, or is a verb with its object. No name says `behind`: it says `after`. The names that stay are listed here, each with its reason. No sentence of a comment has more than
30 words, without what stands in brackets, and no comment has a word that is listed here as unplain. The last line is 'N passed, M failed'.
"""
import os
import re
import sys
from typing import Iterator

sys.dont_write_bytecode = True
TOP = os.path.dirname(os.path.dirname(os.path.abspath(__file__)))
sys.path.insert(0, TOP)
from tests.check_documents import END, MOST_WORDS_OF_A_SENTENCE, words
from tests.rattle_sources import comments, crate_of, definition_files, definitions, files_of, source

# Participles that don't end in -ed. Those that a verb's own form is too, as `read` and `put`, are verbs here.
PARTICIPLES = set(
    "told made held found laid kept left given taken written begun gone done shown known seen said sent spent built bought brought caught chosen drawn driven"
    " felt forgotten fed got hidden hurt led lent lost meant met paid sold struck stood taught thought thrown torn understood won wound born bound broken"
    " heard hung worn sunk sworn spoken stolen spun stuck slept woken withdrawn overwritten rewritten unsaid unmade undone".split()
)
# Words that end in -ed and are none.
NOUNS = set("need speed feed seed red bed hundred kind word embed indeed".split())
# What may stand after a participle without making it a noun.
SMALL = set("of by at in with to from on for as off up out into after before over under and or not is all each one two whole".split())
# Names that stay.
STAY = {
    ("cpu8", "held_off"): "interrupts that ION holds off: the handbook's word",
    ("cpu8", "left"): "the direction of a rotation",
    ("cpu8", "stored"): "of core: what it is after words are stored in it",
    ("cpu8e", "held_off"): "as in cpu8",
    ("os8_files", "stopped"): "of a file service: the state of that name",
    ("pal8_pools", "punched"): "of a cell: it goes to the tape, as ENPUNCH says",
    ("system_session", "printed"): "of a console: the characters that it printed",
    ("system_session", "stopped"): "of a session: the state of that name",
}
UNPLAIN = re.compile(r"\b(?:behind|tells?|told|telling)\b", re.I)


def is_participle(word: str) -> bool:
    return word in PARTICIPLES or (word.endswith("ed") and len(word) > 3 and word not in NOUNS)


def is_bare(name: str) -> bool:
    """Whether a name is a participle, alone or with small words after it."""
    parts = [it.lower() for it in re.findall(r"[A-Z]+[a-z0-9]*|[a-z0-9]+", name)]
    return bool(parts) and is_participle(parts[0]) and all(it in SMALL or is_participle(it) for it in parts[1:])


def all_names() -> Iterator[tuple[str, str, str]]:
    """Each name with its crate and its file."""
    for path in files_of("*"):
        yield from ((crate_of(path), os.path.relpath(path, TOP), it) for it in source(path).names())
    for crate, file in definition_files():
        yield from ((crate, f"crates/{crate}/specs/{file}.antt", it) for it in definitions(crate, file).texts)


def unplain(path: str) -> tuple[int, list[str]]:
    """How many sentences the comments of a file have, and which of them aren't plain."""
    count, found = 0, list[str]()
    for number, text in comments(path):
        text = re.sub(r"`[^`]*`", "Code", text)
        for sentence in filter(str.strip, END.split(re.sub(r"\([^()]*\)", "", text))):
            count += 1
            where = f"{os.path.relpath(path, TOP)}:{number}"
            if words(sentence) > MOST_WORDS_OF_A_SENTENCE:
                found.append(f"{where}: a sentence of {words(sentence)} words, {MOST_WORDS_OF_A_SENTENCE} at most: {sentence.strip()[:60]}")
            if it := UNPLAIN.search(sentence):
                found.append(f"{where}: a comment says {it[0]}: {sentence.strip()[:60]}")
    return count, found


def main() -> int:
    passed, faults, seen = 0, list[str](), set[tuple[str, str]]()
    for crate, path, name in all_names():
        is_fault = is_bare(name) and (crate, name) not in STAY
        says_behind = "behind" in name.lower()
        seen.add((crate, name))
        faults += [f"{path}: {name} is a participle alone"] * is_fault + [f"{path}: {name} says behind"] * says_behind
        passed += not (is_fault or says_behind)
    faults += [f"{crate} has no {name}, which is listed here" for crate, name in sorted(set(STAY) - seen)]
    for path in [*files_of("*"), *(definitions(*it).path for it in definition_files())]:
        count, found = unplain(path)
        passed, faults = passed + max(0, count - len(found)), faults + found
    if not passed:
        faults.append("there is no name and no comment")
    for fault in faults:
        print(f"check_names: {fault}")
    print(f"{passed} passed, {len(faults)} failed")
    return 1 if faults else 0


if __name__ == "__main__":
    sys.exit(main())
