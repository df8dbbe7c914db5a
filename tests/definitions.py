"""What definitions unfold to, and the Rust types that they name."""
import functools
import os
import re
from typing import Iterable

from tests.rattle_sources import OF_TYPES, TOP, Definitions, definitions

Found = set[tuple[str, str, str]]
WORD = re.compile(r"[^\s(){}\[\],;.]+")


def types(crate: str, file: str, name: str) -> Found:
    """The Rust types that a definition names, by themselves or by a variant, and the constants, each with its crate, module and name."""
    found = definitions(crate, file)
    with open(found.path, encoding="utf-8") as text:
        return types_in(found.texts[name], text.read())


def types_in(text: str, importing: str) -> Found:
    """Those that a text names, of what the text of a file imports."""
    found = set()
    for below, module, named, parts, alias in OF_TYPES.findall(importing):
        if not os.path.isdir(f"{TOP}/crates/{below}"):
            continue
        if named == "TheConstants":
            named_here = parts.split(", ") if parts else re.findall(rf"(?<![\w.']){alias}\.(\w+)", text)
            found |= {(below, module.replace(".", "/"), it) for it in named_here if alias or re.search(rf"(?<![\w.']){it}(?![\w'])", text)}
            continue
        ours = "|".join(re.escape(it.split(" as ")[-1].strip()) for it in parts.split(",")) if parts else rf"{alias}(?=\.)"
        if re.search(rf"(?<![\w.'])(?:{ours})(?![\w'])", text):
            found.add((below, module.replace(".", "/"), named))
    return found


def owner_or_none(known: Definitions, name: str) -> "str | None":
    """The record or data type one of whose parts a name is, if one is."""
    return next((other for other, text in known.texts.items() if re.search(rf"^  (?:pub )?{re.escape(name)} :", text, re.M)), None)


def owner_of(known: Definitions, name: str) -> str:
    """The record or data type one of whose parts a name is."""
    owner = owner_or_none(known, name)
    if not owner:
        raise SystemExit(f"{os.path.relpath(known.path, TOP)} has no {name}")
    return owner


@functools.cache
def unfolds_to(crate: str, file: str, name: str) -> frozenset[tuple[str, str, str]]:
    """The definitions that the text of one names, or where the name stands that a file imports or that is a part of a record."""
    known = definitions(crate, file)
    if name not in known.texts:
        return frozenset({known.uses[name] if name in known.uses else (crate, file, owner_of(known, name))})
    return names_in(crate, file, name, known.texts[name])


def names_in(crate: str, file: str, name: str, text: str) -> frozenset[tuple[str, str, str]]:
    """The definitions that a text names, of the definition of this name in a file."""
    known, found = definitions(crate, file), Found()
    for word in set(WORD.findall(text)):
        if word in known.texts and word != name:
            found.add((crate, file, word))
        elif word in known.uses:
            found.add(known.uses[word])
    for module, member in re.findall(r"\b(\w+)\.(\w+)", text):
        if module in known.modules:
            found.add((*known.modules[module], member))
    return frozenset(found)


def closure(roots: Iterable[tuple[str, str, str]]) -> Found:
    """Each definition that some definitions unfold to, and these, as crate, file and name."""
    seen, waiting = Found(), list(roots)
    while waiting:
        it = waiting.pop()
        if it not in seen:
            seen.add(it)
            waiting.extend(unfolds_to(*it))
    return {it for it in seen if it[2] in definitions(it[0], it[1]).texts}
