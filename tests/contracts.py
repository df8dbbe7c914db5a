"""The public clauses of the sources, and the definitions that they cite."""
import functools
import os
import re

from tests.rattle_sources import OF_DEFINITIONS, TOP, Source, crate_of, crates, files_of, source

Cited = set[tuple[str, str, str]]


@functools.cache
def shown(crate: str) -> tuple[frozenset[str], frozenset[str]]:
    """The names that a crate's root shows, and the modules that it shows whole."""
    root = f"{TOP}/crates/{crate}/src/lib.rt"
    text = source(root).code if os.path.isfile(root) else ""
    names = {it.strip() for names in re.findall(r"pub use [\w:]+?(?:::)(?:\{([^}]*)\}|(?:\w+));", text) for it in names.split(",")}
    names |= set(re.findall(r"pub use [\w:]*::(\w+);", text))
    return frozenset(names), frozenset(re.findall(r"pub mod (\w+);", text))


def clauses(file: Source, names: "set[str] | frozenset[str]", is_whole: bool, has_views: bool) -> str:
    """The public clauses of a source, as one text; with the `impl Model` of its types where these are asked for."""
    found: list[str] = []
    for block in file.blocks:
        if block.owner not in names:
            continue
        if block.trait and (has_views or block.trait != "Model"):
            found += file.promises(block)
        for function in file.functions:
            if block.begin <= function.start < block.end and (function.is_public or block.trait or block.is_trait):
                found += file.contract(function)
    for function in file.functions:
        if not function.indent and function.is_public and (is_whole or function.name in names):
            found += file.contract(function)
    return "\n".join(found)


def cited(file: Source, public: str) -> Cited:
    """The definitions that some clauses of a source cite, each with its crate and module."""
    ours, found = set(crates()), set()
    for below, module, imported, alias in OF_DEFINITIONS.findall(file.code):
        if below not in ours or module.startswith(("declared", "contracts")):
            continue
        if alias:
            found |= {(below, module, it) for it in re.findall(rf"\b{alias}\.(\w+)", public)}
            continue
        for part in imported.split(","):
            # a clause cites what is imported as `theirs as ours` by the second name
            theirs, _, shown_as = part.strip().partition(" as ")
            if re.search(rf"(?<![\w.']){re.escape(shown_as or theirs)}(?![\w'])", public):
                found.add((below, module, theirs))
    return found


def all_cited() -> Cited:
    """The definitions that the public clauses of all crates cite."""
    found: Cited = set()
    for path in files_of("*"):
        names, whole = shown(crate_of(path))
        file = source(path)
        found |= cited(file, clauses(file, names, os.path.basename(path)[:-3] in whole, True))
    return found
