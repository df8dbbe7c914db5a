"""Which functions the program reaches, and the laws that speak of contracts of others: such a law says nothing of what the program does. These are
looked for in all crates but those of tests, of benchmarks and of libraries that no command calls yet.
"""
import os
import re
from typing import Iterable, Iterator

from build.crates import Crates
from tests.contracts import Cited, cited
from tests.definitions import Found, closure
from tests.rattle_sources import APART, Function, Source, crate_of, files_of, source

Place = tuple[str, Function, Source]
# Laws over what no call of the program promises, by crate and name, with why they stand.
STEPS = {
    ("image_kind", "whole_files"): "a law of the library: who calls `parts_of` gets all bytes of a file",
    ("script_commands", "unchanged_files"): "a step of `quiet_tasks`, which has it of a run whose image is opened first, and tried again while it is busy",
}
# Crates that no command calls yet, so that their laws say nothing of what the program does.
LIBRARIES = {
    "debug_lines": "no command reads a debugger's lines yet",
    "history8": "no command goes back in a machine's history yet",
    "pointer_flow": "no command follows pointers yet",
    "pointer_notes": "no command follows pointers yet",
}


def is_law(path: str) -> bool:
    """Whether a file is one of laws."""
    return os.path.basename(path).endswith("laws.rt") or crate_of(path).endswith("_laws")


class Program:
    """The functions of all crates, and those that the program reaches."""

    def __init__(self, top: str = "pdp8") -> None:
        self.crates = Crates()
        self.below: dict[str, set[str]] = {}
        self.program = self.stands_on(top)
        all_crates = [it for it in self.crates.names if not APART.search(it)]
        self.functions = [(crate, it, source(path)) for crate in all_crates for path in files_of(crate) for it in source(path).functions]
        self.named: dict[str, list[int]] = {}
        for number, (_, function, _) in enumerate(self.functions):
            self.named.setdefault(function.name, []).append(number)
        self.reached = self.reach(number for number, place in enumerate(self.functions) if self.is_root(place, top))

    def stands_on(self, crate: str) -> set[str]:
        """A crate, and all on which it stands."""
        if crate not in self.below:
            self.below[crate] = {crate}.union(*(self.stands_on(it) for it in self.crates.own[crate]))
        return self.below[crate]

    def is_root(self, place: Place, top: str) -> bool:
        """What the program has of its own, and what a trait asks for, is called from anywhere."""
        crate, function, file = place
        block = file.block_at(function.start)
        return crate == top or crate in self.program and bool(block and (block.trait or block.is_trait))

    def words(self, place: Place) -> set[str]:
        """The words of a function, but for those of its clauses."""
        _, function, file = place
        text, at = "", function.start
        for clause in function.clauses:
            text, at = text + file.mask[at : clause.start], clause.end
        return set(re.findall(r"\w+", text + file.mask[at : function.end]))

    def reach(self, roots: Iterable[int]) -> set[int]:
        """The functions that some reach: each whose name one of them has, in its crate or below."""
        seen, waiting = set[int](), list(roots)
        while waiting:
            number = waiting.pop()
            if number in seen:
                continue
            seen.add(number)
            below = self.stands_on(self.functions[number][0])
            for word in self.words(self.functions[number]) & self.named.keys():
                waiting.extend(it for it in self.named[word] if it not in seen and self.functions[it][0] in below)
        return seen

    def cited(self, places: Iterable[Place]) -> Cited:
        """The definitions that the clauses of some functions cite."""
        found: Cited = set()
        for _, function, file in places:
            found |= {(crate, module.replace(".", "/"), name) for crate, module, name in cited(file, "\n".join(file.contract(function)))}
        return found

    def unreached(self) -> Found:
        """The definitions that contracts of public functions unfold to which the program doesn't reach, and no contract of what it reaches."""
        plain = [(number, it) for number, it in enumerate(self.functions) if not is_law(it[2].path)]
        lost = closure(self.cited(it for number, it in plain if number not in self.reached and it[1].is_public))
        return lost - closure(self.cited(it for number, it in plain if number in self.reached)) if lost else lost


def idle_laws() -> Iterator[str]:
    """The laws that unfold to contracts which the program doesn't reach, but for `STEPS` and `LIBRARIES`; and what of these isn't so."""
    program = Program()
    lost, found = program.unreached(), dict[tuple[str, str], str]()
    for place in program.functions:
        crate, function, file = place
        if is_law(file.path) and function.is_public:
            for _, _, name in sorted(closure(program.cited([place])) & lost):
                found[crate, function.name] = name
    for law in sorted(found.keys() - STEPS.keys()):
        if law[0] not in LIBRARIES:
            yield f"the law {law[1]} of {law[0]} speaks of {found[law]}, which no call of the program promises"
    for law in sorted(STEPS.keys() - found.keys()):
        yield f"tests/reached.py lists {law[1]} of {law[0]}, which speaks of what the program does"
    for crate in sorted(LIBRARIES.keys() & program.program):
        yield f"tests/reached.py lists {crate} as a library, and the program stands on it"
