"""Whether a wrong body is refused for what it means, or for its form alone. The Answers of a function name the goals of the body that they were written
for. So an edit of equal meaning may be refused just because its body has other goals, and a refusal alone proves little.

Each edit of a function with Answers is tried without these, where the prover searches for all proofs by itself. Where it then proves the body, the
edit is no wrong one. The unchanged body is tried so too, once for all of its edits. An edit is refused for what it means in four cases:

- Its functions have no Answers.
- An answer shows numbers at which its goal fails, as `omega` does.
- Without Answers a goal is left open that is none of those left open of the unchanged body, and with them no answer names what isn't there.
- It brings Answers of its own (a change of a file below proofs/, with the line `function: NAME`). Each is accepted, and a goal stays open beside them.

Every other edit is refused for its form alone, as far as this shows. What was seen is kept on this machine beside the refusals, by a sum of the same
and of this file. So the refusals that are kept stay as they are where this file changes.
"""
import os
import re
import threading

from build.sums import sum_of
from tests.wrong_bodies import CRATES, KEPT, TOP, BadEdit, Copy, Edit, is_among, is_refusal

# Where the prover's search ended: the function, and the goals that are left open.
OPEN = re.compile(r"fn (\S+): (?:not proved|no proof)(?!.* it calls )(?:.*`search` did not prove (.*))?")
# Of a function that calls one which isn't proved it doesn't say more.
CALLS = re.compile(r"fn (\S+): (?:not proved|no proof).* it calls ")
# What it says of a file of proofs: the function's folder, and why it is refused.
PROOF = re.compile(r"(?:\./)?proofs/(\S+)/\w+\.antt:\d+:\d+: error: (.*)")
# Where an answer names a goal, or a part of one, that the body doesn't have.
GONE = re.compile(r"can be named from here|is not in scope|has no field")
# Where an answer shows that its goal is false of some numbers.
NUMBERS = re.compile(r"the goal fails, at ")
# Where it is kept what was seen.
SEEN = f"{os.path.dirname(KEPT)}/forms"
MEANING, FORM = "meaning", "form"
# Of each crate one lane at a time looks at the unchanged bodies, so that no body is looked at twice.
LOCKS = dict[str, threading.Lock]()


class Heard(Copy):
    """A copy that keeps what the prover last said of it."""

    def __enter__(self) -> "Heard":
        super().__enter__()
        self.lines = list[str]()
        return self

    def asked(self, only: list[str]) -> tuple[int, list[str]]:
        status, self.lines = super().asked(only)
        return status, self.lines


class Bare(Heard):
    """A copy of a crate with edits in it, or with none, and without the Answers of some functions."""

    def __init__(self, crate: str, edits: list[Edit], functions: list[str]) -> None:
        if edits:
            super().__init__(edits)
        else:
            self.edits, self.crate, self.texts = [], crate, {}
        self.functions = functions

    def __enter__(self) -> "Bare":
        super().__enter__()
        for path in answers(self.crate, self.functions):
            os.remove(f"{self.room}/{path}")
        return self

    def open_goals(self) -> tuple[set[str], set[str]]:
        """The goals of the functions that the prover leaves open, each after the name of its function, and the functions of which that isn't known."""
        status, lines = self.asked(self.functions)
        if status and not is_refusal(status, lines[-1], True):
            raise BadEdit(f"the prover ended with status {status} without Answers: {lines[-1][:200]}")
        found = [it for it in map(OPEN.match, lines) if it and is_among(it[1], self.functions)]
        opened = {f"{it[1]} {goal}" for it in found for goal in re.findall("`([^`]+)`", it[2] or "") or [""]}
        return opened, {it[1] for it in map(CALLS.match, lines) if it}


def answers(crate: str, functions: list[str]) -> list[str]:
    """The files of a crate with the Answers of these functions."""
    room = f"{TOP}/crates/{crate}"
    paths = [os.path.relpath(it, room) for it in CRATES.files(crate, ("proofs",)) if it.endswith("/Answers.antt")]
    return [it for it in paths if is_among(function_of(os.path.dirname(it).partition("/")[2]), functions)]


def function_of(folder: str) -> str:
    """The function whose proofs a folder below proofs/ has. (That of functions that call each other begins with a plus sign.)"""
    return folder.replace("/", "::").replace("+", "")


def brings_answers(edit: Edit) -> bool:
    return any(file.startswith("proofs/") for file, _, _ in edit.changes)


def has_form(edit: Edit) -> bool:
    """Whether the edit may be refused for its form alone, so that it must be looked at."""
    return not edit.fault and (brings_answers(edit) or bool(answers(edit.crate, edit.names())))


class Looked:
    """Edits of one crate that can stand in one copy, and what is left open without the Answers of their functions."""

    def __init__(self, edits: list[Edit]) -> None:
        self.edits = [it for it in edits if has_form(it) and not brings_answers(it)]
        self.crate, functions = edits[0].crate, sorted({name for it in self.edits for name in it.names()})
        self.edited = goals(self.crate, self.edits, functions)
        self.unchanged = unchanged_goals(self.crate, functions) if self.edited else set[str]()

    def is_proved(self, edit: Edit) -> bool:
        """Whether the prover proves the edit's functions, and its crate, without their Answers. Then it is no wrong body."""
        ways: list[list[str]] = [edit.names(), []]
        return edit in self.edits and not of_functions(self.edited, edit.names()) and all(self.proves(edit, only) for only in ways)

    def proves(self, edit: Edit, only: list[str]) -> bool:
        """Whether the prover proves the crate, or those of its functions, where the edit stands alone and its functions have no Answers."""
        try:
            with Bare(self.crate, [edit], edit.names()) as copy:
                return not copy.is_refused(only)[0]
        except (BadEdit, OSError):
            return False

    def kind(self, edit: Edit, lines: list[str]) -> str:
        """Why an edit is refused, of which the prover said this where its Answers stood there."""
        why = [it[2] for it in map(PROOF.match, lines) if it and is_among(function_of(it[1]), edit.names())]
        if not has_form(edit) or any(map(NUMBERS.search, why)):
            return MEANING
        if brings_answers(edit):
            return FORM if why else MEANING
        others = of_functions(self.edited - self.unchanged, edit.names())
        return MEANING if others and not any(map(GONE.search, why)) else FORM


def of_functions(found: set[str], functions: list[str]) -> set[str]:
    """Those of goals that are of these functions."""
    return {it for it in found if is_among(it.partition(" ")[0], functions)}


def goals(crate: str, edits: list[Edit], functions: list[str]) -> set[str]:
    """What is left open without the Answers of these functions. One that calls another of them is looked at alone."""
    if not functions:
        return set()
    with Bare(crate, edits, functions) as copy:
        found, unknown = copy.open_goals()
    for name in functions if len(functions) > 1 else []:
        if any(is_among(it, [name]) for it in unknown):
            found |= goals(crate, [it for it in edits if name in it.names()], [name])
    return found


def unchanged_goals(crate: str, functions: list[str]) -> set[str]:
    """What is left open of unchanged bodies, as it was seen, or is seen now of those that are left."""
    with LOCKS.setdefault(crate, threading.Lock()):
        known = {it: read(seen_as(crate, [it], [])) for it in functions}
        found = goals(crate, [], [it for it in functions if known[it] is None])
        for it in functions:
            own = known[it]
            if own is None:
                write(seen_as(crate, [it], []), "\n".join(sorted(of_functions(found, [it]))))
            else:
                found |= {*own.split("\n")} - {""}
    return found


def heard(edit: Edit) -> list[str]:
    """What the prover says of an edit alone, with its Answers; nothing where it breaks off."""
    try:
        with Heard([edit]) as copy:
            return copy.asked(edit.names())[1]
    except (BadEdit, OSError):
        return []


def seen_as(crate: str, functions: list[str], files: list[str]) -> str:
    """The file that keeps what was seen: of an edit its kind, of unchanged bodies the goals that are left open."""
    return f"{SEEN}/{sum_of('refusal', TOP, ['form', CRATES.sum(crate), *functions], [*files, f'{TOP}/tests/edit_forms.py'])}"


def seen_kind(edit: Edit) -> str | None:
    """Why an edit is refused, as an earlier run on this machine has seen, or as can be known without one."""
    if not has_form(edit):
        return MEANING
    kind = read(seen_as(edit.crate, edit.names(), [edit.path]))
    return kind if kind in (MEANING, FORM) else None


def keep_kind(edit: Edit, kind: str) -> None:
    write(seen_as(edit.crate, edit.names(), [edit.path]), kind)


def read(path: str) -> str | None:
    try:
        with open(path, encoding="utf-8") as text:
            return text.read()
    except OSError:
        return None


def write(path: str, text: str) -> None:
    try:
        os.makedirs(SEEN, exist_ok=True)
        with open(path, "w", encoding="utf-8") as kept:
            kept.write(text)
    except OSError:
        pass  # it is looked at again then
