#!/usr/bin/env python3
"""try_edits.py [--gate] [--anew] [NAME..]: tries wrong bodies of all crates, or of these. The prover must refuse each.

With --gate they are those of tests/edits/NAME/gate/, which the gate tries, else all below tests/edits/NAME/. Each is made in a copy of its crate, and
the prover is asked for the functions that it changes. Where it proves these, or an edit changes no function, it is asked for the whole crate. Edits
of a crate that change the bodies of different functions are made in one copy. The prover reports on each function apart, and a body is nothing to the
proof of another. The libraries below are those that the toolchain's gate has left in out/, or else are brought up to date first. A refusal is kept on
this machine, by a sum of all that it rests on, as the toolchain's gate keeps proofs. What an earlier run has seen refused is not tried again, unless
--anew is given.

An edit of functions with Answers is tried without these first. Where it is proved so, it is no wrong body. Where it is refused for its form alone, as
tests/edit_forms.py judges, it is marked FORM. The line before the last counts what is refused for what it means, and for its form alone. The last
line is 'N passed, M failed'.
"""
import collections
import concurrent.futures
import glob
import os
import subprocess
import sys

sys.dont_write_bytecode = True
TOP = os.path.dirname(os.path.dirname(os.path.abspath(__file__)))
sys.path.insert(0, TOP)
from tests.edit_forms import FORM, MEANING, Heard, Looked, has_form, heard, keep_kind, seen_kind
from tests.wrong_bodies import CRATES, BadEdit, Edit, library

# The most that are made in one copy.
MOST = 6


def tried(edits: list[Edit]) -> list[str]:
    """Why those of these edits of one crate are refused that are. What is not refused among others is tried alone."""
    bare = without_answers(edits)
    refused, lines = list[Edit](), list[str]()
    if len(edits) > 1 or bare:
        try:
            with Heard(edits) as copy:
                refused, lines = copy.refused(), copy.lines
        except (BadEdit, OSError):
            pass
    return [kind for edit in edits if (kind := kind_of(edit, bare, lines if edit in refused else None))]


def without_answers(edits: list[Edit]) -> Looked | None:
    """What is left open of edits without Answers; nothing where none has any, or where it can't be seen."""
    try:
        return Looked(edits) if any(map(has_form, edits)) else None
    except (BadEdit, OSError):
        return None


def kind_of(edit: Edit, bare: Looked | None, lines: list[str] | None) -> str | None:
    """Why an edit is refused, if it is. The lines are what the prover said of it among others, where it was refused there."""
    if bare and bare.is_proved(edit):
        edit.tell("NOT REFUSED: it is proved without its Answers, so it means the same")
        return None
    if lines is not None:
        edit.tell(f"refused at {','.join(edit.names())}")
        edit.keep()
    elif not edit.tried():
        return None
    if not has_form(edit):
        return MEANING
    said = heard(edit) if bare and lines is None else lines
    kind = bare.kind(edit, said) if bare and said else FORM
    if bare and said:
        keep_kind(edit, kind)
    return tell_kind(edit, kind)


def tell_kind(edit: Edit, kind: str) -> str:
    if kind == FORM:
        edit.tell("FORM: it is refused for its form alone: nothing is left open that the unchanged body has proved without Answers")
    return kind


def groups(edits: list[Edit]) -> list[list[Edit]]:
    """The edits in groups that can stand in one copy: of one crate, each of other functions than the others."""
    made: list[list[Edit]] = []
    for edit in edits:
        fits = (it for it in made if edit.is_of_bodies() and len(it) < MOST and all(can_stand_beside(edit, other) for other in it))
        group = next(fits, None)
        if group is None:
            made.append([edit])
        else:
            group.append(edit)
    return made


def can_stand_beside(edit: Edit, other: Edit) -> bool:
    return edit.crate == other.crate and other.is_of_bodies() and not any(a.endswith(b) or b.endswith(a) for a in edit.names() for b in other.names())


def are_left(names: list[str], just_now: bool) -> bool:
    """Whether the libraries are those that the toolchain's gate left, of the sources as they are: they have no stamp. It leaves one that an earlier
    run of it made as old as that, so age says nothing where it has run just now."""
    for name in names:
        made = f"{library(name)}/format"
        if os.path.exists(f"{TOP}/crates/{name}/out/rlib/stamp") or not os.path.exists(made):
            return False
        if not just_now and any(os.path.getmtime(it) > os.path.getmtime(made) for it in CRATES.files(name)):
            return False
    return True


def bring_up_to_date(names: list[str]) -> bool:
    """Builds the libraries that these crates stand on. Returns whether all are proved."""
    for name in names:
        folder = f"{TOP}/crates/{name}"
        built = subprocess.run(["rt", "lib"], cwd=folder, stdin=subprocess.DEVNULL, stdout=subprocess.PIPE, stderr=subprocess.STDOUT, text=True)
        if built.returncode:
            print(f"try_edits: {name} is not proved", built.stdout[-900:], sep="\n", file=sys.stderr)
            return False
    return True


def main(words: list[str]) -> int:
    options = [it for it in words if it.startswith("-")]
    if not set(options) <= {"--gate", "--anew"}:
        print(__doc__)
        return 0 if set(options) <= {"-h", "--help"} else 2
    folder = "gate/" if "--gate" in words else "**/"
    names = [it for it in words if it not in options] or sorted(os.listdir(f"{TOP}/tests/edits"))
    unknown = [it for it in names if it not in CRATES.names or not os.path.isdir(f"{TOP}/tests/edits/{it}")]
    if unknown:
        print(f"try_edits: no folder tests/edits/{unknown[0]}", file=sys.stderr)
        return 2
    edits = [Edit(it) for name in names for it in sorted(glob.glob(f"{TOP}/tests/edits/{name}/{folder}*.edit", recursive=True))]
    seen = [it for it in edits if "--anew" not in words and not it.fault and os.path.exists(it.kept()) and seen_kind(it)]
    kinds = collections.Counter[str]()
    for edit in seen:
        edit.tell("refused, as an earlier run on this machine has seen of the same files")
        kinds[tell_kind(edit, seen_kind(edit) or FORM)] += 1
    edits = [it for it in edits if it not in seen]
    below = [it for it in CRATES.names if any(it in CRATES.below(name) for name in {edit.crate for edit in edits})]
    if not are_left(below, "--gate" in words) and not bring_up_to_date(below):
        return 2
    os.nice(10)  # what is timed beside the provers comes first
    edits.sort(key=lambda it: -CRATES.names.index(it.crate))
    with concurrent.futures.ThreadPoolExecutor(len(os.sched_getaffinity(0))) as lanes:
        kinds.update(kind for found in lanes.map(tried, groups(edits)) for kind in found)
    passed = kinds.total()
    print(f"by kind: meaning {kinds[MEANING]}, form {kinds[FORM]}")
    print(f"{passed} passed, {len(seen) + len(edits) - passed} failed")
    return 0 if passed == len(seen) + len(edits) else 1


if __name__ == "__main__":
    sys.exit(main(sys.argv[1:]))
