#!/usr/bin/env python3
"""check_try_edits.py [NAME..]: what tests/try_edits.py makes of a prover's answers, with a stand-in for the prover over a tree of two crates. A wrong
body counts only where the prover refuses the function that it changes, alone or in one copy with others. It fails where it is proved, where the prover
can't read it, where it breaks off or has too little memory, and where its old text isn't there once. A refusal is kept, and is asked for anew once
anything changes that it rests on. Without the Answers of its functions a body must be refused too, and what is refused for its form alone is marked.
The old texts of the wrong bodies of this tree must be there once. NAME takes the answers whose names have it, those that are `kept`, those of
`copies`, or those of `forms`. The last line is 'N passed, M failed'.
"""
import glob
import os
import shutil
import subprocess
import sys
from typing import Iterator

TOP = os.path.dirname(os.path.dirname(os.path.abspath(__file__)))
sys.path.insert(0, TOP)
from tests.stand_ins import Result, append, report, results, write
from tests.wrong_bodies import Edit

SOURCE = """/// The next number.
pub fn next(n: u8) -> u8
    ensures { result.now ≡ n + 1 }
{
    n + 1
}

/// The number before.
pub fn last(n: u8) -> u8
    ensures { result.now ≡ n - 1 }
{
    n - 1
}

/// Half of the number.
pub fn half(n: u8) -> u8
    ensures { result.now ≡ n / 2 }
{
    n / 2
}

/// The number two times.
pub fn double(n: u8) -> u8
    ensures { result.now ≡ n + n }
{
    let m = n * 2;
    m
}
"""
# What stands for `rattle check`. It notes for which functions it was asked, takes no word that it doesn't know, and answers with what the file of the
# functions' name has: a line that the shell runs at the end, which gives the status, and what it prints. Where Answers of the tree are left out, the
# name ends in `.bare`, or in `.unchanged` where the bodies are those of the tree.
PROVER = """#!/bin/bash
[ "$1" = check ] || exit 3
shift
only=
while [ $# -gt 0 ]; do
    case $1 in
    --crate-name | --extern | -L | --antt-project | --logic-built | --links | --jobs) shift ;;
    --only) only=${only:+$only+}$2; shift ;;
    src/lib.rt) ;;
    *) exit 3 ;;
    esac
    shift
done
mode= low=$ROOM/tree/crates/low
for name in next last; do
    [ ! -e "$low/proofs/$name/Answers.antt" ] || [ -e "proofs/$name/Answers.antt" ] || mode=.bare
done
[ ! "$mode" ] || ! cmp -s src/lib.rt "$low/src/lib.rt" || mode=.unchanged
echo "${only:-all}$mode" >>"$ROOM/log"
answer=$ROOM/answers/${only:-all}$mode
[ -e "$answer" ] || answer=$ROOM/answers/any
tail -n +2 "$answer"
eval "$(head -n 1 "$answer")"
"""
# An answer of the prover: how it ends, and what it prints.
Answer = tuple[str, str]
REFUSES = "fn low::{0}: no proof: expected answers in ./proofs/{0}/Answers.antt; `search` did not prove `returns`\n"
PROVES = "fn low::{0}: proved\n"
REFUSED: Answer = ("exit 1", "src/lib.rt:5:5: error: `next`: the clause is not proved\n" + REFUSES.format("next") + "only=1 proved=0\n")
PROVED: Answer = ("exit 0", PROVES.format("next") + "only=1 proved=1\n")
NEXT = ["file: src/lib.rt", "old:     n + 1", "new:     n + 2"]
LAST = ["file: src/lib.rt", "old:     n - 1", "new:     n - 2"]
HALF = ["file: src/lib.rt", "old:     n / 2", "new:     n / 3"]
GOOD, BAD = "1 passed, 0 failed", "0 passed, 1 failed"
# Edits, each with the prover's answers, by the functions that it is asked for, what must be counted, and what must be printed.
ROWS: list[tuple[str, list[str], dict[str, Answer], str, str]] = [
    ("a refused body", NEXT, {"next": REFUSED}, GOOD, "refused at next: src/lib.rt:5:5"),
    ("a proved body", NEXT, {"any": PROVED}, BAD, "NOT REFUSED"),
    ("a body that the crate refuses", NEXT, {"next": PROVED, "all": ("exit 1", REFUSES.format("half") + "logic=not-proved\n")}, GOOD, "refused"),
    ("a crate that is proved", NEXT, {"next": PROVED, "all": ("exit 0", REFUSES.format("half") + "logic=not-proved\n")}, BAD, "NOT REFUSED"),
    ("a body that can't be read", NEXT, {"any": ("exit 1", "src/lib.rt:5:5: error: `next`: `m` is not in scope\n" + REFUSED[1])}, BAD,
     "BAD EDIT: the prover can't read it"),
    ("a body without sense", NEXT, {"any": ("exit 1", "src/lib.rt:5:5: error: expected a term\n" + REFUSED[1])}, BAD, "BAD EDIT: the prover can't read it"),
    ("a prover that breaks off", NEXT, {"any": ("exit 101", REFUSED[1])}, BAD, "BAD EDIT: the prover ended with status 101"),
    ("a prover that a signal ends", NEXT, {"any": ("kill -9 $$", REFUSED[1])}, BAD, "BAD EDIT: the prover ended with status -9"),
    ("a prover with too little memory", NEXT, {"any": ("exit 1", "the task's values outgrew the memory limit (4GiB)\n" + REFUSED[1])}, BAD,
     "BAD EDIT: the prover had too little memory"),
    ("a refusal with another last line", NEXT, {"any": ("exit 1", REFUSED[1] + "usage: rattle check\n")}, BAD, "BAD EDIT: the prover ended with status 1"),
    ("a refusal that proves all", NEXT, {"any": ("exit 1", REFUSED[1].replace("proved=0", "proved=1"))}, BAD, "BAD EDIT: the prover ended with status 1"),
    ("a refusal of another function", NEXT, {"any": ("exit 1", PROVES.format("next") + REFUSES.format("half") + "only=2 proved=1\n")}, BAD,
     "BAD EDIT: the prover refuses low::half, and not next"),
    ("a refusal of a function with a longer name", NEXT, {"any": ("exit 1", REFUSES.format("the_next") + "only=1 proved=0\n")}, BAD, "and not next"),
    ("a refusal of no function", NEXT, {"any": ("exit 1", "only=1 proved=0\n")}, BAD, "BAD EDIT: the prover refuses no function, and not next"),
    ("a refusal of what it calls", NEXT, {"any": ("exit 1", "fn low::next: no proof: it calls `low::half`, which is not proved\nonly=2 proved=0\n")}, BAD,
     "BAD EDIT: the prover refuses no function, and not next"),
    ("a text that stands there twice", ["file: src/lib.rt", "old: n + 1", "new: n + 2"], {"any": REFUSED}, BAD, "BAD EDIT: an old text is in src/lib.rt 2 times, and not once"),
    ("a text that is not there", ["file: src/lib.rt", "old: n * 1", "new: n"], {"any": REFUSED}, BAD, "an old text is in src/lib.rt 0 times"),
    ("a file that is not there", ["file: src/lost.rt", "old: n", "new: n"], {"any": REFUSED}, BAD, "BAD EDIT"),
    ("no change", ["file: src/lib.rt"], {"any": REFUSED}, BAD, "BAD EDIT: it changes nothing"),
]
TWO, THREE = {"one": NEXT, "two": LAST}, {"one": NEXT, "two": LAST, "three": HALF}


def of_copy(*refused: str, among: tuple[str, ...] = ("last", "next")) -> Answer:
    """The prover's answer on a copy with several wrong bodies, of which it refuses these."""
    lines = [(REFUSES if name in refused else PROVES).format(name) for name in among]
    return (f"exit {min(len(refused), 1)}", "".join(lines) + f"only={len(among)} proved={len(among) - len(refused)}\n")


def alone(name: str, is_refused: bool) -> dict[str, Answer]:
    return {name: of_copy(*[name] * is_refused, among=(name,))}


CLAUSE = ["file: src/lib.rt", "old: n / 2 }", "new: n / 3 }"]
CALLS = "fn low::last: no proof: it calls `low::next`, which is not proved\n"
ALL = ("half", "last", "next")
PAIR = {**alone("next", True), **alone("last", True)}
NONE = {**alone("next", False), **alone("last", False)}
# Edits that stand in one copy, with the prover's answers, what must be counted, and the functions that it must be asked for.
COPIES: list[tuple[str, dict[str, list[str]], dict[str, Answer], str, list[str]]] = [
    ("two refused bodies", TWO, {"last+next": of_copy("next", "last")}, "2 passed, 0 failed", ["last+next"]),
    ("three refused bodies", THREE, {"half+last+next": of_copy(*ALL, among=ALL)}, "3 passed, 0 failed", ["half+last+next"]),
    ("two of three", THREE, {"half+last+next": of_copy("half", "next", among=ALL), **alone("last", False)}, "2 passed, 1 failed", ["half+last+next", "last", "all"]),
    ("one of two", TWO, {"last+next": of_copy("next"), **alone("last", False)}, "1 passed, 1 failed", ["last+next", "last", "all"]),
    ("one of two, and the other alone", TWO, {"last+next": of_copy("next"), **alone("last", True)}, "2 passed, 0 failed", ["last+next", "last"]),
    ("one of two, which the other calls", TWO, {"last+next": ("exit 1", REFUSES.format("next") + CALLS + "only=2 proved=0\n"), **alone("last", False)},
     "1 passed, 1 failed", ["last+next", "last", "all"]),
    ("none of two", TWO, {"last+next": of_copy(), **NONE}, "0 passed, 2 failed", ["all", "all", "last", "last+next", "next"]),
    ("another than the two", TWO, {"last+next": ("exit 1", REFUSES.format("half") + "only=3 proved=2\n"), **NONE}, "0 passed, 2 failed",
     ["all", "all", "last", "last+next", "next"]),
    ("a prover that breaks off on two", TWO, {"last+next": ("exit 101", of_copy("next", "last")[1]), **NONE}, "0 passed, 2 failed",
     ["all", "all", "last", "last+next", "next"]),
    ("a signal on two", TWO, {"last+next": ("kill -9 $$", of_copy("next", "last")[1]), **PAIR}, "2 passed, 0 failed", ["last", "last+next", "next"]),
    ("too little memory for two", TWO, {"last+next": ("exit 1", "the task's values outgrew the memory limit (4GiB)\n" + of_copy("next", "last")[1]), **NONE},
     "0 passed, 2 failed", ["all", "all", "last", "last+next", "next"]),
    ("two with another last line", TWO, {"last+next": ("exit 1", of_copy("next", "last")[1] + "rattle: out of processes\n"), **NONE}, "0 passed, 2 failed",
     ["all", "all", "last", "last+next", "next"]),
    ("one of two that can't be read", TWO, {"last+next": ("exit 1", "src/lib.rt:5:5: error: `next`: `m` is not in scope\n" + of_copy("next", "last")[1]), **PAIR},
     "2 passed, 0 failed", ["last", "last+next", "next"]),
    ("two of one function", {"one": NEXT, "two": [*NEXT[:2], "new:     n + 3"]}, alone("next", True), "2 passed, 0 failed", ["next", "next"]),
    ("two of one function, each at its place", {"one": ["file: src/lib.rt", "old: n * 2", "new: n * 3"], "two": ["file: src/lib.rt", "old:     m", "new:     n"]},
     alone("double", True), "2 passed, 0 failed", ["double", "double"]),
    ("a changed clause beside a body", {"one": NEXT, "two": CLAUSE}, {**alone("next", True), **alone("half", True)}, "2 passed, 0 failed", ["half", "next"]),
]


def opens(name: str, *goals: str, why: str = "") -> Answer:
    """The prover's answer on a function of which these goals are left open, after a line that says why."""
    listed = ", ".join(f"`{it}`" for it in goals)
    return ("exit 1", f"{why}fn low::{name}: no proof: expected answers in ./proofs/{name}/Answers.antt; `search` did not prove {listed}\nonly=1 proved=0\n")


def refuses(why: str, name: str = "next") -> Answer:
    """The prover's answer on a function of which an answer is refused for this."""
    return ("exit 1", f"./proofs/{name}/Answers.antt:1:5: error: `returns`: {why}\nfn low::{name}: not proved\nonly=1 proved=0\n")


MISMATCH, LACKS = "the answer has another type", "`goal.returns`: module `Goals` has no `returns` that can be named from here"
FAILS = "`omega`: the goal does not follow from what it read. All of that holds, and the goal fails, at `n` = 3"
ONE_OPEN, TWO_OPEN, NEW_OPEN = opens("next", "returns"), opens("next", "returns", "sum-range"), opens("next", "returns-in-Some")
REST = {"next.unchanged": ONE_OPEN, "all": PROVED, "all.bare": ("exit 0", REFUSES.format("half") + "logic=not-proved\n")}
OWN = [*NEXT, "file: proofs/next/Answers.antt", "old: returns c = arith", "new: returns c = more", "function: next"]
MEANS, FORMS = "by kind: meaning 1, form 0", "by kind: meaning 0, form 1"
LOOKED = ["next", "next.bare", "next.unchanged"]
CALLING = ("exit 1", f"{ONE_OPEN[1].splitlines()[0]}\n{CALLS}only=2 proved=0\n")
# Edits of a function with Answers, with the prover's answers, what must be counted and printed, and the functions that it must be asked for.
ANSWERED: list[tuple[str, dict[str, list[str]], dict[str, Answer], str, str, list[str]]] = [
    ("another open goal", {"one": NEXT}, {"next": refuses(MISMATCH), "next.bare": TWO_OPEN}, GOOD, MEANS, LOOKED),
    ("the same open goal", {"one": NEXT}, {"next": refuses(MISMATCH), "next.bare": ONE_OPEN}, GOOD, FORMS, LOOKED),
    ("fewer open goals", {"one": NEXT}, {"next": refuses(MISMATCH), "next.bare": ONE_OPEN, "next.unchanged": TWO_OPEN}, GOOD, FORMS, LOOKED),
    ("a goal that is gone", {"one": NEXT}, {"next": refuses(LACKS), "next.bare": NEW_OPEN}, GOOD, FORMS, LOOKED),
    ("numbers at which a goal fails", {"one": NEXT}, {"next": refuses(FAILS), "next.bare": ONE_OPEN}, GOOD, MEANS, LOOKED),
    ("an unchanged body that needs no Answers", {"one": NEXT}, {"next": refuses(MISMATCH), "next.bare": ONE_OPEN, "next.unchanged": PROVED}, GOOD, MEANS, LOOKED),
    ("a proof without Answers", {"one": NEXT}, {"next": refuses(LACKS), "next.bare": PROVED}, BAD, "NOT REFUSED: it is proved without its Answers", ["all.bare", "next", "next.bare", "next.bare"]),
    ("a crate that is refused without Answers", {"one": NEXT}, {"next": refuses(LACKS), "next.bare": PROVED, "all.bare": ("exit 1", REFUSES.format("half") + "logic=not-proved\n")},
     GOOD, FORMS, ["all.bare", "next", "next.bare", "next.bare"]),
    ("a prover that breaks off without Answers", {"one": NEXT}, {"next": refuses(MISMATCH), "next.bare": ("exit 101", TWO_OPEN[1])}, GOOD, FORMS, ["next", "next.bare"]),
    ("a proof with Answers", {"one": NEXT}, {"next": PROVED, "next.bare": TWO_OPEN}, BAD, "NOT REFUSED", ["all", "next", "next", "next.bare", "next.unchanged"]),
    ("Answers of its own", {"one": OWN}, {"next": ONE_OPEN}, GOOD, MEANS, ["next"]),
    ("an answer of its own that is refused", {"one": OWN}, {"next": refuses(MISMATCH)}, GOOD, FORMS, ["next"]),
    ("a function without Answers", {"one": LAST}, alone("last", True), GOOD, MEANS, ["last"]),
    ("a function with Answers beside one without", TWO, {"last+next": of_copy("next", "last"), "next": refuses(MISMATCH), "next.bare": ONE_OPEN}, "2 passed, 0 failed", "by kind: meaning 1, form 1", ["last+next", *LOOKED[1:]]),
    ("a function with Answers that calls another", TWO, {"last+next": of_copy("next", "last"), "last+next.bare": CALLING, "last.bare": opens("last", "returns"), "last+next.unchanged": CALLING,
     "last.unchanged": PROVED}, "2 passed, 0 failed", "by kind: meaning 1, form 1", ["last+next", "last+next.bare", "last.bare", "last+next.unchanged", "last.unchanged"]),
    ("two of one function with Answers", {"one": NEXT, "two": [*NEXT[:2], "new:     n + 3"]}, {"next": refuses(FAILS), "next.bare": ONE_OPEN}, "2 passed, 0 failed", "meaning 2, form 0",
     ["next", "next", "next.bare", "next.bare", "next.unchanged"]),
]


class Tree:
    """A tree of two crates, and a toolchain with the stand-in for the prover."""

    def __init__(self, room: str) -> None:
        self.room, self.top = room, f"{room}/tree"
        shutil.copytree(f"{TOP}/build", f"{self.top}/build")
        for file in ("__init__.py", "try_edits.py", "edit_forms.py", "wrong_bodies.py", "rattle_sources.py"):
            os.makedirs(f"{self.top}/tests", exist_ok=True)
            shutil.copy(f"{TOP}/tests/{file}", f"{self.top}/tests/{file}")
        write(f"{self.top}/crates.txt", "below:\nlow: below\n")
        write(f"{self.top}/crates/low/src/lib.rt", SOURCE)
        write(f"{self.top}/crates/below/out/rlib/below.rlib/format", "")
        write(f"{self.top}/crates/below/src/deep/deeper/lib.rt", "")
        os.utime(f"{self.top}/crates/below/src/deep/deeper/lib.rt", (0, 0))
        write(f"{room}/kit/bin/rattle", PROVER)
        write(f"{room}/kit/bin/rt", "exit 2\n")
        write(f"{room}/kit/KIT-ID", "a kit\n")
        self.env = {**os.environ, "ROOM": room, "XDG_CACHE_HOME": f"{room}/cache", "PATH": f"{room}/kit/bin:{os.environ['PATH']}"}

    def has_answers(self, *functions: str) -> None:
        """Gives functions Answers."""
        for name in functions:
            write(f"{self.top}/crates/low/proofs/{name}/Answers.antt", "returns c = arith\n")

    def tries(self, edits: dict[str, list[str]], answers: dict[str, Answer], *words: str) -> tuple[str, str, list[str]]:
        """What is printed and counted of edits with these answers, and what the prover was asked for."""
        shutil.rmtree(f"{self.top}/tests/edits", ignore_errors=True)
        shutil.rmtree(f"{self.room}/answers", ignore_errors=True)
        for name, lines in edits.items():
            write(f"{self.top}/tests/edits/low/gate/{name}.edit", "\n".join(lines) + "\n")
        for only, (end, said) in {"any": PROVED, **answers}.items():
            write(f"{self.room}/answers/{only}", f"{end}\n{said}")
        write(f"{self.room}/log", "")
        ran = subprocess.run([f"{self.top}/tests/try_edits.py", "--gate", *words], env=self.env, stdin=subprocess.DEVNULL, capture_output=True, text=True)
        *said_lines, last = ran.stdout.splitlines() or [""]
        status = f" (status {ran.returncode})" if (ran.returncode == 0) != last.endswith(" 0 failed") else ""
        with open(f"{self.room}/log", encoding="utf-8") as log:
            return "\n".join(said_lines) + ran.stderr, last + status, log.read().split()


def answers_alone(room: str, names: list[str]) -> Iterator[Result]:
    """What becomes of each answer of the prover on one wrong body."""
    rows = [row for row in ROWS if not names or any(it in row[0] for it in names)]
    for number, (what, lines, answers, counted, printed) in enumerate(rows):
        said, last, _ = Tree(f"{room}/{number}").tries({"wrong": lines}, answers)
        yield f"{what}: {counted}, {printed}; it was {last}, {said}", last == counted and printed in said


def answers_together(room: str, names: list[str]) -> Iterator[Result]:
    """What becomes of each answer of the prover on several in one copy, and that just those that are refused are kept."""
    for number, (what, edits, answers, counted, asked) in enumerate(COPIES):
        if names and "copies" not in names and not any(it in what for it in names):
            continue
        tree = Tree(f"{room}/copy{number}")
        said, last, log = tree.tries(edits, answers)
        yield f"{what}: {counted} by asking for {asked}; it was {last} by {log}, {said}", last == counted and sorted(log) == sorted(asked)
        _, again, _ = tree.tries(edits, {})
        yield f"{what}: those are kept, {counted}; they were {again}", again == counted


def answers_without(room: str, names: list[str]) -> Iterator[Result]:
    """What becomes of edits of a function with Answers, and that what was seen of them is kept."""
    for number, (what, edits, answers, counted, printed, asked) in enumerate(ANSWERED):
        if names and "forms" not in names and not any(it in what for it in names):
            continue
        tree = Tree(f"{room}/form{number}")
        tree.has_answers("next", *["last"] * ("last.bare" in answers))
        said, last, log = tree.tries(edits, {**REST, **answers})
        yield f"{what}: {counted}, {printed}, by asking for {asked}; it was {last} by {log}, {said}", last == counted and printed in said and sorted(log) == sorted(asked)
        if counted.endswith(" 0 failed") and "breaks off" not in what:
            again, last, log = tree.tries(edits, {})
            yield f"{what}: it is kept; it was {last} by {log}, {again}", last == counted and not log and (FORMS != printed or "FORM: " in again)
            append(f"{tree.top}/tests/edit_forms.py", "# changed\n")
            _, last, log = tree.tries(edits, {**REST, **answers})
            anew = LOOKED if "last+next" in asked and "last.bare" not in asked else [it for it in asked if it != "last"]
            yield f"{what}: it is looked at again by another judge, by {anew}; it was {log}", last == counted and sorted(log) == sorted(anew)


# What a refusal rests on: the crate's own files and those of the crate below it, of any depth, the list of crates, the toolchain, and what judges.
RESTS_ON = [f"tree/crates/{crate}/{part}" for crate in ("low", "below") for part in ("src/more.rt", "src/deep/deeper/lib.rt", "specs/deep/Words.antt", "proofs/deep/deeper/words.antt")]
RESTS_ON += ["tree/crates/low/src/lib.rt", "kit/KIT-ID", "tree/build/prover.py", "tree/tests/wrong_bodies.py"]


def kept_refusals(room: str) -> Iterator[Result]:
    """That a refusal is kept only for the very files of which it was seen."""
    tree, wrong, refused = Tree(f"{room}/kept"), {"wrong": NEXT}, {"next": REFUSED}

    def tries(*words: str, answers: dict[str, Answer] = {}, edits: dict[str, list[str]] = wrong) -> tuple[str, bool]:
        _, counted, log = tree.tries(edits, answers, *words)
        return counted, bool(log)

    yield "a refusal is seen", tries(answers=refused) == (GOOD, True)
    yield "it is kept", tries() == (GOOD, False)
    yield "--anew tries it again", tries("--anew") == (BAD, True)
    yield "another edit is tried", tries(edits={"wrong": [*NEXT[:2], "new:     n + 3"]}) == (BAD, True)
    yield "one that asks for another function is tried", tries(edits={"wrong": [*NEXT, "function: half"]}) == (BAD, True)
    append(f"{tree.top}/tests/try_edits.py", "# changed\n")
    yield "another change of the tool is none of the refusal's", tries() == (GOOD, False)
    for file in RESTS_ON:
        append(f"{tree.room}/{file}", "# changed\n" if file.endswith(".py") else "// changed\n")
        if "/below/" in file:  # the library is brought up to date
            os.utime(f"{tree.top}/crates/below/out/rlib/below.rlib/format")
        yield f"it is tried again once {file} has changed", tries() == (BAD, True)
        yield f"and is kept of the changed {file}", tries(answers=refused)[1] and not tries(answers=refused)[1]
    append(f"{tree.top}/crates.txt", "low: below clap\n")
    yield "it is tried again once crates.txt has changed", tries() == (BAD, True)


def own_edits() -> Iterator[Result]:
    """That each wrong body of this tree changes what stands there. Most are tried only now and then."""
    for folder in sorted(glob.glob(f"{TOP}/tests/edits/*/")):
        edits = [Edit(it) for it in sorted(glob.glob(f"{folder}**/*.edit", recursive=True))]
        stale = [f"{it.label}: {it.fault}" for it in edits if it.fault]
        yield f"each wrong body of {os.path.basename(folder[:-1])} changes what stands there: {stale}", not stale


def main(names: list[str]) -> int:
    found = [*results(lambda room: answers_alone(room, names)), *results(lambda room: answers_together(room, names))]
    found += results(lambda room: answers_without(room, names))
    found += results(kept_refusals) if not names or "kept" in names else []
    found += [] if names else own_edits()
    return report("check_try_edits", found)


if __name__ == "__main__":
    sys.exit(main(sys.argv[1:]))
