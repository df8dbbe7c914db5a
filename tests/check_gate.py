#!/usr/bin/env python3
"""check_gate.py [NAME..]: the gate runs every check of tests/, and fails where a part of it does. Each executable file of tests/ and of its folders is a part
of `./check` and of `./check quick`, except those that are listed here with their reasons. The parts that run the program do so with every build of
it. docs/CONTRIBUTING.md names each part. A part fails the gate where it can't start, ends with no count, counts nothing, or ends with another status
than its last line says. Then `./check`, `./check quick` and `.ci/run` are run as they stand, with a stand-in for each part and for `rt ci`: parts that
fail or count otherwise than their rows, an `rt ci` that fails, breaks off or ends by a signal, and sources that change meanwhile. The program counts
as proved only where it should. NAME takes `listed`, `by_builds`, `strict`, or of the runs those whose names have it. The last line is 'N passed, M
failed'.
"""
import concurrent.futures
import contextlib
import glob
import io
import itertools
import os
import sys
from typing import Callable, Iterator

TOP = os.path.dirname(os.path.dirname(os.path.abspath(__file__)))
sys.path.insert(0, TOP)
from tests import gate
from tests.stand_in_gate import PASSES, StandInGate
from tests.stand_ins import Result, report, results

# What no gate runs by itself, and why.
APART = {
    "tests/run": "it is a shorter name for tests/run_sessions.py",
    "tests/defects/program": "it stands for the program where the runner of sessions is tried",
    "tests/gate.py": "it is the gate",
    "tests/page/run_sessions.py": "tests/page/check_page.sh runs it",
    "tests/page/try_faults.py": "tests/page/check_page.sh runs it",
    "tests/calls/try_faults.py": "it builds the program for each fault; ./check edits calls runs it",
}
# What `./check quick` leaves out, and why.
NOT_QUICK = {
    "tests/try_edits.py": "it asks the prover",
    "tests/check_install.py": "it lays the proved program",
    "tests/check_release.py": "it packs the proved program",
    "tests/model/compare_pal8_statements.py": "its program is built by rt ci",
    "tests/model/compare_pal8_sources.py": "its program is built by rt ci",
    "tests/model/check_pointers.py": "its program is built by rt ci",
    "tests/model/check_history.py": "its program is built by rt ci",
}
# What `./check` leaves out, and why.
QUICK_ALONE: dict[str, str] = {}
# The builds of the program that `./check` tries, and the one of `./check quick`.
PROGRAMS = ["crates/pdp8/out/pdp8", "crates/pdp8/out/pdp8.by-rattle"]
UNPROVED = "target/unproved/pdp8/pdp8"
# Parts, as the shell's words, and how much of each the gate counts as passed and failed.
PARTS = {
    "echo '3 passed, 0 failed'": (3, 0),
    "echo '3 passed, 2 failed'; exit 1": (3, 2),
    "echo '3 passed, 0 failed'; exit 1": (3, 1),
    "echo '3 passed, 2 failed'": (3, 2),
    "echo '0 passed, 0 failed'": (0, 1),
    "echo '0 passed, 0 failed'; exit 1": (0, 1),
    "echo 'all is well'": (0, 1),
    "echo '3 passed, 0 failed'; echo": (0, 1),
    "echo '3 passed, 0 failed'; kill -9 $$": (3, 1),
    "echo 'well: 3 passed, 0 failed'": (0, 1),
    "true": (0, 1),
}


def checks() -> list[str]:
    """The executable files of tests/ and of its folders."""
    found = [it for part in ("tests/*", "tests/*/*") for it in glob.glob(f"{TOP}/{part}") if os.path.isfile(it) and os.access(it, os.X_OK)]
    return sorted(os.path.relpath(it, TOP) for it in found)


def listed() -> Iterator[Result]:
    """What is to be so of the lists of parts, each with whether it is."""
    whole, quick = ([words for group in gate.parts(is_quick) for words in group] for is_quick in (False, True))
    with open(f"{TOP}/docs/CONTRIBUTING.md", encoding="utf-8") as text:
        page = text.read()
    for check in checks():
        if check in APART:
            continue
        yield f"./check runs {check}", check in QUICK_ALONE or any(words[0] == check for words in whole)
        yield f"./check quick runs {check}", check in NOT_QUICK or any(words[0] == check for words in quick)
        yield f"docs/CONTRIBUTING.md names {check}", check in page
    for words in {tuple(words) for words in (*whole, *quick)} - {("rt", "ci")}:
        yield f"there is a check {words[0]}", words[0] in checks()
    yield "./check runs rt ci", ("rt", "ci") in whole
    yield "./check runs the sessions with the build with checks", ("tests/run_sessions.py", "--unproved") in whole
    yield "no list names a check that is not there", {*APART, *NOT_QUICK, *QUICK_ALONE} <= {*checks()}


def by_builds() -> Iterator[Result]:
    """Whether each part that runs the program runs each build of it."""
    whole, quick = ([words for group in gate.parts(is_quick) for words in group] for is_quick in (False, True))
    for program, words in [*((it, whole) for it in PROGRAMS), (UNPROVED, quick)]:
        ran = sorted(it[0] for it in words if program in it)
        wanted = sorted(it[0] for it in [*gate.RUNS, ("tests/memory/check_refused_growths.py",)])
        yield f"{program} is run by {', '.join(wanted)}", ran == wanted and len(wanted) >= 9


def strict() -> Iterator[Result]:
    """Whether the gate counts parts as it must."""
    for script, wanted in PARTS.items():
        counted = gate.Part(("sh", "-c", script), 0).run()
        yield f"{script}: {counted} is counted, {wanted} is wanted", counted == wanted
    yield "a part that can't be started fails", gate.Part((f"{TOP}/tests/no-such-check",), 0).run() == (0, 1)
    yield "the gate counts all parts of all groups", gate.run([[("sh", "-c", it) for it in PARTS], [("echo", "3 passed, 0 failed")]]) == [
        sum(passed for passed, _ in PARTS.values()) + 3, sum(failed for _, failed in PARTS.values())
    ]


def named(is_quick: bool) -> list[str]:
    """The parts of the gate with their words, as their stand-ins note them."""
    return sorted(" ".join(words) for group in gate.parts(is_quick) for words in group)


def end_of(passed: int, failed: int, is_quick: bool) -> str:
    return f"{passed} passed, {failed} failed{' (no proofs)' * is_quick}"


def runs_that_pass(room: str) -> Iterator[Result]:
    """Each gate as it is called, where all passes: what it runs, and which program is proved from then on."""
    for number, (call, is_quick) in enumerate(((("check", "quick"), True), (("check",), False), ((".ci/run",), False))):
        copy = StandInGate(f"{room}/{number}", checks())
        ran, parts = copy.run(*call), named(is_quick)
        yield f"./{' '.join(call)} runs just its parts: {sorted({*ran.parts} ^ {*parts})}", ran.parts == parts
        yield f"./{' '.join(call)} passes: {ran.last}", ran.status == 0 and ran.last == end_of(len(parts) + (not is_quick), 0, is_quick)
        yield f"after ./{' '.join(call)} the program counts as proved or not", copy.is_proved() != is_quick
        yield f"./{' '.join(call)} has CI set or not", os.path.exists(f"{copy.room}/in-ci") == (call[0] == ".ci/run")


def runs_that_fail(room: str) -> Iterator[Result]:
    """Each gate as it is called, where each part fails, and where just one does, in each way."""
    for call, is_quick in ((("check", "quick"), True), (("check",), False), ((".ci/run",), False)):
        copy, parts = StandInGate(f"{room}/{call[0]}{is_quick}", checks()), named(is_quick)
        copy.every_ends("echo '0 passed, 1 failed'; exit 1\n")
        ran = copy.run(*call)
        others = len(parts) - (not is_quick)  # of the whole gate, all but `rt ci`
        yield f"./{' '.join(call)} counts each part that fails: {ran.last}", ran.status == 1 and ran.last == end_of(2 * (not is_quick), others, is_quick)
    ways = ("echo '0 passed, 1 failed'; exit 1\n", "echo '1 passed, 0 failed'; exit 1\n", "echo '1 passed, 1 failed'; exit 0\n", "exit 0\n", "kill -9 $$\n")
    calls: list[tuple[str, tuple[str, ...], str]] = [(way, ("check", "quick"), "tests/run_sessions.py") for way in ways]
    calls += [(ways[0], ("check",), "tests/try_edits.py"), (ways[0], (".ci/run",), "tests/check_links.py")]
    for number, (way, call, part) in enumerate(calls):
        copy = StandInGate(f"{room}/one{number}", checks())
        copy.ends(part, way)
        ran = copy.run(*call)
        yield f"./{' '.join(call)} fails where {part} ends by {way!r}: {ran.last}", ran.status == 1 and " 0 failed" not in ran.last
        yield f"and names it, {way!r}", f"gate: {part}" in ran.printed and "failed:\n" in ran.printed


def runs_that_miscount(room: str) -> Iterator[Result]:
    """Each gate as it is called, where a part passes with another count than its row of tests/counts.txt has, or with another kind, or has no row."""
    for number, (call, is_quick) in enumerate(((("check", "quick"), True), (("check",), False), ((".ci/run",), False))):
        copy, rows = StandInGate(f"{room}/{number}", checks()), named(is_quick)
        row = next(it for it in rows if it.startswith("tests/model/compare_scripts.py "))
        copy.ends("tests/model/compare_scripts.py", "echo '2 passed, 0 failed'; exit 0\n")
        ran, programs = copy.run(*call), len(PROGRAMS) if not is_quick else 1
        wanted = end_of(len(rows) + (not is_quick) + programs, programs, is_quick)
        yield f"./{' '.join(call)} fails where a part counts more than its row has: {ran.last}", (ran.status, ran.last) == (1, wanted)
        yield f"./{' '.join(call)} says which", f"gate: {row}: all are 2, and 1 in tests/counts.txt\n" in ran.printed
        copy.ends("tests/model/compare_scripts.py", "")
        copy.loses_row(row)
        ran = copy.run(*call)
        yield f"./{' '.join(call)} fails where a part has no row: {ran.last}", (ran.status, ran.last) == (1, end_of(len(rows) + (not is_quick), 1, is_quick))


DEEP = "echo '// changed' >>crates/low/src/deep/deeper/more.rt"
# How `rt ci` ends: with what, whether the gate passes, whether the program counts as proved from then on, and how often it is called.
RT_CI_ENDS: list[tuple[str, str, bool, bool, int]] = [
    ("fails", "echo '1 passed, 1 failed'; exit 1\n", False, False, 1),
    ("ends with a status that its last line does not have", "echo '2 passed, 0 failed'; exit 1\n", False, False, 1),
    ("counts a failure and ends well", "echo '2 passed, 1 failed'; exit 0\n", False, False, 1),
    ("counts nothing", "echo '0 passed, 0 failed'; exit 0\n", False, False, 1),
    ("is ended by a signal after its last line", "echo '2 passed, 0 failed'; kill -9 $$\n", False, False, 1),
    ("breaks off twice", "exit 1\n", False, False, 2),
    ("breaks off twice with status 0", "exit 0\n", False, False, 2),
    ("is ended by a signal twice", "kill -9 $$\n", False, False, 2),
    ("breaks off once", f'[ -e "$ROOM/again" ] || {{ touch "$ROOM/again"; exit 1; }}\n{PASSES}', True, True, 2),
    ("breaks off and then fails", '[ -e "$ROOM/again" ] || { touch "$ROOM/again"; exit 1; }\necho \'1 passed, 1 failed\'; exit 1\n', False, False, 2),
    ("passes over sources that change meanwhile", f"{DEEP}\n{PASSES}", True, False, 1),
    ("breaks off, and sources change before it passes", f'[ -e "$ROOM/again" ] || {{ touch "$ROOM/again"; {DEEP}; exit 1; }}\n{PASSES}', True, False, 2),
]


def runs_of_rt_ci(room: str) -> Iterator[Result]:
    """The whole gate over each end of the toolchain's own gate."""
    for number, (what, script, is_passed, is_proved, calls) in enumerate(RT_CI_ENDS):
        copy = StandInGate(f"{room}/{number}", checks())
        copy.rt_ends(script)
        ran = copy.run("check")
        yield f"the gate where rt ci {what}: {ran.last}", (ran.status == 0) == is_passed == ran.last.endswith(" 0 failed")
        yield f"the calls of rt ci where it {what}", ran.parts.count("rt ci") == calls
        yield f"whether the program counts as proved where rt ci {what}", copy.is_proved() == is_proved
        yield f"all else is run where rt ci {what}", sorted({*ran.parts}) == sorted({*named(False)})


def runs_of_other_words(room: str) -> Iterator[Result]:
    """What ./check does with other words, and .ci/run where tools are missing."""
    copy = StandInGate(f"{room}/words", checks())
    for words in (("whole",), ("quick", "edits"), ("--quick",)):
        ran = copy.run("check", *words)
        yield f"./check {' '.join(words)} runs nothing", ran.status == 2 and ran.parts == []
    for given, run in ((("edits",), "tests/try_edits.py"), (("edits", "word12"), "tests/try_edits.py word12")):
        ran = copy.run("check", *given)
        yield f"./check {' '.join(given)} runs {run}", ran.status == 0 and ran.parts == [run]
    for kind in ("page", "calls"):
        ran = copy.run("check", "edits", kind, "a", "b")
        yield f"./check edits {kind} tries faults", ran.parts == [f"tests/{kind}/try_faults.py a b"]
    os.remove(f"{copy.path}/mypy")
    ran = copy.run(".ci/run")
    yield "where a tool is missing .ci/run takes its package", ran.status == 0 and [it for it in ran.parts if "apt-get install" in it and "mypy" in it] != []
    yield "and then runs the gate", {*named(False)} <= {*ran.parts}
    copy.every_ends("exit 1\n")
    yield "whose status is its own", copy.run(".ci/run").status == 1
    copy.ends("apt", "")
    with open(f"{copy.room}/apt-get", "w", encoding="utf-8") as status:
        status.write("100")
    ran = copy.run(".ci/run")
    yield "where it can't be had, nothing is run", ran.status == 2 and not {*named(False)} & {*ran.parts}


QUICK: tuple[Callable[[], Iterator[Result]], ...] = (listed, by_builds, strict)
RUNS: tuple[Callable[[str], Iterator[Result]], ...] = (runs_of_rt_ci, runs_that_fail, runs_that_pass, runs_that_miscount, runs_of_other_words)


def main(names: list[str]) -> int:
    def is_asked(work: Callable[..., Iterator[Result]]) -> bool:
        return not names or any(it in work.__name__ for it in names)

    with contextlib.redirect_stdout(io.StringIO()):
        found = [it for work in QUICK if is_asked(work) for it in work()]
    with concurrent.futures.ThreadPoolExecutor(3) as lanes:
        found += itertools.chain.from_iterable(lanes.map(results, filter(is_asked, RUNS)))
    return report("check_gate", found)


if __name__ == "__main__":
    sys.exit(main(sys.argv[1:]))
