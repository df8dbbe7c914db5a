#!/usr/bin/env python3
"""gate.py [--quick]: the whole gate. It has the quick checks of the documents and sources, the toolchain's own gate (rt ci), the wrong bodies, what
./install lays and what ./release packs. It has every session, the random scripts and the refused growths with the program as each of two compilers
built it. It has the sessions with the program that is built with checks and no proof, and the page in a browser. With --quick it leaves out all that
needs a proof, and runs the rest with the program that is built with checks. It prints at once what it will run and how long that took last time, and
shows how far it is. Then it prints the processor seconds of each crate, and the line 'N passed, M failed' for all of it.

A part fails that can't be started, that ends with no such line, that counts nothing, or whose status is another than its line's. So does one that
counts something else than tests/counts.txt says, that has no row there, or that has one and isn't run.
"""
import collections
import concurrent.futures
import glob
import json
import os
import re
import shutil
import subprocess
import sys
import threading
import time

sys.dont_write_bytecode = True
TOP = os.path.dirname(os.path.dirname(os.path.abspath(__file__)))
sys.path.insert(0, TOP)
from build import seconds as measure
from build.crates import Crates
from build.proved import Wanted
from tests import counts
from tests.processor_seconds import Spent

# The words of a part: its program, and what that is given.
Words = tuple[str, ...]
CRATES = Crates().names
KEPT = f"{TOP}/target/gate.json"
PROVED = [(f"crates/pdp8/out/pdp8{by}", f"crates/short_memory/out/short_memory{by}") for by in ("", ".by-rattle")]
PAL8_STATEMENTS = ("tests/model/compare_pal8_statements.py", "--program", "crates/pal8_bench/out/pal8_bench")
PAL8_SOURCES = ("tests/model/compare_pal8_sources.py", "--program", "crates/pal8_asm_bench/out/pal8_asm_bench")
POINTERS = ("tests/model/check_pointers.py", "--program", "crates/flow_trial/out/flow_trial")
SIMH = ("tests/model/compare_simh.py",)
HOSTS = ("tests/hosts/check_saves.py", "--program", "crates/host_trial/out/host_trial")
HISTORY = ("tests/model/check_history.py", "--program", "crates/history_trial/out/history_trial")
UNPROVED = ("target/unproved/pdp8/pdp8", "target/unproved/short_memory/short_memory")
LIARS = ("tests/check_liars.py",)
RT_CI = ("rt", "ci")
DEFECTS = ("tests/try_defects.py",)
# those that take longest come first
TEXTS: list[Words] = [("tests/page/check_types.py",), ("tests/check_tools.py",), ("tests/check_gate.py",)]
TEXTS += [("tests/check_try_edits.py",), ("tests/check_sums.py",), ("tests/check_laid_program.py",), ("tests/check_try_defects.py",)]
TEXTS += [("tests/check_definitions.py",), ("tests/check_headline.py",), ("tests/check_arguments.py",), ("tests/check_memory_claims.py",), ("tests/check_fault_texts.py",)]
TEXTS += [("tests/check_crates.py",), ("tests/page/check_commands.py",), ("tests/check_planted_faults.py",)]
TEXTS += [("tests/check_links.py",), ("tests/check_documents.py",), ("tests/check_names.py",), ("tests/check_counts.py",), ("tests/check_octal_numbers.py",)]
RUNS: list[Words] = [("tests/run_sessions.py",), ("tests/model/compare_scripts.py",), ("tests/model/compare_host_commands.py",), ("tests/model/compare_archives.py",)]
RUNS += [("tests/check_terminal.py",), ("tests/check_killed_writers.py",), ("tests/calls/check_failing_calls.py",), ("tests/check_damaged_images.py",)]
RUNS += [("tests/hosts/check_races.py",)]
RUNS += [("tests/hosts/check_shown_names.py",)]
RUNS += [("tests/model/check_pal8_rows.py",), ("tests/model/compare_indexes.py",), ("tests/model/compare_lenient.py",), ("tests/model/compare_scans.py",)]
RUNS += [("tests/model/compare_kinds.py",), ("tests/model/compare_machine8e.py",)]
RUNS += [("tests/model/compare_pal8_faults.py",), ("tests/model/compare_pal8_tapes.py",), ("tests/model/compare_pal8_notes.py",)]
# What a line says that tells of a failure.
FAILS = re.compile(r"\bNOT\b|\bfail(?!ed$)|\bbroke off\b|\berror\b")
# How many random cases the plain models are given where a contributor waits.
FEW: dict[str, Words] = {"tests/model/compare_scripts.py": ("--scripts", "50"), "tests/model/compare_host_commands.py": ("--cases", "30"), "tests/model/compare_archives.py": ("--cases", "20")}
FEW["tests/model/compare_indexes.py"] = ("--images", "200")
FEW["tests/model/compare_lenient.py"] = ("--images", "60")
FEW["tests/model/compare_kinds.py"] = ("--files", "60")
FEW["tests/model/compare_machine8e.py"] = ("--runs", "40")
FEW["tests/model/compare_scans.py"] = ("--volumes", "40")
FEW["tests/model/compare_pal8_faults.py"] = ("--sources", "100")
FEW["tests/model/compare_pal8_tapes.py"] = ("--cases", "60")
FEW["tests/model/compare_pal8_notes.py"] = ("--sources", "60")


def runs_of(program: str, short: str) -> list[Words]:
    """What is run with one build of the program, and of the one that runs short of memory."""
    return [*((*it, "--program", program) for it in RUNS), ("tests/memory/check_refused_growths.py", "--program", program, "--short", short)]


def parts(is_quick: bool) -> list[list[Words]]:
    """What is run: one group after the other, the parts of a group side by side."""
    if is_quick:
        runs = [(*it, *FEW.get(it[0], ())) for it in runs_of(*UNPROVED)]
        return [[("tests/build_with_checks.sh",), (*DEFECTS, "--quick"), *TEXTS], [(*LIARS, "--quick"), ("tests/page/check_page.sh", "--quick"), ("tests/check_builds.py",), ("tests/hosts/check_saves.py",), (*SIMH, "--runs", "100"), *runs]]
    rest = [("tests/page/check_page.sh",), ("tests/try_edits.py", "--gate"), ("tests/check_install.py",), ("tests/check_release.py",), PAL8_STATEMENTS, PAL8_SOURCES, POINTERS, SIMH, HOSTS, HISTORY, LIARS]
    for program, short in PROVED:
        rest += runs_of(program, short)
    return [[DEFECTS, *TEXTS], [RT_CI, ("tests/build_with_checks.sh",), ("tests/check_builds.py",)], [*rest, ("tests/run_sessions.py", "--unproved")]]


def clock(seconds: float) -> str:
    return f"{int(seconds) // 60}:{int(seconds) % 60:02}"


def announce(count: int, is_quick: bool) -> None:
    """Prints what will be run, and how long that took last time: here, or else where docs/CONTRIBUTING.md was written."""
    if is_quick:
        print(f"gate: {count} parts with the program that is built with checks; nothing is proved", flush=True)
        return
    bodies = len(glob.glob(f"{TOP}/crates/*/must-fail/*.edit")) + len(glob.glob(f"{TOP}/tests/edits/*/gate/*.edit"))
    print(f"gate: {count} parts; {len(CRATES)} crates are proved and {bodies} wrong bodies tried")
    try:
        last = json.load(open(KEPT, encoding="utf-8"))
        print(f"gate: the last run here took {clock(last['seconds'])} on {last['processors']} processors", flush=True)
    except (OSError, ValueError, KeyError):
        told = re.search(r"(\d+)\s+seconds\s+on\s+(\w+)\s+processors", open(f"{TOP}/docs/CONTRIBUTING.md", encoding="utf-8").read())
        print(f"gate: none ran here; docs/CONTRIBUTING.md has {clock(int(told[1]))} on {told[2]} processors" if told else "gate: none ran here", flush=True)


class Part:
    """A part of the gate. What rt ci prints is shown as it comes, with how many crates it has proved, and what others print at their end. Of those
    that fail the last lines, and those that tell of a failure, are shown once more at the gate's end, since a log may be cut."""

    printing = threading.Lock()
    failures = list[str]()
    # what each part has counted, by its words; none where it failed
    found = dict[str, counts.Counts | None]()

    def __init__(self, words: Words, begun: float) -> None:
        self.words, self.begun, self.proved = words, begun, set[str]()
        self.kinds: counts.Counts = {}
        self.last = collections.deque[str](maxlen=12)
        self.complaints = list[str]()
        self.held: list[str] | None = None if words == RT_CI else []

    def show(self, line: str) -> None:
        short = line if len(line) < 400 else f"{line[:400]} ..\n"
        self.last.append(short)
        if FAILS.search(line) and len(self.complaints) < 12:
            self.complaints.append(short)
        if self.held is not None:
            self.held.append(line)
            return
        print(line, end="", flush=True)
        proved = re.fullmatch(r"rt: (\w+) proved\n", line)
        if proved:
            self.proved.add(proved[1])
            print(f"gate: {len(self.proved)} of {len(CRATES)} crates, {clock(time.monotonic() - self.begun)}", flush=True)

    def tell(self, line: str) -> None:
        self.show(f"gate: {line}\n")

    def counted(self) -> tuple[int, int] | None:
        """Runs the part, and returns how much of it passed and failed, or None if it breaks off."""
        last, self.kinds = "", {}
        try:
            with subprocess.Popen(self.words, cwd=TOP, stdin=subprocess.DEVNULL, stdout=subprocess.PIPE, stderr=subprocess.STDOUT) as run:
                for line in run.stdout or ():
                    last = line.decode(errors="replace")
                    self.show(last)
                    self.kinds = counts.by_kind(last) or self.kinds
        except OSError as error:
            self.tell(f"{self.words[0]} can't be started: {error.strerror}")
            return 0, 1
        said = re.fullmatch(r"(\d+) passed, (\d+) failed\n", last)
        if not said:
            return None
        passed, failed = int(said[1]), int(said[2])
        if (run.returncode != 0) != (failed != 0) or passed + failed == 0:
            self.tell(f"{' '.join(self.words)} ended with status {run.returncode} after this line")
            failed += failed == 0
        return passed, failed

    def run(self) -> tuple[int, int]:
        """The part's counts. Where the toolchain's gate breaks off with no verdict, for want of memory or disk, it is begun once more."""
        sources = Wanted().sums if self.words == RT_CI else {}
        ran = self.counted()
        if not ran and self.words == RT_CI:
            with open("/proc/meminfo", encoding="utf-8") as about:
                free = re.findall(r"MemAvailable: *(\d+)", about.read())[0]
            self.tell(f"rt ci broke off, with {shutil.disk_usage(TOP).free >> 20} MB of disk and {int(free) >> 10} MB of memory free; once more")
            ran = self.counted()
        if not ran:
            self.tell(f"{' '.join(self.words)} broke off")
        elif self.words == RT_CI and not ran[1] and Wanted().sums == sources:
            Wanted().keep_all()  # from here on ./pdp8 runs this one
        if self.held is not None:
            with self.printing:
                print(f"gate: {' '.join(self.words)}, {clock(time.monotonic() - self.begun)}\n{''.join(self.held)}", end="", flush=True)
        if not ran or ran[1]:
            lines = [*(it for it in self.complaints if it not in self.last), *self.last]
            self.failures.append(f"gate: {' '.join(self.words)} failed:\n{''.join(lines)}")
        self.found[" ".join(self.words)] = None if not ran or ran[1] else counts_of(self.kinds, ran[0])
        return ran or (0, 1)


def keep(seconds: float) -> None:
    """Keeps for the next run how long this one took."""
    os.makedirs(os.path.dirname(KEPT), exist_ok=True)
    with open(KEPT, "w", encoding="utf-8") as kept:
        json.dump({"seconds": round(seconds), "processors": len(os.sched_getaffinity(0))}, kept)


def counts_of(kinds: counts.Counts, passed: int) -> counts.Counts:
    """What a part has counted: by kind where it says so of all that passed."""
    return kinds if sum(kinds.values()) == passed else {"": passed}


def miscounted(is_quick: bool) -> int:
    """Prints in what the parts that ran differ from tests/counts.txt, and returns in how much."""
    try:
        wrong = counts.faults("quick" if is_quick else "whole", Part.found, counts.all_rows())
    except (OSError, ValueError) as error:
        wrong = [str(error)]
    print(*(f"gate: {it}\n" for it in wrong), sep="", end="", flush=True)
    return len(wrong)


def wrong_bodies() -> str:
    """How many wrong bodies are refused for what they mean, and how many for their form alone, where they were tried."""
    kinds = Part.found.get("tests/try_edits.py --gate") or {}
    if "form" not in kinds:
        return ""
    return f"gate: {kinds['meaning']} wrong bodies are refused for what they mean, {kinds['form']} for their form alone\n"


def run(groups: list[list[Words]]) -> list[int]:
    """Runs the groups of parts, and returns how much passed and failed."""
    begun, ran = time.monotonic(), list[tuple[int, int]]()
    with concurrent.futures.ThreadPoolExecutor(len(os.sched_getaffinity(0))) as lanes:
        for group in groups:
            print(f"gate: begins {', '.join(map(' '.join, group))}, {clock(time.monotonic() - begun)}", flush=True)
            ran += lanes.map(lambda words: Part(words, begun).run(), group)
    return [sum(it[k] for it in ran) for k in (0, 1)]


def main(words: list[str]) -> int:
    is_quick, begun, spent = words == ["--quick"], time.monotonic(), Spent(TOP)
    groups = parts(is_quick)
    announce(sum(map(len, groups)), is_quick)
    spent.begin()
    passed, failed = run(groups)
    spent.end()
    seconds = time.monotonic() - begun
    if not is_quick:
        print(spent.table())
    print(wrong_bodies(), *Part.failures, sep="", end="")
    failed += miscounted(is_quick)
    print(f"{seconds:.0f} seconds on {len(os.sched_getaffinity(0))} processors")
    if not failed and not is_quick:
        keep(seconds)
        measure.keep({crate: cost["proof"] for crate, cost in spent.by_crate().items()}, CRATES)
    print(f"{passed} passed, {failed} failed{' (no proofs)' * is_quick}")
    return 1 if failed else 0


if __name__ == "__main__":
    sys.exit(main(sys.argv[1:]))
