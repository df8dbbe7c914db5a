#!/usr/bin/env python3
"""compare_scripts.py [--program FILE] [--scripts N] [--seed S] [--shown N]: runs random scripts through the program `pdp8`. It compares its replies, byte by
byte, and the files of its images with a plain system machine that is written from the definitions alone.

Scripts S to S + N - 1 are run, 1000 from 1 on where nothing is said: the same number is the same script each time. Where one differs,
the shortest script that still does is shown, of the first three or so many as --shown says. A thousand scripts or more must meet each case that stands in edges.py, ten scripts
each case at least; --met shows how many did. The last line is 'N passed, M failed'.
"""
import argparse
import concurrent.futures
import os
import sys
from collections import Counter

sys.dont_write_bytecode = True
TOP = os.path.dirname(os.path.dirname(os.path.dirname(os.path.abspath(__file__))))
sys.path.insert(0, TOP)
from tests.model.cases import made_case
from tests.model.compare import compared_safely, shortest
from tests.model.edges import CASES
from tests.model.volume import read_volume
from tests.model.words import shown_name
from tests.tally import Tally

LEAST = 10


def tried(program: str, seed: int) -> tuple[str, set[str], bytes]:
    """How the program and the model differ in a script, which cases at an edge it met, and its bytes."""
    case = made_case(seed)
    return *compared_safely(program, case), case.image + case.script


def show(program: str, seed: int, fault: str) -> None:
    """Shows a script that differs as short as it can be, where it differs again in time."""
    if fault.startswith("no end"):
        return
    case = shortest(program, made_case(seed))
    again = compared_safely(program, case)[0]
    volume = read_volume(case.image)
    held = ", ".join(f"{shown_name(name)} {file.blocks}" for name, file in sorted(volume.files.items()))
    print(f"script {seed} made short, on {volume.capacity} blocks with {held or 'no file'}:")
    print(*("    " + repr(line)[2:-1] for line in case.script.removesuffix(b"\n").split(b"\n")), sep="\n")
    print(again or "which did not differ when it was tried again", flush=True)


def seldom_met(met: Counter[str], is_shown: bool) -> list[str]:
    """The cases that too few scripts have met."""
    if is_shown:
        print(*(f"{met[case]:8}  {case}" for case in CASES), sep="\n")
    return [case for case in CASES if met[case] < LEAST]


def main() -> int:
    words = argparse.ArgumentParser(description=__doc__, formatter_class=argparse.RawDescriptionHelpFormatter)
    words.add_argument("--program", default=f"{TOP}/crates/pdp8/out/pdp8")
    words.add_argument("--scripts", type=int, default=1000)
    words.add_argument("--seed", type=int, default=1)
    words.add_argument("--shown", type=int, default=3)
    words.add_argument("--met", action="store_true")
    given = words.parse_args()
    program = os.path.abspath(given.program)
    if not os.path.isfile(program):
        sys.exit(f"compare_scripts: there is no program {program}: ./prove builds it")
    if given.scripts < 1:
        sys.exit("compare_scripts: --scripts wants a number from 1 on")
    seeds = range(given.seed, given.seed + given.scripts)
    count = len(seeds)
    with concurrent.futures.ProcessPoolExecutor(len(os.sched_getaffinity(0))) as lanes:
        outcomes = list(zip(seeds, lanes.map(tried, [program] * count, seeds, chunksize=10)))
    tally, failed = Tally(), [(seed, fault) for seed, (fault, _, _) in outcomes if fault]
    for seed, (fault, _, _) in outcomes:
        tally.add("scripts", fault and f"script {seed}: {fault}")
    if len({script for _, (_, _, script) in outcomes}) < count:
        tally.add("equal scripts", "two scripts are the same")
    for seed, fault in failed[: given.shown]:
        show(program, seed, fault)
    if failed[given.shown :]:
        print("further scripts that differ:", *(seed for seed, _ in failed[given.shown :]))
    seldom = seldom_met(Counter(case for _, (_, met, _) in outcomes for case in met), given.met)
    for case in CASES if count >= 1000 and not failed else []:
        tally.add("edges", f"fewer than {LEAST} scripts have met {case}" if case in seldom else "")
    return tally.end()


if __name__ == "__main__":
    sys.exit(main())
