#!/usr/bin/env python3
"""check_pointers.py [--program FILE] [--programs N] [--steps N] [--seed S] [--shown N] [--no-program] [--met]: holds the flow by known pointers to its
definitions. Random programs, 2000 where nothing is said, are given to the program `flow_trial`, and what it prints of each cell is compared with the
plain model. Then random steps of a plain machine, 100000 where nothing is said, begin in states of those flows. Each must end in a state of the flow,
and store only in cells that its state may write. With --no-program there are the steps alone.

The seed is the number of today, where none is given; it is printed, so that a day can be tried again. A program that differs is made short, of the
first three or so many as --shown says. A thousand programs or more must meet each line of the tables, ten at least; --met shows how many did. The
last line is 'N passed, M failed'.
"""
import argparse
import concurrent.futures
import datetime
import functools
import os
import subprocess
import sys
from collections import Counter
from dataclasses import dataclass, field
from random import Random
from typing import Optional, SupportsIndex

sys.dont_write_bytecode = True
TOP = os.path.dirname(os.path.dirname(os.path.dirname(os.path.abspath(__file__))))
sys.path.insert(0, TOP)
from tests.model.flow import FIELD, behind, named
from tests.model.machine import Machine
from tests.model.pointer_programs import program_of
from tests.model.pointers import DCA, ISZ, JMP, JMS, NEXT_RULES, UNKNOWN, WRITE_RULES, Flow, Program, State, is_auto_index, is_indirect, jump_field
from tests.model.words import octal
from tests.options import patience
from tests.tally import Tally, fault_in

LEAST, MANY = 10, 1000
OTHERS: tuple[str, ...] = ("a skip that is left out", "a jump into no field", "a pointer that wide states alone write", "a cell of several states", "a datum that is reached")
OTHERS += ("several returns", "words after a JMS", "more than three steps", "a handler's cell", "a call by the name of a device")
CASES = (*(f"next: {rule}" for rule in NEXT_RULES), *(f"written: {rule}" for rule in WRITE_RULES), *OTHERS)
RUN, LENGTH = 8, 64
"""The steps that a machine makes at most from a state, and the random words that fill core, again and again."""


@dataclass
class Tried:
    """What is wrong with a program's answers, with the steps that were made, how many those were, and the cases that its flow has met."""

    fault: str
    wrong_step: str = ""
    steps: int = 0
    met: set[str] = field(default_factory=set)


# The program


def given(program: Program) -> bytes:
    """A program as the lines of `flow_trial`."""
    lines = [f"W {octal(cell, 5)} {octal(word, 4)}" for cell, word in sorted(program.words.items())]
    for letter, cells in (("S", program.starts), ("D", sorted(program.data)), ("H", sorted(program.handlers))):
        lines += [f"{letter} {octal(cell, 5)}" for cell in cells]
    return "".join(line + "\n" for line in lines).encode()


def answer(flow: Flow, cell: int) -> str:
    """What a line of `flow_trial` has after its cell."""
    call, said = flow.call(cell), [" INSTRUCTION"] if cell in flow.at else []
    said += [f"{name}{number}" for name, number in ((" JUMPS TO ", flow.jump_field(cell)), (" DATA IN ", flow.data_field(cell))) if number is not None]
    said += [f" KNOWN {octal(flow.known[cell], 4)}"] if cell in flow.known else []
    cells = ((" WRITTEN AT ", flow.first_writer(cell)), (" TARGET ", flow.target(cell)))
    written, target = (f"{name}{octal(it, 5)}" if it is not None else "" for name, it in cells)
    called = f" CALL {call.kind}" + (f" {octal(call.function, 4)}" if call.kind == "USR" else "") if call else ""
    return "".join([*said, written, called, target])


def answers(flow: Flow) -> dict[str, str]:
    cells = sorted({*flow.at, *flow.known, *flow.writers})
    return {octal(cell, 5): answer(flow, cell) for cell in cells}


def printed(path: str, program: Program) -> dict[str, str]:
    ran = subprocess.run([path], input=given(program), capture_output=True, timeout=patience(60))
    lines = (ran.stdout + ran.stderr).decode("latin1").splitlines()
    return {line[:5]: line[5:] for line in lines} | ({"status": f" {ran.returncode}"} if ran.returncode else {})


def difference(path: str, program: Program) -> str:
    """The cells of which the program says something else than the model; nothing where there is none."""
    wanted, came = answers(Flow(program)), printed(path, program)
    return "".join(f"    {cell}: wanted{wanted.get(cell, '')}, came{came.get(cell, '')}\n" for cell in sorted({*wanted, *came}) if wanted.get(cell) != came.get(cell))


def shortest(path: str, program: Program) -> Program:
    """The program without the words, starts and other cells that it differs without."""
    for cell in sorted(program.words):
        fewer = Program({at: word for at, word in program.words.items() if at != cell}, program.starts, program.data, program.handlers)
        program = fewer if difference(path, fewer) else program
    for start in program.starts:
        fewer = Program(program.words, [at for at in program.starts if at != start], program.data, program.handlers)
        program = fewer if difference(path, fewer) else program
    fewer = Program(program.words, program.starts)
    return fewer if difference(path, fewer) else program


# The tables


def met(flow: Flow) -> set[str]:
    """The lines of the tables, and other cases, that the states of a flow are."""
    program, found = flow.program, set[str]()
    for state in flow.states:
        found |= {f"next: {program.rule(state, flow.known)}", f"written: {program.write_rule(state, flow.known)}"}
        found |= state_cases(flow, state)
    found |= {"a pointer that wide states alone write"} if flow.candidates.keys() - flow.known.keys() else set()
    found |= {"a cell of several states"} if len(flow.at) < len(flow.states) else set()
    return found


def state_cases(flow: Flow, state: State) -> set[str]:
    program, word = flow.program, flow.program.word(state)
    is_jms, call = word >> 9 == JMS, program.call(state)
    least, most = program.moves(state) if is_jms and not call else (0, 0)
    first = program.subroutine(state) if is_jms and not call else None
    following = program.next_states(state, flow.known)
    cases = {
        "a skip that is left out": word >> 9 == ISZ and behind(state.cell, 2) in flow.left_out,
        "a jump into no field": word >> 9 in (JMS, JMP) and jump_field(state) is None,
        "a datum that is reached": any(it.cell in program.data and it.cell in program.words for it in following),
        "several returns": most > least,
        "words after a JMS": least > 0,
        "more than three steps": first in program.words and first is not None and program.counts(first)[0] > 3,
        "a handler's cell": call is not None and call.kind == "HANDLER",
        "a call by the name of a device": call is not None and "DEVICE" in program.form(state.cell, call).words,
    }
    return {case for case, is_so in cases.items() if is_so}


# Steps


class Core(list[int]):
    """Core that notes what its cells had before something was stored in them."""

    def __init__(self, random: Random, words: dict[int, int]) -> None:
        """Each cell has its word, or a random one."""
        super().__init__([random.choice([0, random.randrange(FIELD)]) for _ in range(LENGTH)] * (8 * FIELD // LENGTH))
        self.before = dict[int, int]()
        for cell, word in words.items():
            super().__setitem__(cell, word)

    def __setitem__(self, cell: SupportsIndex, word: int) -> None:  # type: ignore[override]
        self.before.setdefault(int(cell), self[cell])
        super().__setitem__(cell, word)

    def put_back(self) -> None:
        """Has the core as it was at first."""
        for cell, word in self.before.items():
            super().__setitem__(cell, word)
        self.before.clear()


def machine_in(random: Random, core: Core, cells: list[int], state: State) -> Machine:
    """A machine in a state; what that doesn't say is random, and so are the words of three of these cells now and then."""
    machine = Machine()
    machine.core = core
    for cell in random.sample(cells, min(len(cells), 3)):
        if random.random() < 0.5 and cell != state.cell:
            core[cell] = random.choice([0, 0o7777, random.randrange(FIELD)])
    machine.pc, machine.instruction_field = state.cell % FIELD, state.cell // FIELD
    into = jump_field(state)
    machine.buffer_field = random.randrange(8) if into is None else into
    machine.data_field = random.randrange(8) if state.data == UNKNOWN else state.data
    machine.ac, machine.link = random.choice([0, 1, 0o7777, random.randrange(FIELD)]), random.randrange(2)
    machine.save_field, machine.switches = random.randrange(0o100), random.randrange(FIELD)
    machine.has_key, machine.is_running = random.random() < 0.3, True
    return machine


def is_told(flow: Flow, machine: Machine, state: State) -> bool:
    """Whether the law speaks of the next step: no interrupt, call or skip that is left out, and a jump into a field and through a pointer that are
    known."""
    program, cell = flow.program, state.cell
    word = machine.core[cell]
    is_granted = machine.is_on and (machine.has_key or machine.has_printed)
    if is_granted or word != program.words[cell] or program.call(state) or word >> 9 == ISZ and behind(cell, 2) in flow.left_out:
        return False
    return word >> 9 not in (JMS, JMP) or jump_field(state) is not None and (not is_indirect(word) or holds(flow, machine, state))


def holds(flow: Flow, machine: Machine, state: State) -> bool:
    """Whether the pointer of an instruction is known, and still holds its word."""
    pointer = flow.program.pointer(state)
    return pointer in flow.known and machine.core[pointer] == flow.known[pointer]


def fitting(flow: Flow, machine: Machine) -> list[State]:
    """The states of the flow in which a machine is."""

    def fits(state: State) -> bool:
        into = jump_field(state)
        return into in (None, machine.buffer_field) and state.data in (UNKNOWN, machine.data_field)

    return [state for state in flow.at.get(machine.here, []) if fits(state)]


def stores_elsewhere(flow: Flow, is_kept: bool, state: State, stored: set[int]) -> bool:
    """Whether a step stored in a cell that its state may not write. A store through an auto-index may go anywhere, or through a pointer that isn't
    known, or doesn't hold its word."""
    word, pointer = flow.program.word(state), flow.program.pointer(state)
    is_anywhere = is_indirect(word) and word >> 9 in (ISZ, DCA, JMS) and (is_auto_index(pointer) or not is_kept)
    return not is_anywhere and not stored <= {*flow.program.writes(state, flow.known)}


def fault_of_step(flow: Flow, machine: Machine, core: Core, state: State) -> Optional[str]:
    """What is wrong with a machine's next step, or nothing; none where the machine stops."""
    before, is_kept = dict(core.before), holds(flow, machine, state)
    core.before.clear()
    is_last = machine.step() is not None
    stored = {*core.before}
    core.before |= before
    if is_last:
        return None
    if stores_elsewhere(flow, is_kept, state, stored):
        return f"a step in {octal(state.cell, 5)} stores in {' '.join(octal(it, 5) for it in stored)}"
    if flow.program.is_open(machine.here) and not fitting(flow, machine):
        return f"a step from {state} leads to {octal(machine.here, 5)} with fields {machine.buffer_field} and {machine.data_field}"
    return ""


def run_from(random: Random, flow: Flow, core: Core, cells: list[int], state: State) -> tuple[int, str]:
    """How many steps of a machine from a state were judged, and what is wrong with the last."""
    machine = machine_in(random, core, cells, state)
    for judged in range(RUN):
        fault = fault_of_step(flow, machine, core, state) if is_told(flow, machine, state) else None
        if fault is None:
            return judged, ""
        states = fitting(flow, machine)
        if fault or not states:
            return judged + 1, fault
        state = random.choice(states)
    return RUN, ""


def steps_of(random: Random, flow: Flow, count: int) -> tuple[int, str]:
    """So many steps from random states of a flow, or as many as can be had; and what is wrong with the last."""
    states, cells, judged = sorted(flow.states), sorted(flow.program.words), 0
    core = Core(random, flow.program.words)
    for _ in range(4 * count if states else 0):
        if judged >= count:
            break
        made, fault = run_from(random, flow, core, cells, random.choice(states))
        core.put_back()
        judged += made
        if fault:
            return judged, fault
    return judged, ""


# All of it


def tried(path: str, steps: int, seed: int) -> Tried:
    """What was tried by a seed, without the program where there is no path."""
    program = program_of(seed)
    fault = fault_in(functools.partial(difference, path, program)) if path else ""
    try:
        flow = Flow(program)
        made, wrong = steps_of(Random(seed), flow, steps)
        return Tried(fault, wrong, made, met(flow))
    except Exception as broken:
        return Tried(fault, f"the steps broke off: {broken!r}")


def show(path: str, seed: int) -> None:
    """Shows a program that differs, as short as it can be."""
    program = shortest(path, program_of(seed))
    print(f"program {seed} made short:", *given(program).decode().splitlines(), difference(path, program), sep="\n    ", flush=True)


def main() -> int:
    words = argparse.ArgumentParser(description=__doc__, formatter_class=argparse.RawDescriptionHelpFormatter)
    words.add_argument("--program", default=f"{TOP}/crates/flow_trial/out/flow_trial")
    words.add_argument("--programs", type=int, default=2000)
    words.add_argument("--steps", type=int, default=100000)
    words.add_argument("--seed", type=int, default=datetime.date.today().toordinal())
    words.add_argument("--shown", type=int, default=3)
    words.add_argument("--no-program", action="store_true")
    words.add_argument("--met", action="store_true")
    asked = words.parse_args()
    path, count = "" if asked.no_program else os.path.abspath(asked.program), asked.programs
    if path and not os.path.isfile(path):
        sys.exit(f"check_pointers: there is no program {path}: rt ci builds it")
    seeds = range(asked.seed, asked.seed + count)
    print(f"check_pointers: --seed {asked.seed}", flush=True)
    with concurrent.futures.ProcessPoolExecutor(len(os.sched_getaffinity(0))) as lanes:
        each = 1 + asked.steps // count
        outcomes = list(zip(seeds, lanes.map(functools.partial(tried, path, each), seeds, chunksize=10)))
    tally, left = Tally(), asked.steps
    for seed, outcome in outcomes:
        if path:
            tally.add("programs", outcome.fault and f"program {seed}:\n{outcome.fault}")
        left -= add_steps(tally, seed, outcome, left)
    for seed in [seed for seed, outcome in outcomes if outcome.fault.startswith("    ")][: asked.shown]:
        show(path, seed)
    cases = Counter(case for _, outcome in outcomes for case in outcome.met)
    if asked.met:
        print(*(f"{cases[case]:8}  {case}" for case in CASES), sep="\n")
    for case in CASES if count >= MANY else []:
        tally.add("cases", f"fewer than {LEAST} programs have met {case}" if cases[case] < LEAST else "")
    return tally.end()


def add_steps(tally: Tally, seed: int, outcome: Tried, most: int) -> int:
    """Counts the steps of a seed, so many at most. A wrong one is counted whatever there are."""
    count = min(outcome.steps, most)
    for _ in range(count - bool(outcome.wrong_step)):
        tally.add("steps", "")
    if outcome.wrong_step:
        tally.add("steps", f"program {seed}: {outcome.wrong_step}")
    return count


if __name__ == "__main__":
    sys.exit(main())
