#!/usr/bin/env python3
"""compare_machine8e.py [--program FILE] [--runs N] [--seed S]: makes N random programs of an 8/E with disks, a reader, a punch, a line printer and a
clock, 300 where nothing is said. It traces each with the program and in the plain model. The lines of their steps must be the same but for the spelled
instructions, and so must be what punch, line printer and disks have at the end, and the lines of transfers. A third of them it also runs at the
Teletype, where steps are made several at once: what they print, the notes of devices that aren't there, their last line, their papers and their disks
must be the model's. These it runs without any device too. Runs with a note, and with the most notes, are counted. The same number is the same programs
each time. The last line is 'N passed, M failed'.
"""
import argparse
import copy
import functools
import os
import subprocess
import sys
import tempfile
from random import Random
from typing import Iterator

sys.dont_write_bytecode = True
TOP = os.path.dirname(os.path.dirname(os.path.dirname(os.path.abspath(__file__))))
sys.path.insert(0, TOP)
from tests.model.devices8e import BareMachine8e, FullMachine8e
from tests.model.machine import MOST_NOTES
from tests.model.machine8e import Drive, Machine8e
from tests.model.programs8e import file_of, images, program
from tests.model.tape import tape_of
from tests.model.traces import changed_cells, character
from tests.model.words import octal
from tests.options import patience
from tests.tally import Tally, fault_in, gathered

START, STEPS, KSF = 0o200, 300, 0o6031
# The most steps of a run at the Teletype.
LIMIT = 10_000
DEVICES = [0o6010, 0o6020, 0o6130, 0o6660]
# Some that no machine here has.
ABSENT = [0o6050, 0o6070, 0o6100, 0o6170, 0o6300, 0o6370, 0o6400, 0o6500, 0o6600, 0o6650, 0o6670, 0o6730, 0o6750, 0o6770]


class Case:
    """A random program, and what its machine has."""

    def __init__(self, random: Random) -> None:
        self.words = program(random)
        if random.random() < 0.5:
            self.lay(random, DEVICES, 0.35)
        if random.random() < 0.5:
            self.lay(random, ABSENT, random.choice([0.02, 0.35]))
        self.frames = [random.randrange(256) for _ in range(random.randrange(5))]
        self.period = random.choice([None, 1, 2, 3, 5, 7, 40, 1000])
        self.has_paper = random.random() < 0.5
        self.images = images(random)
        self.times = random.choice([(10, 10), (0, 0), (3, 1), (25, 2)])

    def lay(self, random: Random, devices: list[int], part: float) -> None:
        """Puts IOTs of these devices in the place of a part of the words."""
        for cell in self.words:
            if cell >= START and self.words[cell] >> 9 != 0o5 and random.random() < part:
                self.words[cell] = random.choice(devices) + random.randrange(8)

    def bare_machine(self) -> BareMachine8e:
        machine = BareMachine8e()
        for cell, word in self.words.items():
            machine.core[cell] = word
        machine.start(START)
        return machine

    def machine(self) -> FullMachine8e:
        machine = FullMachine8e()
        for cell, word in self.words.items():
            machine.core[cell] = word
        machine.drives = [Drive(copy.deepcopy(it)) for it in self.images]
        machine.start(START)
        machine.tape, machine.period, machine.has_paper = list(self.frames), self.period, self.has_paper
        machine.disk_time, machine.seek_time = self.times
        return machine

    def files(self) -> dict[str, bytes]:
        """The files that the program is given."""
        disks = {f"D{number}": file_of(it) for number, it in enumerate(self.images) if it is not None}
        return {"TAPE": bytes(tape_of(list(self.words.items()))), "READER": bytes(self.frames), **disks}

    def disks(self) -> list[str]:
        """The options of the disks."""
        return [word for number, it in enumerate(self.images) if it is not None for word in (f"--rk{number}", f"D{number}")]

    def options(self, steps: int) -> list[str]:
        """The options of a run of so many steps at most, with all that the machine has."""
        disks = self.disks()
        paper = ["--printer", "PRINTER"] if self.has_paper else []
        clock = ["--clock", str(self.period)] if self.period else []
        times = ["--disk-time", str(self.times[0]), "--seek-time", str(self.times[1])]
        return [*bare_options(steps), "--reader", "READER", "--punch", "PUNCH", "--transfers", "MOVES", *paper, *clock, *disks, *times]

    def wanted_disks(self, machine: FullMachine8e) -> dict[str, bytes]:
        """What the files of the disks hold after a run."""
        return {f"D{number}": file_of(it.sectors) for number, it in enumerate(machine.drives) if it.sectors is not None}

    def wanted_files(self, machine: FullMachine8e) -> dict[str, bytes]:
        """What the files hold that a run may change."""
        moves = "".join(f"{it}\n" for it in machine.all_moves).encode()
        return {"PUNCH": bytes(machine.punched), "MOVES": moves, **({"PRINTER": bytes(machine.lined)} if self.has_paper else {}), **self.wanted_disks(machine)}


def bare_options(steps: int) -> list[str]:
    """Those of a machine that has nothing."""
    return ["--cpu", "8e", "--start", "200", "--steps", str(steps)]


def lay(folder: str, files: dict[str, bytes]) -> None:
    """Writes files into a folder."""
    for name, data in files.items():
        with open(f"{folder}/{name}", "wb") as file:
            file.write(data)


def other_file(folder: str, wanted: dict[str, bytes]) -> str:
    """The first of these files that holds other bytes, if one does."""
    for name, data in wanted.items():
        with open(f"{folder}/{name}", "rb") as file:
            if file.read() != data:
                return name
    return ""


def line_of(machine: FullMachine8e, cell: int, word: int, before: list[int]) -> str:
    """The line of a step without its spelled instruction."""
    said = "INTERRUPT" if machine.is_interrupt else f"{octal(cell, 5)} {octal(word, 4)}"
    said += f"\tAC {octal(machine.ac, 4)} L {machine.link} MQ {octal(machine.mq, 4)}"
    for changed in changed_cells(before, machine.core, cell, word, machine.is_interrupt):
        said += f"\t{octal(changed, 5)} {octal(machine.core[changed], 4)}"
    said += "".join("\t" + character(it) for it in machine.printed)
    machine.printed.clear()
    return said


def lines_of(machine: FullMachine8e, steps: int) -> list[str]:
    """The lines of so many steps, in which no key is struck, and of the end after them."""
    lines, why = list[str](), None
    for _ in range(steps):
        machine.begin()
        before, cell = list(machine.core), machine.here
        moves, word = list(machine.moves), machine.core[cell]
        why = machine.step()
        lines += [*moves, line_of(machine, cell, word, before)]
    ends = why or ("KEYS" if steps < STEPS and machine.core[machine.here] == KSF else "LIMIT")
    return [*lines, f"STEPS {steps} {ends} {octal(machine.here, 5)}"]


def plain(line: str) -> str:
    """A line of a trace without the spelled instruction."""
    first, *others = line.split("\t")
    return "\t".join([first, *(others if first == "INTERRUPT" else others[1:])])


def compared(program: str, seed: int) -> str:
    """What is wrong with the trace of a random program."""
    case = Case(Random(seed))
    with tempfile.TemporaryDirectory(prefix="pdp8-machine8e-") as folder:
        lay(folder, case.files())
        done = subprocess.run([program, "trace", "TAPE", *case.options(STEPS)], cwd=folder, stdin=subprocess.DEVNULL, capture_output=True, timeout=patience(120))
        got = [plain(it) for it in done.stdout.decode("latin1").splitlines()]
        if done.returncode or done.stderr or not got or not got[-1].startswith("STEPS "):
            return f"seed {seed}: the status is {done.returncode}, and standard error has {done.stderr[:200]!r}"
        machine = case.machine()
        wanted = lines_of(machine, min(STEPS, int(got[-1].split()[1])))
        if got != wanted:
            at = next((it for it, pair in enumerate(zip(got, wanted)) if pair[0] != pair[1]), min(len(got), len(wanted)))
            return f"seed {seed}, line {at + 1}: {got[at : at + 1]}, not {wanted[at : at + 1]}"
        other = other_file(folder, case.wanted_files(machine))
    return f"seed {seed}: {other} has other bytes" if other else ""


def last_line(machine: Machine8e, why: str | None) -> str:
    """The last line of a run at the Teletype that ends so."""
    place = octal(machine.here, 5)
    return f"HALT {place} AC {octal(machine.ac, 4)} L {machine.link} MQ {octal(machine.mq, 4)}" if why else f"LIMIT {place}"


def run_at_teletype(machine: Machine8e) -> str | None:
    """Makes the steps of a run at the Teletype, at which no key is struck. Says why it ended before so many steps were made."""
    for _ in range(LIMIT):
        machine.begin()
        if why := machine.step():
            return why
    return None


def wrong_run(machine: Machine8e, why: str | None, done: subprocess.CompletedProcess[bytes]) -> str:
    """What is wrong with a run at the Teletype, beside what it leaves in files."""
    *before, got = done.stderr.decode("latin1").splitlines() or [""]
    waits = got.startswith("KEYS END ") and machine.here - int(got.split()[-1], 8) in (0, 1)
    if done.returncode != got.startswith("LIMIT") or not (waits or got == last_line(machine, why)):
        return f"the status is {done.returncode}, and it ends with {got}, not {last_line(machine, why)}"
    notes = "".join(f"{it}\n" for it in before if it.startswith("note: no device "))
    if notes != machine.notes():
        return f"its notes are {notes!r}, not {machine.notes()!r}"
    printed = bytes(it & 0o177 for it in machine.printed if it & 0o177)
    return "" if done.stdout == printed else f"it prints {done.stdout!r}, not {printed!r}"


def runs_at_teletype(program: str, seed: int) -> Iterator[tuple[str, str]]:
    """What is wrong with the run of a random program at the Teletype, at which no key is struck; and with that on a machine without devices. Each by its
    kind."""
    case = Case(Random(seed))
    full, bare = case.machine(), case.bare_machine()
    for kind, machine, options in (("runs at the Teletype", full, case.options(LIMIT)), ("runs without devices", bare, bare_options(LIMIT))):
        why = run_at_teletype(machine)
        with tempfile.TemporaryDirectory(prefix="pdp8-machine8e-") as folder:
            lay(folder, case.files())
            done = subprocess.run([program, "teletype", "TAPE", *options], cwd=folder, stdin=subprocess.DEVNULL, capture_output=True, timeout=patience(120))
            wrong = wrong_run(machine, why, done)
            other = other_file(folder, case.wanted_files(full)) if machine is full and not wrong else ""
        yield kind, f"seed {seed}: at the Teletype {wrong or f'{other} has other bytes'}" if wrong or other else ""
        if machine.absent:
            yield "with a note", ""
        if len(machine.absent) > MOST_NOTES:
            yield "with the most notes", ""


def main() -> int:
    parser = argparse.ArgumentParser()
    parser.add_argument("--program", default=f"{TOP}/target/unproved/pdp8/pdp8")
    parser.add_argument("--runs", type=int, default=300)
    parser.add_argument("--seed", type=int, default=1)
    options = parser.parse_args()
    tally = Tally()
    for seed in range(options.seed, options.seed + options.runs):
        tally.add("traces", fault_in(functools.partial(compared, os.path.abspath(options.program), seed)))
    for seed in range(options.seed, options.seed + (options.runs + 2) // 3):
        for kind, fault in gathered("runs at the Teletype", runs_at_teletype(os.path.abspath(options.program), seed)):
            tally.add(kind, fault)
    return tally.end()


if __name__ == "__main__":
    sys.exit(main())
