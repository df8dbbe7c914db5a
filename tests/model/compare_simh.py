#!/usr/bin/env python3
"""compare_simh.py [--runs N] [--seed S]: makes N random programs of an 8/E with drives, 2,000 where nothing is said, and steps each in the plain model
and in SIMH (Debian's package simh): after each instruction the registers must be the same, and at the end all words that one of them changed and the
images of the drives. The model takes SIMH's side where the two are known to differ. The same number is the same programs each time. Where there is no SIMH
nothing is compared. The last line is 'N passed, M failed'.
"""
import argparse
import copy
import os
import re
import subprocess
import sys
import tempfile
from random import Random

sys.dont_write_bytecode = True
TOP = os.path.dirname(os.path.dirname(os.path.dirname(os.path.abspath(__file__))))
sys.path.insert(0, TOP)
from tests.model.machine8e import Drive, Machine8e
from tests.model.programs8e import file_of, images, program
from tests.options import patience
from tests.tally import Tally

SIMH = "/usr/bin/pdp8"
STEPS, BATCH, START = 60, 100, 0o200
REGISTERS = ["PC", "AC", "L", "MQ", "DF", "IB", "SF", "UF", "UB", "ION"]
DISK = ["RKSTA", "RKCMD", "RKDA", "RKMA"]
SHOWN = [*range(0o400), *range(0o10000, 0o10300)]
HEAD = "\n".join(["set cpu 32k", "set cpu noeae", *(f"set {it} disabled" for it in ("clk", "ptr", "ptp", "ttix", "lpt", "rx", "df", "dt", "mt")), "dep tto time 0", ""])


class Run:
    """A program, its drives, and what the model says of its steps."""

    def __init__(self, random: Random, folder: str) -> None:
        self.folder, self.words, self.given = folder, program(random), images(random)
        self.times = random.choice([(10, 10), (0, 0), (3, 1), (25, 2)])
        self.machine = Machine8e(is_peer=True)
        self.machine.disk_time, self.machine.seek_time = self.times
        self.machine.drives = [Drive(copy.deepcopy(it)) for it in self.given]
        for cell, word in self.words.items():
            self.machine.core[cell] = word
        self.machine.start(START)
        before = list(self.machine.core)
        self.states = list[dict[str, int]]()
        while len(self.states) < STEPS and self.machine.is_running:
            self.take_instruction()
            self.states.append(state_of(self.machine))
        self.cells = sorted({*SHOWN, *(it for it in range(32768) if before[it] != self.machine.core[it])})

    def take_instruction(self) -> None:
        """SIMH counts an interrupt with the instruction after it."""
        self.machine.step()
        if self.machine.is_interrupt:
            self.machine.step()
        # what ends as the next step begins has ended in SIMH by now, but for what has just begun, and after a HLT
        for number, drive in enumerate(self.machine.drives):
            if drive.left == 0 and number not in self.machine.began and self.machine.is_running:
                drive.left = None
                self.machine.end_work(drive)

    def script(self) -> str:
        """What SIMH is to do."""
        lines = ["reset all", "dep all 0", "dep uf_int 0", "dep ion_delay 0", "dep cif_delay 1", "dep ion 0", "dep ac 0", "dep l 0", "dep gtf 0", "dep mq 0", "dep sf 0", "dep ib 0", "dep df 0", f"dep rk rtime {self.times[0]}", f"dep rk stime {self.times[1]}"]
        for number, sectors in enumerate(self.given):
            if sectors is not None:
                with open(f"{self.folder}/{number}", "wb") as file:
                    file.write(file_of(sectors))
                lines.append(f"attach rk{number} {self.folder}/{number}")
        lines += [f"dep {cell:o} {word:o}" for cell, word in self.words.items()] + [f"dep pc {START:o}"]
        lines += [f"step\nex {','.join(REGISTERS)}\nex rk {','.join(DISK)}"] * len(self.states)
        lines += [f"ex {cell:o}" for cell in self.cells]
        return "\n".join([*lines, *(f"detach rk{number}" for number, it in enumerate(self.given) if it is not None), "echo END", ""])

    def fault_in(self, said: str) -> str:
        """How SIMH differs, by what it said."""
        numbers = numbers_in(said, [*(REGISTERS + DISK) * len(self.states), *(f"{it:o}" for it in self.cells)])
        size = len(REGISTERS) + len(DISK)
        for number, wanted in enumerate(self.states):
            got = dict(zip(REGISTERS + DISK, numbers[number * size :]))
            got["RKSTA"] &= ~0o2200
            if got != wanted:
                return f"after {number + 1} instructions: " + ", ".join(f"{it} is {got.get(it, -1):o}, not {wanted[it]:o}" for it in wanted if got.get(it) != wanted[it])
        core = dict(zip(self.cells, numbers[len(self.states) * size :]))
        other = [it for it in self.cells if core[it] != self.machine.core[it]]
        if other:
            return f"cell {other[0]:05o} has {core[other[0]]:04o}, not {self.machine.core[other[0]]:04o}"
        return next((f"the image of drive {it} is another" for it in range(4) if not self.has_image(it)), "")

    def has_image(self, number: int) -> bool:
        """Whether the file of a drive has the sectors of the model's, and zeros after those that it was given."""
        drive = self.machine.drives[number]
        if drive.sectors is None:
            return True
        with open(f"{self.folder}/{number}", "rb") as file:
            return file.read() == file_of(drive.sectors)


def numbers_in(said: str, names: list[str]) -> list[int]:
    """The numbers that SIMH gives these names, in their order, or -1 where it gives none. Characters that a program printed may stand between."""
    found, place = list[int](), 0
    for name in names:
        match = re.compile(rf"{name}:\t([0-7]+)").search(said, place)
        found.append(int(match[1], 8) if match else -1)
        place = match.end() if match else place
    return found


def state_of(machine: Machine8e) -> dict[str, int]:
    values = [machine.here, machine.ac, machine.link, machine.mq, machine.data_field, machine.buffer_field, machine.save_field, machine.user, machine.user_buffer, int(machine.is_on)]
    values += [machine.status, machine.command, machine.disk_address, machine.memory_address]
    return dict(zip(REGISTERS + DISK, values))


def compare(runs: list[Run], room: str, tally: Tally) -> None:
    """Has SIMH make some runs, and compares each."""
    path = f"{room}/script"
    with open(path, "w", encoding="ascii") as script:
        script.write(HEAD + "".join(it.script() for it in runs) + "quit\n")
    done = subprocess.run(["stdbuf", "-oL", SIMH, path], stdin=subprocess.DEVNULL, capture_output=True, timeout=patience(600))
    parts = re.split(r"(?m)^END\r?$", done.stdout.decode("latin1"))
    for run, said in zip(runs, [*parts, *[""] * len(runs)]):
        tally.add("runs", run.fault_in(said))
        tally.tried["instructions"] += len(run.states)


def main() -> int:
    parser = argparse.ArgumentParser()
    parser.add_argument("--runs", type=int, default=2000)
    parser.add_argument("--seed", type=int, default=8)
    options = parser.parse_args()
    tally = Tally()
    if not os.path.exists(SIMH):
        print("simh: there is no SIMH: Debian's package simh has it")
        print("1 passed, 0 failed")
        return 0
    random = Random(options.seed)
    for first in range(0, options.runs, BATCH):
        with tempfile.TemporaryDirectory(prefix="pdp8-simh-") as room:
            some = list[Run]()
            for number in range(min(BATCH, options.runs - first)):
                os.mkdir(f"{room}/{number}")
                some.append(Run(random, f"{room}/{number}"))
            compare(some, room, tally)
    return tally.end()


if __name__ == "__main__":
    sys.exit(main())
