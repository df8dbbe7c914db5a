#!/usr/bin/env python3
"""check_history.py [--program FILE] [--programs N] [--seed S] [--shown]: N random programs go forwards and back at random places by the program
`history_trial`, 300 where nothing is said. Keys are struck meanwhile, interrupts come, cells and switches are set, and the machine is started anew. At
each place registers, flags, cells and what was printed must be those of the plain machine, which runs anew from the start for the changes that are left.
So must be how runs end, and the last step at which a condition held. One program in thirty goes so far that copies of the machine are kept.

Of 300 programs or more, one goes further, up to where older copies go, and once more with little memory. Each place to which it comes back must show
what a run shows that ends there. The seed is the day's, where none is given: the same number is the same programs. The last line is 'N passed, M
failed'.
"""
import argparse
import concurrent.futures
import datetime
import functools
import os
import subprocess
import sys
from random import Random

sys.dont_write_bytecode = True
TOP = os.path.dirname(os.path.dirname(os.path.dirname(os.path.abspath(__file__))))
sys.path.insert(0, TOP)
from tests.model.cases import instruction
from tests.model.history import History
from tests.options import patience
from tests.tally import Tally, fault_in

# So many changes lie between two copies, and so many copies are kept at most.
SPACING, MOST = 0o1000000, 1000
# One program in so many is a long one.
LONG = 30
# Cells of data in a page, and the operates and transfers of programs that run on.
DATA, SUBROUTINE, COUNT = 0o140, 0o130, 24
OPERATES = [0o7000, 0o7001, 0o7004, 0o7006, 0o7010, 0o7012, 0o7020, 0o7040, 0o7041, 0o7100, 0o7200, 0o7240, 0o7300, 0o7410, 0o7420, 0o7430, 0o7440, 0o7450, 0o7500, 0o7510, 0o7604]
TRANSFERS = [0o6001, 0o6001, 0o6002, 0o6031, 0o6032, 0o6034, 0o6036, 0o6041, 0o6042, 0o6046, 0o6046, 0o6046, 0o6201, 0o6211, 0o6214, 0o6221, 0o6224]
# What serves an interrupt: AC goes, the flags are cleared, and the fields come back.
SERVICE = [0o6036, 0o6042, 0o6244, 0o6001, 0o5400]
SECONDS = 120
# The memory in which only some dozens of copies have room.
KILOBYTES = 4096


class Script:
    """The lines of a random program, and of what is done with it."""

    def __init__(self, random: Random, is_long: bool) -> None:
        self.random, self.is_long, self.lines, self.left = random, is_long, list[str](), 0
        self.first, self.fields = random.choice([0o200, 0o200, 0o7600]), random.sample([0, 1, 2], 2)
        self.is_wild = not is_long and random.random() < 0.3
        self.deposit_program()
        start = f"start {self.fields[0]}{self.first:04o}"
        begin = random.choice([["begin", start], *[[start, "begin"]] * 4])
        self.lines += [random.choice(["quick", "quick", "slow"]), f"switches {random.randrange(4096):04o}", *begin]
        if is_long:
            self.go_far()
        for _ in range(0 if is_long else random.randint(20, 50)):
            self.lines += self.command()
            self.lines += ["show"] * (random.random() < 0.4)
        self.lines.append("show")

    def tame(self) -> int:
        """An instruction with which a program runs on, in its own cells of data."""
        random, kind = self.random, self.random.random()
        if kind < 0.5:
            return random.choice([0, 1, 1, 2, 3]) << 9 | random.choice([0o200 | DATA + random.randrange(8), 0o400 | 0o20 + random.randrange(8)])
        if kind < 0.56:
            return 0o1410 + random.randrange(8)
        if kind < 0.64:
            return 0o4200 | SUBROUTINE
        change_fields = 0o6200 + 8 * random.choice(self.fields) + random.choice([2, 3])
        return random.choice(OPERATES if kind < 0.82 else TRANSFERS) if kind < 0.97 else change_fields

    def body(self) -> list[int]:
        if self.is_wild:
            return [instruction(self.random, self.first, COUNT) for _ in range(COUNT)]
        return [self.tame() for _ in range(COUNT)] + [0o5200 | self.first & 0o177] * 2

    def deposit_program(self) -> None:
        """Words of both fields, what serves an interrupt, pointers, a subroutine and data."""
        random = self.random
        for field in self.fields:
            cells = {self.first + k: word for k, word in enumerate(self.body())}
            cells |= {self.first + SUBROUTINE + k: word for k, word in enumerate([0, self.tame() & 0o1777, random.choice(OPERATES), 0o7000, 0o5600 | SUBROUTINE])}
            cells |= {0o20 + k: self.first + DATA + k for k in range(8)} | {self.first + DATA + k: random.randrange(4096) for k in range(8)}
            self.lines += [f"deposit {field}{cell:04o} {word:04o}" for cell, word in cells.items()]
        self.lines += [f"deposit 0{cell:04o} {word:04o}" for cell, word in enumerate(SERVICE if random.random() < 0.8 or self.is_long else [instruction(random, 1, 4)], 1)]

    def cell(self) -> str:
        """A cell that a program has to do with."""
        random = self.random
        own = [*[self.first + random.randrange(COUNT)] * 4, self.first + SUBROUTINE, *[self.first + DATA + random.randrange(8)] * 4, 0o10 + random.randrange(8), 0, 1]
        return f"{random.choice([self.fields[0], *self.fields])}{random.choice(own):04o}"

    def condition(self) -> str:
        random = self.random
        subroutine = f"{random.choice([self.fields[0], *self.fields])}{self.first + SUBROUTINE:04o}"
        return random.choice(["break", "break", "print", f"at {self.cell()}", f"write {self.cell()}", f"return {random.choice([subroutine, '00000'])}"])

    def change(self) -> str:
        random = self.random
        word = instruction(random, self.first, COUNT) if self.is_wild else random.randrange(4096)
        cell = self.cell() if self.is_wild else f"{random.choice(self.fields)}{self.first + DATA + random.randrange(8):04o}"
        key = f"key {random.randrange(256):03o}"
        return random.choice([key, key, key, f"deposit {cell} {word:04o}", f"switches {random.randrange(4096):04o}", f"start {random.choice(self.fields)}{self.first:04o}"])

    def command(self) -> list[str]:
        """One line that does something, or a few."""
        random, kind = self.random, self.random.random()
        if kind < 0.34:
            steps = random.choice([0, 1, random.randint(1, 9), random.randint(10, 100), random.randint(100, 400), random.randint(100, 400)])
            self.left += steps * 2 // 3
            return [random.choice([*[f"run {self.condition()} {steps}"] * 3, f"step {min(steps, 9)}", f"unasked {steps}"])]
        if kind < 0.5:
            return [self.change() for _ in range(random.randint(1, 2))]
        if kind < 0.6:
            return [random.choice(["quick", "slow", f"break {self.cell()}", f"break {self.cell()}"])]
        if kind < 0.74:
            back = random.choice([0, 1, 2, random.randint(1, 9), random.randint(1, 9), random.randint(1, 9), random.randint(1, self.left // 2 + 1)])
            self.left = max(0, self.left - back)
            return [f"back {back}"]
        if kind < 0.8:
            step = random.randint(self.left * 2 // 3, self.left + 1)
            self.left = min(self.left, step)
            return [f"goto {step}"]
        if kind < 0.98:
            return [f"{random.choice(['last', 'last', 'reverse'])} {self.condition()}"]
        return [random.choice(["begin", "plain 50"])]

    def go_far(self) -> None:
        """Goes past copies of the machine and back, with other changes beside them."""
        random = self.random
        if random.random() < 0.5:
            self.lines.append(f"break {self.fields[1]}{self.first + DATA:04o}")
        for _ in range(2):
            near = SPACING * random.randint(1, 2) + random.choice([-2, -1, -1, 0, 0, 1, random.randint(-SPACING, 0)])
            there = [f"run break {near}", *(self.change() for _ in range(random.randrange(3))), f"step {random.randint(0, 3)}", f"run {self.condition()} 3000"]
            back = random.choice([f"back {random.choice([1, 2, near, near + 1, random.randrange(2 * SPACING)])}", f"goto {random.choice([near, SPACING, random.randrange(2 * SPACING)])}"])
            self.lines += [*there[random.randrange(2) :], random.choice([back, back, f"reverse {self.condition()}", f"last {self.condition()}"]), "show"]


def printed(words: list[str], lines: list[str]) -> list[str]:
    """What a command prints of a script. A status other than 0 is a line more."""
    text = "".join(f"{line}\n" for line in lines)
    done = subprocess.run(words, input=text, capture_output=True, text=True, errors="replace", timeout=patience(SECONDS))
    return done.stdout.splitlines() + [done.stderr[:200]] * (done.stderr != "") + [f"status {done.returncode}"] * (done.returncode != 0)


def fault_of(program: str, seed: int, is_long: bool) -> str:
    """How what the program prints of a random script differs from the plain model's lines."""
    lines = Script(Random(seed), is_long).lines
    got, history, at = printed([program], lines), History(), 0
    for number, line in enumerate(lines, 1):
        said = got[at] if at < len(got) else ""
        wanted = history.answer(line, said)
        if got[at : at + len(wanted)] != wanted:
            here = next(it for it, want in enumerate(wanted) if got[at + it : at + it + 1] != [want])
            return f"line {number}, {line}: {got[at + here : at + here + 1]}, not {wanted[here]!r}"
        at += len(wanted)
    return "" if got[at:] == [] else f"after the last line it prints {got[at : at + 1]}"


def fault_far(program: str, seed: int, has_memory: bool) -> str:
    """How a place to which a program comes back from far shows otherwise than a run that ends there. With little memory some copies are refused."""
    random = Random(seed)
    script = Script(random, True)
    silent = [it.replace(" 6046", " 7000") for it in script.lines[: script.lines.index("begin")]]
    begin = [*silent, f"start {script.fields[0]}{script.first:04o}", "begin"]
    end = SPACING * MOST + random.randint(1, 20 * SPACING)
    places = sorted(random.sample(range(end), 4), reverse=True)
    words = [program] if has_memory else ["sh", "-c", f'ulimit -d {KILOBYTES}; exec "$0"', program]
    got = printed(words, [*begin, f"run break {end}", *(line for place in places for line in (f"goto {place}", "show"))])
    wanted = [line for place in places for line in printed([program], [*begin, f"run break {place}", "show"])[-5:]]
    shown = [line for k, line in enumerate(got[-6 * len(places) :]) if k % 6]
    return next((f"{one}, not {other}" for one, other in zip(shown, wanted) if one != other), "" if len(shown) == len(wanted) else f"it ends with {got[-1:]}")


def tried(program: str, seed: int, is_long: bool) -> str:
    return fault_in(functools.partial(fault_of, program, seed, is_long))


def main() -> int:
    words = argparse.ArgumentParser(description=__doc__, formatter_class=argparse.RawDescriptionHelpFormatter)
    words.add_argument("--program", default=f"{TOP}/target/unproved/history_trial/history_trial")
    words.add_argument("--programs", type=int, default=300)
    words.add_argument("--seed", type=int, default=1000 * datetime.date.today().toordinal())
    words.add_argument("--show", action="store_true", help="prints the script of the seed")
    given = words.parse_args()
    program, seeds = os.path.abspath(given.program), range(given.seed, given.seed + given.programs)
    kinds = [k % LONG == LONG - 1 for k in range(len(seeds))]
    if given.show:
        print(*Script(Random(given.seed), False).lines, sep="\n")
        return 0
    tally = Tally()
    with concurrent.futures.ProcessPoolExecutor(len(os.sched_getaffinity(0))) as lanes:
        kinds_far = {"far": True, "little memory": False} if len(seeds) >= 300 else {}
        far = {kind: lanes.submit(fault_in, functools.partial(fault_far, program, given.seed, has_memory)) for kind, has_memory in kinds_far.items()}
        for seed, is_long, fault in zip(seeds, kinds, lanes.map(tried, [program] * len(seeds), seeds, kinds)):
            tally.add("long" if is_long else "programs", fault and f"program {seed}: {fault}")
        for kind, it in far.items():
            tally.add(kind, it.result() and f"program {given.seed}, {kind}: {it.result()}")
    return tally.end()


if __name__ == "__main__":
    sys.exit(main())
