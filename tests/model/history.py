"""A machine with its history, in which one goes back. Each answer is found by the plain machine, which runs anew from the start for the changes that are
left. It keeps no copies on the way, and no history but the list of changes."""
import copy
from dataclasses import dataclass
from typing import Any, Callable, Optional
from tests.model.machine import Machine
from tests.model.words import octal

KSF = (0o6031, 0o6033, 0o6035, 0o6037)


class Core(list[int]):
    """Words that note the cells in which they are stored."""

    def __init__(self, words: list[int]) -> None:
        super().__init__(words)
        self.stored = list[int]()

    def __setitem__(self, cell: Any, word: Any) -> None:
        self.stored.append(cell)
        super().__setitem__(cell, word)


@dataclass(frozen=True)
class Change:
    """What is done with a machine: a step, or a change by the console."""

    kind: str
    cell: int = 0
    word: int = 0

    def make(self, machine: Machine) -> None:
        if self.kind in ("quick", "slow"):
            if self.kind == "quick":
                machine.done()
            if machine.is_running:
                machine.step()
        elif self.kind == "key":
            machine.key(self.word)
        elif self.kind == "deposit":
            machine.core[self.cell] = self.word
        elif self.kind == "switches":
            machine.switches = self.word
        else:
            machine.start(self.cell)


STEPS = {is_quick: Change("quick" if is_quick else "slow") for is_quick in (True, False)}


@dataclass
class Seen:
    """What was seen of a step: what is said of it, where it stored, through which first word it returned, and what comes after it."""

    said: str
    stored: list[int]
    returned: Optional[int]
    here: int

    def prints(self) -> bool:
        return self.said.isdigit()


Condition = Callable[[Seen], bool]


def copy_of(machine: Machine) -> Machine:
    """Another machine that is the same, and has printed nothing."""
    other = copy.copy(machine)
    other.core, other.printed = Core(machine.core), []
    return other


def is_interrupted(machine: Machine) -> bool:
    return machine.is_on and not machine.is_waiting and not machine.is_held and (machine.has_key or machine.has_printed)


def returned_through(machine: Machine) -> Optional[int]:
    """The first word through which the next step returns from a subroutine: an indirect JMP."""
    word = machine.core[machine.here]
    if not machine.is_running or is_interrupted(machine) or word >> 9 != 5 or not word & 0o400:
        return None
    return 4096 * machine.instruction_field + (word & 0o177) + (machine.pc & 0o7600 if word & 0o200 else 0)


def watched(machine: Machine, is_quick: bool) -> Seen:
    """Makes a step, and returns what is seen of it."""
    if is_quick:
        machine.done()
    core = machine.core
    assert isinstance(core, Core)
    core.stored.clear()
    if not machine.is_running:
        return Seen("stopped", [], None, machine.here)
    is_interrupt, returned, count, word = is_interrupted(machine), returned_through(machine), len(machine.printed), core[machine.here]
    why = machine.step()
    said = {"HALT": "halted", "UNASSIGNED": f"unassigned {octal(word, 4)}"}.get(why or "", "interrupted" if is_interrupt else "ran")
    if len(machine.printed) > count:
        said = octal(machine.printed[-1], 3)
    return Seen(said, list(core.stored), returned, machine.here)


class History:
    """The first machine, and the changes since, the oldest first."""

    def __init__(self) -> None:
        self.first, self.changes = copy_of(Machine()), list[Change]()
        self.is_quick, self.breaks = True, set[int]()

    def now(self) -> Machine:
        """The machine as it is now, and what it printed."""
        machine = copy_of(self.first)
        for change in self.changes:
            change.make(machine)
        return machine

    def steps(self) -> int:
        return sum(it.kind in ("quick", "slow") for it in self.changes)

    def condition(self, words: list[str]) -> Condition:
        """The condition that words say."""
        kind, cell = words[0], int(words[1], 8) if words[1:] else 0
        conditions: dict[str, Condition] = {
            "break": lambda seen: seen.here in self.breaks,
            "at": lambda seen: seen.here == cell,
            "write": lambda seen: cell in seen.stored,
            "print": Seen.prints,
            "return": lambda seen: seen.returned == cell,
        }
        return conditions[kind]

    def step(self, count: int) -> str:
        """Makes so many steps, and returns what each did."""
        machine, said = self.now(), list[str]()
        for _ in range(count):
            said.append(watched(machine, self.is_quick).said)
            self.changes.append(STEPS[self.is_quick])
        return " ".join(["step", *said])

    def run(self, condition: Condition, most: int) -> str:
        """Makes steps until a condition holds of one."""
        machine = self.now()
        if not machine.is_running:
            return "run 0 stopped"
        for made in range(1, most + 1):
            seen = watched(machine, self.is_quick)
            self.changes.append(STEPS[self.is_quick])
            if not machine.is_running:
                return f"run {made} stopped"
            if condition(seen):
                return f"run {made} met"
        return f"run {most} limit"

    def unasked(self, most: int, count: int) -> str:
        """So many steps, of which each must be as one that asks for no key is. How many are made at once is the program's own affair."""
        machine = self.now()
        is_on = machine.is_on
        for made in range(count):
            asks = not machine.has_key and machine.core[machine.here] in KSF
            seen = watched(machine, True)
            self.changes.append(STEPS[True])
            if made >= most or asks or seen.said != "ran" or machine.is_on != is_on and made < count - 1:
                return f"unasked {made}, and not {count}"
        return f"unasked {count}"

    def last(self, condition: Condition) -> Optional[int]:
        """How many changes ago a condition held last, before the present."""
        machine, found = copy_of(self.first), None
        for count, change in enumerate(self.changes[:-1], 1):
            if change.kind in ("quick", "slow"):
                if condition(watched(machine, change.kind == "quick")):
                    found = len(self.changes) - count
            else:
                change.make(machine)
        return found

    def back(self, count: int) -> None:
        self.changes = self.changes[: max(0, len(self.changes) - count)]

    def to_step(self, steps: int) -> None:
        """Goes back to where so many steps were made and the next one is due."""
        made = 0
        for count, change in enumerate(self.changes):
            if change.kind in ("quick", "slow"):
                if made == steps:
                    self.changes = self.changes[:count]
                    return
                made += 1

    def begin(self, machine: Machine) -> None:
        """Begins the history anew with a machine."""
        self.first, self.changes = copy_of(machine), []

    def plain(self, most: int) -> str:
        """Makes steps until a break, and begins the history anew."""
        machine = self.now()
        machine.breaks = self.breaks
        made, _ = machine.go(most, True, self.is_quick)
        self.begin(machine)
        return f"plain {made}"

    def counts(self) -> str:
        return f"changes {len(self.changes)} steps {self.steps()}"

    def shown(self) -> list[str]:
        """The lines that show the machine."""
        it = self.now()
        registers = f"ac {octal(it.ac, 4)} l {it.link} pc {octal(it.pc, 4)} if {it.instruction_field} ib {it.buffer_field} df {it.data_field}"
        registers += f" sf {octal(it.save_field, 2)} switches {octal(it.switches, 4)} key {octal(it.key_buffer, 3)}"
        flags = dict(run=it.is_running, ion=it.is_on, wait=it.is_waiting, held=it.is_held, kbd=it.has_key, printer=it.has_printed, busy=it.is_busy)
        cells = [f"{octal(cell, 5)} {octal(word, 4)}" for cell, word in enumerate(it.core) if word != self.first.core[cell]]
        return [
            registers,
            " ".join(["flags", *(name for name, is_set in flags.items() if is_set)]),
            " ".join(["cells", *cells]),
            " ".join(["printed", *(octal(character, 3) for character in it.printed)]),
            self.counts(),
        ]

    def answer(self, line: str, said: str) -> list[str]:
        """The lines that answer a line of a script. Of them the program's first one is this."""
        words = line.split()
        kind, number = words[0], int(words[-1]) if words[-1].isdigit() else 0
        if kind in ("key", "deposit", "switches", "start"):
            self.changes.append(changed(words))
        elif kind in ("quick", "slow"):
            self.is_quick = kind == "quick"
        elif kind == "break":
            self.breaks ^= {int(words[1], 8)}
        elif kind == "step":
            return [self.step(number)]
        elif kind == "run":
            return [self.run(self.condition(words[1:-1]), number)]
        elif kind == "unasked":
            return [self.unasked(number, int(said.split()[-1]))]
        elif kind in ("last", "reverse"):
            found = self.last(self.condition(words[1:]))
            self.back(found or 0 if kind == "reverse" else 0)
            return ["last never" if found is None else f"last {found}"]
        elif kind in ("begin", "plain"):
            return [self.plain(number)]
        elif kind == "show":
            return self.shown()
        else:
            (self.back if kind == "back" else self.to_step)(number)
            return [self.counts()]
        return []


def changed(words: list[str]) -> Change:
    """The change that the words of a line make."""
    if words[0] == "deposit":
        return Change("deposit", int(words[1], 8), int(words[2], 8))
    return Change("start", int(words[1], 8)) if words[0] == "start" else Change(words[0], 0, int(words[1], 8))
