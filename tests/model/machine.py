"""The PDP-8/I with MC8 extended memory and a Teletype, by the tables of the handbook."""
import json
from typing import Optional
from tests.model.words import octal

HALT, UNASSIGNED, BREAK, LIMIT = "HALT", "UNASSIGNED", "BREAK", "LIMIT"


# A run's notes are about so many devices at most.
MOST_NOTES = 8


class Machine:
    """Core, registers and flags; the characters that were printed, and the breaks. The first IOT of each device that isn't there is kept by its device."""

    devices = frozenset([0o00, 0o03, 0o04, *range(0o20, 0o30)])

    def __init__(self) -> None:
        self.core = [0] * 32768
        self.ac = self.link = self.pc = 0
        self.instruction_field = self.buffer_field = self.data_field = self.save_field = 0
        self.switches = self.key_buffer = 0
        self.is_running = self.is_on = self.is_waiting = self.is_held = False
        self.has_key = self.has_printed = self.is_busy = False
        self.printed: list[int] = []
        self.breaks: set[int] = set()
        self.absent: dict[int, tuple[int, int]] = {}

    def start(self, cell: int) -> None:
        self.ac = self.link = self.save_field = 0
        self.is_on = self.is_waiting = self.is_held = False
        self.has_key = self.has_printed = self.is_busy = False
        self.instruction_field = self.buffer_field = self.data_field = cell // 4096
        self.pc, self.is_running = cell % 4096, True

    def key(self, character: int) -> None:
        self.key_buffer, self.has_key = character, True

    def done(self) -> None:
        if self.is_busy:
            self.is_busy, self.has_printed = False, True

    @property
    def here(self) -> int:
        return 4096 * self.instruction_field + self.pc

    def go(self, steps: int, minds_breaks: bool, is_quick: bool) -> tuple[int, str]:
        """Makes so many steps, or as many as come before an end; how many were made, and why they ended."""
        for made in range(steps):
            if not self.is_running:
                return made, HALT
            if is_quick:
                self.done()
            why = self.step()
            if why:
                return made + 1, why
            if minds_breaks and self.here in self.breaks:
                return made + 1, BREAK
        return steps, LIMIT

    def step(self) -> Optional[str]:
        """One instruction, or one interrupt; whether it stopped the machine, and how."""
        if self.is_on and not self.is_waiting and not self.is_held and (self.has_key or self.has_printed):
            self.core[0] = self.pc
            self.save_field = 8 * self.instruction_field + self.data_field
            self.pc, self.is_on = 1, False
            self.instruction_field = self.buffer_field = self.data_field = 0
            return None
        place, word = self.pc, self.core[self.here]
        self.pc = (self.pc + 1) % 4096
        if is_unassigned(word):
            self.pc, self.is_running = place, False
            return UNASSIGNED
        begins_to_wait = word == 0o6001 and not self.is_on
        if word < 0o6000:
            self.refer(word, place)
        elif word < 0o7000:
            self.meet(word, place)
            self.input_output(word)
        elif word & 0o400:
            self.group_2(word)
        else:
            self.group_1(word)
        self.is_waiting = begins_to_wait
        return None if self.is_running else HALT

    def refer(self, word: int, place: int) -> None:
        """Memory reference: operations 0 to 5."""
        operation, field = word >> 9, self.instruction_field
        address = word & 0o177 | (place & 0o7600 if word & 0o200 else 0)
        if word & 0o400:
            pointer = 4096 * field + address
            if 0o10 <= address <= 0o17:
                self.core[pointer] = (self.core[pointer] + 1) % 4096
            address = self.core[pointer]
            field = self.data_field
        if operation >= 4:
            self.jump(operation, address)
            return
        cell = 4096 * field + address
        if operation == 0:
            self.ac &= self.core[cell]
        elif operation == 1:
            total = self.ac + self.core[cell]
            self.ac, self.link = total % 4096, self.link ^ total >> 12
        elif operation == 2:
            self.core[cell] = (self.core[cell] + 1) % 4096
            self.skip(self.core[cell] == 0)
        else:
            self.core[cell], self.ac = self.ac, 0

    def jump(self, operation: int, address: int) -> None:
        """JMS and JMP go to the instruction buffer's field."""
        self.instruction_field, self.is_held = self.buffer_field, False
        if operation == 4:
            self.core[4096 * self.instruction_field + address] = self.pc
            address = (address + 1) % 4096
        self.pc = address

    def skip(self, condition: bool) -> None:
        self.pc = (self.pc + condition) % 4096

    def group_1(self, word: int) -> None:
        if word & 0o200:
            self.ac = 0
        if word & 0o100:
            self.link = 0
        if word & 0o40:
            self.ac ^= 0o7777
        if word & 0o20:
            self.link ^= 1
        bits = (4096 * self.link + self.ac + (word & 1)) % 8192
        for _ in range(2 if word & 0o2 else 1):
            if word & 0o10:
                bits = bits // 2 + 4096 * (bits % 2)
            elif word & 0o4:
                bits = bits * 2 % 8192 + bits // 4096
        self.link, self.ac = divmod(bits, 4096)

    def group_2(self, word: int) -> None:
        holds = [word & 0o100 and self.ac & 0o4000, word & 0o40 and self.ac == 0, word & 0o20 and self.link]
        self.skip(any(holds) != bool(word & 0o10))
        if word & 0o200:
            self.ac = 0
        if word & 0o4:
            self.ac |= self.switches
        if word & 0o2:
            self.is_running = False

    def meet(self, word: int, place: int) -> None:
        """Keeps the word and the cell of an IOT whose device isn't there, and is met for the first time."""
        device = word >> 3 & 0o77
        if device not in self.devices:
            self.absent.setdefault(device, (word, 4096 * self.instruction_field + place))

    def notes(self) -> str:
        """What a run at the Teletype says of devices that aren't there."""
        return "".join(f"note: no device {octal(word, 4)} at {octal(cell, 5)}\n" for word, cell in [*self.absent.values()][:MOST_NOTES])

    def input_output(self, word: int) -> None:
        device, pulses = word >> 3 & 0o77, word & 7
        if word in (0o6001, 0o6002):
            self.is_on = word == 0o6001
        elif device == 0o03:
            self.keyboard(pulses)
        elif device == 0o04:
            self.printer(pulses)
        elif device & 0o70 == 0o20:
            self.fields(device & 7, pulses)

    def keyboard(self, pulses: int) -> None:
        self.skip(bool(pulses & 1) and self.has_key)
        if pulses & 2:
            self.ac, self.has_key = 0, False
        if pulses & 4:
            self.ac |= self.key_buffer

    def printer(self, pulses: int) -> None:
        self.skip(bool(pulses & 1) and self.has_printed)
        if pulses & 2:
            self.has_printed = False
        if pulses & 4:
            self.printed.append(self.ac % 256)
            self.is_busy = True

    def fields(self, number: int, pulses: int) -> None:
        """Extended memory."""
        if pulses in (1, 3):
            self.data_field = number
        if pulses in (2, 3):
            self.buffer_field, self.is_held = number, True
        if pulses == 4 and number == 1:
            self.ac |= 8 * self.data_field
        if pulses == 4 and number == 2:
            self.ac |= 8 * self.instruction_field
        if pulses == 4 and number == 3:
            self.ac |= self.save_field
        if pulses == 4 and number == 4:
            self.buffer_field, self.data_field = divmod(self.save_field, 8)
            self.is_held = True

    def registers(self) -> str:
        shown = dict(
            ac=octal(self.ac, 4), busy=self.is_busy, df=octal(self.data_field, 1), held=self.is_held,
            ib=octal(self.buffer_field, 1), ion=self.is_on, kbd=self.has_key, key=octal(self.key_buffer, 3),
            l=octal(self.link, 1), pc=octal(self.pc, 4), printer=self.has_printed, run=self.is_running,
            sf=octal(self.save_field, 2), switches=octal(self.switches, 4), wait=self.is_waiting,
        )  # fmt: skip
        return json.dumps(shown | {"if": octal(self.instruction_field, 1)}, sort_keys=True, separators=(",", ":"))


def is_unassigned(word: int) -> bool:
    """Operates of this project's profile that stop the machine: two rotations at once, twice none, and group 3."""
    if word < 0o7000:
        return False
    if word & 0o400:
        return bool(word & 1)
    return word & 0o14 == 0o14 or word & 0o16 == 0o2
