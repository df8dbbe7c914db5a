"""A machine at a terminal, by the definitions: keys are struck where the program asks for one, and what is printed is shown."""
from dataclasses import dataclass
from typing import Iterator, Optional
from tests.model.machine import HALT, LIMIT, UNASSIGNED, Machine
from tests.model.tape import TapeFault, meaning_of
from tests.model.words import octal

KEYS = "KEYS"
TENTH_OF_A_SECOND = 30000


@dataclass
class Sitting:
    """How a program is run."""

    frames: list[int]
    keys: bytes
    is_raw: bool
    start: int
    switches: int
    steps: int


def keys_of(text: bytes, is_raw: bool) -> list[int]:
    """LF is struck as CR, and CR LF as one CR; other bytes below 0200 have the top bit set, and those above are none."""
    if is_raw:
        return list(text)
    text = text.replace(b"\r\n", b"\r").replace(b"\n", b"\r")
    return [it + 0o200 for it in text if it < 0o200]


def start_cell(meaning: dict[int, int]) -> int:
    """Where a program is started that says no start: at 00200, or else at the tape's first word; a mapping is in the order in which cells
    were first named."""
    return 0o200 if 0o200 in meaning else next(iter(meaning))


def start_note(sitting: Sitting, meaning: dict[int, int]) -> str:
    """What is said of that start, unless the first word goes to 00200 too; or of one that is given and has no word."""
    start = start_cell(meaning)
    if sitting.start >= 0:
        return "" if sitting.start in meaning else "note: the tape gives no word to the cell where the program starts\n"
    if next(iter(meaning)) == 0o200:
        return ""
    if start == 0o200:
        return "note: no --start is given, and 00200 has a word: the program starts there\n"
    return f"note: no --start is given, and 00200 has no word: the program starts at the first word of the tape\nSTART {octal(start, 5)}\n"


def asks(machine: Machine, since: int) -> bool:
    """Whether the program asks for a key: the next step is pulse 1 of a keyboard instruction, or a tenth of a second is over."""
    if machine.has_key:
        return False
    grants = machine.is_on and not machine.is_waiting and not machine.is_held and (machine.has_printed or machine.is_busy)
    word = machine.core[machine.here]
    return (word >> 3 == 0o603 and word & 1 == 1 and not grants) or (machine.is_on and since >= TENTH_OF_A_SECOND)


def waits(machine: Machine) -> bool:
    """Whether the machine does nothing but wait for a key, for ever."""
    place = (machine.pc + 1) % 4096
    jump = machine.core[4096 * machine.instruction_field + place]
    target = jump % 128 + (place // 128 * 128 if jump & 0o200 else 0)
    rests = not (machine.is_busy or machine.is_waiting or machine.is_held or machine.is_on and machine.has_printed)
    rests = rests and machine.buffer_field == machine.instruction_field
    return not machine.has_key and machine.core[machine.here] == 0o6031 and jump >> 8 == 0o12 and target == machine.pc and rests


def begun(sitting: Sitting) -> tuple[Machine, dict[int, int], list[int]] | str:
    """The machine that stands at the start of the program, the tape's words, and the keys; or the line of a fault."""
    meaning = meaning_of(sitting.frames)
    if isinstance(meaning, TapeFault):
        return meaning.line + "\n"
    if not meaning:
        return "? TELETYPE 1 NO WORD\n"
    machine = Machine()
    for cell, word in meaning.items():
        machine.core[cell] = word
    machine.switches = sitting.switches
    machine.start(sitting.start if sitting.start >= 0 else start_cell(meaning))
    return machine, meaning, keys_of(sitting.keys, sitting.is_raw)


def sat(sitting: Sitting) -> tuple[bytes, bytes, int]:
    """What goes to standard output and to standard error, and the status."""
    all_begun = begun(sitting)
    if isinstance(all_begun, str):
        return b"", all_begun.encode(), 1
    machine, given, keys = all_begun
    note = start_note(sitting, given).encode()
    shown, end, status = ended(machine, keys, sitting)
    return shown, note + end, status


def ended(machine: Machine, keys: list[int], sitting: Sitting) -> tuple[bytes, bytes, int]:
    """What a machine prints, how it ends, and the status."""
    last = LIMIT
    for *_, why in steps(machine, keys, sitting.steps):
        last = why or LIMIT
    shown = bytes(it % 128 for it in machine.printed if it % 128)
    here = octal(machine.here, 5)
    lines = {
        HALT: f"HALT {here} AC {octal(machine.ac, 4)} L {machine.link}\n",
        UNASSIGNED: f"UNASSIGNED {here} {octal(machine.core[machine.here], 4)}\n",
        KEYS: f"KEYS END {here}\n",
        LIMIT: f"LIMIT {here}\n",
    }
    return shown, (machine.notes() + lines[last]).encode(), 0 if last in (HALT, KEYS) else 1


def steps(machine: Machine, keys: list[int], most: int) -> Iterator[tuple[int, int, bool, Optional[str]]]:
    """Each step: the cell and the word before it, whether it was an interrupt, and why it was the last; the end alone where no step is
    made any more."""
    since = 0
    for _ in range(most):
        if asks(machine, since):
            since = 0
            if keys:
                machine.key(keys.pop(0))
        if not keys and waits(machine):
            yield -1, 0, False, KEYS
            return
        cell, word = machine.here, machine.core[machine.here]
        machine.done()
        is_interrupt = machine.is_on and not machine.is_waiting and not machine.is_held and (machine.has_key or machine.has_printed)
        why = machine.step()
        since += 1
        yield cell, word, is_interrupt, why
        if why:
            return
    yield -1, 0, False, LIMIT
