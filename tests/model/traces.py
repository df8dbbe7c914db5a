"""The lines of a trace and of a profile, by their definitions: a line for each step of a machine at a terminal, and how often each cell
was fetched."""
from tests.model.terminal import Sitting, begun, start_note, steps
from tests.model.words import octal

OPERATIONS = ["AND", "TAD", "ISZ", "DCA", "JMS", "JMP"]
INTERRUPT = "INTERRUPT"

Words = dict[int, str]
"""How a source spells the words from 6000 up."""


def spelled(cell: int, word: int, given: dict[int, int], names: Words) -> str:
    """An instruction as a source spells it: the cell that a memory reference names by its tag, where the tape gives it a word."""
    if word >= 0o6000:
        return names[word]
    if word & 0o200 and cell % 4096 < 0o200:
        return octal(word, 4)
    address = word % 128 + (cell % 4096 // 128 * 128 if word & 0o200 else 0)
    named = cell // 4096 * 4096 + address
    shown = "A" + octal(named, 5) if named in given else octal(address, 4)
    return " ".join([OPERATIONS[word >> 9], *(["I"] if word & 0o400 else []), shown])


def character(code: int) -> str:
    low = code % 128
    return f"'{chr(low)}'" if 0o40 <= low < 0o177 else octal(code, 4)


def traced(sitting: Sitting, names: Words) -> tuple[str, int]:
    """What a trace prints, and its status."""
    all_begun = begun(sitting)
    if isinstance(all_begun, str):
        return all_begun, 1
    machine, given, keys = all_begun
    lines, made = [], 0
    before = list(machine.core)
    for cell, word, is_interrupt, why in steps(machine, keys, sitting.steps):
        if cell < 0:
            break
        made += 1
        said = INTERRUPT if is_interrupt else f"{octal(cell, 5)} {octal(word, 4)}\t{spelled(cell, word, given, names)}"
        said += f"\tAC {octal(machine.ac, 4)} L {machine.link}"
        for changed in changed_cells(before, machine.core, cell, word, is_interrupt):
            said += f"\t{octal(changed, 5)} {octal(machine.core[changed], 4)}"
            before[changed] = machine.core[changed]
        said += "".join("\t" + character(it) for it in machine.printed)
        machine.printed.clear()
        lines.append(said + "\n")
    lines.append(f"STEPS {made} {why} {octal(machine.here, 5)}\n")
    return start_note(sitting, given) + "".join(lines), 0


def changed_cells(before: list[int], core: list[int], cell: int, word: int, is_interrupt: bool) -> list[int]:
    """The cells whose words differ, the pointer of an auto-index before the cell that the instruction stores in."""
    found = [it for it in range(32768) if before[it] != core[it]] if before != core else []
    address = word % 128 + (cell % 4096 // 128 * 128 if word & 0o200 else 0)
    pointer = cell // 4096 * 4096 + address
    has_pointer = not is_interrupt and word < 0o6000 and word & 0o400 and 0o10 <= address <= 0o17
    return sorted(found, key=lambda it: not (has_pointer and it == pointer))


def profiled(sitting: Sitting) -> tuple[str, int]:
    """What a profile prints, and its status."""
    all_begun = begun(sitting)
    if isinstance(all_begun, str):
        return all_begun, 1
    machine, given, keys = all_begun
    counts, made = [0] * 32768, 0
    for cell, _, is_interrupt, why in steps(machine, keys, sitting.steps):
        if cell >= 0:
            made += 1
            counts[cell] += not is_interrupt
    ranked = sorted((it for it in range(32768) if counts[it]), key=lambda it: (-counts[it], it))
    lines = [f"{octal(it, 5)} {counts[it]}\n" for it in ranked]
    lines += [f"NEVER {octal(first, 5)}" + (f" TO {octal(last, 5)}" if last > first else "") + "\n" for first, last in runs(given, counts)]
    return start_note(sitting, given) + "".join(lines) + f"STEPS {made} {why} {octal(machine.here, 5)}\n", 0


def runs(given: dict[int, int], counts: list[int]) -> list[tuple[int, int]]:
    """The first and the last cell of each run of cells that the tape gives a word and that never were fetched."""
    found: list[tuple[int, int]] = []
    for cell in sorted(given):
        if counts[cell]:
            continue
        if found and found[-1][1] == cell - 1 and cell % 4096:
            found[-1] = found[-1][0], cell
        else:
            found.append((cell, cell))
    return found
