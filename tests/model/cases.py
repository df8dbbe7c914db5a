"""Random cases: an image, and a script for it whose jobs' turns fall in any order."""
from dataclasses import dataclass
from random import Random
from tests.model.edges import cut_off, edge
from tests.model.sources import plain_text, source, tape
from tests.model.volume import Lot, made_image
from tests.model.words import BLOCK_WORDS, packed, parsed_name, stored_text

PAUSING = ["S1.PA", "S2.PA"]
SOURCES = ["S3.PA", "S4.PA", "S5.PA"]
FILES = PAUSING + SOURCES
TAPES = ["B.BN", "C.BN", "T.BN"]
CELLS = ["00200", "00201", "00202", "00203", "00210", "00377", "10200", "00000", "00010", "07777", "27777", "00400"]
BAD_LINES = ["", "\r", "TURN", "DIRECT ", "ASSEMBLE B.BN<", "ASSEMBLE B.BN<S1.PA<S2.PA", "LOAD", "STEP 0", "GO 1000001", "KEY 400"] + [
    "ASSEMBLE B.BN<S1.PA,", "ASSEMBLE B.BN<A,A,A,A,A,A,A,A,A", "ASSEMBLE B,C<S1.PA", "BREAK 00200", "STORE A 1000000", "SQUEEZE 1", "EXAMINE 200",
]  # fmt: skip
WORDS = [0o7300, 0o7001, 0o7402, 0o6046, 0o6041, 0o6031, 0o6036, 0o6001, 0o6002, 0o6201, 0o6212, 0o6223, 0o6234, 0o6244, 0o7004, 0o7012]


@dataclass
class Case:
    """The bytes of an image, and the entries of a script, each with its text."""

    image: bytes
    entries: list[bytes]

    @property
    def script(self) -> bytes:
        return b"".join(self.entries)


def stored(name: str, text: bytes) -> bytes:
    return f"STORE {name} {text.count(10)}\n".encode() + text


def store(random: Random) -> bytes:
    name = random.choice(FILES + TAPES[:1])
    return stored(name, source(random, name in PAUSING) if random.random() < 0.85 else plain_text(random))


def assembling(random: Random) -> str:
    count = random.choice([0, 0, 0, 1, 1, 2, 7])
    sources = [random.choice(PAUSING) for _ in range(count)] + [random.choice(SOURCES)]
    if random.random() < 0.1:
        sources = [random.choice(FILES) for _ in range(random.choice([1, 2, 8]))]
    return f"ASSEMBLE {random.choice(TAPES + TAPES + FILES)}<{','.join(sources)}"


def name(random: Random) -> str:
    return random.choice(FILES + TAPES + ["NONE", "lower", "TOOLONGX", "A.BCD"])


def console(random: Random) -> str:
    cell, word = random.choice(CELLS), random.choice([*WORDS, random.randrange(4096), random.randrange(4096)])
    steps = random.choice([1, 2, 3, 10, 50, 200])
    return random.choice([
        f"START {cell}", f"STEP {steps}", f"STEP {steps}", f"GO {steps}", f"RUN {cell} {steps}", f"RUN 00200 {steps}",
        f"KEY {random.choice(['301', '000', '377', '215'])}", "DONE", f"SWITCHES {word:04o}", f"EXAMINE {cell}",
        f"DEPOSIT {cell} {word:04o}", "REGISTERS", "PRINTED", f"BREAK {cell} {random.choice(['ON', 'ON', 'OFF'])}",
        *(f"DEPOSIT {it} {random.choice(WORDS):04o}" for it in CELLS[:4]),
    ])  # fmt: skip


def instruction(random: Random, first: int, count: int) -> int:
    """A word that is an instruction, or points to one; a memory reference is mostly to one of the program's own cells."""
    kind = random.random()
    cell = (first + random.randrange(count)) % 4096
    if kind < 0.45:
        page_bit = random.choice([0o200, 0o200, 0o200, 0])
        address = cell % 128 if page_bit else random.choice([0o10, 0o17, 0, random.randrange(128)])
        return random.choice([0, 0o1000, 0o1000, 0o2000, 0o3000, 0o4000, 0o5000]) + random.choice([0, 0o400]) + page_bit + address
    if kind < 0.65:
        return 0o7000 + random.choice([random.randrange(256) & 0o361, random.randrange(256), 0o400 + random.randrange(256) & 0o774])
    if kind < 0.75:
        return cell
    if kind < 0.85:
        return 0o6200 + random.choice([0, 0, 0o10, 0o20]) + random.choice([1, 1, 2, 3, 4])
    return random.choice([*WORDS, 0o6030 + random.randrange(16), 0o6200 + random.randrange(64), random.randrange(4096)])


def program(random: Random) -> list[bytes]:
    """Words in the same cells of two fields, and their run in some steps."""
    first, count = random.choice([0o200, 0o200, 0o7760, 0]), random.randint(8, 40)
    cells = [f"{field}{(first + k) % 4096:04o}" for field in random.sample([0, 1, 2], 2) for k in range(count)]
    lines = [f"DEPOSIT {cell} {instruction(random, first, count):04o}" for cell in cells]
    lines += [random.choice(["SWITCHES 5252", "DEPOSIT 00000 5400", "DEPOSIT 00001 7001"]), f"START {cells[0]}"]
    for _ in range(random.randint(4, 12)):
        lines.append(random.choice([f"STEP {random.randint(1, 6)}", f"STEP {random.randint(1, 6)}", "KEY 301", "DONE", "GO 30"]))
        lines.append(random.choice(["REGISTERS", f"EXAMINE {random.choice(cells)}", f"START {random.choice(cells)}"]))
    lines += ["REGISTERS", "PRINTED", *(f"EXAMINE {cell}" for cell in cells[::3])]
    return [line.encode() + b"\n" for line in lines]


def breaks(random: Random) -> list[bytes]:
    first = random.choice([0o200, 0o70000])
    return [f"BREAK {first + k:05o} ON\n".encode() for k in range(random.choice([62, 64, 66]))]


def entry(random: Random) -> list[bytes]:
    """One entry, or a few that belong together."""
    kind = random.random()
    if kind < 0.14:
        return [store(random)]
    if kind < 0.4:
        return [f"TURN {random.choice([1, 1, 1, 2, 2, 2, 3, 3, 4, 5, 6, 7, 8, 9, 0])}\n".encode()]
    if kind < 0.55:
        loads = [f"LOAD {name(random)}", f"LOAD {random.choice(TAPES)}"]
        return [random.choice([assembling(random), assembling(random), *loads, "SQUEEZE"]).encode() + b"\n"]
    if kind < 0.64:
        return [f"DELETE {name(random)}\n".encode()]
    if kind < 0.69:
        return [b"DIRECT\n"]
    if kind < 0.72:
        return [random.choice(BAD_LINES).encode() + b"\n"]
    if kind < 0.722:
        return breaks(random)
    if kind < 0.79:
        return program(random)
    if kind < 0.8:
        return [b"FINISH\n"]
    return [console(random).encode() + b"\n"]


def lots(random: Random, count: int, most: int) -> list[Lot]:
    """Files of all kinds, free blocks between some."""
    found = []
    names = TAPES + FILES + [f"F{k}" for k in range(count)] + ["ODD"]
    for it in random.sample(names[: count + 8], count):
        frames = tape(random) if it in TAPES else None
        words = packed(frames) if frames else stored_text(source(random)) or []
        if most == 1:
            words = words[:BLOCK_WORDS]
        code = (1, 0o3740, 0o77, 0o4100) if it == "ODD" else parsed_name(it.encode())
        found.append(Lot(code, len(words) // BLOCK_WORDS, words))
        if random.random() < 0.8 or most == 1:
            found.append(Lot(None, random.choice([0, 1, 1, 2]) if most > 1 else 1, []))
    return found


def full_image(random: Random) -> bytes:
    """An image whose directory has few entries left, or more than a change may write."""
    found = lots(random, random.choice([44, 47, 48, 48, 49, 55]), 1)
    return made_image(7 + sum(lot.blocks for lot in found) + random.choice([1, 3, 8, 20]), 10, 7, found)


def image(random: Random) -> bytes:
    """A new volume, one with files and gaps, or one with a full directory."""
    kind = random.random()
    if kind < 0.5:
        return made_image(random.choice([9, 14, 20, 30, 40, 60]), 1, 7, [])
    if kind < 0.6:
        return full_image(random)
    found, first = lots(random, random.randint(1, 8), 2), random.choice([7, 7, 9])
    blocks = first + sum(lot.blocks for lot in found) + random.choice([0, 1, 3, 8, 20])
    behind = random.choice([b"", b"", b"\1\2" * 256])
    return made_image(max(blocks, 8), random.choice([0, 1, 1, 3]), first, found) + behind


def burst(random: Random) -> list[bytes]:
    """Jobs that are begun, and turns of them in any order with other entries between."""
    starts = []
    for _ in range(random.randint(2, 9)):
        starts.append(random.choice([assembling(random), assembling(random), "SQUEEZE", f"LOAD {random.choice(TAPES)}"]))
    entries = [it.encode() + b"\n" for it in starts]
    for _ in range(random.randint(10, 60)):
        entries += entry(random) if random.random() < 0.25 else [f"TURN {random.randint(1, min(len(starts), 6))}\n".encode()]
    return entries + ([b"FINISH\n"] if random.random() < 0.5 else [])


def made_case(seed: int) -> Case:
    random = Random(seed)
    entries = [stored(it, source(random, it in PAUSING)) for it in FILES if random.random() < 0.8]
    for _ in range(random.choice([1, 2, 3])):
        entries += burst(random)
    for _ in range(random.randint(5, 25)):
        entries += entry(random)
    for _ in range(random.randint(2, 5)):
        entries += edge(random)
    entries += [b"FINISH\n", *(f"LOAD {it}\n".encode() for it in TAPES), b"FINISH\n"]
    entries += [f"EXAMINE {it}\n".encode() for it in CELLS]
    entries += [b"RUN 00200 40\n", b"PRINTED\n", b"REGISTERS\n", b"DIRECT\n"]
    return Case(image(random), entries + cut_off(random))
