"""Random programs of an 8/E: words of core, with calls of its disk among them, and images for its drives."""
from random import Random
from tests.model.machine8e import WORDS

PROGRAM = [*range(0o200, 0o400), *range(0o10200, 0o10300)]
CONSTANTS = range(0o20, 0o60)
PROCESSOR = [0o6000, 0o6001, 0o6001, 0o6002, 0o6003, 0o6004, 0o6005, 0o6006, 0o6007]
CONSOLE = [0o6030, 0o6031, 0o6032, 0o6034, 0o6035, 0o6036, 0o6040, 0o6041, 0o6042, 0o6043, 0o6044, 0o6045, 0o6046]
OTHERS = [0o6050, 0o6101, 0o6234, 0o6770]
DISK = range(0o6740, 0o6750)


def instruction(random: Random) -> int:
    """A word that a program may have: a memory reference, an operate, or an IOT."""
    kind = random.random()
    if kind < 0.42:
        operation = random.choice([0, 1, 1, 2, 3, 3, 4, 5])
        return operation << 9 | random.choice([0, 0, 0o400]) | random.choice([0, 0o200]) | random.choice([random.randrange(128), random.choice(CONSTANTS), random.randrange(8, 16)])
    if kind < 0.72:
        return 0o7000 + random.randrange(512)
    if kind < 0.85:
        return 0o6200 + 8 * random.randrange(8) + random.choice([1, 2, 3, 4, 4, random.randrange(8)])
    return random.choice([random.choice(PROCESSOR), random.choice(CONSOLE), random.choice(DISK), random.choice(OTHERS)])


def disk_call(random: Random) -> list[int]:
    """A command, an address in memory and one on the disk, each from a constant of page zero, or one of them left out."""
    words = list[int]()
    for iot in (0o6746, 0o6744, 0o6743):
        if random.random() < 0.9:
            words += [0o7200, 0o1000 + random.choice(CONSTANTS), iot]
    return words + random.choice([[], [0o6741, 0o5000 + 0o200 + 0o177], [0o6741], [0o6745]])


def constant(random: Random) -> int:
    """A command of the disk, a place on it or in memory, or any word."""
    function = random.choice([0, 0, 1, 2, 3, 3, 4, 4, 5, 6, 7])
    command = function << 9 | random.choice([0, 0o400]) | random.choice([0, 0o200]) | random.choice([0, 0o100]) | 8 * random.randrange(2) | random.choice([0, 0, 2, 4, 6]) | random.choice([0, 0, 0, 1])
    return random.choice([command, command, random.randrange(4), random.choice([0o37, 0o40, 0o3120, 0o6540]), random.choice([0o400, 0o7600, 0o7700, 0o200]), random.randrange(4096)])


def program(random: Random) -> dict[int, int]:
    """The words of a program that starts at 00200, by their cells."""
    words = {cell: random.randrange(4096) for cell in range(0o20)} | {cell: constant(random) for cell in CONSTANTS}
    words |= {cell: random.choice([0o200, 0o300, random.randrange(4096)]) for cell in range(0o60, 0o100)}
    at = 0
    while at < len(PROGRAM):
        some = disk_call(random) if random.random() < 0.12 else [instruction(random)]
        words |= dict(zip(PROGRAM[at:], some))
        at += len(some)
    return words


def images(random: Random) -> list[dict[int, list[int]] | None]:
    """What the four drives have: a few sectors each, or no image."""
    return [{it: [random.randrange(4096) for _ in range(WORDS)] for it in range(random.randrange(1, 4))} if random.random() < 0.6 else None for _ in range(4)]


def file_of(sectors: dict[int, list[int]]) -> bytes:
    """The file of a drive's image."""
    return b"".join(word.to_bytes(2, "little") for number in range(max(sectors) + 1) for word in sectors.get(number, [0] * WORDS))
