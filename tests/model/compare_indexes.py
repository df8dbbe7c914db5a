#!/usr/bin/env python3
"""compare_indexes.py [--program FILE] [--images N] [--seed S]: makes N random image files, 2,000 where nothing is said. They are volumes with files
of all kinds, odd names and dates, alone in their files, on disks and on DECtapes. Some have bytes before or after them, and some files hold no
volume. It compares what `index` prints of 200 of them at once, of those with --same, and of each twentieth alone, with a plain reader that is written from
the definitions alone. The same number is the same images each time. The last line is 'N passed, M failed'.
"""
import argparse
import functools
import os
import subprocess
import sys
import tempfile
from random import Random
from typing import Callable

sys.dont_write_bytecode = True
TOP = os.path.dirname(os.path.dirname(os.path.dirname(os.path.abspath(__file__))))
sys.path.insert(0, TOP)
from tests.model.cases import full_image, lots
from tests.model.disks import VOLUME, held_image
from tests.model.index import equal_lines, indexed
from tests.model.tape import tape_of
from tests.model.volume import Lot, made_image
from tests.model.words import BLOCK_WORDS, Name, packed, parsed_name, stored_text
from tests.options import patience
from tests.tally import Tally, fault_in

ALONE = 20
AT_ONCE = 200


def random_name(random: Random) -> Name:
    """A name that can be typed, or one of any codes."""
    if random.random() < 0.7:
        typed = random.choice(["A", "GAME.SV", "LIST.PA", "Z9.TX", "PUNCH.BN", "X.DA"])
        return parsed_name(typed.encode()) or (0, 0, 0, 0)
    return (random.randrange(1, 4096), random.randrange(4096), random.choice([0, random.randrange(4096)]), random.choice([0, random.randrange(4096)]))


def core_words(random: Random) -> list[int]:
    """A core image of one segment, in some of which one word is wrong."""
    words = [0o7777, 0o6203 + 8 * random.randrange(8), random.randrange(4096), 0, 256 * random.randrange(14), 0o100 * random.randint(1, 4) + 8 * random.randrange(8)]
    if random.random() < 0.3:
        words[random.randrange(len(words))] = random.randrange(4096)
    return words + [random.randrange(4096) for _ in range(BLOCK_WORDS * 3 - len(words))]


def rim_frames(random: Random) -> list[int]:
    pairs = [(random.randrange(64, 128), *(random.randrange(64) for _ in range(3))) for _ in range(random.randint(0, 9))]
    return [0o200] * random.randrange(4) + [frame for pair in pairs for frame in pair] + [0o200] * random.randrange(3)


def random_words(random: Random) -> list[int]:
    """The words of a file of any kind."""
    kind = random.randrange(7)
    if kind == 0:
        return [0] * BLOCK_WORDS
    if kind == 1:
        return core_words(random)
    if kind == 2:
        return packed(tape_of([(random.randrange(0o100000), random.randrange(4096)) for _ in range(random.randint(1, 20))]))
    if kind == 3:
        return packed(rim_frames(random))
    if kind == 4:
        return stored_text(random.choice([b"HELLO\n", b"\tTAD A\n/ \a\f\n" * 40, b" \n", b"A" * 384])) or []
    if kind == 5:
        frames = list(packed([0o200 + it for it in b"TEXT\r\n"]))
        frames[random.randrange(len(frames))] ^= random.randrange(4096)
        return frames
    return [random.randrange(4096) for _ in range(BLOCK_WORDS * random.randint(1, 3))]


def random_image(random: Random) -> bytes:
    if random.random() < 0.1:
        return full_image(random)
    found, info, first = lots(random, random.randint(0, 4), 2), random.randint(0, 3), random.choice([7, 7, 9])
    names = {lot.name for lot in found}
    for _ in range(random.randint(0, 6)):
        name, words = random_name(random), random_words(random)
        if words and name not in names:
            names.add(name)
            found.append(Lot(name, len(words) // BLOCK_WORDS, words))
    blocks = first + sum(lot.blocks for lot in found) + random.choice([0, 1, 3, 8, 20])
    image = bytearray(made_image(max(blocks, 8), info, first, found))
    image[510:512] = random.choice([0, 0o200, 0o400, 0o777, random.randrange(4096)]).to_bytes(2, "little")
    return bytes(image)


def random_file(random: Random) -> bytes:
    """An image file: sound for the most part, and of any layout."""
    image = random_image(random)
    kind = random.random()
    if kind < 0.1:
        data = bytearray(image)
        at = random.randrange(0, min(len(data), 8 * 512), 2)
        data[at : at + 2] = random.randrange(0x10000).to_bytes(2, "little")
        return bytes(data)
    if kind < 0.15:
        return random.choice([b"", b"no image", random.randbytes(4096), image[: random.randrange(len(image))]])
    if kind < 0.2:
        return image.ljust(VOLUME, b"\0") + random_image(random)
    if kind < 0.3:
        more = random.randbytes(random.randrange(512))
        return random.choice([image + more, more + image])
    return held_image(random, image).data


def run(program: str, folder: str, names: list[str], words: list[str]) -> tuple[list[str], list[str], int]:
    """What `index` prints of files, its lines, those of its refusals without notes, and its status."""
    done = subprocess.run([program, "index", *names, *words], cwd=folder, capture_output=True, timeout=patience(600))
    said = [line for line in done.stderr.decode().splitlines() if not line.startswith("note: ")]
    return done.stdout.decode().splitlines(), said, done.returncode


def fault_of(program: str, folder: str, names: list[str], year: int | None, is_same: bool) -> str:
    """How what is printed of files, or of equal files alone, differs from their plain index, or a file changes; nothing where it doesn't."""
    wanted, refused, before = list[str](), list[str](), [bytes_of(f"{folder}/{name}") for name in names]
    for name, data in zip(names, before):
        lines, others = indexed(name, data, year)
        wanted, refused = wanted + lines, refused + others
    wanted = equal_lines(wanted) if is_same else wanted
    words = (["--year", str(year)] if year else []) + (["--same"] if is_same else [])
    printed, said, status = run(program, folder, names, words)
    if printed != wanted:
        at = next((k for k, pair in enumerate(zip(printed, wanted)) if pair[0] != pair[1]), min(len(printed), len(wanted)))
        return f"line {at + 1} is {printed[at : at + 1]} in place of {wanted[at : at + 1]}"
    if [line.split(": ")[0] for line in said] != refused:
        return f"refusals are {said[:3]} in place of {refused[:3]}"
    if [bytes_of(f"{folder}/{name}") for name in names] != before:
        return "a file has changed"
    return "" if status == (1 if refused else 0) else f"the status is {status}"


def bytes_of(path: str) -> bytes:
    with open(path, "rb") as file:
        return file.read()


def program_and_seeds(about: str | None, what: str, count: int) -> tuple[str, range]:
    """The program that the command line names, and the number of each case: `count` of `what`, where nothing is said."""
    words = argparse.ArgumentParser(description=about, formatter_class=argparse.RawDescriptionHelpFormatter)
    words.add_argument("--program", default=f"{TOP}/crates/pdp8/out/pdp8")
    words.add_argument(f"--{what}", dest="count", type=int, default=count)
    words.add_argument("--seed", type=int, default=1)
    given = words.parse_args()
    program = os.path.abspath(given.program)
    if not os.path.isfile(program):
        sys.exit(f"{words.prog}: there is no program {program}: ./prove builds it")
    return program, range(given.seed, given.seed + given.count)


def try_each(about: str | None, what: str, count: int, fault_of: Callable[[str, Random], str]) -> int:
    """Tries the program that the command line names on `count` of `what`, each by its own seed. The exit status."""
    program, seeds = program_and_seeds(about, what, count)
    tally = Tally()
    for seed in seeds:
        fault = fault_in(functools.partial(fault_of, program, Random(seed)))
        tally.add(what, fault and f"{seed}: {fault}")
    return tally.end()


def main() -> int:
    program, seeds = program_and_seeds(__doc__, "images", 2000)
    tally = Tally()
    for first in range(0, len(seeds), AT_ONCE):
        with tempfile.TemporaryDirectory() as folder:
            some_seeds = seeds[first : first + AT_ONCE]
            names = [f"i{seed}" for seed in some_seeds]
            for seed in some_seeds:
                with open(f"{folder}/i{seed}", "wb") as file:
                    file.write(random_file(Random(seed)))
            asked: list[tuple[str, list[str], int | None, bool]] = [("of many", names, None, False), ("of equal files", names, None, True)]
            asked += [("of one", [name], 1990, False) for name in names[::ALONE]]
            for kind, some, year, is_same in asked:
                fault = fault_in(functools.partial(fault_of, program, folder, some, year, is_same))
                tally.add(kind, fault and f"{some[0]}: {fault}")
    return tally.end()


if __name__ == "__main__":
    sys.exit(main())
