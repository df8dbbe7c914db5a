#!/usr/bin/env python3
"""compare_scans.py [--program FILE] [--volumes N] [--seed S]: makes N random volumes without a directory, 400 where nothing is said. They hold whole
texts, core images, BIN and RIM tapes of one block and of several, parts of them, segments of directories, leader, zeros and blocks of any words. It compares
what `scan` prints of each with a plain reader that is written from the definitions alone. It compares the files that `scan --into` writes with what
`get --blocks` gives of the same blocks. The same number is the same volumes each time. The last line is 'N passed, M failed'.
"""
import os
import subprocess
import sys
import tempfile
from random import Random

sys.dont_write_bytecode = True
TOP = os.path.dirname(os.path.dirname(os.path.dirname(os.path.abspath(__file__))))
sys.path.insert(0, TOP)
from tests.model.compare_indexes import bytes_of, core_words, rim_frames, try_each
from tests.model.scan import scanned
from tests.model.tape import tape_of
from tests.model.words import BLOCK_FRAMES, BLOCK_WORDS, packed, stored_text
from tests.options import patience

ENDS: dict[str, tuple[str, list[str]]] = {"TEXT": ("txt", ["--text"]), "CORE": ("core", []), "BIN": ("bin", []), "RIM": ("rim", []), "DIR": ("dir", [])}


def text_words(random: Random) -> list[int]:
    """A text of up to three blocks, in some of which no character has the top bit, or one is none of a text."""
    lines = random.choice([b"HELLO\n", b"\n  \n", b"/ A LINE\n\tTAD A\n" * random.randrange(1, 60), b"A" * 384, b"\a\f" * 5])
    words = stored_text(lines) or []
    if random.random() < 0.3:
        words = packed([byte for byte in lines])
    if random.random() < 0.1:
        words[random.randrange(len(words))] = random.randrange(4096)
    return words


def tape_words(random: Random) -> list[int]:
    """A BIN tape, in some of which a frame is wrong, or long leader stands before it."""
    first = random.randrange(0o7000)
    pairs = [(first + k, random.randrange(4096)) for k in range(random.choice([1, 20, 400]))]
    leader = [random.choice([0, 0o200])] * random.choice([0, 300, 800])
    frames = leader + tape_of(pairs)
    if random.random() < 0.2:
        frames[random.randrange(len(frames))] = random.randrange(256)
    return packed(frames)


def rim_words(random: Random) -> list[int]:
    """A RIM tape of one block or of several."""
    pairs = [(random.randrange(64, 128), *(random.randrange(64) for _ in range(3))) for _ in range(random.choice([1, 5, 96, 250]))]
    long = [0o200] * random.randrange(30) + [frame for pair in pairs for frame in pair] + [0o200] * random.randrange(3)
    return packed(random.choice([long, rim_frames(random)]))


def segment_words(random: Random) -> list[int]:
    """A segment of a directory of few blocks, in some of which a word is wrong."""
    info, size = random.choice([0, 1, 10]), random.choice([1, 2, 5])
    words = [-random.choice([size, size, 0, 9]) % 4096, 7 + random.randrange(3), random.choice([0, 0, 2, 6, 7]), 0, -info % 4096]
    for _ in range(size):
        lot = [random.randrange(1, 4096) for _ in range(4 + info)] if random.random() < 0.8 else [0]
        words += [*lot, -random.choice([0, 1, 1, 2]) % 4096]
    if random.random() < 0.2:
        words[random.randrange(5)] = random.randrange(4096)
    return words + [0] * (BLOCK_WORDS - len(words))


def piece_words(random: Random) -> list[int]:
    """The words of whole blocks of any kind."""
    kind = random.randrange(10)
    if kind > 7:
        return segment_words(random)
    if kind < 2:
        return text_words(random)
    if kind == 2:
        return core_words(random)
    if kind == 3:
        return tape_words(random)
    if kind == 4:
        return rim_words(random)
    if kind == 5:
        return packed(random.choice([[0o200] * BLOCK_FRAMES, [0], [0o377, 0o377], [0o310] * 9, [0o101, 0] * 50]))
    words = random.choice([tape_words, rim_words, core_words])(random)
    if kind == 6:
        return words[BLOCK_WORDS * random.randrange(len(words) // BLOCK_WORDS) :]
    return [random.randrange(4096) for _ in range(BLOCK_WORDS)]


def random_words(random: Random) -> list[int]:
    """The words of a volume of at least eight blocks."""
    words = [word for _ in range(random.randrange(12)) for word in piece_words(random)]
    return words + [0] * (BLOCK_WORDS * 8 - len(words))


def run(program: str, folder: str, words: list[str]) -> tuple[bytes, int]:
    done = subprocess.run([program, *words], cwd=folder, stdout=subprocess.PIPE, stderr=subprocess.DEVNULL, timeout=patience(600))
    return done.stdout, done.returncode


def fault_of(program: str, random: Random) -> str:
    """How what is printed and written of a random volume differs from its plain scan; nothing where it doesn't."""
    with tempfile.TemporaryDirectory() as folder:
        return fault_of_words(program, folder, random_words(random))


def fault_of_words(program: str, folder: str, words: list[int]) -> str:
    image = b"".join(word.to_bytes(2, "little") for word in words)
    with open(f"{folder}/V", "wb") as file:
        file.write(image)
    wanted = scanned(words)
    printed = run(program, folder, ["scan", "V"])
    if printed != ("".join(f"{line}\n" for line in wanted).encode(), 0):
        return f"printed are {printed} in place of {wanted}"
    os.mkdir(f"{folder}/into")
    if run(program, folder, ["scan", "V", "--into", "into"]) != printed:
        return "with --into the lines differ"
    names = set[str]()
    for kind, place, size in (line.split()[:3] for line in wanted):
        end, more = ENDS[kind]
        names.add(f"block-{int(place):04}.{end}")
        with open(f"{folder}/into/block-{int(place):04}.{end}", "rb") as file:
            if run(program, folder, ["get", "V", "--blocks", place, size, *more]) != (file.read(), 0):
                return f"the file of block {place} differs"
    if set(os.listdir(f"{folder}/into")) != names:
        return f"the files are {os.listdir(f'{folder}/into')}"
    if names and run(program, folder, ["scan", "V", "--into", "into"]) != (b"? HOST EXISTS\n", 1):
        return "files that are there are not refused"
    return "" if bytes_of(f"{folder}/V") == image else "the volume has changed"


if __name__ == "__main__":
    sys.exit(try_each(__doc__, "volumes", 400, fault_of))
