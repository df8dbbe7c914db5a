#!/usr/bin/env python3
"""compare_pal8_tapes.py [--program FILE] [--cases N] [--seed S]: writes the PAL8 sources of random tapes by the program `pdp8`, N of them, 300 from 1
on where nothing is said. The tapes have pools, texts and names, words in several fields, at page ends and in all cells of a field. Each source is
compared with the plain model's, and assembled by `assemble --pal8`, which must give the words of the tape again. The last line is 'N passed, M failed'.
"""
import argparse
import functools
import os
import sys
import tempfile
from random import Random
from typing import Optional

sys.dont_write_bytecode = True
HERE = os.path.dirname(os.path.abspath(__file__))
TOP = os.path.dirname(os.path.dirname(HERE))
sys.path.insert(0, TOP)
from tests.model.compare_host_commands import REFUSALS, names_of, random_tape, run
from tests.model.flow import reached
from tests.model.listing import FIELD, PAGE, Words
from tests.model.names import names_in, random_names
from tests.model.pal8_listing import MARKS, Pal8Listing
from tests.model.tape import tape_of
from tests.tally import Tally, fault_in

RESERVED = ("PAGE", "ZBLOCK", "TEXT", "FILENA", "DEVICE", "RELOC", "ENPUNC", "NOPUNC", "EJECT", "XLIST", "IFDEF", "IFNDEF", "IFZERO", "IFNZRO", "EXPUNG", "FIXTAB", "FIXMRI")


def with_text(random: Random, words: Words, first: int) -> None:
    """Words as TEXT makes them, or nearly."""
    count = random.choice([1, 2, 5, 6, 9, 40])
    characters = [random.choice([1, 0o24, 0o40, 0o57, 0o42, 0o47, 0o56, random.randrange(1, 64)]) for _ in range(count)]
    if random.random() < 0.1:
        characters += [ord(it) % 64 for it in MARKS[: random.choice([4, 5, 29, 30])]]
    if random.random() < 0.1:
        characters[random.randrange(len(characters))] = 0
    characters += [0] * (2 - len(characters) % 2)
    for k in range(0, len(characters), 2):
        if random.random() < 0.99:
            words[(first + k // 2) % (8 * FIELD)] = characters[k] * 64 + characters[k + 1]


def with_pool(random: Random, words: Words, page: int) -> None:
    """A page with instructions that refer to its last cells, and to those of page zero, in turn or nearly."""
    field, zero = page // 0o40 * FIELD, page % 0o40 == 0
    at = page * PAGE + random.choice([0, 0, 1, 0o10, 0o40])
    size = random.choice([1, 1, 2, 3, 5, 8, 30])
    values = [random.choice([0, 1, 5, 0o7777, 0o200, at % FIELD, random.randrange(0o10000)]) for _ in range(size)]
    asked, seen = [0], 0
    for _ in range(random.choice([size, 2 * size]) % 0o70):
        asked.append(random.choice([seen, min(seen + 1, size - 1), random.randrange(size) if random.random() < 0.1 else seen]))
        seen = max(seen, asked[-1])
    for k in asked:
        operation = random.choice([0o1000, 0o1000, 0, 0o2000, 0o3000, 0o4000, 0o5000]) + random.choice([0, 0, 0, 0o400])
        on_zero = zero or random.random() < 0.3
        words[at] = operation + (0 if on_zero else 0o200) + 0o177 - k
        at += 1
        if random.random() < 0.1:
            words[at] = random.choice([0o7300, 0o7402, random.randrange(0o10000)])
            at += 1
    for k, value in enumerate(values):
        words[page * PAGE + 0o177 - k] = value
        if random.random() < 0.5:
            words[field + 0o177 - k] = values[size - 1 - k]


def random_words(random: Random) -> Words:
    """The words of a tape."""
    words: Words = {}
    fields = random.choice([[0], [0], [0, 1], [3], [0, 2, 7]])
    for field in fields:
        for _ in range(random.choice([1, 1, 2, 4])):
            page = field * 0o40 + random.choice([0, 1, 1, 2, 3, 0o37])
            kind = random.random()
            if kind < 0.65:
                with_pool(random, words, page)
            if kind > 0.5:
                with_text(random, words, page * PAGE + random.choice([0, 0o50, 0o100, 0o170, 0o175]))
            if kind > 0.9:
                words[page * PAGE + random.choice([0, 0o177, 0o176])] = random.randrange(0o10000)
    if random.random() < 0.01:
        words.update({it: random.randrange(0o10000) for it in range(FIELD)} if random.random() < 0.5 else {it: 0o1177 for it in range(0o177)})
    return words


def wrong(program: str, folder: str, words: Words, starts: list[int], names: Optional[bytes]) -> str:
    """What is wrong with the source of a tape of these words; nothing where it is the model's, and comes back as the tape."""
    frames = bytes(tape_of(sorted(words.items())))
    given = [it for start in starts for it in ("--start", f"{start:05o}")]
    if names is not None:
        with open(f"{folder}/NAMES", "wb") as file:
            file.write(names)
        given += ["--names", "NAMES"]
    text, errors, status = run(program, ["source", "--pal8", *given], folder, frames)
    lacking = [it for it in starts if it not in words]
    named, refused = names_in(names or b"", set(words))
    reserved = sorted(it for it in named if named[it] in RESERVED)
    if lacking or refused or reserved:
        line = f"? SOURCE 3 RESERVED NAME AT {reserved[0]:05o}\n" if reserved else ""
        line = f"? NAMES {REFUSALS[refused[1]]} {refused[0]}\n" if refused else line
        line = f"? SOURCE 2 NO WORD AT {lacking[0]:05o}\n" if lacking else line
        return "" if (text, errors.decode(), status) == (b"", line, 1) else f"{text!r} {errors!r} {status}"
    if (errors, status) != (b"", 0):
        return f"the source: {errors!r} {status}"
    with open(f"{folder}/SOURCE", "wb") as file:
        file.write(text)
    again, errors, status = run(program, ["assemble", "--pal8", "SOURCE"], folder)
    loaded = "".join(f"{it // FIELD} {it % FIELD:04o} {words[it]:04o}\n" for it in sorted(words))
    if (errors, status) != (b"", 0) or run(program, ["tape"], folder, again) != (loaded.encode(), b"", 0):
        return f"another tape, {errors!r} {status}, of {text.decode()}"
    code = reached(words, starts) if starts else set(words)
    wanted = "\r\n".join([*Pal8Listing(words, code, named, names_of(program), bool(starts)).lines(), ""])
    return "" if text.decode("ascii") == wanted else f"{text.decode('ascii')}\n    wanted {wanted}"


def compared(program: str, seed: int) -> str:
    random = Random(seed)
    words = random_words(random)
    if not words or random.random() < 0.1:
        words = {0o200 + k: random.randrange(0o10000) for k in range(random.choice([1, 5, 0o300]))}
    cells = sorted(words)
    starts = [random.choice(cells) for _ in range(random.choice([0, 0, 1, 2, 3]))]
    if starts and random.random() < 0.7:
        starts += [it for it in (0o200, 0o201, 0o400, 0o10200, 0o30200) if it in words]
    if random.random() < 0.03:
        starts.append(random.randrange(0o100000))
    names = random_names(random, cells) if random.random() < 0.4 else None
    if names is not None and random.random() < 0.1:
        names += f"\n{random.choice(cells):05o} {random.choice(RESERVED)}\n".encode()
    with tempfile.TemporaryDirectory(prefix="pdp8-pal8-") as folder:
        found = wrong(program, folder, words, starts, names)
    return f"{starts} {names!r}: {found}" if found else ""


def main() -> int:
    words = argparse.ArgumentParser()
    words.add_argument("--program", default=f"{TOP}/pdp8")
    words.add_argument("--cases", type=int, default=300)
    words.add_argument("--seed", type=int, default=1)
    given = words.parse_args()
    program = os.path.abspath(given.program)
    tally = Tally()
    for seed in range(given.seed, given.seed + given.cases):
        fault = fault_in(functools.partial(compared, program, seed))
        tally.add("tapes", fault and f"seed {seed}: {fault}")
    return tally.end()


if __name__ == "__main__":
    sys.exit(main())
