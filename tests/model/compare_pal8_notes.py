#!/usr/bin/env python3
"""compare_pal8_notes.py [--program FILE] [--sources N] [--seed S] [--palbart]: assembles sources of PAL8 by the program `pdp8` with `--notes`. There are N
random ones, 600 where nothing is said, N that are random bytes nearly, and N that are several texts. It compares what is printed on standard error with
the notes of the plain model. Where there is a fault no note may be printed; the tape is the same as without notes. The same number is the same
sources each time. With `--palbart` it asks that assembler in place of the program: a statement without a note must have the same word there. The last
line is 'N passed, M failed'.
"""
import argparse
import functools
import os
import subprocess
import sys
import tempfile
from random import Random
from typing import Callable

sys.dont_write_bytecode = True
TOP = os.path.dirname(os.path.dirname(os.path.dirname(os.path.abspath(__file__))))
sys.path.insert(0, TOP)
from tests.model.compare_pal8_faults import several_texts
from tests.model.compare_pal8_sources import Maker, nearly_bytes, options_by
from tests.model.pal8 import pairs
from tests.model.pal8_grammar import PLAIN, Fault, Options
from tests.model.pal8_notes import notes_text
from tests.options import patience
from tests.tally import Tally, fault_in

TABS = ("TEXT /A\tB/", '"\t', "TAD (\"\t-1", "TEXT /A/\t/", "CALL 5 6+1", "FIXMRI CALL=JMS I 20;CALL A+1", "(5 6)+1", "1 (2+3)", "1 (2)+3", "A\f-1", "A, -1", "ZBLOCK 1 2+0")


def source(seed: int) -> bytes:
    """A random source, with some statements that palbart reads in another way."""
    random, lines = Random(seed), Maker(seed).source().decode("latin1").split("\n")
    for _ in range(random.randrange(3)):
        lines.insert(random.randrange(len(lines)), random.choice(TABS).replace("A", random.choice("A.5")))
    return "\n".join(lines).encode("latin1")


def written(folder: str, words: list[str], texts: list[bytes]) -> tuple[int, str, bytes]:
    """The status, what is printed on standard error, and the tape."""
    for number, text in enumerate(texts):
        with open(f"{folder}/S{number}", "wb") as file:
            file.write(text)
    done = subprocess.run(words, cwd=folder, capture_output=True, timeout=patience(300))
    if done.returncode not in (0, 1):
        raise ValueError(f"status {done.returncode}")
    return done.returncode, done.stderr.decode("latin1"), done.stdout


def wrong(program: str, texts: list[bytes], options: Options) -> str:
    names = [f"S{number}" for number in range(len(texts))]
    with tempfile.TemporaryDirectory(prefix="pdp8-notes-") as folder:
        words = [program, "assemble", "--pal8", *options.words(), *names]
        status, errors, tape = written(folder, [*words, "--notes"], texts)
        plain = written(folder, words, texts)
    try:
        words_of_tape = pairs(texts, options)
        wanted = notes_text(texts, names, options)
    except Fault:
        words_of_tape, wanted = None, plain[1]
    is_right = (status, errors, tape) == (plain[0], wanted, plain[2]) and (status, bool(tape), bool(plain[1])) == ((1, False, True) if words_of_tape is None else (0, True, False))
    return "" if is_right else f"wanted {wanted!r}, came {errors!r} {status} {tape!r}, and without notes {plain}"


def statement(random: Random) -> str:
    """A statement, as palbart reads some in another way."""
    terms = ("0", "1", "2", "3", "5", "7", "20", "177", "200", "A", "B", ".", '"X')
    value = random.choice(terms) + "".join(random.choice(("+", "-", "!", "&", "^", " ", " +", " -", "+", "-", "- ")) + random.choice(terms) for _ in range(random.randrange(4)))
    kind = random.randrange(10)
    if kind < 4:
        return value
    if kind < 7:
        return random.choice(("TAD ", "DCA ", "JMP I ", "TAD I Z ")) + value if random.random() < 0.5 else random.choice(("TAD ", "DCA ")) + random.choice(terms[:-1])
    if kind < 9:
        return random.choice(("TAD ", "TAD I ", "")) + "(" + value + random.choice((")", "", ")+1", ")-1", ") -1"))
    return random.choice(("CLA CLL", "CLA CMA", "CLA CLL+1", "CLA IAC -1", "TEXT /A\tB/", "TEXT /A B/", '"\t', '"X', '"Z', "Q, -1", "Q=A -1;Q", "Q= -1;Q"))


def tape_words(frames: bytes) -> dict[int, int]:
    """The words of a BIN tape in field 0, without its check sum."""
    words, place, body = dict[int, int](), 0, [frame for frame in frames if frame != 0o200][:-2]
    for high, low in zip(body[::2], body[1::2]):
        word = (high % 64) * 64 + low % 64
        if high & 0o100:
            place = word
        else:
            words[place], place = word, place + 1
    return words


def other_words(seed: int) -> str:
    """What is wrong where palbart assembles a statement that has no note; nothing where it lays the same words, or the statement has one."""
    text = f"*10\nA=3\nB=12\n*200\n{statement(Random(seed))}\n$\n".encode()
    try:
        mine = dict(pairs([text], PLAIN))
        if notes_text([text], ["S0"]):
            return ""
    except Fault:
        return ""
    with tempfile.TemporaryDirectory(prefix="pdp8-palbart-") as folder:
        with open(f"{folder}/S0.pa", "wb") as file:
            file.write(text)
        done = subprocess.run(["palbart", "S0.pa"], cwd=folder, capture_output=True, timeout=300)
        with open(f"{folder}/S0.bin", "rb") as file:
            others = tape_words(file.read()) if not done.returncode else {}
    return "" if others == mine else f"{text!r}: palbart lays {others}"


def main() -> int:
    words = argparse.ArgumentParser()
    words.add_argument("--program", default=f"{TOP}/pdp8")
    words.add_argument("--sources", type=int, default=600)
    words.add_argument("--seed", type=int, default=1)
    words.add_argument("--palbart", action="store_true")
    given = words.parse_args()
    program, tally = os.path.abspath(given.program), Tally()
    for seed in range(given.seed, given.seed + given.sources):
        options = options_by(seed)
        asked = {"sources": [source(seed)], "nearly bytes": [nearly_bytes(seed)], "several texts": several_texts(seed)}
        cases: dict[str, Callable[[], str]] = {kind: functools.partial(wrong, program, texts, options) for kind, texts in asked.items()}
        if given.palbart:
            cases = {"statements": functools.partial(other_words, seed)}
        for kind, case in cases.items():
            fault = fault_in(case)
            tally.add(kind, fault and f"seed {seed}: {options.words()} {fault}")
    return tally.end()


if __name__ == "__main__":
    sys.exit(main())
