#!/usr/bin/env python3
"""compare_pal8_statements.py [--texts N] [--seed S] [--program FILE]: reads N random PAL8 texts, 2000 where nothing is said, by the lexer, in the
program `pal8_bench`. It compares the statements, their tokens, strings, lines and places with the plain model's. Then come the largest texts: a line
of 10 MB, a million of `(`, of `<` and of `"`, a string and a comment of as many bytes. The same seed makes the same texts. The last line is 'N
passed, M failed'.
"""
import argparse
import functools
import os
import re
import subprocess
import sys
from random import Random

sys.dont_write_bytecode = True
HERE = os.path.dirname(os.path.abspath(__file__))
TOP = os.path.dirname(os.path.dirname(HERE))
sys.path.insert(0, TOP)
from tests.model.pal8_grammar import Statement, Token, live_text, statements
from tests.options import patience
from tests.tally import Tally, fault_in

CRATE = f"{os.path.dirname(os.path.dirname(HERE))}/crates/pal8_bench"
PRIME = 1_000_003
PIECES = (
    *"AZaz019+-!&^%=,*.()[]\"/;<>$#@ \t\n",
    *"\n\n\n;;,,  ",
    *("\r", "\f", "\0", "\x7f", "\xff"),
    *("TEXT", "text ", "TEXT /AB/", "A,TEXT", "EJECT", "XLIST", "eject x", "TEXTS", "EJECTS", "XLIS"),
    *("8", "4095", "7777", "10000", "4096", "2A", "DECIMAL", "TAD (5", "IFZERO A <", '"A', "1 2", "A =5"),
)
KINDS = {"here": 4, "=": 5, ",": 6, "*": 7, "string": 8, "bad": 9, "+": 10, "-": 11, "!": 12, "&": 13, "^": 14, "%": 15}


def mix(total: int, *values: int) -> int:
    for value in values:
        total = (total % PRIME * 0o20001 + value % PRIME) % PRIME
    return total


def spelling(run: str) -> int:
    """The number that the sixbit codes of the first six characters make."""
    codes = [ord(c) % 0o100 for c in run[:6]] + [0] * 6
    return sum(code << 6 * (5 - k) for k, code in enumerate(codes[:6]))


def number(run: str, radix: int) -> int:
    is_one = all(c in "0123456789"[:radix] for c in run) and len(run.lstrip("0")) < 6 and int(run, radix) < 0o10000
    return int(run, radix) if is_one else 0o10000


def kind_sum(total: int, token: Token) -> int:
    if token.kind == "run" and token.text[0].isalpha():
        return mix(total, 1, spelling(token.text))
    if token.kind == "run":
        return mix(total, 2, spelling(token.text), number(token.text, 8), number(token.text, 10))
    if token.kind == "character":
        return mix(total, 3, 0o200 | ord(token.text))
    if token.kind in ("opening", "closing"):
        return mix(total, 16 if token.kind == "opening" else 17, int(token.text in "[]"))
    return mix(total, KINDS[token.text if token.kind == "sign" else token.kind])


def statement_sum(total: int, statement: Statement, places: list[int]) -> tuple[int, int]:
    """The sum with a statement more, and how many tokens it has."""
    total = mix(total, statement.line, 1 + ";\r<>$".index(statement.end), int(statement.is_cut))
    is_spaced, count, string = 0, 0, ""
    for token in statement.tokens:
        if token.kind == "blank":
            is_spaced = 1
            continue
        total = mix(kind_sum(mix(total, is_spaced), token), places[token.start], places[token.end - 1] + 1)
        is_spaced, count = 0, count + 1
        string = token.text if token.kind == "string" else string
    return mix(total, *(ord(c) % 0o200 for c in string)), count


def wanted(text: bytes) -> str:
    places = [k for k, b in enumerate(text) if b not in b"\r\f\0\x7f"]
    total = tokens = 0
    found = statements(live_text(text))
    for statement in found:
        total, count = statement_sum(total, statement, places)
        tokens += count
    return f"{len(found)} {tokens} {total}\n"


def came(program: str, text: bytes) -> str:
    ran = subprocess.run([program], input=text, capture_output=True, timeout=patience(120))
    return (ran.stdout + ran.stderr).decode("latin1") + (f"status {ran.returncode}\n" if ran.returncode else "")


def difference(program: str, text: bytes, wanted: str) -> str:
    """How what the program prints differs from what is wanted, or from its first words; nothing where it doesn't."""
    found = came(program, text)
    is_right = found == wanted if wanted.endswith("\n") else re.fullmatch(rf"{wanted} \d+\n", found) is not None
    return "" if is_right else f"wanted {wanted}, came {found}"


def random_text(random: Random) -> bytes:
    return "".join(random.choices(PIECES, k=random.randint(1, 60))).encode("latin1")


def largest() -> list[tuple[str, bytes, str]]:
    """Large texts, each with how many statements and tokens it has."""
    million = 10**6
    return [
        ("a line of 10 MB", b"TAD A+1 ;" * (10 * million // 9), f"{10 * million // 9} {4 * (10 * million // 9)}"),
        ("one statement of 10 MB", b"AB+12 " * (10 * million // 6) + b"\n", f"1 {3 * (10 * million // 6)}"),
        ("a million (", b"(" * million + b"\n", f"1 {million}"),
        ("a million <", b"<" * million, f"{million} 0"),
        ("a million characters", b'""' * million + b"$", f"1 {million}"),
        ("a string of a million", b"TEXT /" + b"A" * million + b"\n", "1 2"),
        ("a comment of a million", b"/" + b"$" * million + b"\n", "1 0"),
        ("a title of a million", b"XLIST " + b"$" * million + b"\n", "1 1"),
        ("a name of a million", b"A" * million + b"\n", "1 1"),
        ("a million lines", b"\n" * million, f"{million} 0"),
    ]


def main() -> int:
    words = argparse.ArgumentParser()
    words.add_argument("--texts", type=int, default=2000)
    words.add_argument("--seed", type=int, default=1)
    words.add_argument("--program", default="")
    words.add_argument("--small", action="store_true", help="without the largest texts")
    given = words.parse_args()
    program = given.program or f"{CRATE}/out/pal8_bench"
    if not given.program and not os.path.exists(program):
        with open(f"{CRATE}/stdin", "rb") as source:
            subprocess.run(["rt", "run"], cwd=CRATE, stdin=source, stdout=subprocess.DEVNULL, stderr=subprocess.DEVNULL, check=False)
    tally = Tally()
    for k in range(given.seed, given.seed + given.texts):
        text = random_text(Random(k))
        fault = fault_in(functools.partial(difference, program, text, wanted(text)))
        tally.add("texts", fault and f"text {k}: {text!r}: {fault}")
    for name, text, counts in [] if given.small else largest():
        fault = fault_in(functools.partial(difference, program, text, counts))
        tally.add("largest", fault and f"{name}: {fault}")
    return tally.end()


if __name__ == "__main__":
    sys.exit(main())
