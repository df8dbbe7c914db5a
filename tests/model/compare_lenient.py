#!/usr/bin/env python3
"""compare_lenient.py [--program FILE] [--images N] [--seed S]: makes N random image files with faults, 200 where nothing is said: words with top bits,
and ends that are cut or too long. Of each it compares what a command prints with --lenient with what it prints without it of the file that a plain
program has mended, and the notes before that. The file must stay as it was. The same number is the same images each time. The last line is
'N passed, M failed'.
"""
import os
import subprocess
import sys
import tempfile
from random import Random

sys.dont_write_bytecode = True
TOP = os.path.dirname(os.path.dirname(os.path.dirname(os.path.abspath(__file__))))
sys.path.insert(0, TOP)
from tests.model.compare_indexes import random_file, try_each
from tests.model.mended import mended
from tests.options import patience

NAME = "I"
COMMANDS = [["list", NAME], ["list", NAME, "--long"], ["list", NAME, "*"], ["check", NAME], ["check", NAME, "--all"], ["check", NAME, NAME], ["index", NAME], ["get", NAME, "--blocks", "1", "6"]]
# How a line on standard error begins.
LINES = ("note: ", "error: ", "? ", f"{NAME}: ? ", f"{NAME}:1: ? ", f"{NAME}:2: ? ")
LAYOUTS = {"": list[str](), "1": ["--volume", "1"], "2": ["--volume", "2"], "tape": ["--dectape"]}


def damaged(random: Random) -> bytes:
    """An image file with top bits in some words, near its beginning for the most part, and perhaps another length."""
    data = bytearray(random_file(random))
    for _ in range(random.choice([0, 1, 3, 16, 17, 60])):
        words = len(data) // 2
        if words:
            at = random.randrange(min(words, random.choice([300, 2000, words])))
            data[2 * at + 1] |= random.choice([0x10, 0x80, 0xF0, random.randrange(256) & 0xF0])
    kind = random.random()
    if kind < 0.2:
        return bytes(data[: random.randrange(len(data) + 1)])
    if kind < 0.4:
        return bytes(data) + random.randbytes(random.choice([1, 100, 512, 3000, 2100000]))
    return bytes(data)


def run(program: str, folder: str, words: list[str], data: bytes) -> tuple[bytes, str, int, bool]:
    """What a command prints of a file of these bytes on either stream, its status, and whether the file is as it was."""
    with open(f"{folder}/{NAME}", "wb") as file:
        file.write(data)
    done = subprocess.run([program, *words], cwd=folder, capture_output=True, timeout=patience(600))
    with open(f"{folder}/{NAME}", "rb") as file:
        return done.stdout, done.stderr.decode(), done.returncode, file.read() == data


def fault_of(program: str, random: Random) -> str:
    """How what a command prints differs from what it is to print; nothing where it doesn't."""
    data = damaged(random)
    layout = random.choice(["", "", "", "", "1", "2", "tape"])
    words = [*random.choice(COMMANDS), *LAYOUTS[layout]]
    mended_data, lines = mended(NAME, layout, data)
    notes = "".join(f"{line}\n" for line in lines)
    with tempfile.TemporaryDirectory() as folder:
        output, errors, status, is_same = run(program, folder, [*words, "--lenient"], data)
        wanted, others, ends, _ = run(program, folder, words, mended_data)
    if ends not in (0, 1) or not all(line.startswith(LINES) for line in others.splitlines()):
        return f"{words}: without --lenient {others[-400:]!r} {ends}"
    # of a file that is named twice the notes come twice, those on what was mended before its others
    times = words.count(NAME)
    notes = (notes + others[: len(others) // times]) * times
    if not is_same:
        return f"{words}: the file has changed"
    if (output, errors, status) != (wanted, notes, ends):
        return f"{words}: {output[:80]!r} {errors[-400:]!r} {status} in place of {wanted[:80]!r} {notes[-400:]!r} {ends}"
    return ""


if __name__ == "__main__":
    sys.exit(try_each(__doc__, "images", 200, fault_of))
