"""The names that a text gives the cells of a tape, by their definition: each line gives one, and the first that is refused is reported."""
import re
from random import Random
from typing import Optional
from tests.model.assembler import PERMANENT
from tests.model.statements import RESERVED
from tests.model.words import octal

Names = dict[int, str]
"""The names of cells."""

Refused = tuple[int, str]
"""A line, counted from 1, and why it is refused."""


def lines_of(text: bytes) -> list[bytes]:
    """LF ends a line, and a CR before it is no part of the line."""
    *lines, rest = text.split(b"\n")
    return [line.removesuffix(b"\r") for line in [*lines, *([rest] if rest else [])]]


def why_refused(line: bytes, given: Names, cells: set[int]) -> str:
    """Why a line is refused after those that gave these names; nothing where it gives one."""
    if not re.match(rb"[0-7]{5}[ \t]", line):
        return "no cell with a name"
    cell, name = int(line[:5], 8), line[5:].lstrip(b" \t").decode("latin-1")
    if not re.fullmatch("[A-Z][A-Z0-9]{0,5}", name):
        return "no name"
    if name in PERMANENT or name in RESERVED:
        return "a name of the language"
    if re.fullmatch("A[0-7]{5}", name):
        return "the form of a tag"
    if name in given.values() or cell in given:
        return "given twice"
    return "" if cell in cells else "no word in the cell"


def names_in(text: bytes, cells: set[int]) -> tuple[Names, Optional[Refused]]:
    """The names that a text gives cells with a word, up to the first line that is refused."""
    given: Names = {}
    for number, line in enumerate(lines_of(text), 1):
        if line and not line.startswith(b"/"):
            why = why_refused(line, given, cells)
            if why:
                return given, (number, why)
            given[int(line[:5], 8)] = line[5:].lstrip(b" \t").decode("ascii")
    return given, None


def random_names(random: Random, cells: list[int]) -> bytes:
    """Lines that name some of these cells, of which few are refused."""
    lines = []
    for place, cell in enumerate(random.sample(cells, min(len(cells), random.randrange(8)))):
        name = random.choice([f"N{place}", chr(0o101 + place), f"A000{place}", f"SIX{place}AB"])
        if random.random() < 0.04:
            name = random.choice(["TAD", "DECIMA", "A00200", "1A", "TOOLONG", "", "N0", "B,"])
        if random.random() < 0.02:
            cell = random.randrange(0o100000)
        lines.append(f"{octal(cell, 5)}{random.choice([' ', chr(9), '   '])}{name}")
    lines += random.choice([[], [], ["/ REMARK"], [""]])
    return random.choice(["\n", "\r\n"]).join([*lines, random.choice(["", "/"])]).encode("ascii")
