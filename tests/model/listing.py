"""The source of a tape from where a program starts, by its definition: each line with its comments, and the empty lines."""
from typing import Callable, Optional
from tests.model.words import octal

FIELD, PAGE = 0o10000, 0o200
TEXT = {*range(1, 0o33), *range(0o60, 0o72), 0o40, 0o41, 0o54, 0o55, 0o56, 0o77}
"""The six-bit characters of a text."""
OPERATIONS = ["AND", "TAD", "ISZ", "DCA", "JMS", "JMP"]

Words = dict[int, int]
Unit = Callable[[int], bool]


def referred(cell: int, word: int) -> Optional[int]:
    """The cell that a word names, if it is what a memory reference says there."""
    at = cell % FIELD
    if word >= 0o6000 or (word & 0o200 and at < PAGE):
        return None
    return cell - at + word % PAGE + (at // PAGE * PAGE if word & 0o200 else 0)


class Listing:
    """A tape's words, the cells of its instructions, the names that cells are given, how the words from 6000 up are spelled, and whether
    notes are made."""

    def __init__(self, words: Words, code: set[int], names: dict[int, str], spelled: dict[int, str], is_noted: bool) -> None:
        self.words, self.code, self.names, self.spelled, self.is_noted = words, code, names, spelled, is_noted
        self.callers: dict[int, list[int]] = {}
        self.others: dict[int, list[int]] = {}
        for cell in sorted(code):
            named = referred(cell, words[cell])
            if named is not None:
                into = self.callers if words[cell] >> 8 == 0o10 else self.others
                into.setdefault(named, []).append(cell)

    def tag(self, cell: int) -> Optional[str]:
        """The name of a cell that has a word: the one that it is given, or else one where an instruction names it."""
        if cell not in self.words:
            return None
        made = "A" + octal(cell, 5) if cell in self.callers or cell in self.others else None
        return self.names.get(cell, made)

    def statement(self, cell: int) -> str:
        word = self.words[cell]
        if cell not in self.code:
            tag = self.tag(cell // FIELD * FIELD + word) if word else None
            return tag or octal(word, 4)
        named = referred(cell, word)
        if named is None:
            return self.spelled[word] if word >= 0o6000 else octal(word, 4)
        return " ".join([OPERATIONS[word >> 9], *(["I"] if word & 0o400 else []), self.tag(named) or octal(named % FIELD, 4)])

    def datum(self, cell: int) -> int:
        """A datum, or -1 where there is none."""
        return -1 if cell in self.code else self.words.get(cell, -1)

    def is_run(self, is_unit: Unit, size: int, cell: int) -> bool:
        """Whether a unit is one of three in a row, in one field."""
        firsts = [cell, cell - size, cell - 2 * size]
        rows = [[it, it + size, it + 2 * size] for it in firsts if it // FIELD == cell // FIELD and (it + 3 * size - 1) // FIELD == cell // FIELD]
        return any(all(map(is_unit, row)) for row in rows)

    def remark(self, cell: int) -> str:
        """The characters of a datum that is text."""
        word = self.datum(cell)
        if word < 0:
            return ""
        if self.is_run(lambda it: 0 <= self.datum(it) < 0o400 and is_graphic(self.datum(it)), 1, cell):
            return f" '{chr(word % 128)}'"
        first = cell - cell % 2
        if self.is_run(self.is_packed, 2, first):
            return " '" + "".join(chr(it % 128) for it in self.three(first)) + "'" if cell == first else ""
        if self.is_run(lambda it: self.datum(it) >= 0 and self.datum(it) // 64 in TEXT and self.datum(it) % 64 in TEXT, 1, cell):
            return " '" + "".join(chr(it + 0o100 if it < 0o40 else it) for it in (word // 64, word % 64)) + "'"
        return ""

    def three(self, cell: int) -> list[int]:
        first, second = self.datum(cell), self.datum(cell + 1)
        return [first % 256, second % 256, first // 256 * 16 + second // 256]

    def is_packed(self, cell: int) -> bool:
        if self.datum(cell) < 0 or self.datum(cell + 1) < 0:
            return False
        characters = self.three(cell)
        return all(map(is_graphic, characters)) and len({it // 128 for it in characters}) == 1

    def above(self, cell: int) -> list[str]:
        kinds = [("SUBROUTINE, CALLED FROM", self.callers.get(cell)), ("FROM", self.others.get(cell))]
        return [f"/ {said} {' '.join(octal(it, 5) for it in cells[:8])}{' ..' if len(cells) > 8 else ''}" for said, cells in kinds if cells]

    def has_gap(self, cell: int) -> bool:
        """Whether the program doesn't go on after a cell: a JMP through a pointer, or HLT."""
        word = self.words[cell]
        return cell in self.code and (word >> 8 == 0o13 or (word >> 8 == 0o17 and not word & 1 and bool(word & 2)))

    def row(self, cell: int) -> range:
        """The cells whose words stand in one line with the word of a cell."""
        return range(cell, cell + 1)

    def line(self, row: range) -> str:
        cell = row[0]
        place = f"{octal(cell, 5)} {octal(self.words[cell], 4)}" if len(row) == 1 else f"{octal(cell, 5)} TO {octal(row[-1], 5)}"
        return f"{self.statement(cell)}\t/{place}{self.remark(cell) if self.is_noted else ''}"

    def lines(self) -> list[str]:
        found, before = [], None
        for cell in sorted(self.words):
            if before is not None and cell <= before:
                continue
            if cell // FIELD != (before or 0) // FIELD:
                found.append(f"FIELD {cell // FIELD}")
            if before is None or cell != before + 1 or cell % FIELD == 0:
                found.append(f"*{octal(cell % FIELD, 4)}")
            found += self.above(cell) if self.is_noted else []
            tag, row = self.tag(cell), self.row(cell)
            found.append(f"{tag + ',' if tag else ''}\t{self.line(row)}")
            if self.is_noted and self.has_gap(cell):
                found.append("")
            before = row[-1]
        return [*found, "$"]


def is_graphic(byte: int) -> bool:
    return 0o40 <= byte % 128 < 0o177
