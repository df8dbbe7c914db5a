"""The source of a tape by known pointers with its data as what they are, by its definition: equal words, texts, addresses, in rows of several words."""
from __future__ import annotations

from typing import Callable, NamedTuple
from tests.model.flow import FIELD, named
from tests.model.listing import TEXT, is_graphic
from tests.model.pointer_listing import PointerListing
from tests.model.pointers import Flow
from tests.model.words import octal

EQUAL, POINTER, EIGHT, PACKED, SIXBIT, ADDRESS, PLAIN = range(1, 8)
CONTROLS = {0o207: "BEL", 0o211: "TAB", 0o212: "LF", 0o214: "FF", 0o215: "CR"}
NO_TEXT = 0o7777
Fits = Callable[[int], bool]


def character(code: int) -> str:
    return f"<{CONTROLS[code]}>" if code in CONTROLS else chr(code % 128)


def sixbit_character(code: int) -> str:
    return chr(code + 0o100 if code < 0o40 else code) if code else ""


class Run(NamedTuple):
    """How many words a run has, without its end; whether it is of its kind; and whether it has an end."""

    length: int
    is_taken: bool
    has_end: bool = False


class RowListing(PointerListing):
    """The source by pointers, with rows."""

    def __init__(self, flow: Flow, names: dict[int, str], spelled: dict[int, str]) -> None:
        super().__init__(flow, names, spelled)
        self.named = {named(cell, self.words[cell]) for cell in self.code if self.words[cell] < 0o6000}
        self.data = [cell for cell in sorted(self.words) if self.is_datum(cell)]
        self.kinds = dict[int, int]()
        self.runs = dict[int, range]()
        self.text_tags = set[int]()
        self.take_runs(EQUAL, self.equal_run)
        self.kinds |= {cell: POINTER for cell in self.shown if self.is_datum(cell) and cell not in self.kinds}
        for kind, run in ((EIGHT, self.eight_run), (PACKED, self.packed_run), (SIXBIT, self.sixbit_run)):
            self.take_runs(kind, run)
        self.tag_texts()
        for cell in self.data:
            self.kinds.setdefault(cell, ADDRESS if self.is_address(cell) else PLAIN)

    # Runs

    def take_runs(self, kind: int, run_from: Callable[[int], Run]) -> None:
        """Gives a kind to the cells of each run, from the left."""
        after = 0
        for cell in self.data:
            if cell in self.kinds or cell < after:
                continue
            run = run_from(cell)
            after = cell + run.length
            if run.is_taken and (kind == EQUAL or not self.are_tagged_addresses(cell, run.length)):
                cells = range(cell, cell + run.length + run.has_end)
                self.kinds |= dict.fromkeys(cells, kind)
                self.runs |= dict.fromkeys(cells, cells)

    def length(self, cell: int, size: int, fits: Fits) -> int:
        """How many words there are in the longest stretch of units from a cell on, in its field."""
        end = cell
        while (end + size - 1) // FIELD == cell // FIELD and fits(end):
            end += size
        return end - cell

    def equal_run(self, cell: int) -> Run:
        length = self.length(cell, 1, lambda at: self.datum(at) == self.datum(cell) and (at == cell or not self.tag(at) and at not in self.shown))
        return Run(length, length > 8)

    def is_loose(self, cell: int) -> bool:
        """A datum that no instruction names, of no kind yet."""
        return self.is_datum(cell) and cell not in self.named and cell not in self.kinds

    def has_three(self, cell: int, length: int, size: int, is_unit: Fits) -> bool:
        units = [is_unit(at) for at in range(cell, cell + length, size)]
        return any(all(units[place : place + 3]) for place in range(len(units) - 2))

    def has_end(self, cell: int, length: int, is_end: Fits) -> bool:
        """Whether a loose datum after a run is its end."""
        end = cell + length
        return length > 0 and end // FIELD == cell // FIELD and self.is_loose(end) and is_end(self.words[end])

    def eight_run(self, cell: int) -> Run:
        length = self.length(cell, 1, lambda at: self.is_loose(at) and (is_byte(self.words[at]) or self.words[at] in CONTROLS))
        is_taken = self.has_three(cell, length, 1, lambda at: is_byte(self.words[at]))
        return Run(length, is_taken, self.has_end(cell, length, lambda word: word == 0))

    def packed_run(self, cell: int) -> Run:
        def is_pair(at: int) -> bool:
            if not (self.is_loose(at) and self.is_loose(at + 1)):
                return False
            three = self.three(at)
            return all(it in CONTROLS or it >= 0o200 and is_graphic(it) for it in three) or all(it < 0o200 and is_graphic(it) for it in three)

        length = self.length(cell, 2, is_pair) if cell % 2 == 0 else 0
        return Run(length, self.has_three(cell, length, 2, self.is_packed))

    def sixbit_run(self, cell: int) -> Run:
        length = self.length(cell, 1, lambda at: self.is_loose(at) and self.words[at] != NO_TEXT and {*divmod(self.words[at], 64)} <= TEXT)
        has_end = self.has_end(cell, length, lambda word: word == 0 or word % 64 == 0 and word // 64 in TEXT)
        has_character = has_end and self.words[cell + length] != 0
        return Run(length, length >= 5 or length >= 3 and (has_character or self.tag(cell) is not None or self.is_pointed(cell)), has_end)

    def is_pointed(self, cell: int) -> bool:
        """Whether a datum of a cell's field, which is not equal to its neighbours and no pointer, is its address."""
        field = [at for at in self.data if at // FIELD == cell // FIELD]
        return any(self.words[at] == cell % FIELD and self.kinds.get(at, PLAIN) >= EIGHT for at in field)

    def are_tagged_addresses(self, cell: int, length: int) -> bool:
        """Whether all words of a run, without its end, are addresses of cells with tags."""
        return all(self.tag(cell // FIELD * FIELD + self.words[at]) for at in range(cell, cell + length))

    def tag_texts(self) -> None:
        """The first cell of a text is tagged where a datum of no kind yet is its address."""
        addresses = {cell // FIELD * FIELD + self.words[cell] for cell in self.data if cell not in self.kinds}
        self.text_tags = {run[0] for cell, run in self.runs.items() if self.kinds[cell] >= EIGHT and run[0] in addresses}

    # Lines

    def tag(self, cell: int) -> str | None:
        found = super().tag(cell)
        return "A" + octal(cell, 5) if found is None and cell in self.text_tags else found

    def is_address(self, cell: int) -> bool:
        return self.words[cell] != 0 and self.tag(cell // FIELD * FIELD + self.words[cell]) is not None

    def row(self, cell: int) -> range:
        if cell not in self.runs:
            return super().row(cell)
        most = 8 if self.kinds[cell] != EQUAL else 16 if self.words[cell] else 32
        end = cell + 1
        while end - cell < most and end in self.runs[cell] and not self.tag(end):
            end += 1
        return range(cell, end)

    def line(self, row: range) -> str:
        cell = row[0]
        if cell not in self.runs:
            return super().line(row)
        statement = ";".join(f"{self.words[at]:o}" if self.kinds[cell] == EQUAL and len(row) > 1 else octal(self.words[at], 4) for at in row)
        place = f"{octal(cell, 5)} {octal(self.words[cell], 4)}" if len(row) == 1 else f"{octal(cell, 5)} TO {octal(row[-1], 5)}"
        return f"{statement}\t/{place}{self.row_remark(row)}"

    def row_remark(self, row: range) -> str:
        if self.kinds[row[0]] == EQUAL:
            return " EQUAL"
        text = "".join(map(self.characters, row))
        return f" AS TEXT '{text}'" if text else ""

    def characters(self, cell: int) -> str:
        """What a word of a text shows: a pair shows its characters at its first word."""
        word, kind = self.words[cell], self.kinds[cell]
        if kind == PACKED:
            return "".join(map(character, self.three(cell))) if cell % 2 == 0 else ""
        if kind == SIXBIT:
            return sixbit_character(word // 64) + sixbit_character(word % 64)
        return character(word) if word else ""

    def in_table(self, cell: int) -> bool:
        """Whether a datum is one of three addresses or more in a row."""

        def is_led(at: int) -> bool:
            return at // FIELD == cell // FIELD and self.kinds.get(at) in (POINTER, ADDRESS)

        return any(all(map(is_led, range(first, first + 3))) and cell in range(first, first + 3) for first in range(cell - 2, cell + 1))

    def remark(self, cell: int) -> str:
        if not self.is_datum(cell):
            return super().remark(cell)
        if self.kinds[cell] == PLAIN:
            return self.pointer_remark(cell)
        return " AS ADDRESS" if self.in_table(cell) else ""


def is_byte(word: int) -> bool:
    return word < 0o400 and is_graphic(word)
