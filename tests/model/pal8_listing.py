"""The PAL8 source of a tape, by its definition: literals for the words at the ends of pages, PAGE, and TEXT."""
from tests.model.listing import FIELD, OPERATIONS, PAGE, Listing, Words, referred
from tests.model.words import octal

MARKS = "/\"'.ABCDEFGHIJKLMNOPQRSTUVWXYZ"


class Pal8Listing(Listing):
    """As a listing is, of PAL8. Notes are made where a start is given."""

    def __init__(self, words: Words, code: set[int], names: dict[int, str], spelled: dict[int, str], is_noted: bool) -> None:
        super().__init__(words, code, names, spelled, is_noted)
        self.asks: dict[int, list[int]] = {}
        for cell in sorted(code):
            named = referred(cell, words[cell])
            if named is not None:
                self.asks.setdefault(named, []).append(cell)
        self.pools: set[int] = set()
        pages = {it // PAGE for it in words}
        for page in sorted(pages, key=lambda it: (it % 0o40 == 0, it)):
            self.pools |= self.pool(page)
        self.shown = Listing(words, code - self.pools, names, spelled, is_noted)

    def pool(self, page: int) -> set[int]:
        """The pool of a page, where those of pages that are no page zero are known, if it is one."""
        last = page * PAGE + PAGE - 1
        for count in range(PAGE, 0, -1):
            cells = [last - k for k in range(count)]
            if all(self.is_free(it) for it in cells) and len({self.words[it] for it in cells}) == count:
                pools = self.pools | set(cells)
                firsts = [min((it for it in self.asks.get(cell, []) if it not in pools), default=-1) for cell in cells]
                if min(firsts) >= 0 and firsts == sorted(set(firsts)):
                    return set(cells)
        return set()

    def is_free(self, cell: int) -> bool:
        return cell in self.words and cell not in self.names and not (self.is_noted and cell in self.code)

    def tag(self, cell: int) -> str:
        return "" if cell in self.pools else self.shown.tag(cell) or ""

    def statement(self, cell: int) -> str:
        word = self.words[cell]
        if cell not in self.code:
            return self.value(cell)
        named = referred(cell, word)
        if named is None or named not in self.pools:
            return self.shown.statement(cell)
        value = self.value(named) if self.is_noted else octal(self.words[named], 4)
        return " ".join([OPERATIONS[word >> 9], *(["I"] if word & 0o400 else []), ("[" if named % FIELD < PAGE else "(") + value])

    def value(self, cell: int) -> str:
        """A datum: the tag of the cell whose address it is, or its number."""
        word = self.words[cell]
        return (self.tag(cell // FIELD * FIELD + word) if word else "") or octal(word, 4)

    def is_datum(self, cell: int) -> bool:
        return self.is_noted and cell in self.words and cell not in self.code and cell not in self.pools and not self.tag(cell)

    def text(self, cell: int) -> str:
        """The characters of the text that begins at a cell, of three words or more: no text can go on from the cell before."""
        found, at = "", cell
        if cell % FIELD and self.is_datum(cell - 1) and self.words[cell - 1] // 64 and self.words[cell - 1] % 64:
            return ""
        while at // FIELD == cell // FIELD and self.is_datum(at):
            high, low = self.words[at] // 64, self.words[at] % 64
            if high == 0 and low:
                return ""
            found += "".join(chr(it if it >= 0o40 else it + 0o100) for it in (high, low) if it)
            at += 1
            if low == 0:
                return found if at - cell >= 3 and set(MARKS) - set(found) else ""
        return ""

    def place(self, cell: int, before: int) -> list[str]:
        """Where words go, where a cell isn't the next one."""
        found = []
        if cell // FIELD != max(before, 0) // FIELD:
            found.append(f"FIELD {cell // FIELD}")
        if before >= 0 and cell == before + 1 and cell % FIELD:
            return found
        location = before % FIELD + 1 if before >= 0 and before // FIELD == cell // FIELD else 0o200
        return [*found, "PAGE" if -(-location // PAGE) * PAGE == cell % FIELD else f"*{octal(cell % FIELD, 4)}"]

    def lines(self) -> list[str]:
        found, before, left = [], -1, 0
        for cell in sorted(set(self.words) - self.pools):
            if left:
                before, left = cell, left - 1
                continue
            found += self.place(cell, before)
            before, word = cell, self.words[cell]
            comment = f"\t/{octal(cell, 5)} {octal(word, 4)}"
            text = self.text(cell)
            if text:
                mark = next(it for it in MARKS if it not in text)
                left = len(text) // 2
                found.append(f"\tTEXT {mark}{text}{mark}{comment}")
                continue
            found += self.above(cell) if self.is_noted else []
            tag = self.tag(cell)
            found.append(f"{tag + ',' if tag else ''}\t{self.statement(cell)}{comment}{self.remark(cell) if self.is_noted else ''}")
            if self.is_noted and self.has_gap(cell):
                found.append("")
        return [*found, "$"]
