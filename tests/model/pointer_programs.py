"""Random programs with pointers in several fields: jumps and stores through them, subroutines with words after their calls, calls of the monitor."""
from random import Random
from typing import Callable
from tests.model.flow import FIELD, PAGE
from tests.model.pointers import AND, DCA, ISZ, JMP, JMS, TAD, Program

OPERATES = [0o7200, 0o7201, 0o7300, 0o7240, 0o7001, 0o7041, 0o7004, 0o7012, 0o7002, 0o7142, 0o7440, 0o7450, 0o7410, 0o7510, 0o7600, 0o7604, 0o7421, 0o7501, 0o7621]
ENDS = [0o7402, 0o7014, 0o7405, 0o7443, 0o7602]
DEVICES = [0o6001, 0o6001, 0o6002, 0o6031, 0o6032, 0o6036, 0o6041, 0o6046, 0o6011, 0o6021, 0o6741, 0o6743, 0o6244, 0o6244, 0o6214, 0o6000, 0o6003, 0o6771]
ENTRIES = [0o7700, 0o7700, 0o200, 0o7607, 0o7600, 0o7605]
POINTERS = range(0o140, 0o160)
DATA = range(0o160, 0o200)
"""The addresses of a page's pointers, and of its data."""
ZERO_POINTERS = range(0o20, 0o40)
AUTO_INDEXES = range(0o10, 0o20)
CELLS: list[int] = [*POINTERS, *DATA]
OTHERS: list[int] = [0, *ENTRIES, *ZERO_POINTERS]


class Maker:
    """Makes one program, page by page."""

    def __init__(self, seed: int) -> None:
        self.random, self.words = Random(seed), dict[int, int]()
        self.fields = [0, *self.random.sample(range(1, 8), self.random.randrange(3))]
        self.heads, self.subroutines = list[int](), list[int]()
        self.cell = 0
        self.pages = [FIELD * field + first for field in self.fields for first in self.random.sample([0o40, 0o200, 0o400, 0o600], self.random.choice([1, 1, 2]))]
        if self.random.random() < 0.1:
            self.pages.append(FIELD * self.random.choice(self.fields) + 0o7600)

    # Words

    def put(self, *words: int) -> None:
        for word in words:
            self.words[self.cell] = word
            self.cell = self.cell // FIELD * FIELD + (self.cell + 1) % FIELD

    def refer(self, operation: int, cell: int, is_indirect: bool = False) -> None:
        """Puts a memory reference to a cell of this page or of page zero."""
        bit = 0o200 if cell % FIELD >= PAGE or self.random.random() < 0.03 else 0
        self.put(operation << 9 | 0o400 * is_indirect | bit | cell % PAGE)

    def of_page(self, addresses: range) -> int:
        """A cell of this page at one of these addresses."""
        return self.cell // PAGE * PAGE + self.random.choice(addresses)

    def pointer(self) -> int:
        if self.random.random() < 0.3:
            return self.cell // FIELD * FIELD + self.random.choice(ZERO_POINTERS)
        return self.of_page(POINTERS)

    def pointer_to(self, word: int) -> int:
        """A pointer of this page that has a word, one that is laid or a new one."""
        cells = [self.cell // PAGE * PAGE + address for address in POINTERS]
        laid = [cell for cell in cells if self.words.get(cell) == word]
        cell = laid[0] if laid else self.random.choice([cell for cell in cells if cell not in self.words] or cells)
        self.words[cell] = word
        return cell

    def near(self, cells: list[int]) -> int:
        """One of these that is in this page, or a word of it."""
        page = self.cell // PAGE * PAGE
        return self.random.choice([cell for cell in cells if page <= cell < page + PAGE] or [page + self.random.randrange(PAGE)])

    def any_word(self) -> int:
        return self.random.choice([0, 1, 0o200, self.random.randrange(FIELD)])

    # Pieces

    def plain(self) -> None:
        self.refer(self.random.choice([AND, TAD, DCA]), self.of_page(DATA))

    def operate(self) -> None:
        self.put(self.random.choice([*OPERATES, *OPERATES, self.random.choice(ENDS), 0o7000 + self.random.randrange(0o1000)]))

    def device(self) -> None:
        self.put(self.random.choice([*DEVICES, self.random.choice(DEVICES), 0o6000 + self.random.randrange(0o1000)]))

    def change_fields(self) -> None:
        for _ in range(self.random.choice([1, 1, 2])):
            self.put(0o6200 | self.random.choice([*self.fields, *self.fields, self.random.randrange(8)]) << 3 | self.random.choice([1, 1, 2, 2, 3]))

    def guard(self) -> None:
        """Mostly a skip before a jump, so that the program goes on after it, too."""
        if self.random.random() < 0.8:
            self.put(self.random.choice([0o7440, 0o7420, 0o7500, 0o6031, 0o6741]))

    def jump(self) -> None:
        self.guard()
        self.refer(JMP, self.near(self.heads))

    def through(self) -> None:
        operation = self.random.choice([AND, TAD, TAD, ISZ, DCA, DCA, JMP, JMP, JMS, JMS])
        if operation == JMP:
            self.guard()
        self.refer(operation, self.pointer(), True)

    def through_field(self) -> None:
        self.change_fields()
        self.through()

    def through_any_field(self) -> None:
        """RMF, after which no field is known, in one of two ways that come together, or in both."""
        if self.random.random() < 0.5:
            self.guard()
        self.put(0o6244)
        self.through()

    def count_up(self) -> None:
        self.refer(self.random.choice([AND, TAD, DCA, ISZ, JMP, JMS]), self.cell // FIELD * FIELD + self.random.choice(AUTO_INDEXES), True)

    def write_pointer(self) -> None:
        self.refer(self.random.choice([DCA, ISZ]), self.pointer())

    def count(self) -> None:
        """ISZ and a jump back, over a datum or not."""
        self.refer(ISZ, self.random.choice([self.cell + 2, self.of_page(DATA)]))
        self.refer(JMP, self.cell - 1)
        if self.random.random() < 0.6:
            self.put(self.random.choice([0, 0, self.any_word()]))

    def subroutine(self) -> None:
        """A subroutine that takes words after its call, and may skip at its return."""
        before = self.cell
        self.put(0)
        first = self.cell
        self.subroutines.append(first)
        self.put(self.random.choice([0, 0, 0, self.any_word()]))
        for _ in range(self.random.choice([0, 0, 1, 1, 2])):
            self.refer(self.random.choice([TAD, TAD, DCA, AND]), first, True)
            if self.random.random() < 0.8:
                self.refer(ISZ, first)
        for _ in range(self.random.choice([0, 0, 1, 1, 2, 4])):
            self.put(0o7440)
            self.refer(ISZ, first)
        if self.random.random() < 0.3:
            self.change_fields()
        self.refer(JMP, first, True)
        after, self.cell = self.cell, before
        self.refer(JMP, after)
        self.cell = after

    def call_subroutine(self) -> None:
        if self.random.random() < 0.2:
            self.change_fields()
        first = self.near(self.subroutines)
        if self.random.random() < 0.5:
            self.refer(JMS, first)
        else:
            self.refer(JMS, self.pointer_to(first % FIELD), True)
        self.put(*(self.any_word() for _ in range(self.random.choice([0, 0, 1, 2]))))

    def clear(self) -> None:
        """What may stand before a call: AC is clear or not, and words that change fields."""
        kind = self.random.randrange(4)
        if kind == 0:
            self.refer(TAD, self.of_page(DATA))
        elif kind == 1:
            self.refer(DCA, self.of_page(DATA))
        else:
            self.put(self.random.choice([0o7200, 0o7300, 0o7201, 0o7600, 0o7604, 0o7204]))
        for _ in range(self.random.choice([0, 0, 1, 3, 4])):
            self.put(0o6201 | self.random.choice(self.fields) << 3)

    def usr(self) -> None:
        """A call of the USR, whose name may be told."""
        self.clear()
        if self.random.random() < 0.85:
            self.put(self.random.choice([0o6212, 0o6212, 0o6213]))
        self.refer(JMS, self.pointer_to(self.random.choice([0o7700, 0o7700, 0o200])), True)
        function = self.random.choice([0, 1, 1, 1, 2, 2, 3, 4, 5, 6, 7, 0o10, 0o11, 0o12, 0o12, 0o13, 0o14, 0o7200])
        self.put(function, *(self.any_word() for _ in range(self.random.choice([0, 1, 2, 2, 3]))))
        entry = self.cell - 1
        if self.random.random() < 0.5:
            self.put(0o7402)
        if function == 1 and self.random.random() < 0.7:
            self.refer(TAD, entry)
            self.refer(DCA, self.pointer())
            self.refer(JMS, entry, True)

    def handler(self) -> None:
        """A call of a handler, or through a pointer that may hold the entry of one."""
        self.refer(JMS, self.pointer_to(0o7607) if self.random.random() < 0.5 else self.pointer(), True)
        self.put(*(self.any_word() for _ in range(3)))

    def leave(self) -> None:
        self.guard()
        self.refer(JMP, self.pointer_to(self.random.choice([0o7600, 0o7605])), True)

    def any(self) -> None:
        self.put(self.random.randrange(FIELD))

    def piece(self) -> Callable[[], None]:
        many = [self.plain, self.operate, self.through, self.through_field, self.through_field, self.call_subroutine, self.subroutine, self.usr]
        few = [self.device, self.through_any_field, self.change_fields, self.jump, self.count_up, self.count, self.handler]
        rare = [self.write_pointer, self.leave, self.any]
        return self.random.choice([*many, *many, *few, self.random.choice(rare)])

    # The program

    def lay_page(self, first: int) -> None:
        self.cell = first
        for _ in range(self.random.randint(4, 18)):
            if self.cell % PAGE >= POINTERS[0] - 0o16:
                break
            self.heads.append(self.cell)
            self.piece()()
        if self.random.random() < 0.5:
            self.put(0o7402)

    def pointer_word(self) -> int:
        """The address of code, of a subroutine, of a pointer or a datum, an entry of the monitor, or another."""
        kind = self.random.randrange(6)
        if kind < 3:
            return self.random.choice(self.heads) % FIELD
        if kind < 4:
            return self.random.choice(self.subroutines or self.heads) % FIELD
        if kind < 5:
            return self.random.choice(self.pages) % FIELD // PAGE * PAGE + self.random.choice(CELLS)
        return self.random.choice([*OTHERS, self.any_word()])

    def lay_pointers(self) -> None:
        cells = [first // PAGE * PAGE + address for first in self.pages for address in POINTERS]
        cells += [FIELD * field + address for field in self.fields for address in ZERO_POINTERS]
        for cell in cells:
            if cell not in self.words and self.random.random() < 0.9:
                self.words[cell] = self.pointer_word()
        for first in self.pages:
            for address in DATA:
                if self.random.random() < 0.5:
                    self.words[first // PAGE * PAGE + address] = self.any_word()
        for field in self.fields:
            for address in AUTO_INDEXES:
                if self.random.random() < 0.3:
                    self.words[FIELD * field + address] = self.pointer_word()

    def some(self, most: int) -> list[int]:
        """Some cells that have words, at least one."""
        cells: list[int] = self.random.sample(sorted(self.words), self.random.randint(1, most))
        return cells

    def program(self) -> Program:
        for first in self.pages:
            self.lay_page(first)
        self.lay_pointers()
        if self.random.random() < 0.3:
            for cell in self.some(5):
                del self.words[cell]
        starts = [self.pages[0], *self.random.sample(self.heads, min(len(self.heads), self.random.choice([0, 0, 1, 3])))]
        data = self.some(6) if self.random.random() < 0.25 else []
        handlers = self.some(6) if self.random.random() < 0.25 else []
        return Program(self.words, starts, data, handlers)


def program_of(seed: int) -> Program:
    return Maker(seed).program()
