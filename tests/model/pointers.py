"""What a program reaches through its known pointers, by the definitions. Each least set of states is found by a plain list of what waits."""
from __future__ import annotations

from functools import cache, cached_property
from typing import Iterable, NamedTuple, Optional
from tests.model.calls import HANDLER, SYSTEM_ENTRY, SYSTEM_HANDLER, USR, USR_CELLS, Call, Form, form_of
from tests.model.flow import FIELD, PAGE, behind, exits, named

OWN, UNKNOWN = -1, -2
SKIPS = (0o6000, 0o6003, 0o6006, 0o6011, 0o6021, 0o6621, 0o6622, 0o6661, 0o6741, 0o6771)
"""Skips of devices other than the Teletype."""
ION, RMF = 0o6001, 0o6244
AND, TAD, ISZ, DCA, JMS, JMP, IOT = range(7)
FETCHES_FROM = (0o7700, 0o200)
NEXT_RULES: tuple[str, ...] = ("AND TAD DCA", "ISZ", "JMP direct", "JMS direct", "JMP I, nothing", "JMP I", "call", "JMS I, nothing", "JMS I", "ION", "CDF CIF", "RMF")
NEXT_RULES += ("device skip", "IOT", "operate", "BSW", "MQ")
"""The lines of the table of next states."""
WRITE_RULES: tuple[str, ...] = ("store", "JMS", "auto-index", "store through pointer", "store in each field", "JMS through pointer", "call", "ION", "nothing")
WRITE_RULES += ("store through no pointer", "JMS through no pointer")
"""Those of the table of what is written."""

Words = dict[int, int]
Pointers = dict[int, int]
"""The pointers that are followed, with their words."""


class State(NamedTuple):
    """A cell whose instruction is next, the instruction buffer, and the data field. The buffer is OWN where no CIF was met since the last jump. Either
    field may be UNKNOWN."""

    cell: int
    buffer: int
    data: int


def jump_field(state: State) -> Optional[int]:
    """The field into which a JMP or JMS goes, where it is known."""
    if state.buffer == OWN:
        return state.cell // FIELD
    return None if state.buffer == UNKNOWN else state.buffer


def place(field: Optional[int], address: Optional[int]) -> Optional[int]:
    return None if field is None or address is None else field * FIELD + address % FIELD


def is_indirect(word: int) -> bool:
    return word < 0o6000 and bool(word & 0o400)


def is_auto_index(cell: int) -> bool:
    return 0o10 <= cell % FIELD <= 0o17


def changes_fields(word: int) -> bool:
    """CDF, CIF, or both."""
    return word >> 6 == 0o62 and word & 7 in (1, 2, 3)


def clears_ac(word: int) -> bool:
    """AC is 0 after a word, whatever it was before."""
    if word >> 9 == DCA:
        return True
    if word & 0o7400 == 0o7000:
        return bool(word & 0o200) and not word & 0o55
    return word & 0o7401 == 0o7400 and bool(word & 0o200) and not word & 6


def settled(fields: set[Optional[int]]) -> Optional[int]:
    """The field that all states have, where that is one."""
    return fields.pop() if len(fields) == 1 else None


class Program:
    """The words that a tape gives cells, the cells where it starts, those that are said to be data, and those that are said to hold the entry of a
    handler."""

    def __init__(self, words: Words, starts: Iterable[int], data: Iterable[int] = (), handlers: Iterable[int] = ()) -> None:
        self.words, self.starts, self.data, self.handlers = words, list(starts), set(data), set(handlers)

    def is_open(self, cell: int) -> bool:
        return cell in self.words and cell not in self.data

    def word(self, state: State) -> int:
        return self.words[state.cell]

    def pointer(self, state: State) -> int:
        """The cell that a memory reference names."""
        return named(state.cell, self.word(state))

    # Calls

    def is_clear(self, cell: int) -> bool:
        """Whether AC is clear at a cell, by the word before it, or before at most four that change fields."""
        for _ in range(5):
            cell = behind(cell, -1)
            word = self.words.get(cell, -1)
            if not changes_fields(word):
                return word >= 0 and clears_ac(word)
        return False

    @cached_property
    def entries(self) -> set[int]:
        """The words in which a FETCH gets the entry of a handler, by its form alone."""
        found = set()
        for cell, word in self.words.items():
            if word >> 8 == 0o11 and self.words.get(named(cell, word)) in FETCHES_FROM and self.words.get(behind(cell, 1)) == 1:
                found.add(behind(cell, len(form_of(Call(USR, 1), self.is_clear(cell)).words)))
        return found

    @cached_property
    def handler_cells(self) -> set[int]:
        """Those that are said to be, the words of FETCHes, and the cells to which a TAD and a DCA copy one of them."""
        found = self.handlers | self.entries
        for cell, word in self.words.items():
            before = behind(cell, -1)
            if word >> 8 == 0o6 and self.words.get(before, -1) >> 8 == 0o2 and named(before, self.words[before]) in self.entries:
                found.add(named(cell, word))
        return found

    def call(self, state: State) -> Optional[Call]:
        """What the instruction of a state calls, by the word that the tape gives its pointer."""
        if self.word(state) >> 8 != 0o11:
            return None
        pointer = self.pointer(state)
        if pointer not in self.words or is_auto_index(pointer):
            return None
        called = place(jump_field(state), self.words[pointer])
        function = self.words.get(behind(state.cell, 1), -1)
        if called in USR_CELLS and (1 <= function <= 0o13 or function == 0 and called not in self.words):
            return Call(USR, function)
        if called == SYSTEM_ENTRY and called not in self.words:
            return Call(SYSTEM_HANDLER)
        return Call(HANDLER) if pointer in self.handler_cells else None

    def form(self, cell: int, call: Call) -> Form:
        return form_of(call, self.is_clear(cell))

    # Subroutines

    def subroutine(self, state: State) -> Optional[int]:
        """The first cell of what a JMS calls, by the words alone."""
        pointer = self.pointer(state)
        address: Optional[int] = pointer % FIELD
        if is_indirect(self.word(state)):
            address = None if is_auto_index(pointer) else self.words.get(pointer) or None
        return place(jump_field(state), address)

    def names(self, cell: int, first: int) -> bool:
        """Whether the word of a cell is one that the assembler makes of a reference to another."""
        word = self.words[cell]
        return word < 0o6000 and (not word & 0o200 or cell % FIELD >= PAGE) and named(cell, word) == first

    @cache
    def counts(self, first: int) -> tuple[int, int]:
        """How many words of a subroutine's page move its return on, and how many take words through it."""
        page = [cell for cell in range(first // PAGE * PAGE, first // PAGE * PAGE + PAGE) if cell in self.words and self.names(cell, first)]
        moves = sum(self.words[cell] >> 8 == 0o4 for cell in page)
        takes = sum(self.words[cell] & 0o400 > 0 and self.words[cell] >> 9 in (AND, TAD, ISZ, DCA) for cell in page)
        return moves, 0 if is_auto_index(first) else takes

    def moves(self, state: State) -> tuple[int, int]:
        """The least and the most words after the next one at which a subroutine comes back."""
        first = self.subroutine(state)
        if first is None or first not in self.words:
            return 0, 0
        moves, takes = self.counts(first)
        return (min(takes, moves), moves) if moves <= 3 else (0, 0)

    def returns(self, state: State) -> list[int]:
        least, most = self.moves(state)
        return [behind(state.cell, 1 + count) for count in range(least, most + 1)]

    def inline_arguments(self, state: State) -> list[int]:
        """The words before the first return."""
        return [behind(state.cell, 1 + count) for count in range(self.moves(state)[0])]

    # Next states

    def reference_rule(self, state: State, pointers: Pointers) -> str:
        """The line of the table of next states for a memory reference."""
        operation = self.word(state) >> 9
        if operation < JMS:
            return "ISZ" if operation == ISZ else "AND TAD DCA"
        name = "JMS" if operation == JMS else "JMP"
        if not is_indirect(self.word(state)):
            return f"{name} direct"
        if self.call(state):
            return "call"
        pointer = self.pointer(state)
        return f"{name} I, nothing" if is_auto_index(pointer) or pointer not in pointers else f"{name} I"

    def rule(self, state: State, pointers: Pointers) -> str:
        """The line of the table of next states that applies."""
        word = self.word(state)
        if word < 0o6000:
            return self.reference_rule(state, pointers)
        if word in (ION, RMF):
            return "ION" if word == ION else "RMF"
        if changes_fields(word):
            return "CDF CIF"
        if word < 0o7000:
            return "device skip" if word in SKIPS or word >> 3 in (0o603, 0o604) and word & 1 else "IOT"
        if word & 0o7416 == 0o7002:
            return "BSW"
        return "MQ" if word & 0o7457 == 0o7401 else "operate"

    def jump(self, state: State, address: int) -> list[State]:
        cell = place(jump_field(state), address)
        return [] if cell is None else [State(cell, OWN, state.data)]

    def come_back(self, state: State, cells: list[int]) -> list[State]:
        return [State(cell, OWN, state.data) for cell in cells]

    def call_returns(self, state: State, call: Call) -> list[int]:
        return [behind(state.cell, count) for count in self.form(state.cell, call).returns()]

    def next_states(self, state: State, pointers: Pointers) -> list[State]:
        """The states in which the program may go on."""
        cell, buffer, data = state
        word, rule = self.word(state), self.rule(state, pointers)
        on = State(behind(cell, 1), buffer, data)
        if rule in ("ISZ", "device skip"):
            return [on, State(behind(cell, 2), buffer, data)]
        if rule == "JMP direct":
            return self.jump(state, self.pointer(state))
        if rule == "JMP I":
            return self.jump(state, pointers[self.pointer(state)])
        if rule == "JMS direct":
            return self.jump(state, self.pointer(state) + 1) + self.come_back(state, self.returns(state))
        if rule == "JMS I":
            return self.jump(state, pointers[self.pointer(state)] + 1) + self.come_back(state, self.returns(state))
        if rule == "JMS I, nothing":
            return self.come_back(state, self.returns(state))
        if rule == "JMP I, nothing":
            return []
        call = self.call(state)
        if call:
            return self.come_back(state, self.call_returns(state, call))
        if rule == "ION":
            return [on, State(1, OWN, 0)]
        if rule == "CDF CIF":
            number = word >> 3 & 7
            return [State(on.cell, number if word & 2 else buffer, number if word & 1 else data)]
        if rule == "RMF":
            return [State(on.cell, UNKNOWN, UNKNOWN)]
        if rule == "operate":
            return [State(exit, buffer, data) for exit in exits(cell, word)]
        return [on]

    # What is written

    def write_rule(self, state: State, pointers: Pointers) -> str:
        """The line of the table of writes that applies."""
        word = self.word(state)
        operation, pointer = word >> 9, self.pointer(state)
        if is_indirect(word) and is_auto_index(pointer):
            return "auto-index"
        if operation in (ISZ, DCA):
            if not is_indirect(word):
                return "store"
            if pointer not in pointers:
                return "store through no pointer"
            return "store in each field" if state.data == UNKNOWN else "store through pointer"
        if operation == JMS:
            if not is_indirect(word):
                return "JMS"
            if self.call(state):
                return "call"
            return "JMS through pointer" if pointer in pointers else "JMS through no pointer"
        return "ION" if word == ION else "nothing"

    def writes(self, state: State, pointers: Pointers) -> list[int]:
        """The cells that a state may write."""
        rule, pointer = self.write_rule(state, pointers), self.pointer(state)
        if rule in ("auto-index", "store"):
            return [pointer]
        if rule == "store through pointer":
            return [state.data * FIELD + pointers[pointer]]
        if rule == "store in each field":
            return [field * FIELD + pointers[pointer] for field in range(8)]
        if rule in ("JMS", "JMS through pointer"):
            cell = place(jump_field(state), pointer if rule == "JMS" else pointers[pointer])
            return [] if cell is None else [cell]
        call = self.call(state)
        if call:
            return [behind(state.cell, count) for count in self.form(state.cell, call).gets()]
        return [0] if rule == "ION" else []

    # Least sets

    def reach(self, pointers: Pointers, left_out: Iterable[int] = ()) -> set[State]:
        """The least set of states with the starts and the next states, where no ISZ skips to the cells that are left out."""
        found, waiting = set[State](), [State(start, OWN, start // FIELD) for start in self.starts]
        while waiting:
            state = waiting.pop()
            if state in found or not self.is_open(state.cell):
                continue
            found.add(state)
            for following in self.next_states(state, pointers):
                if not (self.word(state) >> 9 == ISZ and following.cell == behind(state.cell, 2) and following.cell in left_out):
                    waiting.append(following)
        return found

    def writers(self, states: set[State], pointers: Pointers) -> dict[int, set[State]]:
        """For each cell the states that write it."""
        found: dict[int, set[State]] = {}
        for state in states:
            for cell in self.writes(state, pointers):
                found.setdefault(cell, set()).add(state)
        return found


class Flow:
    """The flow of a program, and what may be asked of it."""

    def __init__(self, program: Program) -> None:
        self.program, words = program, program.words
        direct = program.reach({})
        written = program.writers(direct, {})
        self.candidates = {cell: word for cell, word in words.items() if word and cell not in written}
        self.wide = program.reach(self.candidates)
        self.writers = program.writers(self.wide, self.candidates)
        self.known = {cell: word for cell, word in self.candidates.items() if cell not in self.writers}
        self.left_out = {cell for cell in self.writers if words.get(cell) == 0}
        self.states = program.reach(self.known, self.left_out)
        self.at: dict[int, list[State]] = {}
        for state in self.states:
            self.at.setdefault(state.cell, []).append(state)

    def jump_field(self, cell: int) -> Optional[int]:
        return settled({jump_field(state) for state in self.at.get(cell, [])})

    def data_field(self, cell: int) -> Optional[int]:
        return settled({None if state.data == UNKNOWN else state.data for state in self.at.get(cell, [])})

    def first_writer(self, cell: int) -> Optional[int]:
        return min((state.cell for state in self.writers.get(cell, [])), default=None)

    def call(self, cell: int) -> Optional[Call]:
        """The call of a cell: the USR's before the system handler's, and that before a handler's."""
        calls = {call.kind: call for call in map(self.program.call, self.at.get(cell, [])) if call}
        return next((calls[kind] for kind in (USR, SYSTEM_HANDLER, HANDLER) if kind in calls), None)

    def target(self, cell: int) -> Optional[int]:
        """Where an instruction leads through a known pointer."""
        if cell not in self.at or self.call(cell):
            return None
        word = self.program.words[cell]
        pointer = named(cell, word)
        if not is_indirect(word) or is_auto_index(pointer):
            return None
        return place(self.data_field(cell) if word >> 9 < JMS else self.jump_field(cell), self.known.get(pointer))
