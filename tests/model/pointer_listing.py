"""The source of a tape by known pointers, by its definition: where pointers lead, calls of the monitor with their arguments, and what is assumed."""
from __future__ import annotations

from typing import NamedTuple, Optional
from tests.model.calls import EXITS, USR, Call, Form, text_of_cell
from tests.model.flow import FIELD, behind, named
from tests.model.listing import Listing
from tests.model.pointers import DCA, ION, ISZ, JMP, JMS, Flow, State, is_auto_index, is_indirect, place
from tests.model.words import octal

MOST = 8


class Argument(NamedTuple):
    """A word after a call that is no instruction: its name, and its call's cell."""

    name: str
    call: int


def some_cells(cells: list[int]) -> str:
    """Eight cells at most, and `..` where there are more."""
    return " ".join([*(octal(cell, 5) for cell in cells[:MOST]), *([".."] if len(cells) > MOST else [])])


def sixbit(words: list[int]) -> str:
    """The letters of words of sixbit: letters and digits, with zeros at the end alone; nothing where they are none."""
    codes = [code for word in words for code in (word // 64, word % 64)]
    while codes and not codes[-1]:
        codes.pop()
    if not all(1 <= code <= 0o32 or 0o60 <= code <= 0o71 for code in codes):
        return ""
    return "".join(chr(code + 0o100 if code < 0o40 else code) for code in codes)


class PointerListing(Listing):
    """The source of a tape by the flow of its program."""

    def __init__(self, flow: Flow, names: dict[int, str], spelled: dict[int, str]) -> None:
        program = flow.program
        super().__init__(program.words, set(flow.at), names, spelled, True)
        self.flow, self.program = flow, program
        self.instructions = sorted(self.code)
        self.calls: dict[int, Call] = {cell: call for cell in self.instructions if (call := flow.call(cell))}
        self.arguments: dict[int, Argument] = {}
        for cell in self.calls:
            for word, name in zip(self.places(cell), self.form(cell).words):
                if word in self.words and word not in self.code:
                    self.arguments.setdefault(word, Argument(name, cell))
        self.inline = self.inline_arguments()
        self.files = dict[int, str]()
        self.filed = set[int]()
        for cell in self.calls:
            self.note_file(cell)
        self.shown = dict[int, int]()
        for cell in self.instructions:
            self.note_target(cell)
        for word in self.arguments:
            self.note_argument(word)

    # What calls say

    def form(self, cell: int) -> Form:
        return self.program.form(cell, self.calls[cell])

    def places(self, cell: int) -> list[int]:
        """The cells of the words after a call."""
        return [behind(cell, count) for count in range(1, len(self.form(cell).words) + 1)]

    def told(self, cell: int, name: str) -> Optional[int]:
        """The word after a call that has this name, where the tape gives it and no other cell writes it."""
        word = next((at for at, said in zip(self.places(cell), self.form(cell).words) if said.split(",")[0] == name), None)
        if word is None or word not in self.words or any(it.cell != cell for it in self.flow.writers.get(word, ())):
            return None
        return self.words[word]

    def named_cell(self, cell: int) -> Optional[int]:
        """The first cell of the file's name that a call is told."""
        address = self.told(cell, "NAME AT")
        return place(self.flow.data_field(cell), address) if address else None

    def buffer(self, cell: int) -> Optional[int]:
        function, address = self.told(cell, "FUNCTION"), self.told(cell, "BUFFER")
        return None if function is None else place(function >> 3 & 7, address)

    def file_name(self, first: Optional[int]) -> str:
        """The name of a file in four cells, or nothing where they have none."""
        if first is None:
            return ""
        cells = range(first, first + 4)
        if first // FIELD != cells[-1] // FIELD or not all(self.is_plain_word(cell) for cell in cells):
            return ""
        *words, last = [self.words[cell] for cell in cells]
        name, extension = sixbit(words), sixbit([last])
        return "" if not name or last and not extension else name + (f".{extension}" if last else "")

    def is_plain_word(self, cell: int) -> bool:
        """The tape gives it, nothing writes it, and it is no instruction or argument."""
        return cell in self.words and not any(cell in it for it in (self.code, self.arguments, self.inline, self.flow.writers))

    def note_file(self, cell: int) -> None:
        """The four cells of a file's name, unless a lower call has one of them."""
        first = self.named_cell(cell)
        name = self.file_name(first)
        if first is not None and name and not self.filed & {*range(first, first + 4)}:
            self.files[first] = name
            self.filed |= {*range(first, first + 4)}

    def device(self, cell: int) -> str:
        """The name of a device in the two words of a call."""
        words = self.form(cell).words
        if "DEVICE" not in words:
            return ""
        first, second = self.places(cell)[1:3]
        are_told = all(it in self.words and all(by.cell == cell for by in self.flow.writers.get(it, ())) for it in (first, second))
        return sixbit([self.words[first], self.words[second]]) if are_told else ""

    def call_text(self, cell: int) -> str:
        call = self.calls[cell]
        if call.kind != USR:
            return call.kind + self.transfer_text(cell)
        if not call.function:
            return USR
        text = f"USR {call.function:o} {self.form(cell).name}"
        first = self.named_cell(cell)
        if first is not None:
            text += f" NAME {self.file_name(first)}".rstrip() + f" AT {octal(first, 5)}"
        text += f" DEVICE {self.device(cell)}" if self.device(cell) else ""
        block, number, extension = (self.told(cell, it) for it in ("BLOCK", "NUMBER", "EXTENSION"))
        text += f" BLOCK {octal(block, 4)}" if block is not None else ""
        text += f" NUMBER {number:o}" if number is not None else ""
        if extension is not None:
            text += " SPECIAL" if extension == 0o5200 else f" EXTENSION {sixbit([extension])}" if sixbit([extension]) else ""
        return text

    def transfer_text(self, cell: int) -> str:
        """What a handler is asked for."""
        text, function = "", self.told(cell, "FUNCTION")
        if function is not None:
            pages = function >> 6 & 0o37 or 0o40
            text = f" {'WRITE' if function & 0o4000 else 'READ'} {pages} PAGE{'S' * (pages > 1)} FIELD {function >> 3 & 7}"
            text += f" UNIT {function & 7}" if function & 7 else ""
        buffer, block = self.buffer(cell), self.told(cell, "BLOCK")
        text += f" BUFFER {octal(buffer, 5)}" if buffer is not None else ""
        return text + (f" BLOCK {octal(block, 4)}" if block is not None else "")

    # Where instructions lead

    def inline_arguments(self) -> dict[int, int]:
        """The words that a subroutine takes from after its JMS, each with the subroutine's first cell."""
        found: dict[int, int] = {}
        for cell in self.instructions:
            if self.words[cell] >> 9 != JMS or cell in self.calls or self.flow.jump_field(cell) is None:
                continue
            state = self.flow.at[cell][0]
            first = self.program.subroutine(state)
            for word in self.program.inline_arguments(state):
                if first is not None and word in self.words and word not in self.code and word not in self.arguments:
                    found.setdefault(word, first)
        return found

    def target(self, cell: int) -> Optional[int]:
        """Where an instruction leads through a known pointer, or a direct jump in another field."""
        word = self.words[cell]
        if word >> 9 in (JMS, JMP) and not is_indirect(word):
            led = place(self.flow.jump_field(cell), named(cell, word))
            return led if led is not None and led // FIELD != cell // FIELD else None
        return None if self.exit(cell) else self.flow.target(cell)

    def exit(self, cell: int) -> str:
        """What is said of a JMP through a pointer to the monitor."""
        word = self.words[cell]
        pointer = named(cell, word)
        if word >> 8 != 0o13 or pointer not in self.words or is_auto_index(pointer):
            return ""
        led = place(self.flow.jump_field(cell), self.words[pointer])
        return EXITS.get(led, "") if led is not None and led not in self.words else ""

    def note_target(self, cell: int) -> None:
        """A target's tag, its lines above, and its pointer."""
        target = self.target(cell)
        if target is None or target not in self.words:
            return
        self.refer(target, cell, self.words[cell] >> 9 == JMS)
        pointer = named(cell, self.words[cell])
        if is_indirect(self.words[cell]) and self.is_datum(pointer):
            self.shown.setdefault(pointer, target)

    def note_argument(self, word: int) -> None:
        """An argument that is told as the address of a cell of the tape is shown by its tag."""
        name, call = self.arguments[word]
        first = {"NAME AT": self.named_cell, "BUFFER": self.buffer}.get(name.split(",")[0], lambda cell: None)(call)
        if first in self.words and first is not None and self.words[word]:
            self.refer(first, call, False)
            self.shown[word] = first

    def refer(self, to: int, cell: int, is_call: bool) -> None:
        into = self.callers if is_call else self.others
        into[to] = sorted({*into.get(to, []), cell})

    def is_datum(self, cell: int) -> bool:
        """Whether a cell has a word that is no instruction, argument or file name."""
        return cell in self.words and not any(cell in it for it in (self.code, self.arguments, self.inline, self.filed))

    # Lines

    def datum(self, cell: int) -> int:
        return self.words[cell] if self.is_datum(cell) else -1

    def statement(self, cell: int) -> str:
        if cell in self.shown:
            return self.tag(self.shown[cell]) or octal(self.words[cell], 4)
        return super().statement(cell) if cell in self.code or self.is_datum(cell) else octal(self.words[cell], 4)

    def cell_name(self, cell: int) -> str:
        return self.tag(cell) or octal(cell, 5)

    def remark(self, cell: int) -> str:
        if cell in self.code:
            return "".join(f" {text}" for text in (self.instruction_remark(cell), *self.returns_to(cell)) if text)
        if cell in self.arguments:
            name, call = self.arguments[cell]
            device = self.device(call) if name == "DEVICE" else ""
            return f" ARGUMENT {name}" + (f" {device}" if device else "")
        if cell in self.inline:
            return f" ARGUMENT OF {self.cell_name(self.inline[cell])}"
        if cell in self.filed:
            return f" AS NAME {self.files[cell]}" if cell in self.files else ""
        return super().remark(cell) or self.pointer_remark(cell)

    def instruction_remark(self, cell: int) -> str:
        if cell in self.calls:
            return self.call_text(cell)
        if self.exit(cell):
            return self.exit(cell)
        target = self.target(cell)
        if target is None:
            return self.writer_remark(cell)
        text = f"{'TO' if self.words[cell] >> 9 >= JMS else 'AT'} {self.cell_name(target)}"
        return f"{text} {text_of_cell(target)}".rstrip() if target not in self.words else text

    def writer_remark(self, cell: int) -> str:
        """Where the pointer of a jump is written, unless that is a return."""
        word = self.words[cell]
        pointer = named(cell, word)
        if word >> 8 not in (0o11, 0o13) or pointer not in self.words or is_auto_index(pointer) or pointer in self.flow.known:
            return ""
        writers = self.flow.writers.get(pointer, set())
        if not writers or any(map(self.is_return, writers)):
            return ""
        return f"WRITTEN AT {octal(min(it.cell for it in writers), 5)}"

    def is_return(self, writer: State) -> bool:
        word = self.program.word(writer)
        return word == ION or word >> 9 == JMS and not self.program.call(writer)

    def returns_to(self, cell: int) -> list[str]:
        """Whether an instruction is a return of a call with an error return, the lowest that has it."""
        for call in self.calls:
            for count, said in self.form(call).returns().items():
                if said and behind(call, count) == cell:
                    return [said]
        return []

    def pointer_remark(self, cell: int) -> str:
        """What is said of a plain datum through which an instruction leads to the monitor."""
        if self.statement(cell) != octal(self.words[cell], 4):
            return ""
        for at in self.instructions:
            if is_indirect(self.words[at]) and named(at, self.words[at]) == cell:
                text = self.monitor_text(at)
                if text:
                    return f" {text}"
        return ""

    def monitor_text(self, cell: int) -> str:
        """What is said of the pointer of an instruction that leads to the monitor."""
        if cell in self.calls:
            return self.calls[cell].kind
        led = place(self.flow.jump_field(cell), self.words[named(cell, self.words[cell])]) if self.exit(cell) else self.target(cell)
        return text_of_cell(led) if led is not None and led not in self.words else ""

    def has_gap(self, cell: int) -> bool:
        if cell in self.arguments:
            form = self.form(self.arguments[cell].call)
            return not form.returns() and self.places(self.arguments[cell].call)[-1] == cell
        return super().has_gap(cell)

    def is_assumed(self, cell: int) -> bool:
        """A store through a pointer that isn't known."""
        word = self.words[cell]
        pointer = named(cell, word)
        is_unknown = is_auto_index(pointer) or pointer not in self.flow.known
        return is_indirect(word) and word >> 9 in (ISZ, DCA, JMS) and is_unknown and cell not in self.calls

    def head(self) -> list[str]:
        assumed = [cell for cell in self.instructions if self.is_assumed(cell)]
        return [f"/ BY POINTERS FROM {some_cells(self.program.starts)}", *([f"/ ASSUMED: STORES CHANGE NO POINTER AT {some_cells(assumed)}"] if assumed else [])]

    def lines(self) -> list[str]:
        return self.head() + super().lines()
