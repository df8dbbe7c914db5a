"""PAL8, the assembler of OS/8, by its definitions: what a source means, or its first fault. So far it knows the language with literals,
links, conditions, punching, relocation, the names of files and devices, EXPUNGE, FIXTAB and FIXMRI, late definitions, and several texts with PAUSE.

A place, a name and a condition rest on the statements before alone. So each statement is judged after those before it. Literals and links rest on all
names, and so come last. It is slow, and keeps no table. A name is looked for among the statements before, the newest first. A pool is the list of all
that was asked of its page.
"""
from __future__ import annotations

from dataclasses import dataclass, field
from typing import Callable, NoReturn, Optional

from tests.model.assembler import PERMANENT
from tests.model.pal8_grammar import CORE_END, OPERATIONS, PLAIN, SOFT, Before, Body, Expression, Fault, Literal, Options, Reference, Statement, Term, Texts, Token, Value, harmless_reading, is_pause, live_text, name_number, said, statements, whole


# Places, names and conditions


@dataclass
class Judged:
    """A selected statement, with what rests on those before it."""

    line: int
    tags: list[str]
    body: Body
    location: int
    place: int
    in_field: int
    is_punched: bool
    size: int = 0
    start: int = 0
    is_expunged: bool = False
    definitions: list[tuple[str, int]] = field(default_factory=list)
    is_late: bool = False
    fixed: Optional[int] = None
    number: int = 0
    fields: int = 0
    moves: int = 0
    tokens: list[Token] = field(default_factory=list)


def permanent(name: str, now: Judged) -> Optional[int]:
    """The permanent value of a name, which EXPUNGE takes away."""
    return None if now.is_expunged else PERMANENT.get(name, SOFT.get(name))


def names_in(value: Value) -> list[str]:
    """The names of a value without literals."""
    expression = value.address if isinstance(value, Reference) else value
    return [term for _, term in (expression.parts if expression else ()) if isinstance(term, str) and term != "."]


def firm(name: str, now: Judged) -> Optional[int]:
    """The permanent value of a name that doesn't give way."""
    return None if now.is_expunged else PERMANENT.get(name)


Place = tuple[int, int]
"""The number of a text, and a place among the characters that are there in it."""


class Source:
    """The selected statements of texts, each judged after those before it, up to the first selected `$`. Those that begin at certain places are
    harmless."""

    def __init__(self, texts: Texts, harmless: frozenset[Place] = frozenset(), options: Options = PLAIN) -> None:
        self.texts, self.harmless, self.options = [live_text(text) for text in texts], harmless, options
        self.judged: list[Judged] = []
        self.brackets: list[bool] = []
        self.before = Before(8, {name: PERMANENT[name] for name in OPERATIONS})
        self.location, self.shift, self.field, self.is_punched, self.is_expunged = 0o200, 0, 0, True, False
        self.last_fixed: list[str] = []
        self.fields = self.moves = 0
        self.lines_before: list[int] = []
        self.last_line, self.last_place = self.first_faults()

    def first_faults(self) -> tuple[int, Place]:
        """Judges the statements up to the first selected `$`, and gives the line and the place of that. Each text but the last ends at its first
        selected PAUSE, or at its own end, which ends a last line. The lines that are read in the texts before count."""
        lines = 0
        for number, text in enumerate(self.texts):
            is_last = number == len(self.texts) - 1
            self.lines_before.append(lines)
            whole = text if is_last or not text or text.endswith("\r") else text + "\r"
            read = whole.count("\r")
            for statement in statements(whole):
                own_line, statement.line, statement.number = statement.line, lines + statement.line, number
                if all(self.brackets) and not is_last and is_pause(statement):
                    if statement.end == ">":
                        self.close_bracket(statement)
                    read = own_line
                    break
                if self.pass_over(statement):
                    return statement.line, (number, statement.at)
            lines += read
        self.fail_at_end("NE", 1 + lines, (len(self.texts) - 1, len(self.texts[-1])))

    def fail_at_end(self, code: str, line: int, place: Place) -> NoReturn:
        raise Fault("PH" if self.brackets else code, line, place[1], number=place[0])

    def close_bracket(self, statement: Statement) -> None:
        if not self.brackets:
            raise Fault("PH", statement.line, statement.start, None, self.before.radix, statement.number)
        self.brackets.pop()

    def pass_over(self, statement: Statement) -> bool:
        """Judges a statement, if it is selected, and answers whether it ends the source."""
        is_selected = all(self.brackets)
        holds = False
        try:
            if is_selected:
                holds = self.judge(statement)
        except Fault as fault:
            raise Fault(fault.code, statement.line, statement.start, fault.about, self.before.radix, statement.number)
        if statement.end == ">":
            self.close_bracket(statement)
        elif statement.end == "<":
            self.brackets.append(is_selected and holds)
        elif statement.end == "$" and is_selected:
            if self.brackets:
                self.fail_at_end("PH", statement.line, (statement.number, statement.at))
            return True
        return False

    def place(self) -> int:
        """The place, what `.` and a tag are: the location, shifted by RELOC."""
        return (self.location + self.shift) % 0o10000 if self.shift else self.location

    def definition_before(self, name: str, before: list[Judged]) -> Optional[int]:
        """The last definition of a name in these statements."""
        for older in reversed(before):
            for defined, value in reversed(older.definitions):
                if defined == name:
                    return value
        return None

    def value_before(self, name: str, now: Judged) -> Optional[int]:
        """The value of a name by the names before this statement, its own tags among them."""
        if name in now.tags:
            return now.place
        value = self.definition_before(name, self.judged)
        return permanent(name, now) if value is None else value

    def judge(self, statement: Statement) -> bool:
        """Judges a selected statement, and answers whether its condition holds."""
        is_harmless = (statement.number, statement.start) in self.harmless
        tags, body = harmless_reading(statement) if is_harmless else said(statement, self.before)
        now = Judged(statement.line, tags, body, self.location, self.place(), self.field, self.is_punched, 0, statement.start, self.is_expunged)
        now.number, now.fields, now.moves, now.tokens = statement.number, self.fields, self.moves, statement.tokens
        for tag in tags:
            if now.location >= CORE_END:
                raise Fault("PF")
            value = self.definition_before(tag, self.judged)
            kept = firm(tag, now) if value is None else value
            if kept is not None and kept != now.place:
                raise Fault("DT", about=name_number(tag))
            now.definitions.append((tag, now.place))
        value = None
        if body.form == "definition" and body.value is not None:
            now.is_late = any(self.value_before(name, now) is None for name in names_in(body.value))
        if body.form != "word" and body.value is not None and not now.is_late:
            value = self.early_value(body.value, now)
        holds = self.take_effect(now, value)
        self.fields += body.form == "FIELD"
        self.moves += body.form == "FIELD" or self.location // 0o200 != now.location // 0o200
        if now.size and now.location + now.size > CORE_END:
            raise Fault("PF")
        self.judged.append(now)
        return holds

    def take_effect(self, now: Judged, value: Optional[int]) -> bool:
        form = now.body.form
        if form in ("DECIMA", "OCTAL"):
            self.before.radix = 10 if form == "DECIMA" else 8
        elif form == "origin":
            assert value is not None
            self.location = (value - self.shift) % 0o10000
        elif form == "FIELD":
            assert value is not None
            if value > 7:
                raise Fault("FD")
            self.field, self.location = value, self.location if self.options.no_origin else 0o200
        elif form == "PAGE":
            if value is not None and value > 0o37:
                raise Fault("PG")
            self.location = self.location + -self.place() % 0o200 if value is None else (0o200 * value - self.shift) % 0o10000
        elif form in ("NOPUNC", "ENPUNC"):
            self.is_punched = form == "ENPUNC"
        elif form == "RELOC":
            self.shift = 0 if value is None else (value - self.location) % 0o10000
        elif now.is_late:
            now.fixed = self.value_before(now.body.name, now) if self.is_fixed(now.body.name, now) else None
        elif form == "definition":
            assert value is not None
            self.define(now, value)
        else:
            self.change_tables(now, value)
        length = len(now.body.string)
        text_size = (length + 1) // 2 if self.options.text_without_zero else length // 2 + 1
        now.size = {"word": 1, "TEXT": text_size, "ZBLOCK": value or 0, "FILENA": 4, "DEVICE": 2}.get(form, 0)
        self.location += now.size
        if form in ("IFDEF", "IFNDEF"):
            return (self.value_before(now.body.name, now) is not None) == (form == "IFDEF")
        return form in ("IFZERO", "IFNZRO") and (value == 0) == (form == "IFZERO")

    def change_tables(self, now: Judged, value: Optional[int]) -> None:
        if now.body.form == "EXPUNG":
            self.is_expunged, self.before.operations = True, {}
        elif now.body.form == "FIXTAB":
            self.last_fixed = [name for older in [*self.judged, now] for name, _ in older.definitions]
        elif now.body.form == "FIXMRI":
            assert value is not None
            now.definitions.append((now.body.name, value))
            self.before.operations[now.body.name] = value

    def is_fixed(self, name: str, now: Judged) -> bool:
        is_tag = name in now.tags or any(name in older.tags for older in self.judged)
        return firm(name, now) is not None or is_tag or name in self.last_fixed

    def define(self, now: Judged, value: int) -> None:
        name = now.body.name
        if self.is_fixed(name, now) and self.value_before(name, now) != value:
            raise Fault("RD")
        now.definitions.append((name, value))
        if name in self.before.operations:
            self.before.operations[name] = value

    def early_value(self, value: Value, now: Judged) -> int:
        """A value by the names before."""
        return self.value_by(value, now, lambda name: self.value_before(name, now))

    def late_value(self, k: int) -> int:
        """The value of a late definition: by the other definitions before, or else in the whole source, or else permanent."""
        now = self.judged[k]

        def meaning(name: str) -> Optional[int]:
            if name in now.tags:
                return now.place
            values = (self.definition_before(name, self.judged[:k]), self.definition_before(name, self.judged), permanent(name, now))
            return next((value for value in values if value is not None), None)

        assert now.body.value
        return self.value_by(now.body.value, now, meaning)

    def known_late(self, k: int) -> Optional[int]:
        """The value of a late definition, if it has one."""
        try:
            return self.late_value(k)
        except Fault:
            return None

    def last_definition(self, name: str, before: int) -> Optional[int]:
        """The statement of the last definition of a name, late or not, of so many statements."""
        for k in reversed(range(before)):
            older = self.judged[k]
            if older.is_late and older.body.name == name or any(defined == name for defined, _ in older.definitions):
                return k
        return None

    def value_by(self, value: Value, now: Judged, meaning: Callable[[str], Optional[int]]) -> int:
        """A value without literals, by what names stand for."""

        def of_term(term: Term) -> int:
            if isinstance(term, int):
                return term
            if term == ".":
                if now.location >= CORE_END:
                    raise Fault("PF")
                return now.place
            assert isinstance(term, str), "no literal stands in such a value"
            found = meaning(term)
            if found is None:
                raise Fault("UA", about=name_number(term))
            return found

        if isinstance(value, Expression):
            return sum_of(value, of_term)
        address = 0 if value.address is None else sum_of(value.address, of_term)
        word = self.direct(value, address, now)
        if word is None:
            raise Fault("IR")
        return word

    def direct(self, reference: Reference, address: int, now: Judged) -> Optional[int]:
        """A reference to page zero or the page of the place."""
        word = reference.operation | (0o400 if reference.is_indirect else 0)
        if address < 0o200:
            return word | address
        if address // 0o200 == now.place // 0o200:
            return word | 0o200 | address % 0o200
        return None


def sum_of(expression: Expression, of_term: Callable[[Term], int]) -> int:
    """All operators have one rank, from left to right from 0, and each step gives twelve bits."""
    total = 0
    for operator, term in expression.parts:
        value = of_term(term)
        if operator == "%":
            if value == 0:
                raise Fault("DZ")
            total = total // value
        else:
            steps = {"+": total + value, "-": total - value, "^": total * value, "!": total | value, "&": total & value}
            total = steps[operator] % 0o10000
    return total


# Words and pools

Ask = tuple[int, int, int, int]
"""A field, a page of it, a value, and by which stay it is asked: 0 for all of them, where stays don't count."""


def rank(asks: list[Ask], ask: Ask) -> int:
    """How many different values were asked of the page before this one first was."""
    values = [other[2:] for other in asks if other[:2] == ask[:2]]
    return len(set(values[: values.index(ask[2:])]))


class Words:
    """The words of a source, with what they ask of pools, up to the first fault; or, where it goes on, the faults of words, each by itself. A word with
    a fault then asks nothing, and a late definition with one isn't there."""

    def __init__(self, source: Source, goes_on: bool = False) -> None:
        self.source = source
        self.faults: list[Fault] = []
        self.asks: list[Ask] = []
        self.punched_asks: list[Ask] = []
        self.words: list[tuple[int, int]] = []
        self.rows: list[tuple[int, int, str]] = []
        self.is_link = False
        self.clashes: Optional[Fault] = None
        for k, now in enumerate(source.judged):
            counts = len(self.asks), len(self.punched_asks)
            try:
                words = self.words_of(now, k)
            except Fault as fault:
                self.faults.append(Fault(fault.code, now.line, now.start, fault.about, number=now.number))
                if not goes_on:
                    raise self.faults[0]
                del self.asks[counts[0] :], self.punched_asks[counts[1] :]
                now.is_late, now.body = False, Body("nothing")
                continue
            cell = 0o10000 * now.in_field + now.location
            self.words += [(cell + n, word) for n, word in enumerate(words) if now.is_punched]
            mark = "@" if self.is_link and now.body.form == "word" else ""
            self.rows += [(now.number, now.line - source.lines_before[now.number], word_columns(cell + n, word) + mark) for n, word in enumerate(words) if now.is_punched]
            self.clashes = self.clashes or self.clash(now)
        if goes_on:
            return
        if self.clashes:
            raise self.clashes
        if not self.words:
            raise Fault("NW", source.last_line, source.last_place[1], number=source.last_place[0])

    def cell(self, ask: Ask) -> int:
        return 0o10000 * ask[0] + 0o200 * ask[1] + 0o177 - rank(self.asks, ask)

    def clash(self, now: Judged) -> Optional[Fault]:
        """That a word's cell is a pool's, by what there is so far."""
        both = {cell for cell, _ in self.words} & {self.cell(ask) for ask in self.asks}
        if not both:
            return None
        return Fault("ZE" if min(both) % 0o10000 < 0o200 else "PE", now.line, now.start, min(both), number=now.number)

    def words_of(self, now: Judged, k: int) -> list[int]:
        if now.is_late:
            value = self.source.late_value(k)
            if now.fixed is not None and now.fixed != value:
                raise Fault("RD")
        if now.body.form == "word":
            assert now.body.value
            return [self.value(now.body.value, now, k)]
        if now.body.form == "ZBLOCK":
            return [0] * now.size
        if now.body.form in ("TEXT", "FILENA", "DEVICE"):
            codes = [ord(c) % 0o100 for c in now.body.string] + [0, 0]
            return [0o100 * codes[2 * n] + codes[2 * n + 1] for n in range(now.size)]
        return []

    def last_value(self, name: str, now: Judged, k: int) -> int:
        """A name's value at last: before this statement, or else in the whole source, or else permanent."""
        source, judged = self.source, self.source.judged
        if name in now.tags:
            return now.place
        before = source.last_definition(name, k)
        if before is not None:
            is_late = judged[before].is_late and judged[before].body.name == name
            value = source.known_late(before) if is_late else source.definition_before(name, judged[: before + 1])
            if value is not None:
                return value
        last = source.last_definition(name, len(judged))
        if before is None and last is not None and judged[last].is_late and judged[last].body.name == name:
            late = [source.known_late(n) for n in reversed(range(len(judged))) if judged[n].is_late and judged[n].body.name == name]
            known = next((value for value in late if value is not None), None)
            if known is not None:
                return known
        for value in (source.definition_before(name, judged), permanent(name, now)):
            if value is not None:
                return value
        raise Fault("UA", about=name_number(name))

    def value(self, value: Value, now: Judged, k: int) -> int:
        def of_term(term: Term) -> int:
            if isinstance(term, int):
                return term
            if isinstance(term, Literal):
                inner = self.value(term.value, now, k)
                if term.opening == "[":
                    return self.ask(0, inner, now)
                return 0o200 * (now.place // 0o200) + self.ask_here(inner, now)
            return now.place if term == "." else self.last_value(term, now, k)

        address = 0
        if isinstance(value, Expression):
            total = sum_of(value, of_term)
            self.is_link = False
            return total
        if value.address is not None:
            address = sum_of(value.address, of_term)
        word = self.source.direct(value, address, now)
        self.is_link = word is None
        if word is not None:
            return word
        if value.is_indirect or value.operation & 0o400:
            raise Fault("II")
        if self.source.options.no_links:
            raise Fault("IR")
        return value.operation | 0o600 | self.ask_here(address, now)

    def ask_here(self, value: int, now: Judged) -> int:
        """Asks for a cell of the page of the location. A shift by no whole page would lead to another offset."""
        if (now.location >= 0o200 or now.place >= 0o200) and (now.place - now.location) % 0o200:
            raise Fault("RL")
        return self.ask(now.location // 0o200, value, now)

    def ask(self, page: int, value: int, now: Judged) -> int:
        """Asks for a cell, and gives its offset on its page."""
        stay = (now.moves if page else now.fields) if self.source.options.stay else 0
        ask = now.in_field, page, value, stay
        place = rank(self.asks + [ask], ask)
        if place > 0o177:
            raise Fault("PE" if ask[1] else "ZE")
        self.asks.append(ask)
        if now.is_punched:
            self.punched_asks.append(ask)
        return 0o177 - place

    def pool(self) -> list[tuple[int, int]]:
        return sorted({(self.cell(ask), ask[2]) for ask in self.punched_asks})


def word_columns(cell: int, word: int) -> str:
    """The field and the location of a cell, and a word at it."""
    return f"{cell:05o}  {word:04o}"


def pairs(texts: Texts, options: Options = PLAIN) -> list[tuple[int, int]]:
    """The pairs of a source's tape: its words, and then its pools by rising cell; or its first fault."""
    words = Words(Source(texts, options=options))
    return words.words + words.pool()
