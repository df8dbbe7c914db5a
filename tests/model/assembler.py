"""PAL III by its definitions: what a source means, or its first fault. Places are counted back to the last origin, and values of
names are asked of the statements before; there are no passes, and no table of symbols."""
from __future__ import annotations

from dataclasses import dataclass
from functools import cache
from typing import Optional
from tests.model.statements import Body, Statement, Stretch, Term, joined, statement_of, stretches
from tests.model.words import BLOCK_FRAMES, BLOCK_WORDS, text_of

PERMANENT = dict(
    AND=0o0000, TAD=0o1000, ISZ=0o2000, DCA=0o3000, JMS=0o4000, JMP=0o5000,
    NOP=0o7000, IAC=0o7001, RAL=0o7004, RTL=0o7006, RAR=0o7010, RTR=0o7012, CML=0o7020, CMA=0o7040, CIA=0o7041, CLL=0o7100,
    STL=0o7120, CLA=0o7200, GLK=0o7204, STA=0o7240, HLT=0o7402, OSR=0o7404, SKP=0o7410, SNL=0o7420, SZL=0o7430, SZA=0o7440,
    SNA=0o7450, SMA=0o7500, SPA=0o7510, LAS=0o7604, ION=0o6001, IOF=0o6002, RSF=0o6011, RRB=0o6012, RFC=0o6014, PSF=0o6021,
    PCF=0o6022, PPC=0o6024, PLS=0o6026, KSF=0o6031, KCC=0o6032, KRS=0o6034, KRB=0o6036, TSF=0o6041, TCF=0o6042, TPC=0o6044,
    TLS=0o6046, CDF=0o6201, CIF=0o6202, RDF=0o6214, RIF=0o6224, RIB=0o6234, RMF=0o6244,
)  # fmt: skip

Pair = tuple[int, int]
"""A cell, 4096 times its field plus its address, and its word."""


@dataclass
class Fault:
    """A code with its line, the turn of an assembling job that meets it, and the place of the frame that shows it. The place is -1 where that is the
    end of a text."""

    code: str
    line: int
    turn: int
    place: int = -1


class Source:
    """The statements of one text, each said by the radix before it, up to the first that is bad."""

    def __init__(self, text: bytes) -> None:
        self.stretches: list[Stretch] = stretches(text)
        self.lines = 1 + text.count(b"\r")
        self.said: list[Statement] = []
        self.bad = ""
        radix = 8
        for stretch in self.stretches:
            said = statement_of(stretch.live, radix)
            if isinstance(said, str):
                self.bad = said
                break
            self.said.append(said)
            if said.body.kind == "radix":
                radix = 10 if said.body.name == "DECIMA" else 8

    @property
    def is_ended(self) -> bool:
        return bool(self.stretches) and self.stretches[-1].ends_source

    def is_word(self, at: int) -> bool:
        return self.said[at].body.kind in ("word", "reference")

    @cache
    def place(self, at: int) -> int:
        """The last origin or FIELD before a statement, and the words between. It may be past 7777."""
        words = 0
        for before in reversed(range(at)):
            body = self.said[before].body
            if body.kind == "origin":
                return (self.sum(body.terms, before) or 0) + words
            if body.kind == "field":
                return 0o200 + words
            words += self.is_word(before)
        return 0o200 + words

    def field(self, at: int) -> int:
        for before in reversed(range(at)):
            if self.said[before].body.kind == "field":
                return self.sum(self.said[before].body.terms, before) or 0
        return 0

    def defined(self, name: str, at: int) -> Optional[int]:
        """What the statement itself makes of a name: its `=` comes after its tags."""
        body = self.said[at].body
        if body.kind == "define" and body.name == name:
            return self.sum(body.terms, at)
        return self.place(at) if name in self.said[at].tags else None

    @cache
    def value(self, name: str, at: int) -> Optional[int]:
        """The value of a name at the body of a statement, by what stands before."""
        if name in PERMANENT:
            return PERMANENT[name]
        return self.place(at) if name in self.said[at].tags else self.value_before(name, at)

    def value_before(self, name: str, at: int) -> Optional[int]:
        found = (self.defined(name, before) for before in reversed(range(at)))
        return PERMANENT.get(name, next((it for it in found if it is not None), None))

    def last_value(self, name: str, at: int) -> Optional[int]:
        """The value of a name in a word, which a later statement may define."""
        value = self.value(name, at)
        return self.value_before(name, len(self.said)) if value is None else value

    def sum(self, terms: list[Term], at: int, is_word: bool = False) -> Optional[int]:
        """The terms from left to right, sum and difference modulo 4096 and inclusive or; None where a name has no value."""
        total = 0
        for term in terms:
            value: Optional[int] = self.place(at) if term.is_here else term.number
            if term.name:
                value = self.last_value(term.name, at) if is_word else self.value(term.name, at)
            if value is None:
                return None
            value = value % 4096
            total = total | value if term.joiner == " " else (total - value if term.joiner == "-" else total + value) % 4096
        return total

    def tags_fault(self, at: int) -> str:
        place = self.place(at)
        for tag in self.said[at].tags:
            if place > 4095:
                return "PF"
            if self.value_before(tag, at) not in (None, place):
                return "DT"
        return ""

    def is_fixed(self, name: str, at: int) -> bool:
        """A permanent name, or one that is a tag by then."""
        return name in PERMANENT or any(name in it.tags for it in self.said[: at + 1])

    def body_fault(self, at: int) -> str:
        body: Body = self.said[at].body
        if self.is_word(at):
            return "PF" if self.place(at) > 4095 else ""
        for term in body.terms:
            if term.name and self.value(term.name, at) is None:
                return "UA"
            if term.is_here and self.place(at) > 4095:
                return "PF"
        total = self.sum(body.terms, at)
        if body.kind == "field" and (total or 0) > 7:
            return "FD"
        if body.kind == "define" and self.is_fixed(body.name, at) and self.value(body.name, at) != total:
            return "RD"
        return ""

    def word(self, at: int) -> int | str:
        """The word of a statement, or the code of its fault."""
        body = self.said[at].body
        total = self.sum(body.terms, at, is_word=True)
        if total is None:
            return "UA"
        if body.kind == "word":
            return total
        operation = PERMANENT[body.name] + 0o400 * body.is_indirect
        if total < 0o200:
            return operation + total
        return operation + 0o200 + total % 0o200 if total // 0o200 == self.place(at) // 0o200 else "IR"


def assembled(sources: list[list[int]]) -> list[Pair] | Fault:
    """The words of sources with their cells, in their order, or the first fault; each source is the words of a file."""
    join = joined([text_of(words) for words in sources])
    source = Source(join.text)
    blocks = [len(words) // BLOCK_WORDS for words in sources]
    all_blocks = sum(blocks)

    def fault(code: str, at: int, turns_before: int) -> Fault:
        stretch = source.stretches[at]
        number, place = join.origins[stretch.end]
        return Fault(code, stretch.line, turns_before + sum(blocks[:number]) + place // BLOCK_FRAMES + 1, place)

    for at in range(len(source.said)):
        if code := source.tags_fault(at) or source.body_fault(at):
            return fault(code, at, 0)
    if source.bad:
        return fault(source.bad, len(source.said), 0)
    if not source.is_ended:
        return Fault("NE", source.lines, sum(blocks[: join.last + 1]))
    pairs = []
    for at in filter(source.is_word, range(len(source.said))):
        word = source.word(at)
        if isinstance(word, str):
            return fault(word, at, all_blocks)
        pairs.append((4096 * source.field(at) + source.place(at), word))
    return pairs or Fault("NW", source.stretches[-1].line, all_blocks)
