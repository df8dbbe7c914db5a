"""What `assemble` makes of sources of the host, by the definitions: a tape and a listing, or the first fault as it is reported."""
from __future__ import annotations

import re
from copy import copy
from dataclasses import dataclass, replace
from typing import Iterator, Optional
from tests.model.assembler import PERMANENT, Pair, Source
from tests.model.statements import LEGAL, Joined, Statement, is_live, is_number, joined
from tests.model.tape import tape_of
from tests.model.words import octal

WORDS = dict(
    IC="illegal character", SY="bad statement", NU="bad number", UA="undefined name", DT="duplicate tag", RD="redefinition",
    IR="illegal reference", FD="bad field", PF="past 7777", NE="no $", NW="no word",
)  # fmt: skip
MOST_FURTHER = 20
LEXICAL = ("IC", "SY", "NU")
PAL8_NAMES = frozenset(
    "PAGE ZBLOCK TEXT FILENA DEVICE RELOC ENPUNC NOPUNC EJECT XLIST IFDEF IFNDEF IFZERO IFNZRO EXPUNG FIXTAB FIXMRI".split()
)  # fmt: skip


@dataclass
class Told:
    """What goes to standard error, and the tape and the listing, which are none where there is a fault."""

    errors: bytes
    tape: bytes = b""
    listing: bytes = b""


@dataclass
class Fault:
    code: str
    line: int
    source: int
    place: int
    name: str = ""
    character: str = ""


def host_lines(text: bytes) -> list[bytes]:
    """The lines of a text, each ended by LF, CR LF or CR; the last may end with the text."""
    lines = re.split(rb"\r\n|\n|\r", text)
    return lines if lines[-1] else lines[:-1]


def file_text(text: bytes) -> tuple[bytes, list[int]]:
    """The text as a file keeps it, where lines end with CR LF, and the place of the host's byte that each of its bytes comes from."""
    found, places = b"", []
    for part in re.finditer(rb"\r\n|\n|.", text, re.S):
        made = b"\r\n" if part[0].endswith(b"\n") else part[0]
        found += made
        places += [part.start()] * len(made)
    return found, places + [len(text)]


class HostSources:
    def __init__(self, texts: list[bytes]) -> None:
        self.texts = texts
        self.files = [file_text(it) for it in texts]
        self.join: Joined = joined([it for it, _ in self.files])
        self.source = Source(self.join.text)

    def position(self, place: int) -> tuple[int, int]:
        """The source of a byte of the join, and its place in the text of the host; after the join that where its last source ends."""
        if place == len(self.join.text):
            return self.join.last, len(self.texts[self.join.last])
        source, at = self.join.origins[place]
        return source, self.files[source][1][at]

    def begin(self, at: int) -> int:
        """Where a statement begins: its first byte that is no blank, or that which ends it."""
        stretch = self.source.stretches[at]
        first = self.source.stretches[at - 1].end + 1 if at else 0
        text = self.join.text
        return next((k for k in range(first, stretch.end) if is_live(text, k) and text[k : k + 1] not in (b" ", b"\t")), stretch.end)

    def fault(self, code: str, at: int) -> Fault:
        name = self.undefined(at) if code == "UA" else ""
        mark = self.mark(code, at, name)
        byte = self.join.text[mark]
        character = "" if code != "IC" else chr(byte) if 32 < byte < 127 else f"{byte:03o}"
        return Fault(code, self.source.stretches[at].line, *self.position(mark), name, character)

    def live(self, at: int) -> list[int]:
        """The places of the live bytes of a statement, from its beginning on."""
        return [k for k in range(self.begin(at), self.source.stretches[at].end) if is_live(self.join.text, k)]

    def runs(self, at: int) -> Iterator[tuple[int, str]]:
        """The letters and digits of a statement that stand together, each with the place of the first."""
        legal = [k for k in self.live(at) if chr(self.join.text[k]) in LEGAL | {"\t"}]
        for run in re.finditer("[A-Z0-9]+", "".join(chr(self.join.text[k]) for k in legal)):
            yield legal[run.start()], run[0]

    def mark(self, code: str, at: int, name: str) -> int:
        """Where the fault of a statement stands: IC at its character, NU at its number, UA at its name, all else where the statement begins."""
        if code == "IC":
            return next(k for k in self.live(at) if chr(self.join.text[k]) not in LEGAL | {"\t"})
        if code not in ("NU", "UA"):
            return self.begin(at)
        radix = next((it.body.name for it in reversed(self.source.said[:at]) if it.body.kind == "radix"), "OCTAL")
        for start, run in self.runs(at):
            if (run[0].isdigit() and not is_number(run, 10 if radix == "DECIMA" else 8)) if code == "NU" else (run[0].isalpha() and run[:6] == name):
                return start
        raise ValueError(code)

    def harmless(self) -> Optional[HostSources]:
        """The sources with the first bad statement read as its first tag, if that has no fault, and the word 0; none where it says how what follows
        is read."""
        at, text = len(self.source.said), self.join.text
        if any(run[:6] in ("DECIMA", "OCTAL", "PAUSE") for _, run in self.runs(at)):
            return None
        begin, end = self.begin(at), self.source.stretches[at].end
        comma = next((k for k in self.live(at) if text[k : k + 1] == b","), None)
        if comma is not None and not self.with_text(text[: comma + 1] + b";").is_refused():
            begin = comma + 1
        return self.with_text(text[:begin] + b"0" + b" " * (end - begin - 1) + text[end:])

    def with_text(self, text: bytes) -> HostSources:
        other = copy(self)
        other.join, other.source = replace(self.join, text=text), Source(text)
        return other

    def is_refused(self) -> bool:
        source = self.source
        return bool(source.bad) or any(source.tags_fault(at) or source.body_fault(at) for at in range(len(source.said)))

    def lexical(self, first: Fault) -> list[Fault]:
        """A fault of the first pass, and those after one of a character, a number or a statement's form."""
        found, sources = [first], self
        while found[-1].code in LEXICAL and len(found) <= MOST_FURTHER:
            mended = sources.harmless()
            fault = mended.first_pass() if mended else None
            if not mended or not fault or fault.code not in LEXICAL:
                break
            found.append(fault)
            sources = mended
        return found

    def undefined(self, at: int) -> str:
        """The first name of a statement, from the left, that stands for nothing there."""
        source = self.source
        names = [it.name for it in source.said[at].body.terms if it.name]
        is_word = source.is_word(at)
        return next(it for it in names if (source.last_value(it, at) if is_word else source.value(it, at)) is None)

    def first_pass(self) -> Fault | None:
        source = self.source
        for at in range(len(source.said)):
            if code := source.tags_fault(at) or source.body_fault(at):
                return self.fault(code, at)
        if source.bad:
            return self.fault(source.bad, len(source.said))
        if not source.is_ended:
            return Fault("NE", source.lines, *self.position(len(self.join.text)))
        return None

    def words(self) -> list[int]:
        return [at for at in range(len(self.source.said)) if self.source.is_word(at)]

    def faults(self) -> list[Fault]:
        """The first fault; after one of a word those of further words, and after one of the lexer further ones of the lexer."""
        first = self.first_pass()
        if first:
            return self.lexical(first)
        found = []
        for at in self.words():
            word = self.source.word(at)
            if isinstance(word, str):
                found.append(self.fault(word, at))
        return found or ([] if self.words() else [self.fault("NW", len(self.source.stretches) - 1)])

    def pairs(self) -> list[Pair]:
        return [(4096 * self.source.field(at) + self.source.place(at), int(self.source.word(at))) for at in self.words()]

    def line_of(self, at: int) -> tuple[int, int]:
        """The source of a statement, and its line there from 0: that of the byte that ends it."""
        source, place = self.position(self.source.stretches[at].end)
        return source, line_number(self.texts[source], place)

    def listing(self, is_cross: bool) -> bytes:
        at_line: dict[tuple[int, int], list[bytes]] = {}
        for at, (cell, word) in zip(self.words(), self.pairs()):
            at_line.setdefault(self.line_of(at), []).append(f"{octal(cell, 5)}  {octal(word, 4)}".encode())
        out = []
        for number, text in enumerate(self.texts):
            for line, shown in enumerate(host_lines(text)):
                words = at_line.get((number, line), [])
                out.append((words[0] + b" " * 5 if words else b" " * 16 if shown else b"") + shown)
                out += words[1:]
        out.append(b"")
        out += [f"{name:<6}  {octal(value % 4096, 4)}".encode() + (self.uses(name) if is_cross else b"") for name, value in sorted(self.names().items(), key=sixbit)]
        return b"".join(it + b"\n" for it in out)

    def names(self) -> dict[str, int]:
        """The sources' own names, with their last values."""
        said = self.source.said
        names = {it for statement in said for it in (*statement.tags, statement.body.name if statement.body.kind == "define" else "")} - {""}
        return {it: int(self.source.value_before(it, len(said)) or 0) for it in names if it not in PERMANENT}

    def uses(self, name: str) -> bytes:
        """The lines of the statements that name a name, each once."""
        found = []
        for at, statement in enumerate(self.source.said):
            if name in named(statement) and self.line_of(at) not in found:
                found.append(self.line_of(at))
        many = len(self.texts) > 1
        return ("  " + " ".join(f"{source + 1}:{line + 1}" if many else f"{line + 1}" for source, line in found)).encode()


def sixbit(symbol: tuple[str, int]) -> list[int]:
    """The order of names: that of sixbit, in which letters come before digits."""
    return [ord(it) % 64 for it in symbol[0]]


def named(statement: Statement) -> list[str]:
    body = statement.body
    return [*statement.tags, body.name if body.kind == "define" else "", *(it.name for it in body.terms)]


def line_number(text: bytes, place: int) -> int:
    """How many lines end before a place of a text."""
    return len(re.findall(rb"\r\n|\n|\r", text[:place]))


def shown(line: bytes) -> bytes:
    return bytes(it if 32 <= it < 127 or it == 9 else ord("?") for it in line)


def lines_told(fault: Fault, texts: list[bytes], names: list[str]) -> list[bytes]:
    """What is printed of a fault, but its number."""
    text = texts[fault.source]
    number = line_number(text, fault.place)
    lines = re.split(rb"\r\n|\n|\r", text)
    begins = [0] + [it.end() for it in re.finditer(rb"\r\n|\n|\r", text)]
    line, column = lines[number], fault.place - begins[number]
    head = f"{names[fault.source]}:{number + 1}:{column + 1}: {fault.code}: {WORDS[fault.code]}" + (f" {fault.name or fault.character}" if fault.name or fault.character else "")
    mark = bytes(it if it == 9 else 32 for it in line[:column]) + b"^"
    return [head.encode(), shown(line), mark]


def pal8_note(fault: Fault) -> list[bytes]:
    """The note where a fault is about a reserved name or a character of PAL8."""
    sign = ""
    if fault.code == "UA" and fault.name in PAL8_NAMES:
        sign = fault.name
    if fault.code == "IC" and len(fault.character) == 1 and fault.character in '()[]<>"!&^%':
        sign = fault.character
    return [b"note: " + sign.encode() + b" is PAL8, the language of OS/8's assembler: assemble --pal8 takes a source of that"] if sign else []


def assembled_host(texts: list[bytes], names: list[str], is_cross: bool) -> Told:
    sources = HostSources(texts)
    faults = sources.faults()
    if not faults:
        return Told(b"", bytes(tape_of(sources.pairs())), sources.listing(is_cross))
    first, *further = faults
    told = lines_told(first, texts, names)
    lines = [*told, f"? 5 {first.code} {first.line}".encode(), *pal8_note(first)]
    if further:
        lines.append(b"note: these words have a fault too:")
    for fault in further[:MOST_FURTHER]:
        lines += lines_told(fault, texts, names)
    return Told(b"".join(it + b"\n" for it in lines))
