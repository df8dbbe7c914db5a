"""A text of PAL8 by its definitions: its statements, and what each of them says."""
from __future__ import annotations

from dataclasses import dataclass, field, replace
from typing import Callable, Optional, Sequence, TypeVar, Union


OPERATIONS = ("AND", "TAD", "ISZ", "DCA", "JMS", "JMP")
SOFT = dict(
    IOT=0o6000, OPR=0o7000, BSW=0o7002, CDI=0o6203, MQL=0o7421, MQA=0o7501, SWP=0o7521, ACL=0o7701,
    SKON=0o6000, SRQ=0o6003, GTF=0o6004, RTF=0o6005, SGT=0o6006, CAF=0o6007,
    KCF=0o6030, KIE=0o6035, TFL=0o6040, TSK=0o6045, RPE=0o6010, RCC=0o6016, PCE=0o6020,
    DTRA=0o6761, DTCA=0o6762, DTXA=0o6764, DTLA=0o6766, DTSF=0o6771, DTRB=0o6772, DTLB=0o6774,
    DCMA=0o6601, DMAR=0o6603, DMAW=0o6605, DCEA=0o6611, DSAC=0o6612, DEAL=0o6615, DEAC=0o6616, DFSE=0o6621, DFSC=0o6622,
    DMAC=0o6626, DCXA=0o6641, DXAL=0o6643, DXAC=0o6645, DMMT=0o6646,
)  # fmt: skip
RESERVED = frozenset(
    name[:6]
    for name in "DECIMAL OCTAL FIELD PAUSE I Z PAGE ZBLOCK TEXT FILENAME DEVICE RELOC ENPUNCH NOPUNCH EJECT XLIST IFDEF IFNDEF IFZERO IFNZRO"
    " EXPUNGE FIXTAB FIXMRI".split()
)
CONDITIONS = ("IFZERO", "IFNZRO", "IFDEF", "IFNDEF")
SIGNS = "+-!&^%=,*"
OPERATORS = "+-!&^%"
ENDS = ";\r<>$"
CORE_END = 0o10000

Texts = Sequence[bytes]
"""Texts that are one source, in their order."""


@dataclass(frozen=True)
class Options:
    """How sources are read otherwise: without links, without 00 after an even text, without an origin by FIELD, or with cells by stays."""

    no_links: bool = False
    text_without_zero: bool = False
    no_origin: bool = False
    stay: bool = False

    def words(self) -> list[str]:
        """The options of the command."""
        return [f"--{name.replace('_', '-')}" for name, is_on in vars(self).items() if is_on]


PLAIN = Options()


class Fault(Exception):
    """A code, with the line of its statement over all texts, and where that begins among the characters that are there in its own text. It has the
    number of the name or the cell that it is about, too, the radix of its statement, and the number of its text."""

    def __init__(self, code: str, line: int = 0, start: int = 0, about: Optional[int] = None, radix: int = 8, number: int = 0) -> None:
        super().__init__(code, line, start, about)
        self.code, self.line, self.start, self.about, self.radix, self.number = code, line, start, about, radix, number


@dataclass(frozen=True)
class Token:
    """`run`, `character`, `here`, `sign`, `opening`, `closing`, `blank`, `string` or `bad`, with its text, or a character's byte, and where
    it stands among the characters that are there."""

    kind: str
    text: str = ""
    start: int = field(default=0, compare=False)
    end: int = field(default=0, compare=False)


@dataclass
class Statement:
    line: int
    tokens: list[Token]
    end: str
    is_cut: bool = False
    start: int = field(default=0, compare=False)
    at: int = field(default=0, compare=False)
    number: int = 0


# Terms and values


@dataclass(frozen=True)
class Literal:
    """`(` or `[`, and what stands after it."""

    opening: str
    value: "Value"


Term = Union[str, int, Literal]
"""A name, a number, or a literal; `.` is the name of the present place."""


@dataclass(frozen=True)
class Expression:
    """Terms, each with the operator before it; the first one's is `+` or `-`."""

    parts: tuple[tuple[str, Term], ...]


@dataclass(frozen=True)
class Reference:
    operation: int
    is_indirect: bool
    address: Optional[Expression]


Value = Union[Expression, Reference]


@dataclass
class Body:
    """The form of a body, with its name, its value and its string, as far as it has them."""

    form: str
    name: str = ""
    value: Optional[Value] = None
    string: str = ""


# Text and statements


def live_text(text: bytes) -> str:
    """The characters that are there: CR, FF, NUL and rubout are not, and LF is CR."""
    return "".join(chr(b) for b in text if b not in b"\r\f\0\x7f").replace("\n", "\r")


def place_in(text: bytes, at: int) -> int:
    """The place in a text of the character of this place among those that are there."""
    return [k for k, b in enumerate(text) if b not in b"\r\f\0\x7f"][at] if at < len(live_text(text)) else len(text)


def name_number(name: str) -> int:
    """The number that the sixbit codes of a name make."""
    number = 0
    for c in (name + 6 * "@")[:6]:
        number = 0o100 * number + ord(c) % 0o100
    return number


def is_coded(c: str) -> bool:
    return c.isascii() and c.isalnum()


def behind_tags(tokens: list[Token]) -> list[Token]:
    """The tokens without blanks, and without the pairs of a token and `,` in front."""
    tokens = [token for token in tokens if token.kind != "blank"]
    while len(tokens) > 1 and tokens[1] == Token("sign", ","):
        tokens = tokens[2:]
    return tokens


def token_at(text: str, at: int) -> tuple[Optional[Token], int]:
    """The token that begins at a place, or a comment as None, and the place after it."""
    c = text[at]
    if c == "/":
        return None, (text + "\r").index("\r", at)
    if is_coded(c):
        end = at
        while end < len(text) and is_coded(text[end]):
            end += 1
        return Token("run", text[at:end].upper()), end
    if c in " \t":
        end = at
        while end < len(text) and text[end] in " \t":
            end += 1
        return Token("blank"), end
    if c == '"':
        if at + 1 == len(text) or text[at + 1] == "\r":
            return Token("bad"), at + 1
        return Token("character", text[at + 1]), at + 2
    kinds = {".": "here", "(": "opening", "[": "opening", ")": "closing", "]": "closing"}
    return Token(kinds.get(c, "sign" if c in SIGNS else "bad"), c), at + 1


def statement_at(text: str, at: int) -> tuple[Optional[Statement], int]:
    """The statement that begins at a place, or None where nothing ends it, and the place after its end."""
    tokens: list[Token] = []
    line, is_cut = 1 + text.count("\r", 0, at), False
    while at < len(text):
        head = behind_tags(tokens)
        if head == [Token("run", "TEXT")] and text[at] not in " \t\r":
            close = text.find(text[at], at + 1)
            stop = text.find("\r", at + 1)
            is_cut = close < 0 or 0 <= stop < close
            end = (stop if stop >= 0 else len(text)) if is_cut else close
            behind = end if is_cut else end + 1
            tokens.append(Token("string", text[at + 1 : end], at, behind))
            at = behind
        elif head in ([Token("run", "EJECT")], [Token("run", "XLIST")]) and text[at] not in ENDS:
            while at < len(text) and text[at] not in ";\r":
                at += 1
        elif text[at] in ENDS:
            start = next((token.start for token in tokens if token.kind != "blank"), at)
            return Statement(line, meaningful(tokens), text[at], is_cut, start, at), at + 1
        else:
            start = at
            token, at = token_at(text, at)
            if token:
                tokens.append(replace(token, start=start, end=at))
    return None, at


def meaningful(tokens: list[Token]) -> list[Token]:
    """Tokens without the blanks that mean nothing: at an end, beside a sign, after an opening, before a closing."""
    kept: list[Token] = []
    for k, token in enumerate(tokens):
        before = tokens[k - 1].kind if k else "sign"
        behind = tokens[k + 1].kind if k + 1 < len(tokens) else "sign"
        if token.kind != "blank" or before not in ("sign", "opening") and behind not in ("sign", "closing"):
            kept.append(token)
    return kept


def statements(text: str) -> list[Statement]:
    found, at = [], 0
    while at < len(text):
        statement, at = statement_at(text, at)
        if statement:
            found.append(statement)
    return found


def is_pause(statement: Statement) -> bool:
    """Whether a statement is PAUSE alone. After another statement than a condition a `<` is refused."""
    return statement.tokens == [Token("run", "PAUSE")] and statement.end != "<"


# What a statement says


def is_number(run: str, radix: int) -> bool:
    return all(c in "0123456789"[:radix] for c in run) and int(run, radix) <= 4095


def name_in(token: Token) -> Optional[str]:
    """The name that a token is, of which six characters count."""
    return token.text[:6] if token.kind == "run" and token.text[0].isalpha() else None


def free_name(token: Token) -> str:
    name = name_in(token)
    return "" if not name or name in RESERVED else name


@dataclass
class Before:
    """What the statements before settle for the reading of one: the radix, and the operations with their words."""

    radix: int
    operations: dict[str, int]


class Reader:
    """Reads a value from tokens, one after the other."""

    def __init__(self, tokens: list[Token], before: "Before", has_literals: bool) -> None:
        self.tokens, self.radix, self.has_literals = tokens, before.radix, has_literals
        self.operations = before.operations

    def next(self) -> Token:
        return self.tokens[0] if self.tokens else Token("end")

    def take(self) -> Token:
        token = self.next()
        self.tokens = self.tokens[1:]
        return token

    def term(self) -> Term:
        token = self.take()
        if token.kind == "here":
            return "."
        if token.kind == "character":
            return 0o200 | ord(token.text)
        if token.kind == "run" and token.text[0].isdigit():
            return int(token.text, self.radix)
        if token.kind == "run" and free_name(token):
            return free_name(token)
        if token.kind == "opening" and self.has_literals:
            value = self.value()
            if self.next() == Token("closing", {"(": ")", "[": "]"}[token.text]):
                self.take()
            return Literal(token.text, value)
        raise Fault("SY")

    def terms(self, first: str, has_blanks: bool) -> Expression:
        parts = [(first, self.term())]
        while True:
            token = self.next()
            if token.kind == "blank" and has_blanks:
                self.take()
                parts.append(("!", self.term()))
            elif token.kind == "sign" and token.text in OPERATORS:
                self.take()
                parts.append((token.text, self.term()))
            else:
                return Expression(tuple(parts))

    def expression(self) -> Expression:
        first = self.next()
        if first in (Token("sign", "+"), Token("sign", "-")):
            self.take()
            return self.terms(first.text, True)
        return self.terms("+", True)

    def value(self) -> Value:
        name = name_in(self.next())
        behind = self.tokens[1].kind if len(self.tokens) > 1 else "end"
        if name in self.operations and behind in ("blank", "closing", "end"):
            self.take()
            return self.reference(self.operations[name])
        return self.expression()

    def reference(self, operation: int) -> Reference:
        is_indirect = False
        while self.next().kind == "blank":
            self.take()
            name = name_in(self.next())
            if name not in ("I", "Z"):
                return Reference(operation, is_indirect, self.terms("+", False))
            self.take()
            is_indirect = is_indirect or name == "I"
        return Reference(operation, is_indirect, None)


Read = TypeVar("Read")


def whole(read: Callable[[], Read], reader: Reader) -> Read:
    """What a reader reads, where nothing is left after it."""
    value = read()
    if reader.tokens:
        raise Fault("SY")
    return value


def argument(tokens: list[Token], before: Before) -> Expression:
    """What stands after a reserved name: a blank and an expression, or one that begins with `+` or `-`."""
    if not tokens or tokens[0].kind != "blank" and tokens[0] not in (Token("sign", "+"), Token("sign", "-")):
        raise Fault("SY")
    reader = Reader(tokens[1:] if tokens[0].kind == "blank" else tokens, before, False)
    return whole(reader.expression, reader)


def body_of(tokens: list[Token], before: Before) -> Body:
    if not tokens:
        return Body("nothing")
    if tokens[0] == Token("sign", "*"):
        reader = Reader(tokens[1:], before, False)
        return Body("origin", value=whole(reader.expression, reader))
    name = name_in(tokens[0])
    if name in RESERVED:
        return reserved_body(name, tokens[1:], before)
    if name and len(tokens) > 1 and tokens[1] == Token("sign", "="):
        reader = Reader(tokens[2:], before, False)
        return Body("definition", name, whole(reader.value, reader))
    reader = Reader(tokens, before, True)
    return Body("word", value=whole(reader.value, reader))


def reserved_body(name: str, rest: list[Token], before: Before) -> Body:
    if name in ("DECIMA", "OCTAL", "EJECT", "XLIST", "PAGE", "NOPUNC", "ENPUNC", "RELOC", "EXPUNG", "FIXTAB") and not rest:
        return Body(name)
    if name in ("FIELD", "PAGE", "ZBLOCK", "IFZERO", "IFNZRO", "RELOC"):
        return Body(name, value=argument(rest, before))
    if name in ("IFDEF", "IFNDEF") and len(rest) == 2 and rest[0].kind == "blank" and free_name(rest[1]):
        return Body(name, free_name(rest[1]))
    if name == "TEXT" and [token.kind for token in rest] in (["string"], ["blank", "string"]):
        return Body(name, string=rest[-1].text)
    if name == "FIXMRI" and len(rest) > 2 and rest[0].kind == "blank" and free_name(rest[1]) and rest[2] == Token("sign", "="):
        reader = Reader(rest[3:], before, False)
        return Body(name, free_name(rest[1]), whole(reader.value, reader))
    if name in ("FILENA", "DEVICE"):
        return Body(name, string=file_characters(name, rest))
    raise Fault("SY")


def file_characters(name: str, rest: list[Token]) -> str:
    """The characters of a file's name, six and two, or the four of a device's, with `@`, which is 00, for a missing one."""
    kinds = [token.kind for token in rest]
    if kinds == ["blank", "run"]:
        run = rest[1].text + 6 * "@"
        return run[:4] if name == "DEVICE" else run[:6] + "@@"
    if name == "FILENA" and kinds == ["blank", "run", "here", "run"]:
        return (rest[1].text + 6 * "@")[:6] + (rest[3].text + "@@")[:2]
    raise Fault("SY")


def said(statement: Statement, before: Before) -> tuple[list[str], Body]:
    """The tags and the body of a statement, by the radix and the operations before it, or its first fault."""
    tokens = statement.tokens
    if any(token.kind == "bad" for token in tokens):
        raise Fault("IC")
    tags, rest = list[Token](), tokens
    while len(rest) > 1 and rest[1] == Token("sign", ","):
        tags, rest = tags + [rest[0]], rest[2:]
    names_file = rest and name_in(rest[0]) in ("FILENA", "DEVICE")
    for token in tags if names_file else tokens:
        if token.kind == "run" and token.text[0].isdigit() and not is_number(token.text, before.radix):
            raise Fault("NU")
    if statement.is_cut or not all(free_name(tag) for tag in tags):
        raise Fault("SY")
    body = body_of(rest, before)
    if (statement.end == "<") != (body.form in CONDITIONS):
        raise Fault("SY")
    return [free_name(tag) for tag in tags], body


def harmless_reading(statement: Statement) -> tuple[list[str], Body]:
    """What a statement with a fault says instead: its tags that are free names, and the word 0."""
    tags, rest = list[str](), statement.tokens
    while len(rest) > 1 and rest[1] == Token("sign", ","):
        tags, rest = tags + [free_name(rest[0])], rest[2:]
    return [tag for tag in tags if tag], Body("word", value=Expression((("+", 0),)))
