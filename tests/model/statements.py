"""The statements of PAL III source: the stretches of a text, several sources as one text, and what a statement says."""
from __future__ import annotations

import re
from dataclasses import dataclass, field
from typing import Optional

MARKS = b";\r$"
LEFT_OUT = b"\n\f\0\x7f"
LEGAL = set("ABCDEFGHIJKLMNOPQRSTUVWXYZ0123456789 +-,=*.")
RESERVED = {"DECIMA", "OCTAL", "FIELD", "PAUSE", "I", "Z"}
NAME, NUMBER = "[A-Z][A-Z0-9]*", "[0-9][A-Z0-9]*"
TERM = rf"(?:{NAME}|{NUMBER}|\.)"
SUM = rf"{TERM}(?:[+-]{TERM})*"
EXPRESSION = rf"[+-]?{TERM}(?:[-+ ]{TERM})*"
MEMORY = "(?:AND|TAD|ISZ|DCA|JMS|JMP)"


@dataclass
class Stretch:
    """The live characters of a statement, its line, and the place in its text of the byte that ends it."""

    live: str
    line: int
    end: int
    ends_source: bool


@dataclass
class Term:
    """A term of an expression after `+`, `-` or a blank: a name, a number, or `.`."""

    joiner: str
    name: str = ""
    number: int = 0
    is_here: bool = False


@dataclass
class Body:
    """What a statement says after its tags."""

    kind: str
    terms: list[Term] = field(default_factory=list)
    name: str = ""
    is_indirect: bool = False


@dataclass
class Statement:
    tags: list[str]
    body: Body


def is_live(text: bytes, place: int) -> bool:
    """LF, FF, NUL and rubout are as if they weren't there, and so is what stands after a `/` in its line."""
    line = text[text.rfind(b"\r", 0, place) + 1 : place + 1]
    return text[place] not in LEFT_OUT and (text[place] == 0o15 or b"/" not in line)


def stretches(text: bytes) -> list[Stretch]:
    """The stretches between `;`, CR and `$`, up to the first `$`. The last one, which nothing ends, is none."""
    found, live, line = [], "", 1
    for place, byte in enumerate(text):
        if not is_live(text, place):
            continue
        if byte not in MARKS:
            live += chr(byte)
            continue
        found.append(Stretch(live, line, place, byte == ord("$")))
        if byte == ord("$"):
            break
        live, line = "", line + (byte == 0o15)
    return found


def tidy(live: str) -> str:
    """A tab is a blank, a run of blanks is one, and blanks at either end or beside a sign mean nothing."""
    return re.sub(r" *([-+=,*]) *", r"\1", re.sub(r"[ \t]+", " ", live).strip(" "))


@dataclass
class Joined:
    """Several sources as one text, with the source and the place of each byte, and the source at whose end it ends."""

    text: bytes
    origins: list[tuple[int, int]]
    last: int


def joined(texts: list[bytes]) -> Joined:
    """Each source but the last is cut off before a statement that is PAUSE alone. One without ends the whole."""
    text, origins = b"", []
    for source, more in enumerate(texts):
        found = stretches(more)
        pauses = [k for k, it in enumerate(found) if tidy(it.live) == "PAUSE"]
        is_cut = bool(pauses) and source + 1 < len(texts)
        size = len(more)
        if is_cut:
            size = found[pauses[0] - 1].end + 1 if pauses[0] else 0
        text += more[:size]
        origins += [(source, place) for place in range(size)]
        if not is_cut:
            return Joined(text, origins, source)
    raise ValueError("no source")


def is_number(digits: str, radix: int) -> bool:
    good = "01234567" if radix == 8 else "0123456789"
    return all(digit in good for digit in digits) and int(digits, radix) <= 4095


def terms_of(expression: str, radix: int) -> list[Term]:
    found = []
    for joiner, word in re.findall(rf"([-+ ]?)({TERM})", expression):
        if word == ".":
            found.append(Term(joiner, is_here=True))
        elif word[0].isdigit():
            found.append(Term(joiner, number=int(word, radix)))
        else:
            found.append(Term(joiner, name=word[:6]))
    return found


def reference_of(text: str, radix: int) -> Optional[Body]:
    parts = re.fullmatch(rf"({MEMORY})((?: [IZ](?= |$))*)(?: ({SUM}))?", text)
    return Body("reference", terms_of(parts[3] or "", radix), parts[1], "I" in parts[2]) if parts else None


def body_of(text: str, radix: int) -> Optional[Body]:
    """What a body says, by the forms of the language; None where it has none of them."""
    if not text:
        return Body("nothing")
    if text[:6] in ("DECIMA", "OCTAL") and re.fullmatch(NAME, text):
        return Body("radix", name=text[:6])
    if re.match(rf"{MEMORY}(?: |$)", text):
        return reference_of(text, radix)
    for kind, form in (
        ("origin", rf"()\*({EXPRESSION})"),
        ("define", rf"({NAME})=({EXPRESSION})"),
        ("field", rf"()FIELD(?: |(?=[+-]))({EXPRESSION})"),
        ("word", rf"()({EXPRESSION})"),
    ):
        if parts := re.fullmatch(form, text):
            return Body(kind, terms_of(parts[2], radix), parts[1][:6])
    return None


def statement_of(live: str, radix: int) -> Statement | str:
    """What a stretch says, or the code of its fault."""
    text = tidy(live)
    if set(text) - LEGAL:
        return "IC"
    if any(not is_number(run, radix) for run in re.findall("[A-Z0-9]+", text) if run[0].isdigit()):
        return "NU"
    tags = []
    while tag := re.match(rf"({NAME}),", text):
        tags.append(tag[1][:6])
        text = text[tag.end() :]
    body = body_of(text, radix)
    if body is None or RESERVED & {*tags, *(term.name for term in body.terms), body.name if body.kind == "define" else ""}:
        return "SY"
    return Statement(tags, body)
