"""The lines of a script, and the entries that they stand for."""
import re
from dataclasses import dataclass

CELL, WORD, CHARACTER, NUMBER = rb"([0-7]{5})", rb"([0-7]{4})", rb"([0-3][0-7]{2})", rb"([0-9]{1,7})"
NAME, PART = rb"([^ ]+)", rb"[^ <,]+"
FORMS = [
    (b"STORE", NAME + b" " + NUMBER),
    (b"DELETE", NAME),
    (b"DIRECT", b""),
    (b"ASSEMBLE", b"(" + PART + b")<(" + PART + b"(?:," + PART + b"){0,7})"),
    (b"LOAD", NAME),
    (b"SQUEEZE", b""),
    (b"TURN", NUMBER),
    (b"FINISH", b""),
    (b"START", CELL),
    (b"STEP", NUMBER),
    (b"GO", NUMBER),
    (b"RUN", CELL + b" " + NUMBER),
    (b"KEY", CHARACTER),
    (b"DONE", b""),
    (b"SWITCHES", WORD),
    (b"EXAMINE", CELL),
    (b"DEPOSIT", CELL + b" " + WORD),
    (b"REGISTERS", b""),
    (b"BREAK", CELL + b" (ON|OFF)"),
    (b"PRINTED", b""),
]
LIMITS = {"STORE": (0, 999_999), "STEP": (1, 1_000_000), "GO": (1, 1_000_000), "RUN": (1, 1_000_000)}


@dataclass
class Entry:
    """A verb with its operands, and the text of a STORE; the verb of a bad line is empty. And how it stands in the script: its
    line, how many lines a STORE lacks, and whether the script ends in it without a LF."""

    verb: str
    operands: list[bytes]
    text: bytes = b""
    line: bytes = b""
    lacking: int = 0
    is_open: bool = False


def line_entry(line: bytes) -> Entry:
    """What a line says, but that a STORE's text is not there yet."""
    for verb, form in FORMS:
        if parts := re.fullmatch(verb + (b" " + form if form else b""), line, re.S):
            entry = Entry(verb.decode(), list(parts.groups()))
            low, high = LIMITS.get(entry.verb, (0, 9_999_999))
            if entry.verb in LIMITS and not low <= int(entry.operands[-1]) <= high:
                break
            return entry
    return Entry("", [])


def entries_of(script: bytes) -> list[Entry]:
    """The entries of a script. An empty line is none; a STORE that the script's end cuts off is a bad line."""
    lines, found = script.split(b"\n"), []
    is_open = bool(lines[-1])
    if not is_open:
        lines.pop()
    while lines:
        line = lines.pop(0)
        command = line[:-1] if line.endswith(b"\r") else line
        if not command:
            continue
        entry = line_entry(command)
        if entry.verb == "STORE":
            count = int(entry.operands[1])
            entry.text = b"".join(line + b"\n" for line in lines[:count])
            entry = entry if len(lines) >= count else Entry("", [], lacking=count - len(lines))
            lines = lines[count:]
        entry.line, entry.is_open = line, is_open and not lines
        found.append(entry)
    return found
