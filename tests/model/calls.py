"""Calls of the monitor of OS/8, by the tables: which words stand after a call, which of them the monitor writes, and where the program goes on."""
from __future__ import annotations

from typing import NamedTuple

USR, SYSTEM_HANDLER, HANDLER = "USR", "SYSTEM HANDLER", "HANDLER"
USR_CELLS = (0o17700, 0o10200)
SYSTEM_ENTRY = 0o7607
EXITS = {0o7600: "MONITOR EXIT", 0o7605: "MONITOR EXIT WITHOUT SAVE"}


class Call(NamedTuple):
    """Whom a JMS through a pointer calls, and the function of the USR."""

    kind: str
    function: int = 0


class Form(NamedTuple):
    """The words after a call by their names, and whether the program goes on at an error return and at a normal one."""

    name: str
    words: tuple[str, ...]
    has_error: bool
    has_normal: bool = True

    def gets(self) -> list[int]:
        """The places after the JMS of the words that the monitor writes."""
        return [place for place, word in enumerate(self.words, 1) if "GETS" in word]

    def returns(self) -> dict[int, str]:
        """The places after the JMS at which the program goes on, each with what is said of it."""
        place = len(self.words) + 1
        if self.has_error:
            return {place: "ERROR RETURN", place + 1: "NORMAL RETURN"}
        return {place: ""} if self.has_normal else {}


FILE = ("FUNCTION", "NAME AT, GETS BLOCK", "GETS LENGTH")
DEVICE = ("FUNCTION", "DEVICE", "DEVICE, GETS NUMBER")
FUNCTIONS = {
    0: Form("", ("FUNCTION",), False),
    1: Form("FETCH", ("FUNCTION", "PAGE, GETS ENTRY"), True),
    2: Form("LOOKUP", FILE, True),
    3: Form("ENTER", FILE, True),
    4: Form("CLOSE", ("FUNCTION", "NAME AT", "LENGTH"), True),
    5: Form("DECODE", ("FUNCTION", "EXTENSION", "TENTATIVE"), False),
    6: Form("CHAIN", ("FUNCTION", "BLOCK"), False, has_normal=False),
    7: Form("ERROR", ("FUNCTION", "NUMBER"), False, has_normal=False),
    0o10: Form("USRIN", ("FUNCTION",), False),
    0o11: Form("USROUT", ("FUNCTION",), False),
    0o12: Form("INQUIRE", ("FUNCTION", "GETS ENTRY"), True),
    0o13: Form("RESET", ("FUNCTION", "TENTATIVE"), False),
}
BY_NAME = {1: Form("FETCH", (*DEVICE, "PAGE, GETS ENTRY"), True), 0o12: Form("INQUIRE", (*DEVICE, "GETS ENTRY"), True)}
TRANSFER = Form("", ("FUNCTION", "BUFFER", "BLOCK"), True)

CELLS = [
    (0o7600, 0o7600, "MONITOR"), (0o7605, 0o7605, "MONITOR WITHOUT SAVE"), (0o7607, 0o7607, "SYSTEM HANDLER"), (0o7744, 0o7744, "START FIELD"),
    (0o7745, 0o7745, "START ADDRESS"), (0o7746, 0o7746, "JOB STATUS WORD"), (0o7777, 0o7777, "MEMORY AND DATE BITS"),
    (0o10200, 0o10200, "USR IN CORE"), (0o17600, 0o17616, "OUTPUT FILES"), (0o17617, 0o17641, "INPUT FILES"),
    (0o17642, 0o17642, "EQUALS HIGH AND ALTMODE"), (0o17643, 0o17643, "OPTIONS A TO L"), (0o17644, 0o17644, "OPTIONS M TO X"),
    (0o17645, 0o17645, "OPTIONS Y TO 9"), (0o17646, 0o17646, "EQUALS LOW"), (0o17647, 0o17665, "HANDLER ENTRIES"), (0o17666, 0o17666, "DATE"),
    (0o17700, 0o17700, "USR"), (0o17741, 0o17757, "DEVICE NAMES"), (0o17760, 0o17776, "DEVICE CONTROL WORDS"),
]  # fmt: skip
"""The cells of the monitor, the first and the last of each kind."""


def form_of(call: Call, is_clear: bool) -> Form:
    """The form of a call, by whether AC is clear at it."""
    if call.kind != USR:
        return TRANSFER
    return BY_NAME[call.function] if is_clear and call.function in BY_NAME else FUNCTIONS[call.function]


def text_of_cell(cell: int) -> str:
    """What is said of a cell of the monitor."""
    return next((text for first, last, text in CELLS if first <= cell <= last), "")
