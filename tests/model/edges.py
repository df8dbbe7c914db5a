"""Random entries at the edges of what a line, a number, a text and a block may be, and which of these a script has met."""
import re
from random import Random
from typing import Iterator
from tests.model.script import Entry
from tests.model.words import BLOCK_FRAMES

LIMITS = [0, 1_000_000, 1_000_001]
HALTING = ["DEPOSIT 30200 7402"]
COUNTING = ["DEPOSIT 30200 2377", "DEPOSIT 30201 5200"]
RUNNING = ["DEPOSIT 30200 5200"]
COMMANDS = [
    "DIRECT", "TURN 1", "LOAD B.BN", "DELETE S1.PA", "ASSEMBLE B.BN<S3.PA", "ASSEMBLE B.BN<S1.PA,S3.PA", "START 30200", "STEP 2",
    "GO 2", "RUN 30200 2", "KEY 301", "DONE", "SWITCHES 1234", "EXAMINE 30200", "DEPOSIT 30201 0001", "REGISTERS", "PRINTED", "", "SQUEEZE",
    "BREAK 30201 OFF", "FINISH",
]  # fmt: skip
# a statement, whose fault is that of its own form, of the statements before, or of a word and so reported in the second pass
FAULTY = ["8", "a", "1A", "I", "TAD NONE", "NONE", "Q=NONE", "*NONE", "FIELD 10", "*1000;JMP 0777", "CLA=1"]

# Each is to be met by some of any thousand scripts.
CASES = [
    *(f"{verb} of {number} steps" for verb in ("STEP", "GO", "RUN") for number in LIMITS),
    "1000000 steps, all made", "a number of six digits", "a number of seven digits", "a number of eight digits",
    "a tape's fault in the last frame of a block", "a tape's fault in the first frame of a block",
    "a source's fault in the last frame of a block", "a source's fault in the first frame of a block",
    "a STORE that lacks one line", "a STORE whose last line lacks its LF", "a command that stands for a STORE's last line",
    "a line with two CRs that has a bad name", "a line with two CRs of no form",
]  # fmt: skip


def lines(*commands: str) -> list[bytes]:
    return [it.encode() + b"\n" for it in commands]


def limit(random: Random) -> list[bytes]:
    """As many steps as may be asked for, and one more; where all are made they cost the model a second."""
    number = random.choice([*LIMITS, 1_000_000])
    program = random.choice([HALTING] * 2 + [COUNTING] * 3 + [RUNNING])
    if program is COUNTING and number:
        program = [*program, f"DEPOSIT 30377 {random.choice([7777, 7770, 7000])}", "DEPOSIT 30202 7402"]
    verb = random.choice(["STEP", "GO", "RUN 30200"])
    return lines(*program, "START 30200", f"{verb} {number}", "REGISTERS")


def spelled(random: Random, number: int) -> str:
    """A number with zeros before it: eight digits are one too many."""
    return str(number).rjust(random.choice([6, 6, 7, 7, 8]), "0")


def number(random: Random) -> list[bytes]:
    """Numbers of six to eight digits."""
    small = spelled(random, random.randint(0, 9))
    large = random.choice([100_000, 999_999, 1_000_000, 1_000_001, 9_999_999, 10_000_000, 12_345_678])
    text = lines(*["DIRECT"] * int(small))
    return random.choice([
        lines(f"TURN {small}"), lines(f"TURN {large}"), lines("START 30200", f"STEP {small}"), lines("START 30200", f"GO {small}"),
        lines(f"RUN 30200 {small}"), [*lines(*HALTING), *lines(f"RUN 30200 {large}")], lines(f"STORE E.PA {max(large, 1_000_000)}"),
        [b"".join([*lines(f"STORE E.PA {small}"), *text])], lines(f"KEY {small}", f"EXAMINE {small}"),
    ])  # fmt: skip


def padding(count: int) -> bytes:
    """Comment lines of a host's text that take so many characters, at least three, in a file."""
    found = b""
    while count:
        size = count if count < 80 else min(70, count - 3)
        found, count = found + b"/" * (size - 2) + b"\n", count - size
    return found


def edge_source(random: Random) -> list[bytes]:
    """A source whose faulty statement, or whose end, is ended by the last frame of a block or by the next one; and its turns."""
    blocks, beyond = random.choice([1, 1, 2, 3]), random.choice([-1, -1, 0, 0, 1])
    statement = random.choice([*FAULTY, *FAULTY, "1", "A=1;A"]).encode()
    end = random.choice([b"\n", b"\n", b";1\n", b"$\n"])
    text = padding(BLOCK_FRAMES * blocks + beyond - len(statement)) + statement + end
    text += random.choice([b"$\n", b"1\n$\n", b"", padding(400) + b"$\n"])
    return begun(b"E.PA", text, "ASSEMBLE E.BN<E.PA", random.choice([blocks, 2 * blocks, 2 * blocks + 4]))


def edge_tape(random: Random) -> list[bytes]:
    """A text that is read as a tape, whose bad frame is the last of a block, or the next one; and its turns."""
    blocks, beyond = random.choice([1, 1, 2, 3]), random.choice([-1, -1, 0, 0, 1])
    count = BLOCK_FRAMES * blocks + beyond
    ignored = random.choice([b"", b"", b"\x7fIGNORED\x7f", b"\x7f" + b"X" * 300 + b"\x7f"])
    text = (b"\0" * (count - len(ignored)) + ignored) + random.choice([b"A\n", b"\n", b"B\0\n", b"@A\n"])
    return begun(b"E.TX", text, "LOAD E.TX", blocks + 1)


def begun(name: bytes, text: bytes, job: str, turns: int) -> list[bytes]:
    """A text that is stored, and the only job, with so many turns."""
    stored = b"STORE %s %d\n" % (name, text.count(10)) + text
    return [*lines("FINISH"), stored, *lines(job, *["TURN 1"] * turns), *lines("FINISH", f"DELETE {name.decode()}")]


def with_returns(random: Random) -> list[bytes]:
    """Lines that end in more CRs than the one that may stand there, or have one elsewhere."""
    returns = random.choice(["\r", "\r\r", "\r\r", "\r\r\r"])
    return random.choice([
        lines(random.choice(COMMANDS) + returns), lines(random.choice(COMMANDS[2:6]) + returns),
        [b"".join(lines("STORE E.PA\r 1", "DIRECT"))], lines(f"STORE E.PA 1{returns}", "DIRECT"),
        [b"".join(lines("STORE E.PA 2", f"1{returns}", "$\r\r"))], lines("START\r 30200"), lines("LOAD \rB.BN"),
    ])  # fmt: skip


def swallowing(random: Random) -> list[bytes]:
    """A STORE with a line fewer than it says, which takes the command after it for its last."""
    count = random.randint(1, 4)
    name = random.choice(["E.PA", "E.PA", "lower"])
    return [b"".join(lines(f"STORE {name} {count}", *["1"] * (count - 1), "DIRECT"))]


def edge(random: Random) -> list[bytes]:
    """One entry at an edge, or a few that belong together."""
    return random.choice([limit, number, edge_source, edge_tape, with_returns, swallowing])(random)


def cut_off(random: Random) -> list[bytes]:
    """A script's last entry, where the script ends within it or has no LF after it."""
    count = random.randint(1, 5)
    head, text = lines(f"STORE {random.choice(['E.PA', 'E.PA', 'S1.PA', 'lower'])} {count}"), lines(*["1"] * count)
    return random.choice([
        [b"".join([*head, *text[1:]])], [b"".join([*head, *text[1:]])], [b"".join([*head, *text])[:-1]],
        [b"".join([*head, *text[1:]])[:-1]], [b"".join([*head, *text[1:], b"\r"])], [b"".join([*head, *text[1:], b"\n"])],
        [b"".join([*lines("STORE E.PA 999999"), *text])], [random.choice([b"DIRECT", b"DIRECT\r", b"DIRECT\r\r", b"\r", b"\r\r"])],
        [], [], [],
    ])  # fmt: skip


def met_by(entry: Entry, reply: str) -> Iterator[str]:
    """The cases that an entry with its reply is one of."""
    if digits := re.fullmatch(rb"([A-Z]+)(?: [^ ]+)? ([0-9]+)", entry.line):
        verb, number, length = digits[1].decode(), int(digits[2]), len(digits[2])
        if verb in ("STEP", "GO", "RUN") and number in LIMITS and bool(entry.verb) == (number == LIMITS[1]):
            yield f"{verb} of {number} steps"
        if length in (6, 7) and entry.verb:
            yield f"a number of {'six' if length == 6 else 'seven'} digits"
        if length == 8:
            yield "a number of eight digits"
    if reply.startswith("STEPS 1000000 LIMIT"):
        yield "1000000 steps, all made"
    if entry.lacking == 1:
        yield "a STORE that lacks one line"
    if entry.is_open and entry.verb == "STORE":
        yield "a STORE whose last line lacks its LF"
    if entry.text.endswith(b"1\nDIRECT\n"):
        yield "a command that stands for a STORE's last line"
    if entry.line.endswith(b"\r\r") and not entry.line.endswith(b"\r\r\r"):
        yield "a line with two CRs " + ("that has a bad name" if reply == "? 4.5 BAD NAME" else "of no form")


def met_at(place: int, kind: str) -> Iterator[str]:
    """The cases that a fault at a frame of a text is one of, but for its very first."""
    if place > 0 and place % BLOCK_FRAMES in (0, BLOCK_FRAMES - 1):
        yield f"a {kind}'s fault in the {'last' if place % BLOCK_FRAMES else 'first'} frame of a block"
