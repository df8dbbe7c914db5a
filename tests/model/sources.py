"""Random texts for the files of scripts: PAL III sources that have each fault now and then, plain texts, and tapes."""
from random import Random
from tests.model.tape import TapeFault, meaning_of, tape_of
from tests.model.words import BLOCK_FRAMES

VALUES = ["A", "B", "C", "ONE", "COUNT", "LONGNAME"]
TAGS = ["LOOP", "X1", "NEXT", "END", "BACKWARDS", "T2", "TAGTAG"]
MEMORY = ["AND", "TAD", "ISZ", "DCA", "JMS", "JMP"]
OPERATES = ["CLA", "CLA CLL", "CMA IAC", "RAL", "RTR", "SZA", "SNA CLA", "SKP", "HLT", "OSR", "NOP", "CLA+1", "7016", "STA CLL"]
DEVICES = ["TLS", "TSF", "KSF", "KRB", "KCC", "ION", "IOF", "CDF 10", "CIF 20", "RDF", "RIB", "RMF", "TCF", "6203"]
PRINTING = ["CLA", "TAD C", "TLS", "TSF", "JMP .-1", "KSF", "JMP 0", "HLT", "C, 301"]
BAD = [
    "a", "TAD !", "#", "8", "1A", "10000", "DECIMAL;4096", "I", "Z 1", "FIELD", "FIELD 10", "FIELD -1", "1 2,", "PAUSE 1",
    "A=", "*", "1+", "TAD 1 2", "TAD I -1", "*NONE", "Q=NONE", "TAD NONE", "NONE", "CLA=1", "CLA, 1", "*7777;1;2", "*7777;1;A,",
    "*7777;1;B=.", "*7777;1;*.+1", "*400;TAD 200", "*1000;JMP 0777", "Q, Q=1", "I,", "1PAUSE", "PAUSE,", "A=1;B=2;A, B, 5",
    "QUITELO=1;QUITELONG, 5", "Q=400;Q, 1", "Q, Q, 1;Q=5", "*400;JMP LOOP",
]  # fmt: skip
GOOD = [
    "A=1", "A=A+1", "B=-1", "C=.", "ONE=1;ONE=2", "DECIMAL", "OCTAL", "DECIMAL;99;OCTAL", "FIELD 1", "FIELD+2", "FIELD 0",
    "CLA=7200", "TAD =1000", "1;2;3", "", "*7777;1;FIELD 1;*0;2",
]  # fmt: skip


def expression(random: Random) -> str:
    terms = [random.choice(["1", "7", "17", "200", "377", ".", *VALUES, *TAGS]) for _ in range(random.choice([1, 1, 1, 2, 3]))]
    return random.choice(["", "", "", "-"]) + random.choice(["+", "-", " ", " + "]).join(terms)


def reference(random: Random) -> str:
    way = random.choice(["", "", "", " I", " Z", " I Z", " I I"])
    return random.choice(MEMORY) + way + random.choice(["", " 10", " 0", " .+2", " .-1", " .", " 17", " ONE-ONE"])


def origin(random: Random) -> str:
    return "*" + random.choice(["10", "200", "201", "400", "7770", ".", ".+3", "ONE", "7600"])


def statement(random: Random) -> str:
    kind = random.random()
    if kind < 0.06:
        return origin(random)
    if kind < 0.15:
        return random.choice(GOOD)
    if kind < 0.45:
        return reference(random)
    if kind < 0.75:
        return random.choice(OPERATES + DEVICES)
    if kind < 0.8:
        return random.choice(MEMORY) + " " + random.choice(TAGS)
    return expression(random)


def body(random: Random) -> list[str]:
    """Statements; most are without fault."""
    lines = [statement(random) for _ in range(random.randrange(1, 14))]
    for tag in TAGS:
        place = random.randrange(len(lines))
        lines[place] = f"{tag}{random.choice([', ', ',', ' ,	'])}{lines[place]}"
    values = [f"{name}={random.choice(['200', '1', '7', '205', '.'])}" for name in VALUES]
    lines = values + lines if random.random() < 0.9 else lines + values
    return list(PRINTING) if random.random() < 0.25 else lines


def source(random: Random, pauses: bool = False) -> bytes:
    """A source, which is to be followed by another where it pauses."""
    lines = [random.choice(GOOD)] if pauses and random.random() < 0.7 else body(random)
    if random.random() < 0.25:
        lines.insert(random.randint(0, len(lines)), random.choice(BAD))
    if random.random() < 0.04:
        lines = random.choice([[], [""], ["A=1"]])
    for _ in range(random.choice([0, 0, 0, 1, 2])):
        place, count = random.randint(0, len(lines)), random.choice([1, 40, 90, 129, 150])
        lines[place:place] = [random.choice(["/", "/ NO WORD; $", "", "1"])] * count
    if random.random() < (0.9 if pauses else 0.03):
        lines.append(random.choice(["PAUSE", " PAUSE / MORE", "1;PAUSE", "PAUSE;2", "ONE=3;PAUSE", "PAUSE$"]))
    if random.random() < (0.1 if pauses else 0.93):
        lines.append(random.choice(["$", "$", "$", "1$", "$ BEHIND", "$"]))
    if random.random() < 0.2:
        lines.append("THIS IS IGNORED")
    text = "\n".join(lines) + "\n"
    return random.choice([text, text, text, text.replace(" ", "\t"), text.replace("\n", "\r\n"), text.replace("A", "A\x7f\x00")]).encode()


def plain_text(random: Random) -> bytes:
    """Lines that are no source; some can't be kept, some are read as frames of a tape."""
    line = random.choice([b"/", b"SOME TEXT", b"", b"\0\0\0", b"\x7f", b"H@P", b"\0\x7fx\x7f", b"X" * 77])
    lines = [line] * random.choice([0, 1, 2, 5, 126, 127, 128, 200, 400])
    if random.random() < 0.1:
        lines.append(random.choice([b"\x1a", b"\x80", b"\xff"]))
    return b"".join(it + b"\n" for it in lines)


def tape(random: Random) -> list[int]:
    """The frames of a tape; of half of them some are changed."""
    pairs, cell = [], random.choice([0o200, 0o7776, 0o10200, 0o200])
    for _ in range(random.choice([1, 2, 5, 20, 200])):
        pairs.append((cell, random.randrange(4096)))
        cell = random.choice([cell + 1, cell + 1, cell + 1, 0o201, 0o10200, 0o27777]) % 32768
    frames = tape_of(pairs)
    for _ in range(random.choice([0, 0, 1, 1, 2])):
        place = random.choice([random.randrange(len(frames)), random.randrange(min(30, len(frames)))])
        more = random.choice([[0o377], [0o377, 0o301, 0o377], [0o310], [0o200], [0], [0o201], [0o170], [5]])
        frames[place : place + random.randrange(3)] = random.choice([more, [], [random.randrange(256)]])
    if random.random() < 0.2:
        frames = frames[: random.randrange(len(frames))]
    fault = meaning_of(frames)
    if isinstance(fault, TapeFault) and random.random() < 0.5:
        # the frame that decides the fault is the last of a block, or the first of the next
        return [0o200] * ((random.choice([-1, 0]) - fault.place) % BLOCK_FRAMES) + frames
    return [0o200] * random.choice([0, 0, 380, 400]) + frames
