#!/usr/bin/env python3
"""compare_host_commands.py [--program FILE] [--cases N] [--seed S]: assembles random sources of the host, and runs random programs at the Teletype.
It traces and profiles them, and writes the sources of random tapes. All is done with the program `pdp8`, N of each, 300 from 1 on where nothing is
said. It compares every byte that comes with a plain assembler, a plain machine and a plain listing that are written from the definitions alone. A
source is assembled again. Of the runs at the Teletype those are counted that have a note of a device that isn't there, and those with the most such
notes. The same number is the same case each time. The last line is 'N passed, M failed'.
"""
import argparse
import concurrent.futures
import functools
import os
import subprocess
import sys
import tempfile
from random import Random
from typing import Callable, Iterator, Optional

sys.dont_write_bytecode = True
TOP = os.path.dirname(os.path.dirname(os.path.dirname(os.path.abspath(__file__))))
sys.path.insert(0, TOP)
from tests.model.cases import WORDS, instruction
from tests.model.flow import reached
from tests.model.listing import Listing
from tests.model.names import names_in, random_names
from tests.model.host_sources import Told, assembled_host
from tests.model.machine import MOST_NOTES, Machine
from tests.model.sources import source, tape
from tests.model.tape import meaning_of, tape_of
from tests.model.terminal import Sitting, sat
from tests.model.traces import profiled, traced
from tests.model.words import octal
from tests.options import patience
from tests.tally import Tally, gathered

REFUSALS = {
    "no cell with a name": "1 BAD LINE",
    "no name": "2 NO NAME",
    "a name of the language": "3 PERMANENT NAME",
    "the form of a tag": "4 FORM OF A TAG",
    "given twice": "5 GIVEN TWICE",
    "no word in the cell": "6 NO WORD",
}
ECHO = [0o6031, 0o5200, 0o6036, 0o6046, 0o6041, 0o5204, 0o5200]
ABSENT = [0o6000 + 8 * it for it in range(0o100) if it not in Machine.devices]
# What stands between IOTs of these: a character is printed, and interrupts are on and off.
BETWEEN = [0o6001, 0o6002, 0o6041, 0o6042, 0o6046, 0o6211, 0o7001, 0o7004]


def run(program: str, words: list[str], folder: str, given: bytes = b"") -> tuple[bytes, bytes, int]:
    done = subprocess.run([program, *words], cwd=folder, input=given, capture_output=True, timeout=patience(60))
    return done.stdout, done.stderr, done.returncode


def ended(random: Random, text: bytes) -> bytes:
    """The same lines, some with another end; and the last one with none now and then."""
    kind = random.random()
    if kind < 0.15:
        text = text.replace(b"\r\n", b"\n").replace(b"\n", b"\r")
    elif kind < 0.3:
        text = b"".join(it + random.choice([b"\n", b"\r\n", b"\r"]) for it in text.splitlines())
    return text[:-1] if random.random() < 0.1 else text


def host_case(random: Random) -> tuple[list[bytes], bool]:
    count = random.choice([1, 1, 1, 2, 3])
    texts = [ended(random, source(random, k + 1 < count)) for k in range(count)]
    if random.random() < 0.1:
        texts[-1] = texts[-1].replace(b"$", b"TAD NONE;*400;TAD 200;NONE+OTHER\n$" if random.random() < 0.7 else b"")
    return texts, random.random() < 0.5


def assembles(program: str, seed: int) -> str:
    """How the program's answer to random sources differs from the model's; nothing where it doesn't."""
    texts, is_cross = host_case(Random(seed))
    names = [f"F{k}.pa" for k in range(len(texts))]
    wanted = assembled_host(texts, names, is_cross)
    with tempfile.TemporaryDirectory(prefix="pdp8-host-") as folder:
        for name, text in zip(names, texts):
            with open(f"{folder}/{name}", "wb") as file:
                file.write(text)
        words = ["assemble", *names, "--list", "LISTING", *(["--cross"] if is_cross else [])]
        printed, errors, status = run(program, words, folder)
        listing = open(f"{folder}/LISTING", "rb").read() if os.path.exists(f"{folder}/LISTING") else b""
    got = Told(errors, printed, listing)
    if got != wanted or status != (1 if wanted.errors else 0):
        return f"{texts}\n    wanted {wanted}\n    got {got}, status {status}"
    return ""


def asking(random: Random, first: int, count: int) -> list[int]:
    """A loop of so many words, most of which are IOTs of devices that aren't there."""
    absent = random.sample(ABSENT, random.choice([2, 8, 9, 20]))
    words = [random.choice(absent) + random.choice([1, random.randrange(8)]) if random.random() < 0.7 else random.choice(BETWEEN) for _ in range(count - 1)]
    return [*words, 0o5000 + first % 128 + (0o200 if first else 0)]


def random_tape(random: Random) -> list[int]:
    """A program of random words, one that echoes, or a tape that may be none."""
    kind = random.random()
    if kind < 0.15:
        return tape(random)
    if kind < 0.3:
        return tape_of([(0o200 + k, word) for k, word in enumerate(ECHO)])
    first, count = random.choice([0o200, 0o200, 0o7760, 0]), random.randint(8, 40)
    words = [instruction(random, first, count) for _ in range(count)]
    place = random.randrange(count - 4)
    if random.random() < 0.8:
        words[place : place + 3] = [0o6031, 0o5000 + (first + place) % 128 + (0o200 if first else 0), random.choice([0o6036, 0o6032, 0o6034])]
    if random.random() < 0.5:
        words = asking(random, first, count)
    if random.random() < 0.4:
        words[0:1] = [0o6001]
    fields = random.sample([0, 0o10000, 0o20000], 2)
    pairs = [(field + (first + k) % 4096, word) for field in fields for k, word in enumerate(words)]
    if random.random() < 0.5:
        pairs += [(0, random.choice(WORDS)), (1, 0o6036), (2, 0o6046), (3, 0o6001), (4, 0o5400)]
    return tape_of(pairs)


def sitting_of(random: Random) -> Sitting:
    keys = bytes(random.choice([*b"AB1\n\r\0", 0x80, 0xFF, random.randrange(256)]) for _ in range(random.choice([0, 1, 5, 20, 200])))
    start = random.choice([-1, -1, -1, 0o200, 0o10200, 0])
    return Sitting(random_tape(random), keys, random.random() < 0.3, start, random.choice([0, 0, 0o5252]), random.choice([1, 50, 1000, 100000]))


def sits(program: str, seed: int) -> Iterator[tuple[str, str]]:
    """The same of a random program at the Teletype, and whether it has notes of devices that aren't there."""
    sitting = sitting_of(Random(seed))
    wanted = sat(sitting)
    words = ["teletype", "TAPE", "--steps", str(sitting.steps), *(["--raw"] if sitting.is_raw else [])]
    words += ["--switches", f"{sitting.switches:04o}"] if sitting.switches else []
    words += ["--start", f"{sitting.start:05o}"] if sitting.start >= 0 else []
    with tempfile.TemporaryDirectory(prefix="pdp8-host-") as folder:
        with open(f"{folder}/TAPE", "wb") as file:
            file.write(bytes(sitting.frames))
        got = run(program, words, folder, sitting.keys)
    got = got[0], without_kind(got[1]), got[2]
    yield "sittings", "" if got == wanted else f"{sitting}\n    wanted {wanted}\n    got {got}"
    notes = wanted[1].count(b"note: no device ")
    if notes:
        yield "with a note", ""
    if notes == MOST_NOTES:
        yield "with the most notes", ""


def without_kind(errors: bytes) -> bytes:
    """What is printed but for what is said of frames that are no BIN tape."""
    return b"".join(it for it in errors.splitlines(True) if not it.startswith(b"note: the frames are "))


@functools.cache
def names_of(program: str) -> dict[int, str]:
    """How a source spells each word from 6000 up."""
    with tempfile.TemporaryDirectory(prefix="pdp8-host-") as folder:
        text = run(program, ["source"], folder, bytes(tape_of([(0o2000 + k, 0o6000 + k) for k in range(0o2000)])))[0]
    return {0o6000 + cell - 0o2000: " ".join(pieces) for cell, pieces in source_lines(text).items()}


def traces(kind: str, program: str, seed: int) -> str:
    """The same of the trace or of the profile of a random program."""
    random = Random(seed)
    sitting = sitting_of(random)
    sitting.keys = bytes(it for it in sitting.keys if 0 < it < 0o200)
    sitting.is_raw = False
    sitting.steps = random.choice([1, 50, 1000, 10000 if seed % 20 == 0 else 200])
    words = ["TAPE", "--steps", str(sitting.steps), f"--keys={sitting.keys.decode('ascii')}"]
    words += ["--switches", f"{sitting.switches:04o}"] if sitting.switches else []
    words += ["--start", f"{sitting.start:05o}"] if sitting.start >= 0 else []
    with tempfile.TemporaryDirectory(prefix="pdp8-host-") as folder:
        with open(f"{folder}/TAPE", "wb") as file:
            file.write(bytes(sitting.frames))
        printed, errors, status = run(program, [kind, *words], folder)
    wanted = traced(sitting, names_of(program)) if kind == "trace" else profiled(sitting)
    if (without_kind(errors + printed).decode(), status) != wanted:
        return f"{kind} {sitting}\n    wanted {wanted}\n    got {printed!r} {errors!r} {status}"
    return ""


def source_lines(text: bytes) -> dict[int, list[str]]:
    """The pieces of the statement that a source has for each cell, which its comment names."""
    rows = {}
    for line in text.decode("ascii").split("\r\n"):
        statement, slash, comment = line.partition("\t/")
        if slash:
            rows[int(comment[:5], 8)] = statement.split("\t")[-1].split(" ")
    return rows


def wrong_source(program: str, folder: str, frames: bytes, starts: list[int], names: Optional[bytes], loaded: bytes) -> str:
    """What is wrong with the source of a tape; nothing where it says the same as the tape."""
    words = {int(line[0:1] + line[2:6], 8): int(line[7:11], 8) for line in loaded.decode("ascii").splitlines()}
    given = [it for start in starts for it in ("--start", f"{start:05o}")]
    if names is not None:
        with open(f"{folder}/NAMES", "wb") as file:
            file.write(names)
        given += ["--names", "NAMES"]
    text, errors, status = run(program, ["source", *given], folder, frames)
    lacking = [it for it in starts if it not in words]
    named, refused = names_in(names or b"", set(words))
    if lacking or refused or not words:
        line = f"? NAMES {REFUSALS[refused[1]]} {refused[0]}\n" if refused else "? SOURCE 1 NO WORD\n"
        line = f"? SOURCE 2 NO WORD AT {lacking[0]:05o}\n" if lacking else line
        return "" if (text, errors.decode(), status) == (b"", line, 1) else f"{text!r} {errors!r} {status}"
    if (errors, status) != (b"", 0):
        return f"the source: {errors!r} {status}"
    with open(f"{folder}/SOURCE", "wb") as file:
        file.write(text)
    again, errors, status = run(program, ["assemble", "SOURCE"], folder)
    if (errors, status) != (b"", 0) or run(program, ["tape"], folder, again) != (loaded, b"", 0):
        return f"another tape, {errors!r} {status}, of {text!r}"
    code = reached(words, starts) if starts else set(words)
    wanted = "\r\n".join([*Listing(words, code, named, names_of(program), bool(starts)).lines(), ""])
    return "" if text.decode("ascii") == wanted else f"{text.decode('ascii')}\n    wanted {wanted}"


def wrong_tape(frames: bytes, printed: bytes, errors: bytes, status: int) -> str:
    """What is wrong with the words of a tape that are printed, or with the fault of one that is none."""
    meaning = meaning_of([*frames])
    if isinstance(meaning, dict):
        lines = "".join(f"{cell // 4096} {octal(cell % 4096, 4)} {octal(word, 4)}\n" for cell, word in sorted(meaning.items()))
        is_right = (printed.decode("latin1"), errors, status) == (lines, b"", 0)
    else:
        is_right = (printed.decode("latin1"), without_kind(errors), status) == (f"{meaning.line}\n", b"", 1)
    return "" if is_right else f"a tape of {meaning}\n    got {printed!r} {errors!r} {status}"


def lists(program: str, seed: int) -> Iterator[tuple[str, str]]:
    """The same of the words of a random tape, or of one that was assembled. Then of its source, with some starts or none, and with names now and
    then; what is no tape has no source."""
    random = Random(seed)
    with tempfile.TemporaryDirectory(prefix="pdp8-host-") as folder:
        frames = bytes(random_tape(random))
        if random.random() < 0.4:
            with open(f"{folder}/TEXT", "wb") as file:
                file.write(source(random, False))
            frames = run(program, ["assemble", "TEXT"], folder)[0] or frames
        loaded, errors, status = run(program, ["tape"], folder, frames)
        yield "tapes", wrong_tape(frames, loaded, errors, status)
        if status:
            return
        cells = [int(line[0:1] + line[2:6], 8) for line in loaded.decode("ascii").splitlines()]
        starts = [random.choice(cells or [0o200]) for _ in range(random.choice([0, 1, 1, 2, 3]))]
        if random.random() < 0.1:
            starts.append(random.randrange(0o100000))
        names = random_names(random, cells) if random.random() < 0.4 else None
        wrong = wrong_source(program, folder, frames, starts, names, loaded)
    yield "listings", f"{starts}: {wrong}" if wrong else ""


def alone(kind: str, case: Callable[[str, int], str]) -> Callable[[str, int], Iterator[tuple[str, str]]]:
    """A case that is of one kind."""

    def cases(program: str, seed: int) -> Iterator[tuple[str, str]]:
        yield kind, case(program, seed)

    return cases


CASES: dict[str, Callable[[str, int], Iterator[tuple[str, str]]]] = {
    "sources": alone("sources", assembles),
    "sittings": sits,
    "traces": alone("traces", functools.partial(traces, "trace")),
    "profiles": alone("profiles", functools.partial(traces, "profile")),
    "listings": lists,
}


def tried(program: str, seed: int) -> list[tuple[str, str]]:
    """What was tried by a seed, each by its kind and with what is wrong."""
    return [it for kind, cases in CASES.items() for it in gathered(kind, cases(program, seed))]


def main() -> int:
    words = argparse.ArgumentParser(description=__doc__, formatter_class=argparse.RawDescriptionHelpFormatter)
    words.add_argument("--program", default=f"{TOP}/crates/pdp8/out/pdp8")
    words.add_argument("--cases", type=int, default=300)
    words.add_argument("--seed", type=int, default=1)
    given = words.parse_args()
    program, seeds = os.path.abspath(given.program), range(given.seed, given.seed + given.cases)
    if not os.path.isfile(program):
        sys.exit(f"compare_host_commands: there is no program {program}: ./prove builds it")
    with concurrent.futures.ProcessPoolExecutor(len(os.sched_getaffinity(0))) as lanes:
        tally = Tally()
        for seed, outcomes in zip(seeds, lanes.map(tried, [program] * len(seeds), seeds, chunksize=5)):
            for kind, fault in outcomes:
                tally.add(kind, fault and f"case {seed}: {fault}")
    return tally.end()


if __name__ == "__main__":
    sys.exit(main())
