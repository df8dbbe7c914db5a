#!/usr/bin/env python3
"""check_refused_growths.py: what refused growths leave, tried at each growth of whole runs. Each script below is run with its Nth growth refused, for
every N until a run meets no refusal. It is run by the program `short_memory`, which compares the session with one that never met the refusal (files,
cells, registers, characters) and does the entry again. It is run by `pdp8` itself, too, whose last line is then `? 10 MEMORY` after a front of the
replies. The last line is 'N passed, M failed'; each run is counted, and the lines before it say what became of them.

Each kind of run of each script must meet refusals, and few of them may end outside a session or be done without (`EXPECTED`). A session that a
refusal leaves spoiled, by `short_memory` on purpose, must be reported as another one than it was.

usage: check_refused_growths.py [--program FILE] [--short FILE] [--script TITLE] [--kind WORD]
"""
import functools
import os
import subprocess
import sys
import tempfile
from concurrent.futures import ThreadPoolExecutor
from typing import Callable, Iterator

HERE = os.path.dirname(os.path.abspath(__file__))
TOP = os.path.dirname(os.path.dirname(HERE))
sys.dont_write_bytecode = True
sys.path.insert(0, TOP)
from tests.options import option, patience
from tests.tally import Tally, fault_in

PROGRAM = os.path.abspath(option("--program", f"{TOP}/crates/pdp8/out/pdp8"))
SHORT = os.path.abspath(option("--short", f"{TOP}/crates/short_memory/out/short_memory"))


def store(name: str, *lines: str) -> list[str]:
    return [f"STORE {name} {len(lines)}", *lines]


def loaded(*lines: str) -> list[str]:
    """A source assembled and loaded, each turn an item of its own."""
    return [*store("S.PA", *lines, "$"), "ASSEMBLE B.BN<S.PA", *["TURN 1"] * 3, "LOAD B.BN", *["TURN 1"] * 2]


SCRIPTS = {
    "a program loaded": [*loaded("*200", "1", "*200", "2"), "EXAMINE 00200"],
    "jobs over each other": [
        *store("X.PA", "1"), *store("S.PA", "*200;CLL STA;TAD ONE;HLT;ONE, 1", "$"), "DELETE X.PA", "ASSEMBLE B.BN<S.PA", "TURN 1",
        "SQUEEZE", "TURN 2", "TURN 1", "TURN 1", "TURN 2", "TURN 2", "LOAD B.BN", "TURN 1", "TURN 1", "EXAMINE 00201", "DIRECT",
    ],
    "a full volume": [
        *[line for k in range(1, 7) for line in store(f"F{k}.PA", *["/"] * 130)], "DELETE F2.PA", "DELETE F4.PA",
        *store("G.PA", *["/"] * 600), "SQUEEZE", *["TURN 1"] * 5, *store("G.PA", *["/"] * 600), "STORE H.PA 0", "DIRECT",
    ],
    "a program run": [
        *loaded("*200", "CLA;TAD C;TLS;TSF;JMP .-1;HLT;C, 301"), "RUN 00200 100", "PRINTED", "START 00200", "GO 10", "REGISTERS",
    ],
}


# The outcomes that the runs of a script may have, by kind: the words, and the least and the most of them.
EXPECTED = {
    "again": {"same": (20, 1000), "outside": (1, 8)},
    "files": {"same": (20, 1000), "outside": (1, 8)},
    "pdp8": {"memory": (20, 1000), "done without": (1, 8)},
}
GOOD = ("same", "outside", "memory", "done without")
# The script whose run by `pdp8` may have no growth that it can do without.
WANTS_ALL = "a full volume"

# The words of each file by those of its name; what a run printed, with the files that it left.
Files = dict[tuple[int, ...], list[int]]
Front = tuple[bytes, Files]


def unexpected(title: str, kind: str, found: dict[str, int]) -> list[str]:
    """The outcomes that a kind of runs of a script had too seldom or too often."""
    wanted = dict(EXPECTED[kind])
    if title == WANTS_ALL and kind == "pdp8":
        wanted["done without"] = (0, 8)
    return [f"{found.get(what, 0)} {what}, not {low} to {high}" for what, (low, high) in wanted.items() if not low <= found.get(what, 0) <= high]


def refused(words: list[str], number: int, text: bytes, library: str) -> tuple[int, bytes, bool]:
    """The status and the output of a run whose growth of this number is refused, and whether it met the refusal."""
    env = {"LD_PRELOAD": library, "REFUSE": str(number)} if number else dict[str, str]()
    it = subprocess.run(words, input=text, capture_output=True, env={**os.environ, **env}, timeout=patience(60))
    if it.stderr.strip(b"R"):
        raise ValueError(f"{words} says {it.stderr[:200]!r}")
    return it.returncode, it.stdout, b"R" in it.stderr


def in_session(words: list[str], want: bytes | None, number: int, text: bytes, library: str) -> str | None:
    """What became of a run by `short_memory`: 'same', 'outside', a fault, or nothing where no growth was refused."""
    status, out, met = refused(words, number, text, library)
    if not met:
        return None
    if status == 3:
        return "outside"
    return "same" if status == 0 and (want is None or out == want) else f"status {status} at growth {number}"


def untold(text: bytes, library: str) -> Iterator[str]:
    """The kinds of runs in which `short_memory` does not report a session that a refused item leaves spoiled. Where no item is refused, since the
    session was not yet made or a line was read anew, none is spoiled."""
    for kind, words in (("again", ["go", "spoilt"]), ("files", ["stop", "it", "spoilt"])):
        tried = [refused([SHORT, *words], number, text, library) for number in range(1, 65)]
        found = [status for status, _, met in tried if met]
        if found.count(4) < 20 or not {0, 3, 4}.issuperset(found):
            yield f"{kind}: of {len(found)} runs with a spoiled session {found.count(4)} tell it"


def files(image: bytes) -> Files:
    """The files of an image that is sound: the words of each by its name."""
    words = [low + 256 * high for low, high in zip(image[::2], image[1::2])]
    found, segment = Files(), 1
    while segment:
        count, place, following, _, info = words[256 * segment :][:5]
        at, info = 256 * segment + 5, -info % 4096
        for _ in range(-count % 4096):
            size = 0 if words[at] == 0 else 4 + info
            length = -words[at + (size or 1)] % 4096
            if size and length:
                found[tuple(words[at : at + 4])] = words[256 * place : 256 * (place + length)]
            at, place = at + (size or 1) + 1, place + length
        segment = following
    return found


def program_run(image: bytes, text: bytes, number: int = 0, library: str = "") -> tuple[int, bytes, bool, bytes]:
    """A run of `pdp8` on a copy of an image: its status, its output, whether it met the refusal, and the image after it."""
    with tempfile.TemporaryDirectory() as folder:
        name = f"{folder}/v.img"
        with open(name, "wb") as file:
            file.write(image)
        status, out, met = refused([PROGRAM, "run", name], number, text, library)
        with open(name, "rb") as file:
            return status, out, met, file.read()


def in_program(image: bytes, fronts: list[Front], number: int, text: bytes, library: str) -> str | None:
    """What became of a run by `pdp8`. It must print its replies up to the refusal, and then the line of want of memory. Its files are those of the
    front of the script that these replies belong to. A growth that it can do without it may do without."""
    status, out, met, after = program_run(image, text, number, library)
    if not met:
        return None
    line = b"? 10 MEMORY\n"
    refusal = status == 1 and out.endswith(line)
    told = out[: -len(line)] if refusal else out
    if (refusal or (status == 0 and told == fronts[-1][0])) and (told, files(after)) in fronts:
        return "memory" if refusal else "done without"
    return f"status {status} at growth {number}: {out[-40:]!r}"


def items(lines: list[str]) -> Iterator[list[str]]:
    """The items of a script: each STORE with its lines."""
    at = 0
    while at < len(lines):
        words = lines[at].split()
        size = 1 + int(words[2]) if words[0] == "STORE" else 1
        yield lines[at : at + size]
        at += size


def told_fronts(image: bytes, lines: list[str]) -> list[Front]:
    """What `pdp8` writes for each front of the items of a script, and the files that it leaves."""
    front, found = list[str](), [(b"", files(image))]
    for item in items(lines):
        front += item
        _, out, _, after = program_run(image, "".join(f"{line}\n" for line in front).encode())
        found.append((out, files(after)))
    return found


def wrong_fronts(fronts: list[Front], lines: list[str]) -> str:
    """What is wrong with the fronts of a script: each item has a reply, and each one that stores a file leaves one more."""
    for item, (before, old), (after, new) in zip(items(lines), fronts, fronts[1:]):
        is_stored = item[0].startswith("STORE ") and b"STORED" in after[len(before) :]
        if not after.startswith(before) or after == before or len(new) != len(old) + 1 and is_stored:
            return f"{item[0]}: {after[len(before) :]!r} with {len(new)} files"
    return ""


def runs(of: Callable[[int], str | None]) -> dict[str, int]:
    """What became of each run, for each growth in turn until a run meets no refusal."""
    found, number = dict[str, int](), 1
    with ThreadPoolExecutor(len(os.sched_getaffinity(0))) as pool:
        while True:
            answers = list(pool.map(of, range(number, number + 64)))
            for answer in answers:
                if answer is None:
                    return found
                found[answer] = found.get(answer, 0) + 1
            number += 64


def try_script(title: str, kind: str, image: bytes, library: str, tally: Tally) -> str:
    """Counts the runs of one kind of a script. Says which outcomes came too seldom or too often."""
    text = "".join(f"{line}\n" for line in SCRIPTS[title]).encode()
    if kind == "pdp8":
        fronts = told_fronts(image, SCRIPTS[title])
        if wrong_fronts(fronts, SCRIPTS[title]):
            return wrong_fronts(fronts, SCRIPTS[title])
        found = runs(lambda n: in_program(image, fronts, n, text, library))
    elif kind == "files":
        found = runs(lambda n: in_session([SHORT, "stop"], None, n, text, library))
    else:
        want = subprocess.run([SHORT], input=text, capture_output=True, check=True, timeout=patience(60)).stdout
        found = runs(lambda n: in_session([SHORT], want, n, text, library))
    print(f"{title}, {kind}: " + ", ".join(f"{count} {what}" for what, count in sorted(found.items())))
    for what, count in found.items():
        for _ in range(count):
            tally.add(kind, "" if what in GOOD else f"{title}, {kind}: {what}")
    return "\n".join(f"{title}, {kind}: {it}" for it in unexpected(title, kind, found))


def new_image(folder: str) -> bytes:
    """The bytes of an empty volume."""
    name = f"{folder}/v.img"
    subprocess.run([PROGRAM, "create", name, "20"], check=True, capture_output=True, timeout=patience(60))
    with open(name, "rb") as file:
        return file.read()


def spoiled(library: str) -> str:
    """What is wrong with the runs in which `short_memory` leaves a session spoiled."""
    text = "".join(f"{line}\n" for line in SCRIPTS["a program loaded"]).encode()
    return "\n".join(untold(text, library))


def main() -> int:
    tally = Tally()
    with tempfile.TemporaryDirectory() as folder:
        library = f"{folder}/refuse.so"
        subprocess.run([os.environ.get("CC", "cc"), "-O2", "-shared", "-fPIC", "-o", library, f"{HERE}/refuse.c"], check=True)
        for title in [option("--script", "")] if "--script" in sys.argv else SCRIPTS:
            for kind in [option("--kind", "")] if "--kind" in sys.argv else EXPECTED:
                tally.add("scripts", fault_in(lambda: try_script(title, kind, new_image(folder), library, tally)))
        if "--script" not in sys.argv:
            tally.add("spoiled", fault_in(functools.partial(spoiled, library)))
    return tally.end()


if __name__ == "__main__":
    sys.exit(main())
