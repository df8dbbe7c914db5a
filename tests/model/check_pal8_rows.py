#!/usr/bin/env python3
"""check_pal8_rows.py [--program FILE]: holds the plain model of PAL8 (pal8.py) to worked sources (pal8_rows.txt), each with the cells that have words
or with its first fault. With --program it holds the program `pdp8` to them, too, by `assemble --pal8` and by `tape` on what that wrote. The last line
is 'N passed, M failed'."""
import argparse
import functools
import os
import subprocess
import sys
import tempfile
from typing import Callable, Iterator, Optional

sys.dont_write_bytecode = True
HERE = os.path.dirname(os.path.abspath(__file__))
TOP = os.path.dirname(os.path.dirname(HERE))
sys.path.insert(0, TOP)
from tests.model.pal8_faults import answer
from tests.options import patience
from tests.tally import Tally, fault_in


def all_rows() -> Iterator[tuple[str, list[str], str]]:
    """Each worked source: its name, its texts and what it gives. A line `>>` begins the next text."""
    name, texts, wanted = "", [""], ""
    for line in open(f"{HERE}/pal8_rows.txt", encoding="ascii"):
        if line.startswith("= "):
            name, texts, wanted = line[2:].strip(), [""], ""
        elif line.startswith(">>"):
            texts.append("")
        elif line.startswith(">"):
            texts[-1] += line[1:].removeprefix(" ")
        elif line.strip() and not line.startswith("#"):
            wanted += line
        elif name and not line.strip():
            yield name, texts, wanted
            name = ""
    if name:
        yield name, texts, wanted


def rows() -> Iterator[tuple[str, str, str]]:
    """Each worked source of one text."""
    return ((name, texts[0], wanted) for name, texts, wanted in all_rows() if len(texts) == 1)


def run(words: list[str], given: bytes) -> subprocess.CompletedProcess[bytes]:
    return subprocess.run(words, input=given, capture_output=True, timeout=patience(120))


def program_answer(program: str, texts: list[bytes]) -> str:
    """What the program says of a source: the lines of its tape, or the numbered line of its first fault, which has four lines; or what is wrong."""
    with tempfile.TemporaryDirectory() as folder:
        names = [f"{folder}/{number}.pa" for number in range(len(texts))]
        for name, text in zip(names, texts):
            with open(name, "wb") as file:
                file.write(text)
        ran = run([program, "assemble", "--pal8", *names], b"")
    told = ran.stderr.decode("latin1").splitlines(keepends=True)
    if ran.returncode == 0 and not told:
        listed = run([program, "tape"], ran.stdout)
        return (listed.stdout + listed.stderr).decode("latin1") + (f"status {listed.returncode}\n" if listed.returncode else "")
    is_one_fault = len(told) == 4 or told[4:5] == ["note: these words have a fault too:\n"]
    if ran.returncode == 1 and not ran.stdout and is_one_fault:
        return told[3]
    return f"status {ran.returncode}, {len(ran.stdout)} bytes of a tape\n{''.join(told)}"


def difference(wanted: str, came: Callable[[], str]) -> str:
    """How what came differs from what is wanted; nothing where it doesn't."""
    found = came()
    return "" if found == wanted else f"wanted\n{wanted}came\n{found}"


def main() -> int:
    parser = argparse.ArgumentParser(usage=__doc__)
    parser.add_argument("--program")
    parser.add_argument("--rows", type=int, help="the first rows alone")
    given = parser.parse_args()
    program: Optional[str] = given.program
    tally = Tally()
    for name, written, wanted in [*all_rows()][: given.rows]:
        texts = [text.encode("latin1") for text in written]
        answers: dict[str, Callable[[], str]] = {"model": functools.partial(answer, *texts)}
        if program:
            answers["program"] = functools.partial(program_answer, os.path.abspath(program), texts)
        for who, came in answers.items():
            fault = fault_in(functools.partial(difference, wanted, came))
            tally.add(who, fault and f"{name}, by the {who}: {fault}")
    return tally.end()


if __name__ == "__main__":
    sys.exit(main())
