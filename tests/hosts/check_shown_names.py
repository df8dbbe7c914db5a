#!/usr/bin/env python3
"""check_shown_names.py: what each command prints where names of files, words of the command line and contents of files hold bytes that would forge a
line, or that a terminal takes for commands. Each line has graphic characters of ASCII and blanks alone; of an index, and in the line of a
source, also tabs. Outputs that are data are left out. With --lines it tries so many commands alone. The last line is 'N passed, M failed'.

usage: check_shown_names.py [--program FILE] [--lines N]
"""
import argparse
import functools
import os
import subprocess
import sys
import tempfile
from typing import Iterator

sys.dont_write_bytecode = True
TOP = os.path.dirname(os.path.dirname(os.path.dirname(os.path.abspath(__file__))))
sys.path.insert(0, TOP)
from tests.options import patience
from tests.tally import Tally, fault_in

PATIENCE = patience(60)
# A word that forges a line, colours a terminal, goes back to the begin of a line, and has a control of eight bits, as UTF-8 and without.
FORGED = "FORGED: OK 9 FILES"
EVIL = f"e\n{FORGED}\n\x1b[31m\r\x7f\u009b\u202e\\"
BYTES = EVIL.encode() + b"\x9b\xff\x00"
# In a source LF ends a line, and each line is shown as one.
LINE = BYTES.replace(b"\n", b"")
SHOWN = r"e\012FORGED: OK 9 FILES\012\033[31m\015\177\302\233\342\200\256\134"

# The files of a folder, by their last letters; the evil word stands before these.
VOLUME, OTHER, WIDE, HEADED, JUNK, NONE = ".v", ".w", ".x", ".h", ".j", ".n"
FAULTY, PLAIN, NOTED, NAMES, EMPTY, LONG, TEXT, FOLDER, DISK = ".pa", ".pb", ".pc", ".nm", ".e", ".l", ".t", ".d", ".rk"
# The blocks of each volume of a disk, and its bytes.
BLOCKS, SIZE = 3248, 3_325_952

# Commands: what `@` begins is the name of such a file, and `!` is the evil word itself.
LINES = """
check @.v | check @.v @.w | check @.j | check @.j @.v | check @.n @.n | check @.d | check --lenient @.x | check @.h @.x | check @.l
list @.v | list @.j | list @.n | list @.v ! | list @.v A! A.TX | list @.v !.! --long | list @.v:2 | list @.v --volume ! | list ! --year !
put @.v @.pa | put @.v @.e --as A.TX | put @.v @.t --as B.TX --text | put @.n @.t --as C | put @.j @.t --as C | put @.v @.n --as C
put @.v @.l --as C | put @.v @.t --as ! | put @.v ! ! | put @.v @.t @.pa --text-of ! | put @.v - --as !
delete @.v ! | delete @.v A! B! | delete @.j A | delete @.n A | rename @.v ! B | rename @.v A.TX ! | rename @.j A B
copy @.v A.TX ! | copy @.v ! B | copy @.v --to @.j A.TX | copy @.v --to @.n A.TX | copy @.v --to @.w ! | copy @.v --to @.w A.TX
list @.rk | check @.rk | check @.rk @.v | index @.rk | list @.rk:2 | put @.rk @.t --as C | put @.v @.t --as C | list @.rk:1 !
squeeze @.j | squeeze @.n | dump @.v 7-12 | dump @.v ! | dump @.j | dump @.n | patch @.v ! | patch @.j 1 1 0 1 | patch @.n 1 1 0 1 | patch @.v 1 1 ! 1
index @.v | index @.v @.j @.n @.x @.h @.d | index @.x --lenient | index @.v --find ! | index @.j:2 @.v:2 | index @.v --json
rescue @.j @.r | rescue @.v @.w | rescue @.n @.r | rescue @.v @.r | rescue @.x @.q --lenient | scan @.j | scan @.n | scan @.x --lenient | scan @.v --into @.d
get @.v A.TX --into @.d | get @.v ! --into @.d | get @.v A.TX A! --into @.n | get @.v A.TX --into @.v --text-of ! | get @.n A.TX --into @.d
get @.v --all --into @.d | get @.v A! B! --text
assemble @.pa -o @.o | assemble @.pa @.pb -o @.o | assemble @.pb -o @.pb | assemble @.pb -o @.o --list @.o | assemble @.n -o @.o | assemble @.l -o @.o
assemble --pal8 @.pa -o @.o | assemble --pal8 --notes @.pc -o @.o | assemble @.pc -o @.o | assemble --from @.v ! -o @.o | assemble --from @.j A.TX -o @.o
assemble --from @.v A.TX -o @.o | assemble @.t -o @.o | assemble @.v -o @.o | assemble @.pb -o @.n/o | assemble --from @.v S.PA --onto !
tape @.j | tape @.n | tape @.t | tape --volume 1 @.v ! | rim @.j | rim @.n | rim @.t | source @.n | source @.t | source @.j --names @.nm
run @.v | run @.n | run @.j | run @.v @.t | run --strict @.v @.pa | run @.v @.n | run @.v @.l
create @.v ! | create @.n/x 20 | create @.v 20 --new | create ! 7 | create @.d 20
teletype @.n | teletype @.j | trace @.n | trace @.j | profile @.n | profile @.t
boot @.n | boot @.j | boot @.d | boot @.rk --rk1 @.n | boot @.rk --lock ! | boot @.rk --disk-time !
! | --! | list --! | list @.v -! | check | get @.v | get @.v A --! | put @.v - - ! | list @.v --volume 1 --dectape ! | --help ! | ! --help
"""
# Commands with tabs in their lines: between columns, and as a line of a source has them.
TABBED = ("index", "assemble")
# What the commands print that is data.
DATA = ("get @.v A! B! --text", "source", "trace", "profile", "teletype")


def lines() -> Iterator[str]:
    for line in LINES.split("\n"):
        yield from (it.strip() for it in line.split("|") if it.strip())


class Folder:
    """A folder with files of evil names and contents."""

    def __init__(self, path: str, program: str) -> None:
        self.path, self.program = path, program
        for volume in (VOLUME, OTHER):
            self.make(["create", EVIL + volume, "40"], b"CREATED ")
            for name in ("A.TX", "S.PA"):
                self.make(["put", EVIL + volume, "-", "--as", name, "--text"], b"STORED ", b"*200\nHLT\n$\n")
            self.make(["put", EVIL + volume, "-", "--as", "EV"], b"STORED ", BYTES * 20)
        words = self.read(VOLUME)
        self.write(WIDE, words[:5000] + b"\xff\xff" + words[5002:])
        self.write(HEADED, b"HEADER" + words)
        self.write(JUNK, BYTES * 9)
        self.write(FAULTY, b"*200\nTAD " + LINE + b"\n$\n")
        self.write(PLAIN, b"*200\nHLT\n$\n")
        self.write(NOTED, b"*200\nPAGE\nTAD A +1\nA, 0\n$\n")
        self.write(NAMES, b"00200 " + BYTES + b"\n")
        self.write(EMPTY, b"")
        self.write(TEXT, LINE)
        with open(self.file(LONG), "wb") as long:
            long.truncate(16_777_217)
        os.mkdir(self.file(FOLDER))
        with open(f"{self.file(FOLDER)}/A.TX", "wb") as there:
            there.write(BYTES)

    def add_disk(self) -> None:
        """Adds a disk of two volumes, of which the second is not sound."""
        self.make(["create", EVIL + DISK, str(BLOCKS)], b"CREATED ")
        self.write(DISK, self.read(DISK).ljust(SIZE, b"\x01"))

    def file(self, last: str) -> str:
        return f"{self.path}/{EVIL}{last}"

    def write(self, last: str, content: bytes) -> None:
        with open(self.file(last), "wb") as file:
            file.write(content)

    def read(self, last: str) -> bytes:
        with open(self.file(last), "rb") as file:
            return file.read()

    def make(self, words: list[str], line: bytes, given: bytes = b"") -> None:
        """Does a command that must print a line that begins so."""
        output, errors = self.run(words, given)
        if not output.startswith(line):
            raise ValueError(f"{words}: {output!r} {errors!r}")

    def run(self, words: list[str] | list[bytes], given: bytes = b"") -> tuple[bytes, bytes]:
        try:
            run = subprocess.run([self.program, *words], cwd=self.path, input=given, capture_output=True, timeout=PATIENCE)
        except subprocess.TimeoutExpired as late:
            return b"\x00 late", late.stderr or b""
        if run.returncode not in (0, 1, 2):
            raise ValueError(f"{words} ended with status {run.returncode}")
        return run.stdout, run.stderr


def words_of(line: str) -> list[str]:
    return [f"{EVIL}{word[1:]}" if word.startswith("@") else word.replace("!", EVIL) for word in line.split(" ")]


def faults(said: bytes, more: bytes = b"") -> str:
    """What is wrong with lines, or an empty text."""
    if any(byte not in b"\n" + more and not 0o40 <= byte <= 0o176 for byte in said):
        return "a byte is not graphic"
    if any(line.startswith(FORGED.encode()) for line in said.split(b"\n")):
        return "a line is forged"
    return ""


def tried(path: str, program: str, line: str, tally: Tally) -> str:
    """What is wrong with the lines that a command prints in a folder of its own. One that prints nothing is counted so."""
    os.mkdir(path)
    folder = Folder(path, program)
    if DISK in line:
        folder.add_disk()
    output, errors = folder.run(words_of(line), BYTES + b"\nSTORE " + BYTES + b"\n")
    if not output and not errors:
        tally.add("silent", "")
    more = b"\t" if line.startswith(TABBED) else b""
    wrong = faults(errors, more) or ("" if line.startswith(DATA) else faults(output, more))
    return f"{line}: {wrong}: {output[:300]!r} {errors[:300]!r}" if wrong else ""


def whole_line(path: str, program: str) -> str:
    """What is wrong with a line that is known whole: the name reads back."""
    os.mkdir(path)
    wanted = f"{SHOWN}.v: BLOCKS 40\n".encode()
    found = Folder(path, program).run(["check", EVIL + VOLUME, EVIL + OTHER])[0]
    return "" if wanted in found else f"{found!r} has no {wanted!r}"


def no_text(path: str, program: str) -> str:
    """What is wrong with a line on a word that is no text."""
    os.mkdir(path)
    found = Folder(path, program).run([b"list", b"a\x9b\n"])[1]
    return faults(found) and f"a word that is no text: {found!r}"


def main() -> int:
    parser = argparse.ArgumentParser()
    parser.add_argument("--program", default=f"{TOP}/target/unproved/pdp8/pdp8")
    parser.add_argument("--lines", type=int)
    given = parser.parse_args()
    program, tally = os.path.abspath(given.program), Tally(20)
    with tempfile.TemporaryDirectory(prefix="pdp8-names-") as room:
        for number, line in enumerate([*lines()][: given.lines]):
            tally.add("commands", fault_in(functools.partial(tried, f"{room}/{number}", program, line, tally)))
        for name, case in (("whole lines", whole_line), ("no texts", no_text)):
            tally.add(name, fault_in(functools.partial(case, f"{room}/{name}", program)))
    return tally.end()


if __name__ == "__main__":
    sys.exit(main())
