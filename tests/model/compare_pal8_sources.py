#!/usr/bin/env python3
"""compare_pal8_sources.py [--sources N] [--seed S] [--program FILE]: assembles sources of PAL8 by the program `pal8_asm_bench`. They are the worked
ones, N random ones, 2000 where nothing is said, and N that are random bytes nearly, half of them by random options. It compares the cells that have words, or the first fault with
its place, with the plain model's. Then come the largest: a million literals, brackets within brackets, a line of 10 MB. The same seed makes the same
sources. The last line is 'N passed, M failed'.
"""
import argparse
import functools
import os
import subprocess
import sys
from random import Random

sys.dont_write_bytecode = True
HERE = os.path.dirname(os.path.abspath(__file__))
TOP = os.path.dirname(os.path.dirname(HERE))
sys.path.insert(0, TOP)
from tests.model import check_pal8_rows
from tests.model.pal8_faults import placed_answer
from tests.model.pal8_grammar import PLAIN, Options
from tests.options import patience
from tests.tally import Tally, fault_in

CRATE = f"{os.path.dirname(os.path.dirname(HERE))}/crates/pal8_asm_bench"
OPERATIONS = ("TAD", "AND", "ISZ", "DCA", "JMS", "JMP", "tad")
OTHERS = ("CLA", "CLA CLL", "BSW", "CDI 10", "MQL", "HLT", "SKON", "IOT", "TAD")
NAMES = ("A", "B", "C", "LOOP", "ABCDEFG", "BSW", "IOT", "X1", "CLA", "TAD", "I", "Z", "PAGE")
OPERATORS = ("+", "-", "!", "&", "^", "%", " ", " + ", " -", "  ")
PIECES = (*"AZ019+-!&^%=,*.()[]\"/;<>$# \t\n", *"\n\n;;,(([[  ", "TAD ", "TAD I ", "A", "B", "TEXT /", "PAGE ", "ZBLOCK ", "*200", "FIELD ", "A,", "$\n", "XLIST", "DECIMAL", "\r\n", "\f", "\0")
PIECES += ("IFZERO 0 <", "IFNZRO A<", "IFDEF A <", "IFNDEF B <", ">\n", "<")
PIECES += ("EXPUNGE\n", "FIXTAB\n", "FIXMRI A=", "FIXMRI TAD=1000\n", "FIXMRI ")
PIECES += ("NOPUNCH", "ENPUNCH\n", "RELOC ", "RELOC\n", "RELOC 400\n", "FILENAME A.B\n", "DEVICE 8\n", "FILENAME ")


class Maker:
    """Makes sources of statements that mostly say something."""

    def __init__(self, seed: int) -> None:
        self.random = Random(seed)
        self.values = self.random.sample(("A", "B", "C", "BSW", "ABCDEFG"), 2)
        self.tags = self.random.sample(("LOOP", "X1", "IOT", "END", "T2"), 3)
        self.left = list(self.tags)
        self.has_faults = self.random.random() < 0.4
        self.open = 0
        self.operations = list(OPERATIONS)

    def rarely(self) -> bool:
        return self.has_faults and self.random.random() < 0.04

    def name(self, is_early: bool) -> str:
        if self.rarely():
            return self.random.choice(NAMES)
        return self.random.choice(self.values if is_early else self.values + self.tags)

    def number(self) -> str:
        if self.rarely():
            return self.random.choice(("8", "10000", "4096", "2A"))
        return self.random.choice(("0", "1", "5", "7", "20", "177", "200", "277", "377", "400", f"{self.random.randrange(0o10000):o}"))

    def term(self, depth: int) -> str:
        """A term, which stands in so many literals; below 0 none may stand there."""
        kind = self.random.randrange(10)
        if kind < 3 or depth > 3 and kind > 6:
            return self.number()
        if kind < 6:
            return self.name(depth < 0)
        if kind == 6:
            return self.random.choice((".", '"A', '"a', '";', '"$', "CLA"))
        if depth < 0:
            return self.random.choice(("(5", "[1")) if self.rarely() else self.number()
        opening = self.random.choice("(([")
        closing = self.random.choice(("", ")" if opening == "(" else "]", ")" if self.rarely() else ""))
        return opening + self.value(depth + 1) + closing

    def terms(self, depth: int, has_blanks: bool) -> str:
        text = self.term(depth)
        while self.random.random() < 0.25:
            operator = self.random.choice(OPERATORS if has_blanks or self.rarely() else OPERATORS[:6])
            text += operator + (self.random.choice("1357") if operator == "%" and not self.rarely() else self.term(depth))
        return text

    def value(self, depth: int) -> str:
        if self.random.random() < 0.55 and depth >= 0:
            operation = self.random.choice(self.operations)
            if self.random.random() < 0.2:
                return operation + self.random.choice((" I ", " Z I ")) + self.random.choice(("20", "177", ".", "(7", "[A", "(TAD (3)"))
            return operation if self.random.random() < 0.1 else operation + self.random.choice((" ", " ", " Z ")) + self.terms(depth, False)
        if self.random.random() < 0.2:
            return self.random.choice(OTHERS)
        if self.rarely():
            return self.random.choice(("JMS I 20", "TAD 1234", "TAD I 400"))
        return self.random.choice(("", "", "", "-", "+")) + self.terms(depth, True)

    def argument(self, limit: int) -> str:
        if self.rarely():
            return self.terms(-9, True)
        return f"{self.random.randrange(limit):o}"

    def body(self) -> str:
        kind = self.random.randrange(36)
        if kind > 32:
            return self.table()
        if kind == 30:
            return self.random.choice(("NOPUNCH", "ENPUNCH", "enpunch", "NOPUNCH"))
        if kind == 31:
            return self.random.choice(("RELOC", "RELOC", "RELOC 400", "RELOC .+200", "RELOC 1000", "RELOC .-400", "RELOC " + self.argument(0o10000)))
        if kind == 32:
            return self.file_name()
        if kind == 0:
            return "*" + self.argument(0o10000)
        if kind == 1:
            return "*" + self.random.choice(("20", "200", "370", "400", "7600", ".+2", "TAD&370"))
        if kind < 4:
            if self.random.random() < 0.5:
                return self.late()
            return self.random.choice(self.values) + self.random.choice(("=", " = ")) + self.value(-9)
        if kind == 4:
            return self.random.choice(("DECIMAL", "OCTAL", "OCTAL", "OCTAL")) if self.has_faults else "OCTAL"
        if kind == 5:
            return "FIELD " + self.argument(9 if self.has_faults else 8)
        if kind == 6:
            return self.random.choice(("PAGE", "PAGE", "PAGE " + self.argument(0o41 if self.has_faults else 0o40)))
        if kind == 7:
            return "ZBLOCK " + self.argument(5)
        if kind < 10:
            mark = self.random.choice("/\"A(")
            return "TEXT " + mark + "".join(self.random.choices("BCDxyz_ ;$<)", k=self.random.randrange(6))).replace(mark, "") + ("" if self.rarely() else mark)
        if kind == 10:
            return self.random.choice(("XLIST", "EJECT ANY $", "", "/ note"))
        return self.value(0)

    def file_name(self) -> str:
        """The name of a file or of a device."""
        runs = [self.random.choice(("PIP", "A", "8", "99999", "LTA1", "ABCDEFGH", "sys", "2Z")) for _ in range(2)]
        if self.rarely():
            return self.random.choice(("FILENAME", "DEVICE A.B", "FILENAME A .B", "FILENAME A. B", "DEVICE (5", "FILENAME .A", "FILENAMEA.B"))
        return self.random.choice(("FILENAME ", "filename ")) + self.random.choice((runs[0], ".".join(runs))) if self.random.random() < 0.6 else "DEVICE " + runs[0]

    def late(self) -> str:
        """A definition by names that have no value before, mostly."""
        name = self.random.choice((*self.values, "D", "E", "D", "E") if self.has_faults else ("D", "E"))
        value = self.random.choice(self.left or self.tags) + self.random.choice(("", "+1", "-.", "&177", "%" + self.random.choice(self.values)))
        return f"{name}=" + (f"JMS {value}" if self.rarely() else "D+1" if self.rarely() else value) + self.random.choice(("", ";D", ";E", ";TAD D", ";D;D=7;D"))

    def table(self) -> str:
        """A statement that changes the tables of names."""
        if self.rarely():
            return self.random.choice(("EXPUNGE 1", "FIXTAB A", "FIXMRI", "FIXMRI A", "FIXMRIA=1", "FIXMRI I=1", "FIXMRI A=(5", "FIXMRI A=LOOP"))
        kind = self.random.randrange(12)
        if kind < 2 and self.has_faults:
            return self.random.choice(("EXPUNGE", "expunge"))
        if kind < 6:
            return "FIXTAB"
        name = self.random.choice(("CALL", "TAD", "JMSI", "A", "B", "CLA"))
        if name in ("CALL", "JMSI"):
            self.operations.append(name)
        return f"FIXMRI {name}" + self.random.choice(("=", " = ")) + self.random.choice(("JMS I 20", "4400", "1000", "2000", self.value(-9)))

    def condition(self) -> str:
        kind = self.random.randrange(8)
        if kind < 4:
            return self.random.choice(("IFZERO ", "IFNZRO ", "ifzero ")) + self.random.choice((self.argument(2), self.terms(-9, True)))
        if self.rarely():
            return self.random.choice(("IFZERO", "IFDEF 1", "IFDEF A B", "IFNDEF CLA+", "IFZERO (5", "5"))
        return self.random.choice(("IFDEF ", "IFNDEF ")) + self.random.choice(self.values + self.tags + ["BSW", "TAD", "ZZ"])

    def line(self) -> str:
        """A statement, or a condition, or what it has been open for."""
        kind = self.random.random()
        if kind < 0.12:
            self.open += 1
            return self.tag() + self.condition() + self.random.choice((" <", "<", " < ")) + ("" if self.rarely() else self.random.choice(("", "", self.body())))
        if kind < 0.24 and (self.open or self.rarely()):
            self.open -= 1
            return self.random.choice(("", "", self.tag() + self.body().split("/")[0])) + ">" + self.random.choice(("", self.body()))
        return self.tag() + self.body()

    def tag(self) -> str:
        if self.rarely():
            return self.random.choice(NAMES) + ","
        if not self.left or self.random.random() < 0.8:
            return ""
        return self.left.pop() + self.random.choice((",", " , "))

    def source(self) -> bytes:
        lines = [f"{name}={self.number()}" for name in self.values]
        lines += [self.table()] if self.random.random() < 0.3 else []
        lines += [self.line() for _ in range(self.random.randint(1, 25))]
        lines += [">" for _ in range(self.open) if not self.rarely()]
        lines += ["OCTAL", *(f"{tag}, 7" for tag in self.left if not self.rarely())]
        text = "".join(line + self.random.choice("\n\n\n;") for line in lines)
        return (text + ("" if self.rarely() else "\n$\n") + ("1 2\n" if self.rarely() else "")).encode("latin1")


def nearly_bytes(seed: int) -> bytes:
    random = Random(-seed)
    return ("".join(random.choices(PIECES, k=random.randint(1, 40))) + random.choice(("", "\n$\n", "\n$\n"))).encode("latin1")


def rows() -> list[tuple[str, bytes, str]]:
    return [(name, source.encode("latin1"), wanted) for name, source, wanted in check_pal8_rows.rows()]


def options_by(seed: int) -> Options:
    """Options at random, none half of the time."""
    random = Random(seed)
    return random.choice((PLAIN, Options(*(random.random() < 0.5 for _ in vars(PLAIN)))))


def came(program: str, text: bytes, options: Options = PLAIN) -> str:
    """What the program prints of a source after a byte that says which options there are."""
    bits = sum(1 << k for k, is_on in enumerate(vars(options).values()) if is_on)
    ran = subprocess.run([program], input=bytes([0o100 + bits]) + text, capture_output=True, timeout=patience(300))
    return (ran.stdout + ran.stderr).decode("latin1") + (f"status {ran.returncode}\n" if ran.returncode else "")


def difference(program: str, text: bytes, wanted: str, options: Options) -> str:
    """How what the program prints differs from what a row wants and from the model's; nothing where it doesn't."""
    found, answer = came(program, text, options), placed_answer(text, options)
    is_right = found == answer and (" ".join(found.split()[:4]) + "\n" == wanted or found == wanted or not wanted)
    return "" if is_right else f"wanted\n{wanted}{answer}came\n{found}"


def other_end(program: str, text: bytes, end: str) -> str:
    found = came(program, text)
    return "" if found.endswith(end) else f"wanted .. {end}came .. {found[-40:]}"


def largest() -> list[tuple[str, bytes, str]]:
    """Large sources, each with what its answer ends in."""
    million = 10**6
    return [
        ("a million literals", b"*200\n" + b"TAD (1;*200\n" * million + b"$\n", "0 0377 0001\n"),
        ("a million different literals", b"".join(b"TAD (%o\n*200\n" % (k % 0o200) for k in range(million)) + b"$\n", "? 5 PE 255 1706 200\n"),
        ("a thousand brackets within others", b"TAD " + b"(" * 1000 + b"5\n$\n", "? 5 PE 1 0\n"),
        ("a hundred brackets within others", b"TAD " + b"(" * 100 + b"5" + b")" * 100 + b"\n$\n", "0 0377 0005\n"),
        ("a million brackets", b"(" * million + b"5\n$\n", "? 5 PE 1 0\n"),
        ("a million brackets of both kinds", b"([" * (million // 2) + b"5" + b"])" * (million // 2) + b"\n$\n", "? 5 ZE 1 0\n"),
        ("a million open brackets", b"(" * million + b"\n$\n", "? 5 SY 1 0\n"),
        ("a line of 10 MB", b"*200;TAD (7 ;" * (10 * million // 13) + b"$", "0 0377 0007\n"),
        ("a million terms", b"1" + b"+1" * million + b"\n$\n", f"0 0200 {(million + 1) % 0o10000:04o}\n"),
        ("a million tags", b"A," * million + b"1\n$\n", "0 0200 0001\n"),
        ("a string of a million", b"TEXT /" + b"A" * million + b"/\n$\n", "? 5 PF 1 0\n"),
        ("a text without its end", b"TEXT /" + b"A" * million, "? 5 NE 1 1000006\n"),
        ("a million lines", b"\n" * million + b"1;$\n", "0 0200 0001\n"),
        ("a million conditions within others", b"IFZERO 0 <" * million + b"1" + b">" * million + b"$\n", "0 0200 0001\n"),
        ("a million brackets in a false one", b"IFZERO 1 <" + b"<" * million + b"1" + b">" * million + b">2;$\n", "0 0200 0002\n"),
        ("a million open conditions", b"IFZERO 0 <" * million + b"\n$\n", "? 5 PH 2 10000001\n"),
        ("a million skipped lines", b"IFZERO 1 <" + b"TAD (1\n" * million + b"> 7;$\n", "0 0200 0007\n"),
    ]


def main() -> int:
    words = argparse.ArgumentParser()
    words.add_argument("--sources", type=int, default=2000)
    words.add_argument("--seed", type=int, default=1)
    words.add_argument("--program", default="")
    words.add_argument("--small", action="store_true", help="without the worked sources and the largest")
    given = words.parse_args()
    program = given.program or f"{CRATE}/out/pal8_asm_bench"
    if not given.program and not os.path.exists(program):
        with open(f"{CRATE}/stdin", "rb") as source:
            subprocess.run(["rt", "run"], cwd=CRATE, stdin=source, stdout=subprocess.DEVNULL, stderr=subprocess.DEVNULL, check=False)
    numbers = range(given.seed, given.seed + given.sources)
    texts = [(f"row {name}", text, wanted, PLAIN) for name, text, wanted in ([] if given.small else rows())]
    texts += [(f"source {k}", Maker(k).source(), "", options_by(k)) for k in numbers]
    texts += [(f"bytes {k}", nearly_bytes(k), "", options_by(k)) for k in numbers]
    tally = Tally()
    for name, text, wanted, options in texts:
        fault = fault_in(functools.partial(difference, program, text, wanted, options))
        tally.add(name.split()[0], fault and f"{name}: {options.words()} {text!r}: {fault}")
    for name, text, end in [] if given.small else largest():
        fault = fault_in(functools.partial(other_end, program, text, end))
        tally.add("largest", fault and f"{name}: {fault}")
    return tally.end()


if __name__ == "__main__":
    sys.exit(main())
