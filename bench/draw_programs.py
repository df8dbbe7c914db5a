#!/usr/bin/env python3
"""draw_programs.py SEED [ROUNDS]: writes programs in PAL III for bench/cpu.sh, each to NAME.pal in this folder.

Ten are drawn; the same seed draws the same ten. Six are loops of 60 instructions: references to memory, and operates of any combination that goes on.
The others have a loop drawn in the same way: with interrupts, with fields, with a talker, and with instructions that the program itself writes. Eight
more are of IOTs and are not drawn. Each starts at 200, halts, and ends in the same registers whenever the printer is done. ROUNDS times 4096 is how
often a loop is made.
"""
import random
import sys
from typing import Sequence

# All operates that go on: group 1 but for what is unassigned, and group 2 but for HLT.
GROUP_1 = [0o7000 + 0o20 * clears + rotation + iac for clears in range(16) for rotation in (0, 4, 6, 0o10, 0o12) for iac in (0, 1)]
GROUP_2 = [0o7400 + 0o10 * skips + clears + osr for clears in (0, 0o200) for skips in range(16) for osr in (0, 4)]
# Cells of data, four in page zero and four in the page of the program, and a pointer in page zero to each.
DATA = [f"D{k}" for k in range(8)]
POINTERS = [f"P{k}" for k in range(8)]


class Drawing:
    """Programs drawn from one seed."""

    def __init__(self, seed: str, rounds: int) -> None:
        self.random, self.rounds = random.Random(seed), rounds

    def operate(self) -> str:
        return f"{self.random.choice(self.random.choice((GROUP_1, GROUP_2))):o}"

    def reference(self) -> str:
        """AND, TAD, ISZ or DCA, one in three through a pointer."""
        name = self.random.choice(("AND", "TAD", "TAD", "ISZ", "DCA"))
        return f"{name} I {self.random.choice(POINTERS)}" if self.random.random() < 1 / 3 else f"{name} {self.random.choice(DATA)}"

    def branch(self) -> str:
        """A jump ahead, or a call of a subroutine, one in two through a pointer."""
        return self.random.choice((f"JMP .+{self.random.randint(1, 3)}", "JMS SUB", "JMS I PSUB"))

    def instructions(self, count: int, branches: bool = True) -> list[str]:
        """So many instructions, and three more to which any skip or jump ahead of the last may go."""
        drawn = [self.branch if branches and self.random.random() < 0.06 else self.random.choice((self.operate, self.reference)) for _ in range(count)]
        return [one() for one in drawn] + ["NOP"] * 3

    def words(self, count: int) -> list[str]:
        return [f"{self.random.randrange(4096):o}" for _ in range(count)]

    def program(self, body: list[str], first: str = "", service: Sequence[str] = (), field: int = 0, tail: Sequence[str] = ()) -> list[str]:
        """A program of this loop. Its counters, data and subroutine stand after it."""
        zero = [f"D{k}, {word}" for k, word in enumerate(self.words(4))] + [f"P{k}, D{k}" for k in range(8)] + ["PSUB, SUB", "SAVE, 0", "LINK, 0"]
        end = ["ISZ A", "JMP LOOP", "ISZ B", "JMP LOOP", "HLT", "A, 0", f"B, {-self.rounds & 0o7777:o}"]
        near = [f"D{k + 4}, {word}" for k, word in enumerate(self.words(4))]
        subroutine = ["SUB, 0", self.operate(), self.reference(), "NOP", "JMP I SUB"]
        lines = ["*0", "0", "JMP SERVE" if service else "0", "*20", *zero, *service, "*200", "CLA CLL", *([first] if first else [])]
        return [*lines, f"LOOP, {body[0]}", *body[1:], *end, *near, *subroutine, *tail]

    def loop(self) -> list[str]:
        return self.program(self.instructions(60))

    def interrupts(self) -> list[str]:
        """The printer's end is an interrupt; the service keeps AC and L."""
        service = ["SERVE, DCA SAVE", "RAL", "DCA LINK", "TCF", "TAD LINK", "CLL RAR", "TAD SAVE", "ION", "JMP I 0"]
        return self.program(["TLS", *self.instructions(60)], first="ION", service=service)

    def fields(self) -> list[str]:
        """The data field is 1 or 0, and a subroutine of field 2 is called."""
        body = self.instructions(12) + ["CDF 10"] + self.instructions(12) + ["CIF 20", "JMS I FAR", "CDF 00"]
        body += ["RIF", "RDF"] + self.instructions(12) + ["CIF 20", "JMS I FAR", "CDF 00"] + self.instructions(6)
        far = ["FIELD 2", "*600", "0", self.operate(), "NOP", "TAD 620", "DCA 620", "RDF", "CIF 00", "JMP I 600"]
        return self.program(body, tail=["FAR, 600", *far])

    def talker(self) -> list[str]:
        """Reads the keyboard's buffer, adds a letter, prints it and waits for the printer, again and again."""
        body = ["KSF", "SKP", "NOP", "KRB", "TAD D4", "TSF", "NOP", "TLS", *self.instructions(16), "TSF", "JMP .-1", "TCF", *self.instructions(8)]
        return self.program(body)

    def rewriter(self) -> list[str]:
        """Each round writes the next of 64 operates into the loop."""
        table = [self.operate() for _ in range(64)]
        body = ["DCA D7", "TAD AT", "IAC", "AND MASK", "DCA AT", "TAD AT", "TAD BASE", "DCA HERE", "TAD I HERE", "DCA NEW", "TAD D7"]
        body += ["NEW, NOP", "NOP", *self.instructions(20)]
        tail = ["AT, 0", "MASK, 77", "BASE, 600", "HERE, 0", "*600", *table]
        return self.program(body, tail=tail)


    def transfers(self) -> dict[str, list[str]]:
        """Programs of IOTs, each a few instructions again and again."""
        far = ["FAR, 600", "FIELD 2", "*600", "0", "IAC", "CIF 00", "JMP I 600"]
        return {
            "krb": self.program(["KRB", "TAD D0", "CLL RAL"] * 16),
            "krs": self.program(["KRS", "TAD D0", "CLL RAL"] * 16),
            "tcf": self.program(["TCF", "TAD D0", "CLL RAL"] * 16),
            "read": self.program(["RIF", "IAC", "RDF", "CML RAR"] * 12),
            "cif": self.program(["CIF 00", "JMP .+1", "IAC"] * 16),
            "ion": self.program(["ION", "IAC", "IOF", "CML RAL"] * 12),
            "tls": self.program(["TLS", "IAC"] * 8),
            "far": self.program(["CIF 20", "JMS I FAR", "CML RAL"] * 16, tail=far),
        }


def main() -> None:
    drawing = Drawing(sys.argv[1], int(sys.argv[2]) if len(sys.argv) > 2 else 300)
    programs = {f"loop{k}": drawing.loop() for k in range(1, 7)} | drawing.transfers()
    for name in ("interrupts", "fields", "talker", "rewriter"):
        programs[name] = getattr(drawing, name)()
    for name, lines in programs.items():
        with open(f"{name}.pal", "w", encoding="ascii") as file:
            file.write("".join(line if line.startswith("*") else f"\t{line}" for line in (f"{line}\n" for line in lines)) + "$\n")


main()
