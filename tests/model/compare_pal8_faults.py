#!/usr/bin/env python3
"""compare_pal8_faults.py [--program FILE] [--sources N] [--seed S]: assembles sources of PAL8 with faults by the program `pdp8`. There are N random
ones, 2000 where nothing is said, N that are random bytes nearly, and N that are several texts with PAUSE in all places. It compares the first fault
that is printed and the further ones, each with its text, its line and its column, with the plain model's. Where there is none it compares the
listing. Of several texts it compares the tape or the numbered line, too. The same number is the same sources each time. The last line is 'N passed, M failed'.
"""
import functools
import os
import subprocess
import sys
import tempfile
from random import Random

sys.dont_write_bytecode = True
TOP = os.path.dirname(os.path.dirname(os.path.dirname(os.path.abspath(__file__))))
sys.path.insert(0, TOP)
from tests.model.compare_indexes import program_and_seeds
from tests.model.compare_pal8_sources import PIECES, Maker, nearly_bytes, options_by
from tests.model.pal8_faults import answer, headlines, listing
from tests.model.pal8_grammar import Options
from tests.options import patience
from tests.tally import Tally, fault_in

MOST = 20
BAD = ("#", "8", "5,", "#,", "A 10000", "(5]", "TAD (XX", "TAD YY+1", "1%0", "TAD I 1234", "TAD (1%0", "TAD (7)+ZZ", "CLA(5", "B=8", "B=QQ", "DECIMAL;9", "5 <")
PAUSES: tuple[str, ...] = ("PAUSE", "PAUSE", " pause /on", "PAUSE;8;#", "PAUSE$8", "IFZERO 0 <PAUSE>", "IFZERO 0 <;PAUSE;>8", "IFNZRO 0 <PAUSE>", "IFDEF A <PAUSE", "PAUSE>", "PAUSE<", "Q1, PAUSE")
PAUSES += ("PAUSE 1", "TEXT /PAUSE", "/PAUSE", "\fPAUSE\0;", ";;PAUSE", "PAUSEX", "TEXT PAUSEP", "XLIST PAUSE")
PAUSE_PIECES = (*PIECES, *"PAUSE PAUSE\n PAUSE> PAUSE; PAUSE$".split(" "), "\nPAUSE\n", "<PAUSE>", "PAUSE\f")
FULL = "".join(f"TAD [{k:o};*200\n" for k in range(0o176))


class Faulty(Maker):
    """Makes sources with more faults."""

    def __init__(self, seed: int) -> None:
        super().__init__(seed)
        self.has_faults = True
        self.share = self.random.choice((0.01, 0.04, 0.1))
        self.is_lexical = self.random.random() < 0.5

    def rarely(self) -> bool:
        return self.is_lexical and self.random.random() < self.share

    def body(self) -> str:
        if self.random.random() < 0.2:
            return self.random.choice(BAD if self.is_lexical else BAD[6:12])
        return super().body()

    def source(self) -> bytes:
        text = super().source()
        if self.random.random() < 0.1:
            text = FULL.encode("latin1") + text
        if self.random.random() < 0.1:
            text = text.replace(b"\n", b"\r\n").replace(b"#", b"\f#\0")
        return text


def several_texts(seed: int) -> list[bytes]:
    """Texts that are one source, mostly."""
    random = Random(seed)
    if random.random() < 0.3:
        return ["".join(random.choices(PAUSE_PIECES, k=random.randint(0, 12))).encode("latin1") for _ in range(random.randint(2, 5))] + [nearly_bytes(seed)]
    maker = Faulty(seed) if random.random() < 0.6 else Maker(seed)
    lines = maker.source().decode("latin1").replace("\r", "").split("\n")
    cuts = sorted(random.choices(range(len(lines) + 1), k=random.choice((1, 1, 2, 3, 7))))
    texts = []
    for start, end in zip([0, *cuts], [*cuts, len(lines)]):
        text = lines[start:end]
        if random.random() < 0.8:
            text.append(random.choice(PAUSES))
            text += random.choice((list[str](), list[str](), ["8", "#", "$"], ["A, >"], lines[:2]))
        if random.random() < 0.1:
            text.insert(random.randint(0, len(text)), random.choice(PAUSES))
        texts.append(("\n".join(text) + random.choice(("", "\n", "\n", "\n", "\n\f"))).encode("latin1"))
    texts[-1] = "\n".join([*lines[cuts[-1] :], *([random.choice(PAUSES)] if random.random() < 0.05 else [])]).encode("latin1")
    return [text.replace(b"\n", b"\r\n") for text in texts] if random.random() < 0.1 else texts


def printed(program: str, texts: list[bytes], options: Options, is_cross: bool) -> tuple[list[str], str, str]:
    """The text, where there are several, the line, the column and the code of each fault that the program prints, and the lines of the tape or the
    numbered line, and the listing."""
    names = [f"S{k}" for k in range(len(texts))]
    with tempfile.TemporaryDirectory(prefix="pdp8-faults-") as folder:
        for name, text in zip(names, texts):
            with open(f"{folder}/{name}", "wb") as file:
                file.write(text)
        done = subprocess.run([program, "assemble", "--pal8", *options.words(), *names, "--list", "L", *(["--cross"] if is_cross else []), "--output", "T"], cwd=folder, capture_output=True, timeout=patience(300))
        listed = open(f"{folder}/L", encoding="latin1", newline="").read() if os.path.exists(f"{folder}/L") else ""
        if done.returncode not in (0, 1):
            raise ValueError(f"status {done.returncode}")
        if done.returncode == 0 and not done.stderr and len(texts) > 1:
            return [], subprocess.run([program, "tape", "T"], cwd=folder, capture_output=True, timeout=patience(300)).stdout.decode("latin1"), listed
    lines = [it for it in done.stderr.decode("latin1").splitlines() if not it.startswith("note: S")]
    if bool(lines) != (done.returncode == 1) or done.stdout:
        raise ValueError(f"status {done.returncode} with {lines} and {done.stdout!r}")
    if not lines:
        return [], "", listed
    rest = lines[5:] if len(lines) > 4 else []
    first = 0 if len(texts) > 1 else 1
    return [":".join(line[1:].split(":")[first:4]) for line in [lines[0], *rest[::3]]], lines[3] + "\n", listed


def wrong(program: str, texts: list[bytes], options: Options, is_cross: bool) -> str:
    """How what is printed of texts differs from the model's; nothing where it doesn't."""
    came, last, listed = printed(program, texts, options, is_cross)
    wanted = headlines(texts, MOST, options)
    wanted_listing = "" if wanted else listing(texts, options, is_cross)
    is_same = came == wanted and (len(texts) == 1 or last == answer(*texts, options=options)) and listed == wanted_listing
    return "" if is_same else f"wanted {wanted} {answer(*texts, options=options)}\n    came {came} {last}{listed}{wanted_listing}"


def main() -> int:
    program, seeds = program_and_seeds(__doc__, "sources", 2000)
    tally = Tally()
    for seed in seeds:
        options = options_by(seed)
        for kind, texts in (("faulty", [Faulty(seed).source()]), ("nearly bytes", [nearly_bytes(seed)]), ("several texts", several_texts(seed))):
            fault = fault_in(functools.partial(wrong, program, texts, options, seed % 2 == 0))
            tally.add(kind, fault and f"seed {seed}: {options.words()} {texts!r}:\n    {fault}")
    return tally.end()


if __name__ == "__main__":
    sys.exit(main())
