#!/usr/bin/env python3
"""check_damaged_images.py: what the commands make of damaged images. A volume with files has words changed, blocks exchanged, emptied or copied, is
cut or goes on; then each command works on it. None breaks off. One that looks, or is refused, leaves each byte as it was. After one that writes, each
file that could be got before, and that it doesn't name, is got as before. `rescue` makes a sound volume with each file that `check --all` reports as
sound, in their order and with its words, except those that it reports as left out. Each look, rescue, change and file is counted once it was tried.
The last line is 'N passed, M failed'.

usage: check_damaged_images.py [--program FILE] [--images N] [--seed N]
"""
import concurrent.futures
import functools
import os
import random
import subprocess
import sys
import tempfile
from typing import Callable

TOP = os.path.dirname(os.path.dirname(os.path.abspath(__file__)))
sys.dont_write_bytecode = True
sys.path.insert(0, TOP)
from tests.options import option, patience
from tests.tally import Tally, fault_in

BLOCK = 512
PROGRAM = os.path.abspath(option("--program", f"{TOP}/crates/pdp8/out/pdp8"))
IMAGES = int(option("--images", "300"))
SEED = int(option("--seed", "1"))
# A script that writes, with the names that it may change.
SCRIPT = b"DELETE C.TX\nSTORE NEW.TX 2\nONE\nTWO\nSQUEEZE\nFINISH\nDIRECT\n"
NAMED = {"C.TX", "NEW.TX"}


def pdp8(*words: str, given: bytes = b"") -> tuple[int, bytes]:
    """A command's status and output; one that breaks off or hangs is an exception."""
    run = subprocess.run([PROGRAM, *words], input=given, stdout=subprocess.PIPE, stderr=subprocess.DEVNULL, timeout=patience(20))
    if run.returncode not in (0, 1):
        raise AssertionError(f"{' '.join(words)} ended with status {run.returncode}")
    return run.returncode, run.stdout


def volume(folder: str) -> bytes:
    """The bytes of a volume with files of several lengths, and gaps."""
    name = f"{folder}/whole"
    said = [pdp8("create", name, "80")]
    for k, letter in enumerate("ABCDEFGHIJ"):
        said.append(pdp8("put", name, "-", "--as", f"{letter}.TX", "--text", given=f"{letter} {'.' * 60}\n".encode() * (7 * k + 1)))
    said.append(pdp8("run", name, given=b"DELETE B.TX\nDELETE F.TX\n"))
    names = [line.split()[0] for line in pdp8("list", name)[1].splitlines()]
    if any(status for status, _ in said) or names != [*(b"%c.TX" % letter for letter in b"ACDEGHIJ"), b"FREE"]:
        raise AssertionError(f"the volume is not made: {said} {names}")
    return read(name)


def read(name: str) -> bytes:
    with open(name, "rb") as file:
        return file.read()


def damage(whole: bytes, chance: random.Random) -> bytes:
    """The bytes with one to four kinds of damage, half of them in the directory, blocks 1 to 6."""
    image = bytearray(whole)
    for _ in range(chance.choice((1, 1, 1, 2, 3, 4))):
        blocks = max(1, len(image) // BLOCK)
        at = chance.choice((1, chance.randrange(1, 7), *[chance.randrange(blocks)] * 2)) % blocks * BLOCK
        kind = chance.randrange(7)
        if kind == 0:
            image[at : at + BLOCK] = bytes(BLOCK)
        elif kind == 1:
            other = chance.randrange(blocks) * BLOCK
            image[at : at + BLOCK] = image[other : other + BLOCK].ljust(BLOCK, b"\0")
        elif kind == 2:
            del image[chance.randrange(len(image) + 1) :]
        elif kind == 3:
            image += bytes(chance.randrange(1, 3 * BLOCK))
        else:
            for _ in range(chance.choice((1, 1, 2, 8))):
                place = at + 2 * chance.choice((*range(5, 12), *[chance.randrange(256)] * 7))
                if place + 1 < len(image):
                    image[place : place + 2] = chance.randrange(65536 if kind == 4 else 4096).to_bytes(2, "little")
    return bytes(image)


def pdp8_of(image: bytes, name: str, command: str, *words: str) -> tuple[int, bytes]:
    """What a command that looks says of an image."""
    with open(name, "wb") as file:
        file.write(image)
    try:
        return pdp8(command, name, *words)
    finally:
        os.remove(name)


def files_of(lines: bytes, head: bytes) -> list[list[bytes]]:
    """The name, the first block and the length of each file among lines, by their head."""
    return [line.removeprefix(head).rsplit(b" ", 2) for line in lines.splitlines() if line.startswith(head)]


def words_of(image: bytes, file: list[bytes]) -> tuple[bytes, bytes]:
    """A file's name as it is shown, and the bytes of its blocks, by its line."""
    name, place, size = file[0], int(file[1]), int(file[2])
    return name, image[BLOCK * place : BLOCK * (place + size)]


class Damaged:
    """A damaged image in a file of its own."""

    def __init__(self, folder: str, number: int, whole: bytes) -> None:
        self.name = f"{folder}/{number}"
        self.write(damage(whole, random.Random(f"{SEED} {number}")))
        self.found = [("damaged images" if self.image != whole else "whole images", "")]

    def write(self, image: bytes) -> None:
        self.image = image
        with open(self.name, "wb") as file:
            file.write(image)

    def looks(self, *words: str, given: bytes = b"") -> tuple[int, bytes]:
        """What a command prints that is to leave the image alone."""
        answer = pdp8(*words, given=given)
        if read(self.name) != self.image:
            raise AssertionError(f"{words[0]} changed the image")
        return answer

    def held(self) -> dict[str, bytes] | None:
        """The files that can be got, with their frames, or none where the directory isn't sound."""
        status, listed = self.looks("list", self.name)
        if status:
            return None
        names = [line.split()[0].decode() for line in listed.splitlines() if not line.startswith(b"FREE")]
        got = {name: self.looks("get", self.name, "--", name) for name in names}
        return {name: frames for name, (status, frames) in got.items() if not status}

    def writes(self, named: set[str], *words: str, given: bytes) -> None:
        """Whether a command that may write keeps what it doesn't name."""
        before = self.held()
        status, told = pdp8(*words, given=given)
        after = read(self.name)
        if (before is None or (words[0] == "put" and status)) and after != self.image:
            raise AssertionError(f"{words[0]} was refused and changed the image")
        self.write(after)
        if before is not None:
            held = self.held() or {}
            kept = {name: held.get(name) == frames for name, frames in before.items() if name not in named}
            self.found += [("files", "" if is_kept else f"{self.name}: {words[0]} lost {name}") for name, is_kept in kept.items()]
            if words[0] == "put" and not status and self.looks("get", self.name, "NEW.TX", "--text")[1] != given:
                raise AssertionError("what was put isn't got")

    def rescued(self) -> None:
        """Whether each file that `check --all` reports as sound is one of a new volume, except those that are reported as left out."""
        status, told = self.looks("check", self.name, "--all")
        new = f"{self.name}.new"
        done, lines = self.looks("rescue", self.name, new)
        if told.startswith((b"? IMAGE", b"? HOST")):
            if lines != told or not done or os.path.exists(new):
                raise AssertionError("rescue takes an image that check refuses")
            self.found.append(("refused images", ""))
            return
        left = files_of(lines, b"LEFT FILE ")
        found = files_of(told, b"FILE ")
        kept = [it for it in found if it not in left]
        image = read(new)
        os.remove(new)
        listed = pdp8_of(image, self.name + ".look", "check", "--all")
        files = files_of(listed[1], b"FILE ")
        if listed[0] or len(image) != len(self.image) // BLOCK * BLOCK or (status and not done):
            raise AssertionError("the new volume is not sound, or has another size, or nothing is said of a loss")
        if not lines.endswith(f"RESCUED {len(kept)}\n".encode()) or [words_of(self.image, it) for it in kept] != [words_of(image, it) for it in files]:
            raise AssertionError("the new volume has other files")
        self.found += [("rescued files", "")] * len(kept)

    def tried(self) -> list[tuple[str, str]]:
        """What was tried on this image, each by its kind and with what is wrong."""
        image = self.image
        steps: dict[str, Callable[[], object]] = {
            "checks": lambda: self.looks("check", self.name),
            "rescues": self.rescued,
            "lists": lambda: self.looks("run", self.name, given=b"DIRECT\n"),
            "puts": lambda: self.writes({"NEW.TX"}, "put", self.name, "-", "--as", "NEW.TX", "--text", given=b"new\n" * 50),
            "scripts": lambda: self.writes(NAMED, "run", self.name, given=SCRIPT),
        }
        for kind, step in steps.items():
            self.write(image)
            fault = fault_in(functools.partial(fault_of, step))
            self.found.append((kind, fault and f"{os.path.basename(self.name)}: {fault}"))
        os.remove(self.name)
        return self.found


def fault_of(step: Callable[[], object]) -> str:
    step()
    return ""


def main() -> int:
    tally = Tally()
    with tempfile.TemporaryDirectory(prefix="pdp8-damaged-") as folder, concurrent.futures.ThreadPoolExecutor() as lanes:
        try:
            whole = volume(folder)
        except (AssertionError, OSError, subprocess.TimeoutExpired) as broken:
            tally.add("volumes", f"check_damaged_images: {broken}")
            return tally.end()
        for found in lanes.map(lambda number: Damaged(folder, number, whole).tried(), range(IMAGES)):
            for kind, fault in found:
                tally.add(kind, fault and f"check_damaged_images: {fault}")
    return tally.end()


if __name__ == "__main__":
    sys.exit(main())
