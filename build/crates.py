"""The crates that crates.txt lists, and what a proof of one rests on."""
import os
from typing import Sequence

from build.sums import files_below, sum_of

TOP = os.path.dirname(os.path.dirname(os.path.abspath(__file__)))
PARTS = ("src", "specs", "proofs")


class Crates:
    """The repository's crates, lowest first, with what each stands on: others of them, and libraries of the toolchain."""

    def __init__(self, top: str = TOP) -> None:
        self.top, self.lines, self.sums, self.lower = top, dict[str, str](), dict[str, str](), dict[str, set[str]]()
        with open(f"{top}/crates.txt", encoding="utf-8") as text:
            listed = text.readlines()
        for line in listed:
            head, colon, _ = line.split("#")[0].partition(":")
            if colon:
                self.lines[head.split()[0]] = line.split("#")[0].strip()
        stands = {name: line.split(":")[1].split() for name, line in self.lines.items()}
        self.names = list(stands)
        self.own = {name: [it for it in below if it in stands] for name, below in stands.items()}
        self.of_toolchain = {name: ["std", *(it for it in below if it not in stands)] for name, below in stands.items()}

    def below(self, name: str) -> list[str]:
        """The crates that this one stands on, directly or not, lowest first."""
        found = self.all_below(name)
        return [it for it in self.names if it in found]

    def all_below(self, name: str) -> set[str]:
        if name not in self.lower:
            self.lower[name] = {it for own in self.own[name] for it in (own, *self.all_below(own))}
        return self.lower[name]

    def is_program(self, name: str) -> bool:
        return os.path.exists(f"{self.top}/crates/{name}/src/main.rt")

    def files(self, name: str, parts: Sequence[str] = PARTS) -> list[str]:
        """The files of a crate: all that a proof of it reads, or those of some of its folders."""
        return files_below(f"{self.top}/crates/{name}/{part}" for part in parts)

    def sum(self, name: str) -> str:
        """The sum of all that a crate's proof rests on: its files, the libraries of the toolchain, and the sums of the crates below it."""
        if name not in self.sums:
            below = [f"{it} {self.sum(it)}" for it in self.own[name]]
            self.sums[name] = sum_of("proof", self.top, [name, *self.of_toolchain[name], *below], self.files(name))
        return self.sums[name]
