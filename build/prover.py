"""How the toolchain's prover is called for a crate, and when it has proved it. Nothing else stands here, since each proof and each refusal rests on
the bytes of this file (build/sums.py): a change of it has all proved again.
"""
import os
import shlex
from typing import Callable

from build.crates import Crates
from build.toolchain import toolchain


def words_for(crates: Crates, name: str, library: Callable[[str], str]) -> list[str]:
    """The prover's words for a crate, in whose folder it is called. `library` gives the place where one of those below it is built."""
    kit = toolchain()
    words = ["--crate-name", name, "src/main.rt" if crates.is_program(name) else "src/lib.rt"]
    for it in crates.of_toolchain[name]:
        words += ["--extern", f"{it}={kit}/rlibs/{it}.rlib"]
    for it in crates.own[name]:
        words += ["--extern", f"{it}={library(it)}"]
    for folder in (f"{kit}/rlibs", *(os.path.dirname(library(it)) for it in crates.below(name))):
        words += ["-L", f"dependency={folder}"]
    words += ["--antt-project", f"{kit}/rattle/logic/antt-project.json", "--logic-built", f"{kit}/logic_built"]
    return [*words, "--links", f"{name}="]


def library_command(words: list[str], jobs: int, made: str) -> list[str]:
    """What proves a library, and leaves what it states."""
    return [f"{toolchain()}/bin/rattle", "build", *words, "--jobs", str(jobs), "--statements", "-o", made]


def program_command(words: list[str], jobs: int, made: str, tools: str) -> list[str]:
    """What proves a program, and compiles and links it by the toolchain in the folder `tools`."""
    kit = toolchain()
    built = [f"{kit}/bin/rattle", "build", *words, "--jobs", str(jobs), "--toolchain", tools, "-o", f"{made}.o"]
    link = [f"{kit}/bin/rattle-link", "--target", "x86_64-unknown-linux-gnu", "--toolchain", tools, "-o", made, f"{made}.o"]
    link += [f"{kit}/c/{it}" for it in ("libos_c.a", "liblibc_c.a")]
    return ["sh", "-c", f"{shlex.join(built)} && {shlex.join(link)}"]


def has_proved(status: int) -> bool:
    """Whether a call of one of these commands that ended so has proved its crate. A signal that ended it is a negative status."""
    return status == 0
