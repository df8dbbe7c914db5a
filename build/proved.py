#!/usr/bin/env python3
"""proved.py [--status | --as-is | NAME]: proves the crates that the program pdp8 stands on, as many side by side as there are processors, and builds
it. With NAME it is that program of the repository, which a benchmark measures. What the gate has proved is only compiled anew, and with --as-is it stays
as it is.

Each crate is proved once, over what the crates below it state, by the toolchain's prover. What it states is kept in its out/program/ with a sum of
all that the proof rests on. So a run that was broken off goes on after the last crate that was whole. A changed source has its crate and those above
it proved again. What is proved is shown on standard error; the log of a crate that fails is shown, and named. --status prints which program a call of
./pdp8 runs. The status is 0 where it is the proved one.
"""
import functools
import hashlib
import os
import shutil
import subprocess
import sys
import time

sys.dont_write_bytecode = True
TOP = os.path.dirname(os.path.dirname(os.path.abspath(__file__)))
sys.path.insert(0, TOP)
from build.crates import Crates
from build.prover import has_proved, library_command, program_command, words_for
from build.seconds import UNKNOWN, seconds
from build.toolchain import kit, toolchain
from build.unproved import Build
from build.working import Group, Progress, heed_signals, lock, toolchain_with

PROGRAM = "pdp8"
MADE = f"{TOP}/crates/{PROGRAM}/out/{PROGRAM}"
LOGS = f"{TOP}/target/proving"
# What compiles the program: the toolchain's compiler, which lays direct jumps so that none crosses or ends at 32 bytes. There some processors are
# slow.
COMPILER = """#!/bin/sh
case " $* " in
*" -O3 "*) exec "{clang}" "$@" -mllvm -x86-branches-within-32B-boundaries -mllvm -align-all-functions=6 ;;
esac
exec "{clang}" "$@"
"""
# The memory that a job of the prover may take, in kB.
MEMORY_OF_A_JOB = 1_600_000


class Wanted:
    """The crates that a program stands on, and itself, lowest first, with what is kept of each."""

    def __init__(self, program: str = PROGRAM) -> None:
        self.all, self.program, self.made = Crates(), program, f"{TOP}/crates/{program}/out/{program}"
        self.names = [*self.all.below(program), program]
        self.sums = {name: self.all.sum(name) for name in self.names}

    def kept(self, name: str) -> str:
        return f"{TOP}/crates/{name}/out/program"

    def own_library(self, name: str) -> str:
        return f"{self.kept(name)}/{name}.rlib"

    def library(self, name: str) -> str:
        """A crate's library: the one that is built here, or else the one that the toolchain's gate left."""
        own = self.own_library(name)
        return own if os.path.exists(own) else f"{TOP}/crates/{name}/out/rlib/{name}.rlib"

    def mark(self, name: str, note: str) -> str:
        """What is kept of a crate's proof: the sum of what it rests on, and of the program also the sum of its bytes. Where it was compiled by
        COMPILER, that is kept too. Of a library that the toolchain's gate left it is also the time of that library."""
        if name == self.program:
            compiler = f" {hashlib.sha256(COMPILER.encode()).hexdigest()}" if note == "laid" else ""
            return f"{self.sums[name]} {hashlib.sha256(open(self.made, 'rb').read()).hexdigest()}{compiler}"
        left = "" if os.path.exists(self.own_library(name)) else f" {os.stat(f'{self.library(name)}/format').st_mtime_ns}"
        return f"{self.sums[name]}{left}"

    def sum_now(self, name: str) -> str:
        """The sum of a crate as it stands now, over those below it as they stood."""
        now = Crates()
        now.sums = {it: known for it, known in self.sums.items() if it != name}
        return now.sum(name)

    def is_proved(self, name: str, note: str = "sum") -> bool:
        """Whether the crate was proved as it stands here."""
        try:
            return open(f"{self.kept(name)}/{note}", encoding="utf-8").read() == self.mark(name, note)
        except OSError:
            return False

    def is_laid(self) -> bool:
        """Whether the program was proved as it stands here, and compiled by COMPILER."""
        return self.is_proved(self.program) and self.is_proved(self.program, "laid")

    def keep(self, name: str, note: str = "sum") -> None:
        """Notes that the crate is proved as it stands here."""
        os.makedirs(self.kept(name), exist_ok=True)
        with open(f"{self.kept(name)}/{note}", "w", encoding="utf-8") as kept:
            kept.write(self.mark(name, note))

    def keep_all(self) -> None:
        """Notes that all was proved by the toolchain's gate, which has just left the program and libraries."""
        for name in self.names:
            shutil.rmtree(self.own_library(name), ignore_errors=True)
            if name == self.program or os.path.exists(self.library(name)):
                self.keep(name)

    def command(self, name: str, jobs: int, tools: str) -> list[str]:
        """What proves a crate, in its folder, and compiles the program by the toolchain in the folder `tools`."""
        words = words_for(self.all, name, self.library)
        if name != self.program:
            return library_command(words, jobs, self.own_library(name))
        return program_command(words, jobs, f"{self.kept(name)}/{name}", tools)

    @functools.cached_property
    def chains(self) -> dict[str, float]:
        """The seconds of the longest chain of crates from each one up to the program."""
        taken, chains = seconds(), dict[str, float]()
        for name in reversed(self.names):
            above = (chains[it] for it in chains if name in self.all.own[it])
            chains[name] = taken.get(name, UNKNOWN) + max(above, default=0)
        return chains


class Proof:
    """The proof of one crate, as it runs."""

    def __init__(self, wanted: Wanted, name: str, jobs: int, tools: str, group: Group) -> None:
        self.wanted, self.name, self.jobs, self.begun = wanted, name, jobs, time.monotonic()
        self.log = f"{LOGS}/{name}.log"
        if name != wanted.program:  # which may be proved, and only compiled anew
            shutil.rmtree(wanted.kept(name), ignore_errors=True)
        os.makedirs(wanted.kept(name), exist_ok=True)
        with open(self.log, "wb") as log:
            self.run = group.start(wanted.command(name, jobs, tools), cwd=f"{TOP}/crates/{name}", stdout=log, stderr=subprocess.STDOUT)

    def has_ended(self) -> bool:
        return self.run.poll() is not None

    def has_proved(self) -> bool:
        """Whether the crate is proved, which is then noted. A source that has changed meanwhile was perhaps not what was proved."""
        if not has_proved(self.run.returncode):
            return False
        if self.wanted.sum_now(self.name) != self.wanted.sums[self.name]:
            with open(self.log, "a", encoding="utf-8") as log:
                log.write("a source has changed while it was proved; the next call proves it anew\n")
            return False
        if self.name == self.wanted.program:
            os.replace(f"{self.wanted.kept(self.name)}/{self.name}", self.wanted.made)
            self.wanted.keep(self.name, "laid")
        self.wanted.keep(self.name)
        return True


def jobs_that_fit() -> int:
    """How many jobs of the prover the memory that is free holds."""
    found = [line.split()[1] for line in open("/proc/meminfo", encoding="utf-8") if line.startswith("MemAvailable:")]
    return max(1, int(found[0]) // MEMORY_OF_A_JOB)


def share(wanted: Wanted, ready: list[str], idle: int) -> tuple[str, int]:
    """The crate that is to be proved next, of those that are ready, and its jobs: the one with the longest chain above it goes first. A
    second job costs a prover nearly half its processor seconds again and gains it little time, so it gets only what no other crate waits
    for."""
    return max(ready, key=lambda it: wanted.chains[it]), max(1, idle // len(ready))


def prove(wanted: Wanted, progress: Progress, tools: str, group: Group) -> Proof | None:
    """Proves all crates, each once those below it are proved. Returns the proof that failed, if one did."""
    below = [it for it in wanted.names if it != wanted.program]
    done, running = {it for it in below if wanted.is_proved(it)}, dict[str, Proof]()
    processors, most = len(os.sched_getaffinity(0)), jobs_that_fit()
    while len(done) < len(wanted.names):
        ready = [it for it in wanted.names if it not in done and it not in running and done.issuperset(wanted.all.own[it])]
        taken = sum(it.jobs for it in running.values())
        if ready and taken < min(most, processors):
            name, jobs = share(wanted, ready, processors - taken)
            running[name] = Proof(wanted, name, min(jobs, most - taken), tools, group)
            continue
        progress.show(f"proving {min(len(done) + 1, len(wanted.names))} of {len(wanted.names)}, {', '.join(running)}")
        time.sleep(0.1)
        for proof in [it for it in running.values() if it.has_ended()]:
            del running[proof.name]
            if not proof.has_proved():
                return proof
            done.add(proof.name)
            if not progress.is_live:
                seconds = f"{time.monotonic() - proof.begun:.0f} s"
                progress.say(f"proved {len(done)} of {len(wanted.names)}, {proof.name}, {seconds}, {progress.clock()} in all")
    return None


def status(wanted: Wanted) -> int:
    """Prints which program a call of ./pdp8 runs. The status is 0 where it is the proved one."""
    if wanted.is_proved(PROGRAM):
        print(f"./pdp8 runs the proved program ({kit()})")
        return 0
    if Build(PROGRAM).is_current():
        print("./pdp8 runs the program that was built with checks and is not proved here; ./prove proves it")
    else:
        print("the next call of ./pdp8 builds the program with checks and no proof; ./prove builds it proved")
    return 1


def prove_program(wanted: Wanted, is_as_is: bool) -> int:
    """Proves what is not proved yet and builds the program. The exit status."""
    progress, program = Progress(), wanted.program
    lock(f"{TOP}/build", progress, "another run proves the program: this one waits for it")
    if wanted.is_laid() or (is_as_is and wanted.is_proved(program)):
        os.utime(wanted.made)  # a source may be newer, though it is what was proved
        print(f"{program} is proved as its sources stand, with {kit()}")
        return 0
    if wanted.is_proved(program):
        progress.say(f"{program} is proved; it is compiled anew, so that it is faster; this takes some minutes, once")
    else:
        progress.say(f"proving and building the program {program}, {len(wanted.names)} crates; this takes some 25 minutes on four processors, once")
    os.makedirs(LOGS, exist_ok=True)
    group = Group()
    try:
        with toolchain_with(COMPILER.format(clang=f"{toolchain()}/toolchain/bin/clang")) as tools:
            failed = prove(wanted, progress, tools, group)
    except KeyboardInterrupt:
        progress.say("broken off; the next ./prove goes on from here")
        return 130
    finally:
        group.end()
    progress.clear()
    if failed:
        sys.stderr.write(open(failed.log, encoding="utf-8", errors="replace").read())
        progress.say(f"{failed.name} is not proved; its log is {failed.log}")
        return 70
    shutil.rmtree(LOGS, ignore_errors=True)
    print(f"{program} is proved, with {kit()}" + ("; ./pdp8 runs the proved program now" if program == PROGRAM else ""))
    return 0


def main(words: list[str]) -> int:
    crates, options = Crates(), ("--status", "--as-is")
    names = [it for it in words if it in crates.names and crates.is_program(it)]
    if len(words) > 1 or any(it not in (*options, *names) for it in words):
        print("prove: usage: ./prove, or ./prove --status", file=sys.stderr)
        return 2
    heed_signals()
    try:
        return status(Wanted()) if "--status" in words else prove_program(Wanted(*names), "--as-is" in words)
    except OSError as error:
        print(f"prove: {error.filename or 'the build'}: {error.strerror}", file=sys.stderr)
        return 70


if __name__ == "__main__":
    sys.exit(main(sys.argv[1:]))
