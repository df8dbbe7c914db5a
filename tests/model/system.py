"""The system machine: files and where they lie, jobs by their schedule, and the console. It compares each reply that a program gave
with its own."""
from __future__ import annotations

from collections import Counter
from dataclasses import dataclass, field
from typing import Optional
from tests.model.assembler import Fault, assembled
from tests.model.edges import met_at, met_by
from tests.model.machine import Machine
from tests.model.script import Entry, entries_of
from tests.model.tape import TapeFault, meaning_of, tape_of
from tests.model.volume import File, Volume
from tests.model.words import BLOCK_FRAMES, Name, frames_of, octal, packed, parsed_name, shown_name, stored_text

FULL = "? 4.3 DIRECTORY FULL"


class Differs(Exception):
    """A reply that is not allowed."""


def visible(line: str) -> str:
    """A line whose characters that don't print are written out."""
    return line.encode("unicode_escape").decode()


class Told:
    """The lines that a program gave, one after another."""

    def __init__(self, lines: list[str]) -> None:
        self.lines, self.at = lines, 0

    def peek(self) -> str:
        return self.lines[self.at] if self.at < len(self.lines) else "(no line)"

    def take(self, wanted: str, entry: str) -> None:
        if self.peek() != wanted:
            raise Differs(f"{visible(entry)}\n    wanted  {wanted}\n    got     {visible(self.peek())}")
        self.at += 1


@dataclass
class Job:
    """A job: what it holds, and how many turns it may take and took. Its outcome is known from its start, since what it holds stays as it is."""

    kind: str
    name: Name
    holds: list[Name]
    turns: int
    outcome: Optional[list[tuple[int, int]] | dict[int, int] | Fault | TapeFault] = None
    taken: int = 0


@dataclass
class System:
    volume: Volume
    told: Told
    machine: Machine = field(default_factory=Machine)
    jobs: dict[int, Job] = field(default_factory=dict)
    met: Counter[str] = field(default_factory=Counter)

    def run(self, script: bytes) -> None:
        """Does the entries of a script, and compares each reply with the one that the program gave."""
        for entry in entries_of(script):
            shown = b" ".join([entry.verb.encode(), *entry.operands]).decode("latin-1") or "(a bad line)"
            if entry.verb == "FINISH":
                self.finish(shown)
                continue
            replies = self.replies(entry)
            for line in replies:
                self.told.take(line, shown)
            self.met.update(met_by(entry, replies[0]))
        if self.told.at < len(self.told.lines):
            raise Differs(f"behind the last entry\n    got     {visible(self.told.peek())}")

    def finish(self, shown: str) -> None:
        while self.jobs:
            reply = self.turn(min(self.jobs), is_shown=False)
            if not reply.startswith("WORKING"):
                self.told.take(reply, shown)
        self.told.take("FINISHED", shown)

    def replies(self, entry: Entry) -> list[str]:
        if not entry.verb:
            return ["? 1 BAD LINE"]
        if entry.verb == "DIRECT":
            files = sorted(self.volume.files.items())
            free = self.volume.capacity - self.volume.used
            return [f"{shown_name(name)} {file.blocks}" for name, file in files] + [f"FREE {free}"]
        known = {"STORE": self.store, "DELETE": self.delete, "ASSEMBLE": self.assemble, "LOAD": self.load, "SQUEEZE": self.squeeze}
        if entry.verb in known:
            return [known[entry.verb](entry)]
        if entry.verb == "TURN":
            return [self.turn(int(entry.operands[0]), is_shown=True)]
        return [self.console(entry)]

    # Files

    def is_held(self, name: Name, but: Optional[Job] = None) -> bool:
        return any(name in job.holds for job in self.jobs.values() if job is not but)

    def put(self, name: Name, words: list[int]) -> str:
        """Puts a file in, new or in place of an older one; or why it is refused."""
        volume = self.volume
        file = File((0,) * volume.info, words)
        runs = volume.with_file(name, file.blocks)
        if runs is None:
            return f"? 4.2 NO ROOM {volume.largest}"
        if len(runs) > volume.limit:
            return FULL
        volume.files[name], volume.runs = file, runs
        return ""

    def store(self, entry: Entry) -> str:
        name, words = parsed_name(entry.operands[0]), stored_text(entry.text)
        if name is None:
            return "? 4.5 BAD NAME"
        if words is None:
            return "? 7 BAD TEXT"
        if self.is_held(name):
            return f"? 4.4 BUSY {shown_name(name)}"
        return self.put(name, words) or f"STORED {shown_name(name)} {self.volume.files[name].blocks}"

    def delete(self, entry: Entry) -> str:
        name = parsed_name(entry.operands[0])
        if name is None:
            return "? 4.5 BAD NAME"
        if name not in self.volume.files:
            return "? 4.1 NOT FOUND"
        if self.is_held(name):
            return f"? 4.4 BUSY {shown_name(name)}"
        runs = self.volume.without(name)
        if len(runs) > self.volume.limit:
            return FULL
        del self.volume.files[name]
        self.volume.runs = runs
        return f"DELETED {shown_name(name)}"

    # Jobs

    def refused(self, names: list[Optional[Name]]) -> str:
        """The first refusal at a job's start that all kinds have; the names are those of its sources."""
        if None in names:
            return "? 4.5 BAD NAME"
        if len(self.jobs) == 8:
            return "? 3 TOO MANY JOBS"
        return "" if all(name in self.volume.files for name in names) else "? 4.1 NOT FOUND"

    def begin(self, job: Job) -> str:
        number = next(it for it in range(1, 9) if it not in self.jobs)
        self.jobs[number] = job
        return f"JOB {number}"

    def assemble(self, entry: Entry) -> str:
        target, sources = parsed_name(entry.operands[0]), [parsed_name(it) for it in entry.operands[1].split(b",")]
        if target is None:
            return "? 4.5 BAD NAME"
        if fault := self.refused([*sources]):
            return fault
        holds = [name for name in sources if name]
        if self.is_held(target) or target in holds:
            return f"? 4.4 BUSY {shown_name(target)}"
        files = [self.volume.files[name] for name in holds]
        turns = 2 * sum(file.blocks for file in files) + 1
        return self.begin(Job("ASSEMBLE", target, holds, turns, assembled([file.words for file in files])))

    def load(self, entry: Entry) -> str:
        name = parsed_name(entry.operands[0])
        fault = self.refused([name])
        if fault or name is None:
            return fault
        file = self.volume.files[name]
        return self.begin(Job("LOAD", name, [name], file.blocks + 1, meaning_of(frames_of(file.words))))

    def squeeze(self, entry: Entry) -> str:
        return self.refused([]) or self.begin(Job("SQUEEZE", (0, 0, 0, 0), [], len(self.volume.files) + 1))

    def turn(self, number: int, is_shown: bool) -> str:
        job = self.jobs.get(number)
        if job is None:
            return "? 2 NO JOB"
        job.taken += 1
        kinds = {"ASSEMBLE": self.assembling_turn, "LOAD": self.loading_turn, "SQUEEZE": self.squeezing_turn}
        end = kinds[job.kind](job)
        if not end:
            return f"WORKING {number}"
        del self.jobs[number]
        if is_shown and isinstance(job.outcome, (Fault, TapeFault)):
            self.met.update(met_at(job.outcome.place, "tape" if job.kind == "LOAD" else "source"))
        return f"JOB {number} {end}"

    def assembling_turn(self, job: Job) -> str:
        if isinstance(job.outcome, Fault):
            return f"? 5 {job.outcome.code} {job.outcome.line}" if job.taken == job.outcome.turn else ""
        if job.taken < job.turns or not isinstance(job.outcome, list):
            return ""
        if self.is_held(job.name, job):
            return f"? 4.4 BUSY {shown_name(job.name)}"
        return self.put(job.name, packed(tape_of(job.outcome))) or f"ASSEMBLED {shown_name(job.name)} {self.volume.files[job.name].blocks}"

    def loading_turn(self, job: Job) -> str:
        if isinstance(job.outcome, TapeFault):
            place = job.outcome.place
            return job.outcome.line if job.taken == (place // BLOCK_FRAMES + 1 if place >= 0 else job.turns - 1) else ""
        if job.taken < job.turns or not isinstance(job.outcome, dict):
            return ""
        for cell, word in job.outcome.items():
            self.machine.core[cell] = word
        return f"LOADED {shown_name(job.name)}"

    def squeezing_turn(self, job: Job) -> str:
        """Moves a file down. Where none can be moved, and at its last turn, the job is at its end."""
        runs = self.volume.moved_down()
        if runs is None:
            return "SQUEEZED"
        if len(runs) > self.volume.limit:
            return FULL
        self.volume.runs = runs
        return "" if job.taken < job.turns else "SQUEEZED"

    # The console

    def console(self, entry: Entry) -> str:
        machine, verb = self.machine, entry.verb
        shown = [it.decode() for it in entry.operands]
        number = int(shown[0], 10 if verb in ("STEP", "GO") else 8) if shown else 0
        if verb == "START":
            machine.start(number)
            return f"STARTED {shown[0]}"
        if verb in ("STEP", "GO", "RUN"):
            if verb == "RUN":
                machine.start(number)
            made, why = machine.go(int(shown[-1]), minds_breaks=verb != "STEP", is_quick=verb == "RUN")
            return f"STEPS {made} {why} {octal(machine.here, 5)}"
        if verb == "KEY":
            machine.key(number)
        elif verb == "DONE":
            machine.done()
        elif verb == "SWITCHES":
            machine.switches = number
        elif verb == "EXAMINE":
            return f"{shown[0]} {octal(machine.core[number], 4)}"
        elif verb == "DEPOSIT":
            machine.core[number] = int(shown[1], 8)
            return " ".join(shown)
        elif verb == "REGISTERS":
            return machine.registers()
        elif verb == "BREAK":
            if shown[1] == "ON" and number not in machine.breaks and len(machine.breaks) == 64:
                return "? 11 TOO MANY BREAKS"
            (machine.breaks.add if shown[1] == "ON" else machine.breaks.discard)(number)
        elif verb == "PRINTED":
            return "".join(["PRINTED", *(" " + octal(it, 3) for it in machine.printed)])
        return " ".join([verb, *shown])
