#!/usr/bin/env python3
"""check_memory_claims.py [--list]: want of memory comes from a call that lacked memory, and from nowhere else. No contract sees the allocator, so a body
may answer `Memory` where nothing was refused, or ask for so much that it always is.

Over the sources of the program these are written only at the places of `PLACES`: a `Memory` of any fault, an `AllocError`, a fault that becomes one of
them, and a `with_capacity` or `reserve` of a constant above a page. A fault becomes want of memory where an arm that names it answers that, as
`DirFault::Device` does in a volume in memory. So does each fault of the crate's own that an arm catches without its name, each that such a fault holds,
and what a `From` makes one of them, or want of memory, of. Faults of another crate are followed so in the functions that lead to that arm or that `From`.
Everywhere else want of memory comes by `?`, by `From<AllocError>`, or by an arm whose pattern is that very fault or want of memory. A place is listed
by its text, with the pattern of its arm. One that isn't listed fails, and so does one that is listed and isn't there.
--list prints the places. The last line is 'N passed, M failed', a file being one.
"""
import functools
import os
import re
import sys
from dataclasses import dataclass
from typing import Iterator

sys.dont_write_bytecode = True
TOP = os.path.dirname(os.path.dirname(os.path.abspath(__file__)))
sys.path.insert(0, TOP)
from tests.match_arms import Arm, RunningText
from tests.rattle_sources import closing, crate_of, crates_of_program, files_of, source

PAGE = 4096
FAULT = r"\b\w+::[A-Z]\w*\b"
WANT = re.compile(r"\b\w+::(?:OutOf)?Memory\b|(?<![\w:])Memory\b|(?<![<:,] )(?<!<)\bAllocError\b(?! \{| as\b)")
CATCHES = re.compile(r"(?:Err\()?(?:_\w*|[a-z]\w*)\)?")
ENUM = re.compile(r"(?m)^(?:pub(?:\([\w: ]+\))? )?enum (\w+)[^{;]*\{")
ANSWER = re.compile(r"(?s)-> Result<(.*?)>\s*(?:where\b|requires\b|ensures\b|[{;]|\Z)")
# How much is asked for at once: what stands in these brackets.
ASKED = re.compile(r"\b(?:with_capacity|reserve\w*)\((.*)\)|\bresize\w*\(([^,]*),|\bvec!\[in \w+; (?:\[[^\]]*\]|[^;\[\]]*); ([^\]]*)\]")
# The texts that each function writes, by file, and why.
PLACES: dict[str, dict[str, dict[str, str]]] = {
    "assemble_commands/src/faults.rt": {
        "further_texts": {
            "Err(_) => Err(Ending::Fault(SessionFault::Memory))": "the faults of sources of which one was found can fail for nothing else",
        },
        "pal8_further_texts": {
            "Err(_) => Err(Ending::Fault(SessionFault::Memory))": "the faults of sources of which one was found can fail for nothing else",
        },
    },
    "block_scan/src/segments.rt": {
        "scratch_volume": {
            "Err(_) => Err(AllocError)": "a volume of as many blocks as another can fail for nothing else",
        },
        "no_directory": {
            "DirFault::Memory | DirFault::Device => Err(AllocError)": "a volume in memory refuses no read",
        },
    },
    "disk_layouts/src/copies.rt": {
        "tape_volume": {
            "let mut image = Vec::with_capacity(alloc, TAPE_VOLUME)?;": "the image of a DECtape's volume, which is asked for once",
        },
    },
    "drive_files/src/opening.rt": {
        "room_for": {
            "let room = Vec::with_capacity(alloc, 512 * SECTORS)?;": "room for a whole pack, so that no save takes memory",
        },
    },
    "history8/src/histories.rt": {
        "new": {
            "let spare = Vec::with_capacity(alloc, STRETCH)?;": "room for what is printed again, so that going back takes no memory",
        },
        "new_core": {
            "Err(_) => Err(AllocError)": "a new core can fail for nothing else",
        },
    },
    "pdp8e/src/papers.rt": {
        "new": {
            "Vec::with_capacity(alloc, ROOM)?": "room for a whole paper, so that no step takes memory",
        },
    },
    "pointer_flow/src/flows.rt": {
        "pointer_flow": {
            "let mut waiting = Vec::with_capacity(alloc, STATES)?;": "each state waits once at most, so that the walk takes no memory",
        },
        "unwritten_words": {
            "let mut unwritten = Vec::with_capacity(alloc, CORE)?;": "one for each cell of core",
        },
        "written_zeros": {
            "let mut flags = Vec::with_capacity(alloc, CORE)?;": "one for each cell of core",
        },
    },
    "pointer_notes/src/answers.rt": {
        "instruction_flags": {
            "let mut flags = Vec::with_capacity(alloc, CORE)?;": "one for each cell of core",
        },
        "all_answers": {
            "let mut answers = Vec::with_capacity(alloc, CORE)?;": "one for each cell of core",
        },
    },
    "pointer_flow/src/handler_cells.rt": {
        "joined_flags": {
            "let mut flags = Vec::with_capacity(alloc, CORE)?;": "one for each cell of core",
        },
    },
    "drive_files/src/devices.rt": {
        "paper_end": {
            "Err(Ending::Fault(SessionFault::Memory))": "a paper that isn't whole lacks what had no room on it, and the run's end says so",
        },
    },
    "get_commands/src/giving.rt": {
        "tell_laid": {
            "None => Err(Ending::Fault(SessionFault::Memory))": "`lay`'s own, which `line_of_laid` tells from the others",
        },
    },
    "os8_files/src/service/changes.rt": {
        "changed_directory": {
            "Err(_) => Err(AllocError)": "`without_file`, `with_new_file` and `moved_down` can fail for nothing else",
        },
    },
    "pal8_source/src/pools.rt": {
        "flags_of": {
            "let mut flags = Vec::with_capacity(alloc, CORE)?;": "a flag for each cell of core, asked for once",
        },
    },
    "pal8_source/src/sources.rt": {
        "kept_cells": {
            "let mut exempt = Vec::with_capacity(alloc, CORE)?;": "a flag for each cell of core, asked for once",
        },
        "all_but": {
            "let mut left = Vec::with_capacity(alloc, CORE)?;": "a flag for each cell of core, asked for once",
        },
    },
    "pal8_tape/src/faults.rt": {
        "from": {
            "SourceFault::Memory": "a `JoinFault` is nothing else",
        },
    },
    "script_commands/src/saves.rt": {
        "save": {
            "return Err(Ending::Fault(SessionFault::Memory));": "`put_bytes` can fail for nothing else",
        },
    },
    "script_commands/src/scripts.rt": {
        "new": {
            "let lines = Vec::with_capacity(alloc, ROOM)?;": "room for lines, which is asked for once",
        },
    },
    "system/src/files.rt": {
        "given_word": {
            "let mut room = vec![in alloc; 0; FIRST_ROOM << doublings]?;": "the next larger room, where a word had none in that before",
            "Err(AllocError)": "no word of the command line has more bytes than the largest room",
        },
    },
    "system_session/src/consoles.rt": {
        "new": {
            "return Err(DebugFault::Memory);": "`Core::new` can fail for nothing else",
        },
    },
    "system_session/src/endings.rt": {
        "from": {
            "_ => Ending::Memory": "of its calls' faults all but the reader's are want of memory",
        },
    },
    "system_session/src/sessions.rt": {
        "mount": {
            "return Err((store, DirFault::Memory));": "the line or the console was refused, and the store is handed back",
        },
        "run": {
            "return Err(SessionFault::Memory);": "the entry's answer is want of memory",
        },
    },
    "system_session/src/sessions/scripts.rt": {
        "run_entry": {
            "return Err(Ending::Memory);": "the entry's answer is want of memory",
        },
        "run_turn": {
            "return Err(Ending::Memory);": "the turn's answer is want of memory",
        },
    },
    "tape_reports/src/given.rt": {
        "flags_of": {
            "let mut flags = Vec::with_capacity(alloc, CORE)?;": "a flag for each cell of core, which is asked for once",
        },
    },
    "tape_source/src/sources.rt": {
        "words_in": {
            "let mut words = Vec::with_capacity(alloc, CORE)?;": "a word or none for each cell of core, asked for once",
        },
    },
    "tape_source/src/tags.rt": {
        "named_cells": {
            "let mut tags = Vec::with_capacity(alloc, CORE)?;": "a flag for each cell of core, asked for once",
        },
    },
    "trace8/src/traces.rt": {
        "trace": {
            "let mut lines = Vec::with_capacity(alloc, HANDED_ON_AT_ONCE + LONGEST_LINE)?;": "the lines that wait, some pages, asked for once",
        },
    },
    "trace8e/src/traces.rt": {
        "trace": {
            "let mut lines = Vec::with_capacity(alloc, HANDED_ON_AT_ONCE + LONGEST_LINE)?;": "the lines that wait, some pages, asked for once",
        },
    },
    "volume_image/src/fuses.rt": {
        "read": {
            "return Err(DeviceFault);": "a fuse is made to refuse a read",
        },
        "write": {
            "return Err(DeviceFault);": "a fuse is made to refuse a write",
        },
    },
    "volume_index/src/choosing.rt": {
        "text_holds": {
            "Err(_) => Err(AllocError)": "the text of a file can fail for nothing else",
        },
    },
    "volume_salvage/src/salvages.rt": {
        "fitted_volume": {
            "Err(_) => Err(AllocError)": "a volume of as many blocks as one that is there can be refused for nothing else",
        },
    },
    "volume_salvage/src/volumes.rt": {
        "mount_new": {
            "Err(_) => Err(RescueFault::Unread)": "a new volume has no fault of its own",
        },
        "keep_file": {
            "return Err(Refusal::NoName(place));": "its first word is 0",
            "return Err(Refusal::NotWhole(place));": "it has no word, or a part of a block",
            "Err(FileFault::NoRoom(largest)) => Err(Refusal::NoRoom(place, largest))": "the file service's own, in the arm of its pattern",
            "Err(FileFault::DirectoryFull) => Err(Refusal::DirectoryFull(place))": "the file service's own, in the arm of its pattern",
            "Err(_) => Err(Refusal::Failed(place))": "the call failed, and not for the file",
        },
    },
}


def constants(paths: list[str]) -> dict[str, int]:
    """The constants of a crate with their values, where these are plain numbers."""
    return {name: value for path in paths for name, value in source(path).constants().items()}


def is_large(asked: str, known: dict[str, int]) -> bool:
    """Whether what is asked for has a constant above a page in it, or one whose value isn't known."""
    if "<<" in asked or ".pow(" in asked:
        return True
    numbers = [int(it.replace("_", ""), 0) for it in re.findall(r"(?<![\w.])(?:0[xob])?[0-9][0-9a-f_]*", asked)]
    names = re.findall(r"\b[A-Z][A-Z0-9_]+\b", asked)
    return any(it > PAGE for it in numbers) or any(known.get(it, PAGE + 1) > PAGE for it in names)


@dataclass(frozen=True)
class Body:
    """A function of a source: its lines, its name, the fault that it answers, and what runs of it."""

    file: str
    first: int
    last: int
    name: str
    fault: str
    text: str

    def calls(self, is_passed_on: bool = False) -> set[str]:
        """The names that it calls; or those of whose calls it passes the faults on, by `?`."""
        found = ((it[1], closing(self.text, it.end() - 1)) for it in re.finditer(r"\b(\w+)\(", self.text))
        return {name for name, end in found if not is_passed_on or re.match(r"\)\s*\?", self.text[end:])}


class File:
    """A source of the program: what runs of it, the faults that it declares with what each holds, and what a `From` makes of which type."""

    def __init__(self, path: str) -> None:
        self.path, self.crate = path, crate_of(path)
        self.name = os.path.relpath(path, f"{TOP}/crates")
        self.running = RunningText(source(path))
        mask = source(path).mask
        self.faults = {it[1]: mask[it.end() : closing(mask, it.end() - 1)] for it in ENUM.finditer(mask)}
        # The lines of each `From`, what it is of and for.
        blocks = [it for it in source(path).blocks if it.trait == "From"]
        self.conversions = [(mask.count("\n", 0, it.begin), mask.count("\n", 0, it.end) + 1, it.of, it.owner) for it in blocks]

    @functools.cached_property
    def bodies(self) -> list[Body]:
        mask, found = source(self.path).mask, []
        for it in source(self.path).functions:
            first, last = mask.count("\n", 0, it.start) + 1, mask.count("\n", 0, it.end) + 1
            answer = ANSWER.search(mask[it.start : it.clauses[0].start if it.clauses else it.end])
            fault = (re.findall(r"\w+", answer[1]) or [""])[-1] if answer else ""
            text = "\n".join(line for number, _, line in self.running.lines if first <= number <= last)
            found.append(Body(self.name, first, last, it.name, fault, text))
        return found

    def conversion_at(self, place: int) -> tuple[str, str]:
        """Of which type and for which a `From` is, in which a place stands."""
        number = self.running.line_at(place)[0]
        return next(((of, owner) for first, last, of, owner in self.conversions if first < number <= last), ("", ""))

    def wants(self, followed: set[str]) -> Iterator[int]:
        """The places where want of memory is made up, or a fault that becomes it."""
        # (a bare name is that of a type, which is made up where it isn't one)
        names = [rf"\b{it}\b" if "::" in it else rf"(?<![<:,] )(?<!<)(?<!struct )\b{it}\b(?! \{{)" for it in sorted(followed)]
        for it in re.finditer("|".join([WANT.pattern, *names]), self.running.text):
            line = self.running.line_at(it.start())[2]
            if line.startswith(("use ", "pub use ")):
                if re.search(r"\bMemory\b|\bAllocError as\b", line):
                    yield it.start()
            elif line != "Memory," and not self.is_converted(it.start(), it[0]) and not self.is_given(it.start(), it[0], followed):
                yield it.start()

    def wants_in(self, ways: "list[Way]", followed: set[str]) -> Iterator[int]:
        """The places where a fault of another crate is made up on its way to want of memory."""
        for it in re.finditer(FAULT, self.running.text):
            number = self.running.line_at(it.start())[0]
            is_on_way = any(way.has(self.name, number, it[0]) for way in ways)
            if is_on_way and it[0] not in followed and not WANT.search(it[0]) and not self.is_given(it.start(), it[0], {it[0]}):
                yield it.start()

    def is_converted(self, place: int, fault: str) -> bool:
        """Whether a fault stands in a `From` that is given it: one of `AllocError`, or for one that isn't want of memory itself."""
        of, _ = self.conversion_at(place)
        return of == "AllocError" or bool(of) and not WANT.search(fault)

    def is_given(self, place: int, fault: str, followed: set[str]) -> bool:
        """Whether a fault stands in a pattern, or in an arm of which each pattern is that fault or want of memory."""
        if self.running.is_in_pattern(place):
            return True
        arm = self.running.arm_at(place)
        return bool(arm) and all(WANT.search(it) or (fault in followed and fault in it) for it in parts(arm))


@dataclass(frozen=True)
class Way:
    """The functions from which a type's faults become want of memory, by their files and lines, and those of its faults that don't."""

    fault: str
    others: frozenset[str]
    lines: frozenset[tuple[str, int, int]]

    def has(self, file: str, number: int, fault: str) -> bool:
        is_there = any(it[0] == file and it[1] <= number <= it[2] for it in self.lines)
        return is_there and fault.split("::")[0] == self.fault and fault not in self.others


def parts(arm: "Arm | None") -> list[str]:
    """The patterns of an arm."""
    return re.split(r" ?\| ", arm.pattern.removeprefix("| ")) if arm else []


def owned(name: str, files: list[File], crate: str) -> Iterator[str]:
    """The faults of a type that a crate declares, and those that they hold."""
    for file in files:
        if file.crate == crate and name in file.faults:
            for variant, held in re.findall(r"(?m)^\s*([A-Z]\w*)(?:\(([^)]*)\))?,", re.sub(r"#\[[^\]]*\]", "", file.faults[name])):
                yield f"{name}::{variant}"
                for it in re.findall(r"\b[A-Z]\w*", held):
                    yield from owned(it, files, crate)


def is_own(fault: str, file: File, files: list[File]) -> bool:
    """Whether the crate of a file declares a fault."""
    return any(it.crate == file.crate and fault.split("::")[0] in it.faults for it in files)


def named_beside(arm: Arm, file: File) -> set[str]:
    """The faults that the other arms of a match name."""
    siblings = [it for it in file.running.arms if it is not arm and file.running.match_at(it) == file.running.match_at(arm)]
    return {it for sibling in siblings for it in re.findall(FAULT, sibling.pattern)}


def called_before(arm: Arm, file: File, files: list[File]) -> list[Body]:
    """The functions of the crate whose answer an arm's match looks at."""
    call = re.search(r"(\w+)\([^{};]*\) \Z", file.running.text[: file.running.match_at(arm)])
    return [body for it in files if it.crate == file.crate for body in it.bodies if call and body.name == call[1] and body.fault]


def caught(arm: Arm, file: File, files: list[File]) -> Iterator[str]:
    """The faults that become what an arm answers: those that it names, or those of the crate's own that it catches without their names."""
    for part in parts(arm):
        yield from re.findall(FAULT, part) if not WANT.search(part) else ()
        if CATCHES.fullmatch(part):
            beside = named_beside(arm, file)
            for name in {it.split("::")[0] for it in beside} | {it.fault for it in called_before(arm, file, files)}:
                yield from (it for it in owned(name, files, file.crate) if it not in beside)


def catches_all(arm: "Arm | None") -> bool:
    """Whether faults become what is answered without being named: there is no arm, or a pattern of it catches all."""
    return not arm or any(CATCHES.fullmatch(it) for it in parts(arm))


def way_to(fault: str, others: set[str], begun: list[Body], names: set[str], near: list[File]) -> Way:
    """The functions that some call by these names and that answer a fault, those that they call, and so on."""
    found = [*begun]
    while more := [it for file in near for it in file.bodies if it.fault == fault and it.name in names and it not in found]:
        found += more
        names = names.union(*(it.calls() for it in more))
    return Way(fault, frozenset(others), frozenset((it.file, it.first, it.last) for it in found))


def ways_of_arms(file: File, files: list[File], followed: set[str]) -> Iterator[Way]:
    """The ways on which faults of other crates come to an arm that makes them want of memory, and catches them without their names."""
    near = [it for it in files if it.crate == file.crate]
    for place in file.wants(followed):
        arm = file.running.arm_at(place)
        if arm and catches_all(arm):
            for it in called_before(arm, file, files):
                if not [*owned(it.fault, files, file.crate)]:
                    yield way_to(it.fault, named_beside(arm, file), [it], it.calls(), near)


def converted(file: File, files: list[File], followed: set[str]) -> Iterator["str | Way"]:
    """What each `From` makes want of memory of, or one of the faults that become it: faults, or the ways on which those of another crate come there."""
    near = [it for it in files if it.crate == file.crate]
    for made in re.finditer(rf"{WANT.pattern}|{FAULT}", file.running.text):
        of, owner = file.conversion_at(made.start())
        fault, of = made[0].replace("Self::", f"{owner}::"), of.split("::")[-1]
        if of in ("", "AllocError") or file.running.is_in_pattern(made.start()) or not (WANT.search(fault) or fault in followed):
            continue
        arm = file.running.arm_at(made.start())
        yield from (it for it in caught(arm, file, files) if not WANT.search(it)) if arm else ()
        if catches_all(arm):
            others, own = named_beside(arm, file) if arm else set[str](), [*owned(of, files, file.crate)]
            yield from (it for it in own if it not in others and not WANT.search(it))
            if not any(of in it.faults for it in files):
                yield of
            elif not own:
                begun = [body for it in near for body in it.bodies if body.fault == owner]
                yield way_to(of, others, begun, set[str]().union(*(it.calls(True) for it in begun)), near)


def followed_faults(files: list[File]) -> tuple[set[str], list[Way]]:
    """The faults that become want of memory in some arm, those of which a `From` makes one of them, and the ways of those of other crates."""
    found, size, ways = set[str](), -1, list[Way]()
    while size < len(found):
        size, known, ways = len(found), frozenset(found), []
        for file in files:
            for place in file.wants({*known}):
                if arm := file.running.arm_at(place):
                    found |= {it for it in caught(arm, file, files) if not WANT.search(it) and (not known or is_own(it, file, files))}
            made = [*converted(file, files, {*known})] if file.conversions else []
            found |= {it for it in made if isinstance(it, str)}
            ways += [*(it for it in made if isinstance(it, Way)), *ways_of_arms(file, files, {*known})]
    return found, ways


def places() -> tuple[dict[tuple[str, str], list[str]], dict[tuple[str, str], list[str]], list[str]]:
    """The texts of what each function makes up, by file, and the lines."""
    files = [File(path) for crate in crates_of_program() for path in files_of(crate)]
    followed, ways = followed_faults(files)
    found: dict[tuple[str, str], list[str]] = {}
    lines: dict[tuple[str, str], list[str]] = {}
    known = {crate: constants(files_of(crate)) for crate in crates_of_program()}
    for file in files:
        made = [(it, file.running.text_at(it)) for it in [*file.wants(followed), *file.wants_in(ways, followed)]]
        made += [(it, file.running.line_at(it)[2]) for it in large(file, known[file.crate])]
        for place, text in made:
            number, name, line = file.running.line_at(place)
            found.setdefault((file.name, name), []).append(text)
            lines.setdefault((file.name, name), []).append(f"{number}: {line}")
    return found, lines, [it.name for it in files]


def large(file: File, known: dict[str, int]) -> Iterator[int]:
    """The places where more is asked for at once than a page."""
    for it in ASKED.finditer(file.running.text):
        if is_large("".join(filter(None, it.groups())), known):
            yield it.start()


def main() -> int:
    found, lines, files = places()
    if "--list" in sys.argv:
        for place, texts in found.items():
            print(*place, *texts, sep="\n    ")
        return 0
    listed = {(file, name): [*texts] for file, names in PLACES.items() for name, texts in names.items()}
    bad = set[str]()
    for place in sorted(found.keys() | listed.keys()):
        texts, wanted = found.get(place, []), listed.get(place, [])
        if sorted(texts) != sorted(wanted):
            file, name = place
            print(f"check_memory_claims: {file}, {name}: {len(texts)} wants of memory are made up, {len(wanted)} listed", *texts, *lines.get(place, []), sep="\n    ")
            bad.add(file)
    if not files:
        print("check_memory_claims: there is no source")
        bad.add("")
    print(f"check_memory_claims: {sum(map(len, found.values()))} wants of memory, in {len(found)} functions\n{len({*files, *bad}) - len(bad)} passed, {len(bad)} failed")
    return 1 if bad else 0


if __name__ == "__main__":
    sys.exit(main())
