"""Runs a case through the program and compares it with the model; a case that differs is made as short as it can be."""
import re
import subprocess
import tempfile
from dataclasses import dataclass
from typing import Callable
from tests.model.cases import Case
from tests.model.system import Differs, System, Told
from tests.model.volume import Unsound, Volume, read_volume
from tests.model.words import shown_name
from tests.options import patience

SECONDS = 60


@dataclass
class Ended:
    """What the program printed for a case, on both streams, the image after it, and its status."""

    replies: bytes
    errors: bytes
    image: bytes
    status: int


def run_program(program: str, case: Case) -> Ended:
    with tempfile.TemporaryDirectory(prefix="pdp8-model-") as folder:
        path = f"{folder}/V"
        with open(path, "wb") as file:
            file.write(case.image)
        done = subprocess.run([program, "run", path], input=case.script, capture_output=True, timeout=patience(SECONDS))
        with open(path, "rb") as file:
            return Ended(done.stdout, done.stderr, file.read(), done.returncode)


def lines_of(replies: bytes) -> list[str]:
    """The reply lines with every byte but the LF that ends each. Where the last has none it is marked; no reply is like it then."""
    *lines, rest = replies.decode("latin-1").split("\n")
    return lines + [f"{rest} (without a LF)"] if rest else lines


def outside(image: bytes, volume: Volume) -> bytes:
    """The blocks that the directory does not cover, but its own."""
    end = volume.first + volume.capacity
    return image[:512] + image[7 * 512 : volume.first * 512] + image[end * 512 :]


def files_fault(system: System, before: bytes, image: bytes) -> str:
    """How the image differs from the files of the model, or from the one before in blocks that no file may have."""
    wanted, got = system.volume, read_volume(image)
    if (wanted.first, wanted.capacity, wanted.info) != (got.first, got.capacity, got.info):
        return "the directory covers other blocks"
    if outside(image, wanted) != outside(before, wanted):
        return "a block that the directory does not cover has changed"
    if wanted.files.keys() != got.files.keys():
        return "the image has other files: " + ", ".join(sorted(shown_name(it) for it in wanted.files.keys() ^ got.files.keys()))
    changed = [shown_name(name) for name, file in wanted.files.items() if got.files[name] != file]
    if changed:
        return "the image has other words in " + ", ".join(sorted(changed))
    return "the image has a file elsewhere" if wanted.runs != got.runs else ""


def compared(program: str, case: Case) -> tuple[str, set[str]]:
    """How the program and the model differ in a case, or nothing; and which of the cases at an edge it has met."""
    ended = run_program(program, case)
    system = System(read_volume(case.image), Told(lines_of(ended.replies)))
    try:
        system.run(case.script)
        fault = files_fault(system, case.image, ended.image)
    except (Differs, Unsound) as differs:
        fault = str(differs)
    faults = [fault, f"the status is {ended.status}" if ended.status else ""]
    faults += [f"standard error has {ended.errors[:200]!r}"] if ended.errors else []
    return "\n".join(filter(None, faults)), set(system.met)


def compared_safely(program: str, case: Case) -> tuple[str, set[str]]:
    """The same, where whatever breaks the comparison off is a fault of the case too."""
    try:
        return compared(program, case)
    except subprocess.TimeoutExpired as late:
        return f"no end within {late.timeout} seconds", set()
    except Exception as broken:
        return f"the comparison broke off: {broken!r}", set()


def without_some(case: Case, differs: Callable[[Case], bool]) -> Case:
    """Leaves out entries, many at once and then one by one, so long as the case still differs."""
    size = len(case.entries)
    while size:
        at = 0
        while at < len(case.entries):
            shorter = Case(case.image, case.entries[:at] + case.entries[at + size :])
            if differs(shorter):
                case = shorter
            else:
                at += size
        size //= 2
    return case


def with_fewer_lines(case: Case, differs: Callable[[Case], bool]) -> Case:
    """The same with the lines of each text."""
    for at, entry in enumerate(case.entries):
        if not entry.startswith(b"STORE") or entry.count(b"\n") < 2:
            continue
        head, text = entry.split(b"\n", 1)
        name = head.split(b" ")[1]

        def with_lines(lines: list[bytes], at: int = at, name: bytes = name) -> Case:
            stored = b"STORE %s %d\n" % (name, len(lines)) + b"".join(lines)
            return Case(case.image, case.entries[:at] + [stored] + case.entries[at + 1 :])

        def still_differs(it: Case, make: Callable[[list[bytes]], Case] = with_lines) -> bool:
            return differs(make(it.entries))

        lines = re.findall(rb"[^\n]*\n", text)
        fewer = without_some(Case(b"", lines), still_differs)
        if differs(with_lines(fewer.entries)):
            case = with_lines(fewer.entries)
    return case


def shortest(program: str, case: Case) -> Case:
    def differs(shorter: Case) -> bool:
        return compared_safely(program, shorter)[0] != ""

    return with_fewer_lines(without_some(case, differs), differs)
