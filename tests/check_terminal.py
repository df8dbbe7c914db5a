#!/usr/bin/env python3
"""check_terminal.py [--program FILE] [--launch FILE] [CASE..]: runs programs at the Teletype through a pseudo-terminal, as a person would, with what ./pdp8 and an installed
pdp8 do around the program. It tries keys one by one and in bursts, the game, each end, and each way in which the program or the shell around it can
be ended. A disk that boots is tried so too, and must be saved. Each time it looks that the terminal is as it was, and that no process is left. It looks at an index as a terminal shows it, and answers what `create` asks there. Another launcher may be given, and some of the cases alone. The last line is
'N passed, M failed'.
"""
import argparse
import functools
import os
import pty
import re
import select
import shutil
import signal
import struct
import subprocess
import sys
import tempfile
import termios
import time
from typing import Any, Callable

sys.dont_write_bytecode = True
TOP = os.path.dirname(os.path.dirname(os.path.abspath(__file__)))
sys.path.insert(0, TOP)
from tests.model.tape import tape_of
from tests.options import patience
from tests.tally import Tally, fault_in

PATIENCE = patience(20)
READY = b"Ctrl-\\ ends it\r\n"
ECHO = [0o6031, 0o5200, 0o6036, 0o6046, 0o6041, 0o5204, 0o5200]
# prints a dot for each 4096 looks at the keyboard that find no key, and ends at a key
DOTS = [0o6031, 0o7410, 0o7402, 0o2210, 0o5200, 0o1211, 0o6046, 0o5212, 0o0000, 0o0256, 0o7200, 0o5200]
# Sector 0 of a disk from the cell 00031 on: it prints each key, counts it in the cell 00061, and writes the cells 00000 to 00177 to sector 1. Then
# it waits for a key again, or in the second one loops for ever.
COUNTS = [0o6031, 0o5031, 0o6036, 0o6046, 0o2061, 0o7000, 0o7200, 0o1062, 0o6746, 0o6744, 0o1063, 0o6743, 0o6741, 0o5045, 0o5031, *[0] * 9, 0, 0o4100, 1]
LOOPS = [*COUNTS[:14], 0o5047, *COUNTS[15:]]


class Sitting:
    """A program at a pseudo-terminal."""

    def __init__(self, folder: str, *words: str, more: str = "", command: str = "teletype") -> None:
        self.said = b""
        self.status: int | None = None
        command = f'. ./launch; launch ./pdp8 {command} "$@" {more}'
        known, told = os.pipe()
        self.shell, self.terminal = pty.fork()
        if self.shell == 0:
            os.read(known, 1)  # waits until the settings of the terminal are known
            # who runs the gate in the background, or by nohup, has these ignored, and what inherits that isn't ended by them
            for signalled in (signal.SIGINT, signal.SIGQUIT, signal.SIGHUP):
                signal.signal(signalled, signal.SIG_DFL)
            os.chdir(folder)
            os.execvp("bash", ["bash", "-uc", command, "pdp8", *words])
        self.before = attributes(self.terminal)
        os.write(told, b"!")
        os.close(told)
        os.close(known)

    def waits_for(self, wanted: bytes) -> bool:
        """Reads until something was said, and answers whether it was."""
        begun = time.monotonic()
        while wanted not in self.said and time.monotonic() - begun < PATIENCE and self.read(0.1):
            pass
        return wanted in self.said

    def read(self, seconds: float) -> bool:
        try:
            if select.select([self.terminal], [], [], seconds)[0]:
                more = os.read(self.terminal, 4096)
                self.said += more
                return bool(more)
        except OSError:
            return False
        return True

    def strikes(self, keys: bytes) -> None:
        os.write(self.terminal, keys)

    def child(self) -> int:
        """The number of the program's process."""
        begun = time.monotonic()
        while time.monotonic() - begun < PATIENCE:
            for number in subprocess.run(["pgrep", "-P", str(self.shell)], capture_output=True, text=True).stdout.split():
                if program_of(int(number)).endswith("/pdp8"):
                    return int(number)
            time.sleep(0.02)
        return 0

    def ends(self) -> int | None:
        """The status with which the shell ends, and what is wrong after that."""
        begun = time.monotonic()
        while time.monotonic() - begun < PATIENCE:
            done, status = os.waitpid(self.shell, os.WNOHANG)
            if done:
                self.status = os.waitstatus_to_exitcode(status)
                break
            self.read(0.02)
        while self.read(0) and select.select([self.terminal], [], [], 0)[0]:
            pass
        return self.status

    def is_as_it_was(self) -> bool:
        """Whether the terminal gets its settings back, soon."""
        begun = time.monotonic()
        while time.monotonic() - begun < PATIENCE:
            if attributes(self.terminal) == self.before:
                return True
            time.sleep(0.02)
        return False


def attributes(terminal: int) -> list[Any]:
    found = termios.tcgetattr(terminal)
    return found[:4] + [found[6]]


def program_of(number: int) -> str:
    """The file that a process runs; none where the process has ended."""
    try:
        return os.readlink(f"/proc/{number}/exe")
    except OSError:
        return ""


def is_gone(child: int) -> bool:
    begun = time.monotonic()
    while time.monotonic() - begun < PATIENCE:
        if not os.path.exists(f"/proc/{child}"):
            return True
        time.sleep(0.02)
    return False


def ended(sitting: Sitting, child: int, status: int, what: str) -> list[str]:
    """What is wrong at an end."""
    got = sitting.ends()
    told = [] if got == status else [f"{what}: status {got}, and not {status}: {sitting.said!r}"]
    told += [] if sitting.is_as_it_was() else [f"{what}: the terminal is not as it was"]
    told += [] if is_gone(child) else [f"{what}: the program is left"]
    os.close(sitting.terminal)
    return told


def begun(folder: str, *words: str, more: str = "", command: str = "teletype") -> tuple[Sitting, int, list[str]]:
    sitting = Sitting(folder, *words, more=more, command=command)
    told = [] if sitting.waits_for(READY) else [f"no first line: {sitting.said!r}"]
    child = sitting.child()
    return sitting, child, told + ([] if child else ["there is no program below the shell"])


def game(folder: str) -> list[str]:
    """The guessing game, each answer once its question stands; a key of the player's name at a time."""
    sitting, child, told = begun(folder, "guess.bin")
    for question, keys in ((b"NAME? ", [b"A", b"D", b"A", b"\r"]), (b"GUESS? ", [b"5\x7f50\r"]), (b"TOO LOW", [b"90\r"]), (b"TOO HIGH", [b"7", b"9\r"])):
        told += [] if sitting.waits_for(question) else [f"no {question!r}: {sitting.said!r}"]
        for key in keys:
            sitting.strikes(key)
    told += [] if sitting.waits_for(b"HALT 00263 AC 0000 L 1\r\n") else [f"no HALT: {sitting.said!r}"]
    told += [] if b"NAME? ADA\r\r\n" in sitting.said and b"GUESS? 5\\50 TOO LOW" in sitting.said else [f"said {sitting.said!r}"]
    return told + ended(sitting, child, 0, "the game")


def keys(folder: str) -> list[str]:
    """Keys that a shell would take for itself, and a burst of them; what is shown is what the program prints."""
    sitting, child, told = begun(folder, "echo.bin")
    for burst in (b"\x03", b"\x1a", b"\x11\x13", b"\x16\x04", bytes(range(65, 91)) * 40 + b"\r"):
        before = len(sitting.said)
        sitting.strikes(burst)
        sitting.waits_for(burst)
        told += [] if sitting.said[before:] == burst else [f"struck {burst!r}, and got {sitting.said[before:]!r}"]
    sitting.strikes(b"\x1c")
    return told + ended(sitting, child, 131, "Ctrl-\\")


def waiting(folder: str) -> list[str]:
    """A program that waits takes no time of the processor, and one that looks between other work goes on."""
    sitting, child, told = begun(folder, "echo.bin")
    sitting.strikes(b"A")
    told += [] if sitting.waits_for(READY + b"A") else [f"no echo: {sitting.said!r}"]
    ticks = []
    for seconds in (0.2, 1):
        time.sleep(seconds)
        ticks.append(spent(child))
    told += [] if ticks[1] - ticks[0] <= 5 else [f"waiting took {ticks[1] - ticks[0]} ticks of a second"]
    os.kill(sitting.shell, signal.SIGTERM)
    told += ended(sitting, child, 143, "SIGTERM")
    sitting, child, more = begun(folder, "dots.bin")
    sitting.strikes(b"A")
    more += [] if sitting.waits_for(b"HALT 00203") else [f"no HALT: {sitting.said!r}"]
    return told + more + ended(sitting, child, 0, "a look in passing")


def spent(child: int) -> int:
    fields = open(f"/proc/{child}/stat", encoding="utf-8").read().rsplit(")", 1)[1].split()
    return int(fields[11]) + int(fields[12])


def killed(folder: str) -> list[str]:
    """Each way in which the program or the shell around it is ended."""
    told = []
    for what, number, whom, status in (
        ("SIGHUP", signal.SIGHUP, "shell", 129), ("SIGKILL of the program", signal.SIGKILL, "child", 137),
        ("SIGTERM of the program", signal.SIGTERM, "child", 143), ("SIGKILL of the shell", signal.SIGKILL, "shell", -9),
    ):  # fmt: skip
        sitting, child, more = begun(folder, "echo.bin")
        os.kill(sitting.shell if whom == "shell" or not child else child, number)
        told += more + ended(sitting, child, status, what)
    return told


def disk(folder: str, words: list[int]) -> str:
    """The file of a disk of one sector that has these words from the cell 00031 on."""
    with open(f"{folder}/D", "wb") as file:
        file.write(struct.pack("<256H", *[0] * 0o31, *words, *[0] * (256 - 0o31 - len(words))))
    return f"{folder}/D"


def counted(folder: str) -> int:
    """How many keys sector 1 of the disk has counted; -1 where there is none."""
    held = open(f"{folder}/D", "rb").read()
    return int.from_bytes(held[610:612], "little") if len(held) == 1024 else -1


def boots(folder: str) -> list[str]:
    """A disk that boots: its keys come one by one, and each way in which the run is ended but by SIGKILL saves it, while it waits and while it loops."""
    told = []
    for words, what in ((COUNTS, "a wait"), (LOOPS, "a loop")):
        for how, status in (("Ctrl-\\", 131), ("SIGHUP", 129), ("SIGTERM", 143), ("SIGKILL", -9), ("hang-up", None)):
            disk(folder, words)
            sitting, child, more = begun(folder, "D", command="boot")
            keys = b"AB" if words is COUNTS else b"A"
            for place in range(len(keys)):
                sitting.strikes(keys[place : place + 1])
                more += [] if sitting.waits_for(READY + keys[: place + 1]) else [f"no echo: {sitting.said!r}"]
            if how == "Ctrl-\\":
                sitting.strikes(b"\x1c")
            elif how == "hang-up":
                os.close(sitting.terminal)
                os.waitpid(sitting.shell, 0)
            else:
                os.kill(sitting.shell, getattr(signal, how))
            if how == "hang-up":
                more += [] if is_gone(child) else ["the program is left"]
            else:
                assert status is not None
                more += ended(sitting, child, status, how)
            more += [] if counted(folder) == len(keys) else [f"{counted(folder)} keys are saved, not {len(keys)}"]
            told += [f"{how} in {what}: {it}" for it in more]
    return told + saves(folder) + looks(folder)


def saves(folder: str) -> list[str]:
    """A disk is saved while a key is waited for, without an end of the run; a kill leaves that."""
    disk(folder, COUNTS)
    sitting, child, told = begun(folder, "D", "--every", "1", command="boot")
    for count in (1, 2, 3):
        sitting.strikes(b"A")
        begin = time.monotonic()
        while counted(folder) != count and time.monotonic() - begin < PATIENCE:
            sitting.read(0.02)
        told += [] if counted(folder) == count else [f"{counted(folder)} keys are saved in the run, not {count}"]
    os.kill(child, signal.SIGKILL)
    told += ended(sitting, child, 137, "SIGKILL of a boot")
    return told + ([] if counted(folder) == 3 else [f"a kill leaves {counted(folder)} keys"])


def looks(folder: str) -> list[str]:
    """A look at a disk leaves its file."""
    old = open(disk(folder, COUNTS), "rb").read()
    sitting, child, told = begun(folder, "D", "--look", "--capitals", command="boot")
    sitting.strikes(b"a")
    told += [] if sitting.waits_for(READY + b"A") else [f"no capital: {sitting.said!r}"]
    sitting.strikes(b"\x1c")
    told += ended(sitting, child, 131, "a look")
    return told + ([] if open(f"{folder}/D", "rb").read() == old else ["a look changes the file"])


def streams(folder: str) -> list[str]:
    """Standard output in a file, and closed."""
    sitting, child, told = begun(folder, "echo.bin", more="> out")
    sitting.strikes(b"IN A FILE\r")
    begin = time.monotonic()
    while open(f"{folder}/out", "rb").read() != b"IN A FILE\r" and time.monotonic() - begin < PATIENCE:
        time.sleep(0.02)
    told += [] if open(f"{folder}/out", "rb").read() == b"IN A FILE\r" else ["standard output is not handed on before a key is waited for"]
    sitting.strikes(b"\x1c")
    told += ended(sitting, child, 131, "standard output in a file")
    sitting = Sitting(folder, "echo.bin", more=">&-")
    sitting.waits_for(READY)
    sitting.strikes(b"A")
    told += [] if sitting.waits_for(b"? 9 WRITER\r\n") else [f"standard output closed: {sitting.said!r}"]
    return told + ended(sitting, 0, 1, "standard output closed")


def shown(folder: str, *words: str, is_output: bool) -> bytes:
    """What a call prints to a terminal, which is its standard output, or else its standard error while standard output is the file `lines`."""
    terminal, end = pty.openpty()
    with open(f"{folder}/lines", "wb") as lines:
        run = subprocess.Popen(["./pdp8", *words], cwd=folder, stdin=subprocess.DEVNULL, stdout=end if is_output else lines, stderr=end)
    os.close(end)
    said = read_all(terminal, run.kill)
    run.wait(PATIENCE)
    os.close(terminal)
    return said


def read_all(terminal: int, end: Callable[[], None], answer: Callable[[bytes], None] = lambda said: None) -> bytes:
    """What is said at a terminal until the program ends; one that says nothing for too long is ended."""
    said = b""
    try:
        while more := os.read(terminal, 4096) if select.select([terminal], [], [], PATIENCE)[0] else b"":
            said += more
            answer(said)
    except OSError:  # the terminal of a process that has ended
        return said
    end()
    return said


def index(folder: str) -> list[str]:
    """The index at a terminal: its columns line up. With standard output elsewhere it shows how far it is."""
    shutil.copy(f"{folder}/echo.bin", f"{folder}/ECHO.BN")
    for words in (("create", "V", "40"), ("put", "V", f"{TOP}/examples/hello.pa", "--text"), ("put", "V", "ECHO.BN")):
        subprocess.run(["./pdp8", *words], cwd=folder, stdout=subprocess.DEVNULL, check=True, timeout=PATIENCE)
    shutil.copy(f"{folder}/V", f"{folder}/longer")
    lines = [it for it in shown(folder, "index", "V", "longer", is_output=True).split(b"\r\n") if it]
    places = {tuple(it.start() for it in re.finditer(rb"(?<=  )\S", line)) for line in lines}
    told = [] if len(lines) == 4 and len(places) == 1 and len(places.pop()) == 7 else [f"columns of the index: {lines!r}"]
    os.mkfifo(f"{folder}/slow")
    with subprocess.Popen(["sh", "-c", "sleep 4; cat V >slow"], cwd=folder):
        said = shown(folder, "index", "slow", "missing", "V", is_output=False)
    told += [] if re.fullmatch(rb"1 of 3\rnote: missing: no such file\r\nmissing: \? HOST READ\r\n(2 of 3\r)?\x1b\[K", said) else [f"progress of the index: {said!r}"]
    return told + ([] if open(f"{folder}/lines", "rb").read().count(b"\t") == 28 else ["lines of the index with progress"])


def answered(folder: str, answer: bytes, *words: str) -> tuple[bytes, int]:
    """What a call prints at a terminal where it is answered so, and its status."""
    child, terminal = pty.fork()
    if child == 0:
        os.chdir(folder)
        os.execv("./pdp8", ["./pdp8", *words])
    answers = [answer]

    def strike(said: bytes) -> None:
        if b"leaves it\r\n" in said and answers:
            os.write(terminal, answers.pop())

    said = read_all(terminal, lambda: os.kill(child, signal.SIGKILL), strike)
    os.close(terminal)
    return said, os.waitstatus_to_exitcode(os.waitpid(child, 0)[1])


def creation(folder: str) -> list[str]:
    """A new volume in place of a file that isn't empty: only `y` lets it go. Nothing is asked of a new or an empty file."""
    told = []
    for name, words in (("W", ("create", "W", "20")), ("E", ("create", "E", "20")), ("T", ("create", "T", "--dectape"))):
        if name == "E":
            open(f"{folder}/E", "wb").close()
        said, status = answered(folder, b"", *words)
        told += [] if (said.startswith(b"CREATED "), status) == (True, 0) else [f"a volume in no file's place: {said!r} {status}"]
    subprocess.run(["./pdp8", "put", "W", "echo.bin", "--as", "ECHO"], cwd=folder, stdout=subprocess.DEVNULL, check=True, timeout=PATIENCE)
    old = open(f"{folder}/W", "rb").read()
    note = b"note: W is there, and is not empty: y replaces it, and anything else leaves it\r\n"
    for command in ("create W 20", "create W --dectape", "create W --rk05", "create W:2"):
        for answer in (b"n\n", b"\n", b"yes\n", b"Y\n", b" y\n", b"\x04"):
            said, status = answered(folder, answer, *command.split())
            kept = open(f"{folder}/W", "rb").read() == old
            told += [] if said.startswith(note) and said.endswith(b"? HOST EXISTS\r\n") and (status, kept) == (1, True) else [f"{command} answered {answer!r}: {said!r} {status}"]
    said, status = answered(folder, b"y\n", "create", "W", "20")
    told += [] if said.startswith(note) and said.endswith(b"CREATED 20\r\n") and status == 0 else [f"a volume that replaces: {said!r} {status}"]
    told += [] if open(f"{folder}/W", "rb").read() != old else ["a file that may go has stayed"]
    said, status = answered(folder, b"", "create", "W", "20", "--new")
    return told + ([] if (said, status) == (b"note: W: a file of that name is there\r\n? HOST EXISTS\r\n", 1) else [f"a first volume: {said!r} {status}"])


CASES: dict[str, Callable[[str], list[str]]] = {it.__name__: it for it in (game, keys, waiting, killed, boots, streams, index, creation)}


def tried(case: Callable[[str], list[str]], program: str, launcher: str) -> str:
    """What is wrong with a case, in a folder of its own, line by line."""
    with tempfile.TemporaryDirectory(prefix="pdp8-terminal-") as folder:
        shutil.copy(program, f"{folder}/pdp8")
        shutil.copy(launcher, f"{folder}/launch")
        for name, it in (("echo", ECHO), ("dots", DOTS)):
            with open(f"{folder}/{name}.bin", "wb") as file:
                file.write(bytes(tape_of([(0o200 + k, word) for k, word in enumerate(it)])))
        if case is game:
            subprocess.run(["./pdp8", "assemble", f"{TOP}/examples/guess.pa", "--output", "guess.bin"], cwd=folder, check=True, timeout=PATIENCE)
        return "\n".join(f"check_terminal: {line}" for line in case(folder))


def main() -> int:
    words = argparse.ArgumentParser(description=__doc__, formatter_class=argparse.RawDescriptionHelpFormatter)
    words.add_argument("--program", default=f"{TOP}/crates/pdp8/out/pdp8")
    words.add_argument("--launch", default=f"{TOP}/build/launch.sh")
    words.add_argument("cases", nargs="*")
    given = words.parse_args()
    program = os.path.abspath(given.program)
    if not os.path.isfile(program):
        sys.exit(f"check_terminal: there is no program {program}: ./prove builds it")
    tally = Tally(len(CASES))
    for name in given.cases or CASES:
        tally.add(name, fault_in(functools.partial(tried, CASES[name], program, given.launch)))
    return tally.end()


if __name__ == "__main__":
    sys.exit(main())
