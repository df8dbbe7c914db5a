#!/usr/bin/env python3
"""check_races.py: the program in a folder that others may write to, and with standard streams that nobody reads. Another user races 200 changes of
an image that root makes. He takes the new file's name for a link to a file of root's, which must stay root's. Or he opens the new file as soon as it
is there, and must not read a private image by that. Without root's rights the race is with the own user. Then the link must have no effect, and each
new file must be one that no other user may open. `index` and `check` must end where standard output or error is a pipe without a reader. The last
line is 'N passed, M failed'.

usage: check_races.py [--program FILE] [--tries N]
"""
import functools
import os
import shutil
import subprocess
import sys
import tempfile
from typing import Callable

HERE = os.path.dirname(os.path.abspath(__file__))
TOP = os.path.dirname(os.path.dirname(HERE))
sys.dont_write_bytecode = True
sys.path.insert(0, TOP)
from tests.options import option, patience
from tests.tally import Tally, fault_in

PROGRAM = os.path.abspath(option("--program", f"{TOP}/crates/pdp8/out/pdp8"))
TRIES = int(option("--tries", "200"))
NOBODY = 65534
IS_ROOT = os.geteuid() == 0


class Race:
    """Somebody who acts on each new file beside the image V of a folder, until he is told to end."""

    def __init__(self, racer: str, folder: str, *how: str) -> None:
        words = [racer, folder, ".V.pdp8-", *how]
        user = NOBODY if IS_ROOT else None
        self.run = subprocess.Popen(words, stdin=subprocess.PIPE, stdout=subprocess.PIPE, text=True, user=user)
        assert self.run.stdout and self.run.stdout.readline() == "ready\n"

    def end(self) -> tuple[int, int]:
        """How many names he met, and how many files he has read."""
        said, _ = self.run.communicate("end\n", timeout=20)
        met, read = said.split()
        return int(met), int(read)


def change(folder: str, number: int) -> None:
    """Puts a file on the image, and takes it off again at the next call."""
    words = ["put", "V", "-", "--as", "A"] if number % 2 == 0 else ["delete", "V", "A"]
    run = subprocess.run([PROGRAM, *words], cwd=folder, input=b"secret\n", stdout=subprocess.DEVNULL, stderr=subprocess.DEVNULL, timeout=patience(60))
    if run.returncode not in (0, 1):
        raise ValueError(f"{words} ended with status {run.returncode}")


def make_image(folder: str, mode: int, owner: int) -> None:
    """Makes the image V, in place of a link that a race left there. It is made beside the folder, where nobody races."""
    made = f"{folder}.image"
    if not os.path.exists(made):
        subprocess.run([PROGRAM, "create", made, "700"], check=True, stdout=subprocess.DEVNULL, timeout=patience(60))
    if os.path.islink(f"{folder}/V"):
        os.unlink(f"{folder}/V")
    shutil.copyfile(made, f"{folder}/V")
    os.chmod(f"{folder}/V", mode)
    if IS_ROOT:
        os.chown(f"{folder}/V", owner, owner)


def raced(room: str, racer: str, how: str, mode: int, owner: int) -> tuple[int, int, bool]:
    """What a race met and read, and whether the file that links led to still has its owner, mode and bytes."""
    folder, target = f"{room}/{how}", f"{room}/target"
    os.mkdir(folder)
    os.chmod(folder, 0o777)
    with open(target, "w", encoding="utf-8") as file:
        file.write("root's\n")
    os.chmod(target, 0o600)
    make_image(folder, mode, owner)
    race = Race(racer, folder, how, target)
    for number in range(TRIES):
        if os.path.islink(f"{folder}/V"):
            make_image(folder, mode, owner)
        change(folder, number)
    met, read = race.end()
    found = os.stat(target)
    with open(target, encoding="utf-8") as file:
        is_kept = (found.st_uid, found.st_mode & 0o777, file.read()) == (os.geteuid(), 0o600, "root's\n")
    return met, read, is_kept


def links_give_no_file_away(room: str, racer: str) -> str:
    met, _, is_kept = raced(room, racer, "link", 0o666, NOBODY if IS_ROOT else os.geteuid())
    return "" if met >= TRIES // 2 and is_kept else f"{met} names met, and the file of the link {'stays' if is_kept else 'is given away'}"


def nobody_reads_a_private_image(room: str, racer: str) -> str:
    met, read, _ = raced(room, racer, "read", 0o600, os.geteuid())
    # who runs this without root's rights reads what is his own
    return "" if met >= TRIES // 2 and (read == 0 or not IS_ROOT) else f"{met} names met, {read} files read"


def unread_pipes_stop_nothing(room: str, racer: str) -> str:
    del racer
    subprocess.run([PROGRAM, "create", "I", "20"], cwd=room, check=True, stdout=subprocess.DEVNULL, timeout=patience(60))
    pipe, faults = f"{room}/pipe", list[str]()
    os.mkfifo(pipe)
    for words in (["index", "I", "I"], ["check", "I", "I"]):
        for stream in ("stdout", "stderr"):
            reader = os.open(pipe, os.O_RDONLY | os.O_NONBLOCK)
            writer = os.open(pipe, os.O_WRONLY)
            os.close(reader)
            output, errors = (writer, subprocess.DEVNULL) if stream == "stdout" else (subprocess.DEVNULL, writer)
            try:
                run = subprocess.run([PROGRAM, *words], cwd=room, stdin=subprocess.DEVNULL, stdout=output, stderr=errors, timeout=patience(20))
                faults += [f"{words[0]} ends with {run.returncode}"] if run.returncode not in (0, 1, 141) else []
            except subprocess.TimeoutExpired:
                faults.append(f"{words[0]} waits for a reader of {stream}")
            os.close(writer)
    return ", ".join(faults)


TESTS: list[Callable[[str, str], str]] = [links_give_no_file_away, nobody_reads_a_private_image, unread_pipes_stop_nothing]


def main() -> int:
    tally = Tally()
    with tempfile.TemporaryDirectory(prefix="pdp8-races-") as work:
        os.chmod(work, 0o755)
        racer = f"{work}/race"
        subprocess.run(["cc", "-O2", "-Wall", "-Wextra", "-Werror", "-o", racer, f"{HERE}/race.c"], check=True)
        for test in TESTS:
            room = f"{work}/{test.__name__}"
            os.mkdir(room)
            fault = fault_in(functools.partial(test, room, racer))
            tally.add(test.__name__.replace("_", " "), fault and f"{test.__name__}: {fault}")
    return tally.end()


if __name__ == "__main__":
    sys.exit(main())
