#!/usr/bin/env python3
"""check_killed_writers.py: what killed writers leave. Several programs at once put files on one image and run scripts that store and delete. Some are
killed at random moments, among them runs that keep. Then the image must be sound. It must have just the files that were reported as stored and not as
deleted, with their words. What a program that keeps has reported counts also where it was killed then. The image may also have the one that a killed
program was at. The next writer must come in at once, and leave no file beside the image that killed ones made. Each killed program counts, and each file that was
looked for. Then disks that boot are killed while they are saved: each time the file must be that of one save, whole. The last line is 'N passed, M failed'.

usage: check_killed_writers.py [--program FILE] [--kills N] [--boots N] [--seed N]
"""
import functools
import os
import random
import signal
import struct
import subprocess
import sys
import tempfile
import threading
import time
from typing import Callable, Iterator

TOP = os.path.dirname(os.path.dirname(os.path.abspath(__file__)))
sys.dont_write_bytecode = True
sys.path.insert(0, TOP)
from tests.options import option, patience
from tests.tally import Tally, fault_in

PROGRAM = os.path.abspath(option("--program", f"{TOP}/crates/pdp8/out/pdp8"))
KILLS = int(option("--kills", "60"))
BOOTS = int(option("--boots", "100"))
BUSY = b"? HOST BUSY\n"
WRITERS = 3
ROUND = 3 * WRITERS
# The files that stay on the volume after each round.
NEWEST = 40
# From where on the programs that are killed live as long again as on an idle machine.
SLOWEST = 30.0


# The seconds that a program may take that is not killed, and that it may find the image busy.
MOST = patience(60)


class Image:
    """An image that many write, with what each file must or may hold."""

    def __init__(self, folder: str, seed: int) -> None:
        self.name, self.random, self.lock = f"{folder}/V", random.Random(seed), threading.Lock()
        self.sure: dict[str, bytes] = {}
        self.doubtful: dict[str, bytes] = {}
        self.killed, self.kept, self.faults = 0, 0, list[str]()
        # how many files were looked for
        self.looked = 0
        # how much longer than on an idle machine the programs live that are killed
        self.slowness = 1.0
        subprocess.run([PROGRAM, "create", self.name, "2000"], check=True, stdout=subprocess.DEVNULL, timeout=MOST)

    def kill_after(self, run: subprocess.Popen[bytes], delay: float | None) -> None:
        """Has a program killed after so many seconds, if it is to be; else it must have ended in time. Nothing waits for that."""

        def end() -> None:
            if run.poll() is None:
                run.kill()
                if delay is None:
                    self.faults.append(f"a program has no end within {MOST} seconds")

        timer = threading.Timer(MOST if delay is None else delay, end)
        timer.daemon = True
        timer.start()

    def write(self, name: str, text: bytes, delay: float | None) -> tuple[int, bytes]:
        """Has a program put a file, until it comes in; one with a delay is killed after so many seconds."""
        begun = time.monotonic()
        while True:
            words = [PROGRAM, "put", self.name, "-", "--as", name, "--text"]
            run = subprocess.Popen(words, stdin=subprocess.PIPE, stdout=subprocess.PIPE, stderr=subprocess.DEVNULL)
            self.kill_after(run, delay)
            try:
                told, _ = run.communicate(text)
            except BrokenPipeError:
                told, _ = b"", run.wait()
            if told != BUSY or time.monotonic() - begun > MOST:
                return run.returncode, told

    def text(self, name: str) -> bytes:
        """A text of random length for a file."""
        return "".join(f"{name} {line}\n" for line in range(self.random.randrange(1, 120))).encode()

    def keep(self, number: int, delay: float | None) -> None:
        """Has a run that keeps store three files, each once the one before is reported. What it reported is sure, also where it is killed."""
        texts = {name: self.text(name) for name in (f"K{number}.{it}" for it in "ABC")}
        busy, begun = True, time.monotonic()
        while busy:
            told, status, rest = self.stored(texts, delay)
            busy = not told and rest == BUSY and time.monotonic() - begun < MOST
        with self.lock:
            self.sure.update({name: texts[name] for name in told})
            self.kept += len(told) * (status == -signal.SIGKILL)
            left = [name for name in texts if name not in told]
            if status == -signal.SIGKILL:
                self.doubtful.update({name: texts[name] for name in left[:1]})
                self.killed += 1
            elif left or status:
                self.faults.append(f"{left}: status {status}, {rest!r}")

    def stored(self, texts: dict[str, bytes], delay: float | None) -> tuple[list[str], int, bytes]:
        """The files that one run that keeps reported as stored, its status, and what it said last."""
        words, told, line = [PROGRAM, "run", "--keep", self.name], list[str](), b""
        run = subprocess.Popen(words, bufsize=0, stdin=subprocess.PIPE, stdout=subprocess.PIPE, stderr=subprocess.DEVNULL)
        assert run.stdin and run.stdout
        self.kill_after(run, delay)
        try:
            for name, text in texts.items():
                run.stdin.write(b"STORE %s %d\n" % (name.encode(), text.count(b"\n")) + text)
                run.stdin.flush()
                line = run.stdout.readline()
                if line.split()[:2] != [b"STORED", name.encode()]:
                    break
                told.append(name)
            run.stdin.close()
        except BrokenPipeError:
            line = run.stdout.readline()
        return told, run.wait(), line

    def put(self, number: int, delay: float | None) -> None:
        """Puts a file of random length. What a killed program did is known only if it was reported."""
        name = f"F{number}"
        text = self.text(name)
        status, told = self.write(name, text, delay)
        with self.lock:
            if told.startswith(b"STORED"):
                self.sure[name] = text
            elif status == -signal.SIGKILL:
                self.doubtful[name] = text
            else:
                self.faults.append(f"{name}: status {status}, {told!r}")
            self.killed += status == -signal.SIGKILL

    def work(self, numbers: range) -> None:
        """One writer's programs, of which every third is left alone, and every other keeps."""
        for number in numbers:
            write, most = (self.keep, 0.06) if number % 2 else (self.put, 0.02)
            fault = fault_in(functools.partial(self.program, write, number, self.random.uniform(0, most * self.slowness) if number % 3 else None))
            self.faults += [fault] if fault else []

    def program(self, write: Callable[[int, float | None], None], number: int, delay: float | None) -> str:
        write(number, delay)
        return ""

    def thin(self) -> None:
        """Takes all but the newest files out, each once it is seen to be what was put; else the volume would fill."""
        for files in (self.sure, self.doubtful):
            for name in list(files)[:-NEWEST]:
                text = files.pop(name)
                self.looked += 1
                if self.get(name) not in ((text,) if files is self.sure else (text, None)):
                    self.faults.append(f"{name} is lost or another file, and was to be deleted")
                if subprocess.run([PROGRAM, "run", self.name], input=f"DELETE {name}\n".encode(), capture_output=True, timeout=MOST).returncode:
                    self.faults.append(f"{name} is not deleted")

    def get(self, name: str) -> bytes | None:
        """A file's text, or none."""
        got = subprocess.run([PROGRAM, "get", self.name, name, "--text"], capture_output=True, timeout=MOST)
        return None if got.returncode else got.stdout

    def held(self) -> tuple[bool, dict[str, bytes | None]]:
        """The files of the image, each as its text, and whether the image is sound."""
        listed = subprocess.run([PROGRAM, "list", self.name], capture_output=True, text=True, timeout=MOST)
        names = [line.split()[0] for line in listed.stdout.splitlines() if not line.startswith("FREE")]
        return listed.returncode == 0, {name: self.get(name) for name in names}

    def judged(self) -> Iterator[str]:
        """What is wrong with the image after all of it."""
        is_sound, held = self.held()
        yield from self.faults
        if not is_sound:
            yield "the image is not sound"
        for name, text in self.sure.items():
            self.looked += 1
            if held.get(name) != text:
                yield f"{name} was told as stored, and is lost or another file"
        for name, there in held.items():
            self.looked += 1
            if self.sure.get(name, self.doubtful.get(name)) != there:
                yield f"{name} is there and was not put so"
        begun = time.monotonic()
        if self.write("LAST", b"last\n", None)[0] or time.monotonic() - begun > 5:
            yield "the next writer doesn't come in"
        left = [name for name in os.listdir(os.path.dirname(self.name)) if name.startswith(".V.pdp8-")]
        if left:
            yield f"the next writer leaves {len(left)} files beside the image that killed ones made"


    def round(self, first: int) -> None:
        """Has the writers work side by side, from a number on, and then all but the newest files taken out."""
        lanes = [threading.Thread(target=self.work, args=(range(first + k, first + ROUND, WRITERS),)) for k in range(WRITERS)]
        killed = self.killed
        for lane in lanes:
            lane.start()
        for lane in lanes:
            lane.join()
        if not self.kept:
            self.slowness = 1.0 if self.slowness > SLOWEST else self.slowness * 1.2
        elif self.killed == killed:
            self.slowness = max(1.0, self.slowness / 1.2)
        self.thin()


def tried(folder: str, tally: Tally) -> str:
    """Has writers killed, counts what they did, and says what is wrong after all of it, line by line."""
    image, first = Image(folder, int(option("--seed", "1"))), 0
    while (image.killed < KILLS or not image.kept) and first < 40 * KILLS and not image.faults:
        image.round(first)
        first += ROUND
    faults = list(image.judged())
    for kind, count, least in (("killed", image.killed, KILLS), ("kept", image.kept, 1), ("files", image.looked, KILLS // 2)):
        for _ in range(count):
            tally.add(kind, "")
        faults += [f"{kind} are {count} alone, not {least}"] if count < least else []
    return "\n".join(faults)


# Sector 0 of a disk from the cell 00031 on: it counts each key in the cell 00061, and writes the cells 00000 to 00177 to sector 1. Then it waits for
# the next key, and is saved.
COUNTS = [0o6031, 0o5031, 0o6036, 0o7000, 0o2061, 0o7000, 0o7200, 0o1062, 0o6746, 0o6744, 0o1063, 0o6743, 0o6741, 0o5045, 0o5031, *[0] * 9, 0, 0o4100, 1]
KEYS = 400


def disk_of(count: int) -> bytes:
    """The file of that disk once so many keys are counted; before the first one it has no sector 1."""
    page = [*[0] * 0o31, *COUNTS, *[0] * (128 - 0o31 - len(COUNTS))]
    first = struct.pack("<256H", *page, *[0] * 128)
    page[0o61] = count
    return first + struct.pack("<256H", *page, *[0] * 128) if count else first


def boots(folder: str, tally: Tally) -> str:
    """Has boots killed while they save their disk after each key, and says what is wrong with the file each time."""
    name, chance, faults = f"{folder}/D", random.Random(int(option("--seed", "1"))), list[str]()
    states = {disk_of(count): count for count in range(KEYS + 1)}
    with open(name, "wb") as file:
        file.write(disk_of(0))
    seen, most, killed, tries = set[int](), 0.05, 0, 0
    while killed < BOOTS and tries < 20 * BOOTS and not faults:
        tries += 1
        run = subprocess.Popen([PROGRAM, "boot", name, "--every", "1"], stdin=subprocess.PIPE, stdout=subprocess.DEVNULL, stderr=subprocess.DEVNULL)
        assert run.stdin
        run.stdin.write(b"A" * KEYS)
        run.stdin.flush()
        time.sleep(chance.uniform(0, most))
        run.kill()
        run.stdin.close()
        killed += run.wait(MOST) == -signal.SIGKILL
        count = states.get(open(name, "rb").read())
        if count is None:
            faults.append(f"boot {tries}: the file is not that of a save")
        else:
            seen.add(count)
        most = min(most * 1.5, SLOWEST) if not seen - {0} else most
    for _ in range(killed):
        tally.add("boots", "")
    if len(seen) < 3 or killed < BOOTS:
        faults.append(f"{killed} boots are killed, which leave {len(seen)} files")
    last = subprocess.run([PROGRAM, "boot", name], input=b"AAA", capture_output=True, timeout=MOST)
    if last.returncode or open(name, "rb").read() != disk_of(3):
        faults.append(f"the last boot: status {last.returncode}, {last.stderr!r}")
    left = [it for it in os.listdir(folder) if it.startswith(".D.pdp8-")]
    if left:
        faults.append(f"the last boot leaves {len(left)} files beside the disk")
    return "\n".join(faults)


def main() -> int:
    tally = Tally()
    for kind, work in (("images", tried), ("disks", boots)):
        with tempfile.TemporaryDirectory(prefix="pdp8-killed-") as folder:
            fault = fault_in(functools.partial(work, folder, tally))
        tally.add(kind, fault and f"check_killed_writers: {fault}")
    return tally.end()


if __name__ == "__main__":
    sys.exit(main())
