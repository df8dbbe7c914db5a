#!/usr/bin/env python3
"""compare_archives.py [--program FILE] [--cases N] [--seed S]: does random commands to the files of random images with the program `pdp8`. It does N
times twenty, 100 from 1 on where nothing is said: put, get, delete, rename, copy, squeeze and list, of one file and of many. Files are named by
names, patterns and first blocks. The volumes have gaps, 0 to 10 information words, and directories that are nearly full or past it. They lie alone in
their files, on disks and on DECtapes, some with bytes before or after them. Where a file is known by its length and its directories, half of the
commands have no option that says where its volume is. It compares every byte that comes with a plain keeper of volumes that is written from the
definitions alone. Files of any kind are listed with no option that says what they are.
After each command it also holds to the keeper the files of the images, where they lie, all blocks that are no file's, and all bytes beside the
volume. Damaged directories are looked at too. The same number is the same case each time. The last line is 'N passed, M failed'.
"""
import argparse
import concurrent.futures
import datetime
import os
import re
import subprocess
import sys
import tempfile
from random import Random
from typing import Callable

sys.dont_write_bytecode = True
TOP = os.path.dirname(os.path.dirname(os.path.dirname(os.path.abspath(__file__))))
sys.path.insert(0, TOP)
from tests.model.cases import full_image, lots
from tests.model.compare import outside
from tests.model.compare_indexes import random_file
from tests.model.disks import Held, held_image, with_margins, wrong_size
from tests.model.index import parts_of, volume_of
from tests.model.keeper import TEXTS, Asked, Keeper, day_of, extension, frames_note, given_of, has_sign, typed_name
from tests.model.kinds import readings_of
from tests.model.survey import damaged, surveyed
from tests.model.volume import Unsound, Volume, made_image, read_volume, words_of_image
from tests.model.words import octal, spelled_name
from tests.options import patience
from tests.tally import Tally, fault_in

COMMANDS = 20
IMAGES = ["V", "W"]


def random_image(random: Random) -> bytes:
    """A volume with files and gaps, and with 0 to 10 information words, or one whose directory is nearly full or past it."""
    if random.random() < 0.15:
        return full_image(random)
    found, first = lots(random, random.randint(0, 9), 2), random.choice([7, 7, 9])
    blocks = first + sum(lot.blocks for lot in found) + random.choice([0, 1, 3, 8, 20])
    return made_image(max(blocks, 8), random.randint(0, 10), first, found) + random.choice([b"", b"\1\2" * 256])


def random_name(random: Random, volume: Volume) -> bytes:
    """The name of a file that is there, or of one that is not, or none."""
    there = [spelled_name(it) for it in volume.files]
    if there and random.random() < 0.8:
        name = random.choice(there).encode()
        return name.lower() if random.random() < 0.2 else name
    return random.choice([b"NEW", b"NEW.TX", b"B.BN", b"Z9", b"LONGER", b"F0", b"F1", b"a-", b"f0", b"new.tx", b"TOOLONG", b"A.PAL", b".X", b"HI_41.TX", b"_00_00A", b"A_8", b"_4", b"A._00", b"_01B"])


def random_asked(random: Random, volume: Volume) -> Asked:
    """What a file is asked for by: a name, or a block at which mostly one begins."""
    if random.random() < 0.7:
        return random_name(random, volume)
    return random.choice([*volume.places.values(), 0, 7, 8, 4095])


def asked_words(asked: Asked) -> list[str]:
    return ["--at", str(asked)] if isinstance(asked, int) else [asked.decode()]


def random_pattern(random: Random, volume: Volume) -> str:
    name = random_name(random, volume).decode()
    return random.choice(["*", "*.*", "*.PA", "*.BN", "F?", "S?.P?", "?*.T*", "*.", "*.*.*", "a-*", "f*", "*.pa", f"{name}*", name, "*" * 13])


def with_known_margins(random: Random, held: Held) -> Held:
    """A file with a volume, sometimes with bytes beside it that its length and its directory show to be none of the volume's."""
    wide = with_margins(random, held)
    is_known = held.layout in ("", "tape") and [part.image for part in parts_of(wide.data)] == [held.image] and len(readings_of(wide.data)) < 2
    return wide if is_known and random.random() < 0.3 else held


class Case:
    """Two images in a folder, and what they hold by the plain keeper."""

    def __init__(self, program: str, folder: str, random: Random) -> None:
        self.program, self.folder, self.random = program, folder, random
        self.held = {image: with_known_margins(random, held_image(random, random_image(random))) for image in IMAGES}
        for image, held in self.held.items():
            write(f"{folder}/{image}", held.data)
        self.keeper = Keeper({image: read_volume(held.image) for image, held in self.held.items()})
        self.seen: dict[str, Volume] = {}

    def where(self, image: str, to: str = "") -> list[str]:
        """The options that say where the volume of an image is, mostly; none where the file's length and directories say it as well."""
        held = self.held[image]
        is_known = [part.image for part in parts_of(held.data)] == [held.image]
        return [] if is_known and self.random.random() < 0.5 else held.words(to)

    def command(self) -> Callable[[], str]:
        """A random command. Done, it says how the program differs from the keeper, and nothing where it doesn't."""
        kinds = [self.put, self.get, self.delete, self.rename, self.copy, self.copy_many, self.told, self.get_many, self.put_many, self.others, self.reports]
        return self.random.choice([*kinds, self.get_texts])

    def put(self) -> str:
        random, image = self.random, self.random.choice(IMAGES)
        name, given = random_name(random, self.keeper.volumes[image]), random.randbytes(random.choice([0, 1, 383, 384, 385, 2000]))
        info = [random.randrange(0o10000) for _ in range(random.choice([0, 0, 0, 1, 3, 11]))]
        words = ["put", image, "-", "--as", name.decode(), *self.where(image), *(it for word in info for it in ("--info", octal(word, 4)))]
        return self.differs(words, given, self.keeper.put_frames(image, name, given, tuple(info) if info else None))

    def get(self) -> str:
        random, image = self.random, self.random.choice(IMAGES)
        asked, is_text = random_asked(random, self.keeper.volumes[image]), random.random() < 0.5
        words = ["get", image, *asked_words(asked), *self.where(image), *(["--text"] if is_text else [])]
        data, status = self.keeper.get(image, asked, is_text)
        return self.differs_in_bytes(words, b"", data, status)

    def delete(self) -> str:
        random, image = self.random, self.random.choice(IMAGES)
        volume, share = self.keeper.volumes[image], random.choice([0, 0, 0.5])
        asked = [random_pattern(random, volume).encode() if random.random() < share else random_asked(random, volume) for _ in range(random.choice([1, 1, 2, 3]))]
        asked.sort(key=lambda it: isinstance(it, int))
        words = ["delete", image, *(word for it in asked for word in asked_words(it)), *self.where(image)]
        return self.differs(words, b"", self.keeper.delete(image, asked))

    def rename(self) -> str:
        random, image = self.random, self.random.choice(IMAGES)
        asked, new = random_asked(random, self.keeper.volumes[image]), random_name(random, self.keeper.volumes[image])
        words = ["rename", image, *asked_words(asked), new.decode(), *self.where(image)]
        return self.differs(words, b"", self.keeper.rename(image, asked, new))

    def copy(self) -> str:
        random, image, other = self.random, self.random.choice(IMAGES), self.random.choice(IMAGES)
        asked = random_asked(random, self.keeper.volumes[image])
        new = random_name(random, self.keeper.volumes[other]) if random.random() < 0.5 else None
        words = ["copy", image, *asked_words(asked), other, *([new.decode()] if new else [])]
        words += [*self.where(image), *self.where(other, "to-")]
        return self.differs(words, b"", self.keeper.copy(image, asked, other, new))

    def copy_many(self) -> str:
        random, image, other = self.random, self.random.choice(IMAGES), self.random.choice(IMAGES)
        asked = [random_pattern(random, self.keeper.volumes[image]) for _ in range(random.choice([1, 1, 2, 3, 4, 5]))]
        is_forced = random.random() < 0.5
        words = ["copy", image, *asked, "--to", other, *(["--force"] if is_forced else [])]
        words += [*self.where(image), *self.where(other, "to-")]
        return self.differs(words, b"", self.keeper.copy_many(image, asked, other, is_forced))

    def told(self) -> str:
        random, image = self.random, self.random.choice(IMAGES)
        kind, where = random.choice(["squeeze", "list", "long"]), self.where(image)
        if kind == "squeeze":
            return self.differs(["squeeze", image, *where], b"", self.keeper.squeeze(image))
        asked = [random_pattern(random, self.keeper.volumes[image]) for _ in range(random.choice([0, 0, 1, 2]))]
        if kind == "list":
            return self.differs(["list", image, *asked, *where], b"", self.keeper.list_short(image, asked))
        last = random.choice([None, random.randrange(1977, 10000)])
        year = [] if last is None else ["--year", str(last)]
        return self.differs(["list", image, *asked, "--long", *year, *where], b"", self.keeper.list_long(image, last or 1977, asked))

    def get_many(self) -> str:
        """Gets files to a folder, of which one may hold a file of the name, and looks at them."""
        random, image = self.random, self.random.choice(IMAGES)
        volume = self.keeper.volumes[image]
        asked = [random_pattern(random, volume) for _ in range(random.choice([0, 1, 1, 2]))]
        places = [f"--at {random_asked(random, volume) if random.random() < 0.5 else 7!r}" for _ in range(random.choice([0, 0, 1]))]
        places = [it for it in places if it[5:].isdigit()]
        is_all = not (asked or places) or random.random() < 0.2
        texts: list[str] = random.choice([[], [], TEXTS, ["PA", "LS"]])
        options = ["--text"] if texts is TEXTS else ["--text-of", ",".join(texts)] if texts else []
        words = ["get", image, *asked, *(word for it in places for word in it.split()), *(["--all"] if is_all else []), *options]
        names, refused = self.keeper.chosen(image, [*asked, *places], is_all)
        folder = tempfile.mkdtemp(dir=self.folder)
        named = [typed_name(it.encode()) for it in asked if not has_sign(it)] + [volume.name_at(int(it[5:])) for it in places]
        are_texts = {it: extension(it) in texts or texts is TEXTS and it in named for it in names}
        notes = [frames_note(spelled_name(it), "got") for it in names if texts and not are_texts[it]]
        files = {spelled_name(it): given_of(volume.files[it].words, are_texts[it]) for it in names}
        there = random.choice(sorted(files)) if files and random.random() < 0.3 else ""
        is_forced = random.random() < 0.3
        # common file systems have no time after 2446
        last = random.choice([None, None, random.randrange(1977, 2440)])
        days = {spelled_name(it): day_of(volume.files[it].info, last or 1977) for it in names}
        if there:
            write(f"{folder}/{there}", b"older")
        lines = {spelled_name(it): f"GOT {spelled_name(it)} {volume.files[it].blocks}" for it in names}
        if there and not is_forced:
            lines[there], files[there] = f"{there}: ? HOST EXISTS", b"older"
            notes.append(f"note: {folder}/{there}: a file of that name is there")
        words += ["--into", folder, *self.where(image), *(["--force"] if is_forced else []), *([] if last is None else ["--year", str(last)])]
        done = self.done(words, b"")
        status = 1 if refused or there and not is_forced else 0
        if (sorted(done.stdout.decode("latin-1").splitlines()), done.returncode) != (sorted([*lines.values(), *refused, *notes]), status):
            return f"{' '.join(words)}\n    wanted {[*notes, *lines.values(), *refused]} {status}\n    got    {done.stdout!r} {done.returncode}"
        for name in files:
            seconds, day = os.stat(f"{folder}/{name}").st_mtime, "".join(days[name])
            if name == there and not is_forced:
                continue
            if seconds != (noon_of(day) if day else 0):
                return f"{' '.join(words)}: {name} has the time {seconds}, and the date {day}"
        got = {it: read(f"{folder}/{it}") for it in os.listdir(folder)}
        return "" if got == files else f"{' '.join(words)}: the folder's files differ: {sorted(got)} in place of {sorted(files)}"

    def get_texts(self) -> str:
        """Prints texts one after another: of names and patterns, of files at blocks, and of all."""
        random, image = self.random, self.random.choice(IMAGES)
        volume = self.keeper.volumes[image]
        asked = [random_pattern(random, volume) for _ in range(random.choice([0, 1, 2, 3]))]
        places = [f"--at {random.choice([*volume.places.values(), 7, 4095])}" for _ in range(random.choice([0, 0, 1, 2]))]
        is_all = not (asked or places) or random.random() < 0.2
        if len(asked) + len(places) == 1 and not is_all and not any(has_sign(it) for it in asked):
            asked = asked * 2
            places = places * 2
        words = ["get", image, *asked, *(word for it in places for word in it.split()), *(["--all"] if is_all else []), "--text"]
        data, status = self.keeper.texts(image, [*asked, *places], is_all)
        return self.differs_in_bytes([*words, *self.where(image)], b"", data, status)

    def put_many(self) -> str:
        """Puts files of the host, mostly of good names, some of which are no texts."""
        random, image = self.random, self.random.choice(IMAGES)
        names = random.sample(["new.pa", "S1.PA", "b.bn", "C.BN", "f0", "x.tx", "S1.pa", "notes.text", "T.LS", "a-b", "a_37.t_77", "_00_77", "_8"], random.choice([1, 2, 2, 3, 5]))
        given = [(it.encode(), random.choice([b"", b"HELLO\r\nYOU\r\r\n", b"A\n" * 300, random.randbytes(random.choice([3, 400]))])) for it in names]
        texts: list[str] = random.choice([[], TEXTS, ["PA"]])
        options = ["--text"] if texts is TEXTS else ["--text-of", "PA"] if texts else []
        info = [random.randrange(0o10000) for _ in range(random.choice([0, 0, 2]))]
        is_dated = not info and random.random() < 0.3
        times = {name: random.choice([0, random.randrange(1 << 31), random.randrange(1 << 33)]) for name, _ in given}
        for name, content in given:
            write(f"{self.folder}/{name.decode()}", content)
            os.utime(f"{self.folder}/{name.decode()}", (0, times[name]))
        marks: list[str] = random.choice([[], ["--files"]])
        words = ["put", image, *marks, *names, *options, *self.where(image), *(it for word in info for it in ("--info", octal(word, 4)))]
        words += ["--dates"] if is_dated else []
        return self.differs(words, b"", self.keeper.put_all(image, given, texts, tuple(info) if info else None, list(times.values()) if is_dated else []))

    def others(self) -> str:
        """Looks at blocks, at a damaged directory, or at a file of a wrong size."""
        random, image = self.random, self.random.choice(IMAGES)
        kind, held = random.choice(["blocks", "damaged", "size"]), self.held[image]
        if kind == "size":
            wrong, line = wrong_size(random)
            write(f"{self.folder}/X", wrong.data)
            return self.differs([random.choice(["list", "squeeze", "check"]), "X", *wrong.words()], b"", ([line], 1))
        whole = Held(held.layout, read(f"{self.folder}/{image}"), held.before, held.after).image
        if kind == "damaged":
            broken = damaged(random, whole)
            write(f"{self.folder}/X", broken)
            return self.differs(["check", "--all", "X"], b"", surveyed(broken))
        count = len(whole) // 512
        first, some = random.choice([0, 1, 7, count - 1, count]), random.choice([1, 2, count])
        words = ["get", image, "--blocks", str(first), str(some), *self.where(image)]
        if first + some > count:
            return self.differs(words, b"", ([f"? BLOCKS 1 ONLY {count}"], 1))
        part = words_of_image(whole[512 * first : 512 * (first + some)])
        return self.differs_in_bytes(words, b"", given_of(part, False), 0)

    def reports(self) -> str:
        """Lists a file of any kind, or shows all that its directories say, where no option says what it is."""
        data, is_all = random_file(self.random), self.random.random() < 0.5
        write(f"{self.folder}/X", data)
        words = ["check", "--all", "X"] if is_all else ["list", "X"]
        wanted, refused = list[str](), False
        for part in parts_of(data):
            volume = volume_of(part.image)
            is_image = len(part.image) % 512 == 0 and 8 <= len(part.image) // 512 <= 4095 and max(words_of_image(part.image)) < 0o10000
            lines, status = ["?"], 1
            if is_image and is_all:
                lines, status = surveyed(part.image)
            elif volume and not is_all:
                lines, status = Keeper({"X": volume}).list_short("X", [])
            wanted += [f"X:{part.number}: {line}" if part.number else line for line in lines]
            refused = refused or status != 0
        done = self.done(words, b"")
        printed = [line for line in done.stdout.decode("latin-1").splitlines() if not line.startswith("note: ")]
        fault = re.compile(r"^((?:X:[12]: )?\?) IMAGE .*" if is_all else r"^((?:X:[12]: )?\?) .*")
        printed = [fault.sub(r"\1", line) for line in printed]
        if (printed, done.returncode) != (wanted, 1 if refused else 0):
            return f"{' '.join(words)}\n    wanted {wanted} {refused}\n    got    {printed} {done.returncode}"
        return ""

    def done(self, words: list[str], given: bytes) -> subprocess.CompletedProcess[bytes]:
        return subprocess.run([self.program, *words], cwd=self.folder, input=given, stdout=subprocess.PIPE, stderr=subprocess.STDOUT, timeout=patience(60))

    def differs(self, words: list[str], given: bytes, wanted: tuple[list[str], int]) -> str:
        return self.differs_in_bytes(words, given, "".join(f"{line}\n" for line in wanted[0]).encode("latin-1"), wanted[1])

    def differs_in_bytes(self, words: list[str], given: bytes, wanted: bytes, status: int) -> str:
        done = self.done(words, given)
        if (done.stdout, done.returncode) != (wanted, status):
            return f"{' '.join(words)}\n    wanted {wanted!r} {status}\n    got    {done.stdout!r} {done.returncode}"
        for image in IMAGES:
            fault = self.image_fault(image)
            if fault:
                return f"{' '.join(words)}: {image}: {fault}"
        return ""

    def image_fault(self, image: str) -> str:
        """How an image differs from what the keeper has, or its file from the one before in bytes that no file of it may have."""
        before, data = self.held[image], read(f"{self.folder}/{image}")
        if data == before.data and self.keeper.volumes[image] == self.seen.get(image):
            return ""
        wanted, now = self.keeper.volumes[image], Held(before.layout, data, before.before, before.after)
        try:
            got = read_volume(now.image)
        except Unsound as why:
            return f"the directory is not sound: {why}"
        fault = before.fault(data)
        if fault or outside(now.image, wanted) != outside(before.image, wanted):
            return fault or "a block that the directory does not cover has changed"
        self.held[image], self.seen[image] = now, wanted
        return "" if got == wanted else f"the files differ\n    wanted {wanted.runs}\n    got    {got.runs}"


def noon_of(day: str) -> float:
    """The time at noon of a day, in UTC, in seconds after the begin of 1970."""
    return (datetime.date.fromisoformat(day) - datetime.date(1970, 1, 1)).days * 86400 + 43200


def read(path: str) -> bytes:
    with open(path, "rb") as file:
        return file.read()


def write(path: str, data: bytes) -> None:
    with open(path, "wb") as file:
        file.write(data)


def tried(program: str, seed: int) -> list[tuple[str, str]]:
    """The commands of a case that were done, each by its kind and with what is wrong; the first of these is the last."""
    with tempfile.TemporaryDirectory(prefix="pdp8-archives-") as folder:
        case, found = Case(program, folder, Random(seed)), list[tuple[str, str]]()
        while len(found) < COMMANDS and not (found and found[-1][1]):
            command = case.command()
            found.append((command.__name__, fault_in(command)))
        return found


def main() -> int:
    words = argparse.ArgumentParser(description=__doc__, formatter_class=argparse.RawDescriptionHelpFormatter)
    words.add_argument("--program", default=f"{TOP}/crates/pdp8/out/pdp8")
    words.add_argument("--cases", type=int, default=100)
    words.add_argument("--seed", type=int, default=1)
    given = words.parse_args()
    program, seeds = os.path.abspath(given.program), range(given.seed, given.seed + given.cases)
    if not os.path.isfile(program):
        sys.exit(f"compare_archives: there is no program {program}: ./prove builds it")
    with concurrent.futures.ProcessPoolExecutor(len(os.sched_getaffinity(0))) as lanes:
        tally = Tally()
        for seed, outcomes in zip(seeds, lanes.map(tried, [program] * len(seeds), seeds, chunksize=2)):
            for kind, fault in outcomes:
                tally.add(kind, fault and f"case {seed}: {fault}")
    return tally.end()


if __name__ == "__main__":
    sys.exit(main())
