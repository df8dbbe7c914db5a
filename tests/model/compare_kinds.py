#!/usr/bin/env python3
"""compare_kinds.py [--program FILE] [--files N] [--seed S]: makes N random image files, 300 where nothing is said. Their lengths are near those of
volumes, DECtapes and disks, and words of directories stand in them where they might be taken for others. It compares what `check` takes each for with a
plain reading of the rule. Then it puts, deletes and patches at random: whatever a change stores must be got back by the same command line, and no
change may make a file another kind unless it is refused. The same number is the same files each time. The last line is 'N passed, M failed'.
"""
import os
import subprocess
import sys
import tempfile
from random import Random

sys.dont_write_bytecode = True
TOP = os.path.dirname(os.path.dirname(os.path.dirname(os.path.abspath(__file__))))
sys.path.insert(0, TOP)
from tests.model.compare_indexes import try_each
from tests.model.kinds import BLOCK, DISK, TAPE, Kind, readings_of
from tests.options import patience

NAME = "I"
BLOCKS = [8, 9, 20, 736, 737, 738, 741, 742, 743, 744, 3247, 3248, 3249, 3250, 3600, 4094, 4095]
# Heads of directories: the word for entries, the first block, the link, the flag, information words, and an entry of free blocks
HEADS = [[0o7777, 7, 0, 0, 0o7777, 0, 0o7770], [0o7777, 7, 0, 0, 0, 0, 0o7000], [0o7776, 7, 0, 0, 0o7777, 0o0101, 0o0102, 0, 0, 0, 0o7777, 0, 0o7770]]

# How a put may be refused.
REFUSALS = ("? KIND ", "? IMAGE ", "? DIRECTORY ", "? 4.2 NO ROOM ")


def words_of(numbers: list[int]) -> bytes:
    return b"".join(number.to_bytes(2, "little") for number in numbers)


def empty_volume(blocks: int, info: int = 0o7777) -> bytearray:
    """The image of an empty volume."""
    image = bytearray(BLOCK * blocks)
    head = words_of([0o7777, 7, 0, 0, info, 0, -(blocks - 7) % 4096])
    image[BLOCK : BLOCK + len(head)] = head
    return image


def as_tape(image: bytes) -> bytes:
    """The file of a DECtape with this image."""
    whole = image.ljust(BLOCK * 737, b"\0")
    return b"".join(whole[at : at + 256] + b"\0\0" for at in range(0, len(whole), 256))


def random_file(random: Random) -> bytes:
    """A volume, a DECtape or a disk, with more bytes before it or after it, some heads of directories in its blocks, or some of its words changed."""
    kind = random.random()
    if kind < 0.6:
        data = bytes(empty_volume(random.choice(BLOCKS)))
    elif kind < 0.8:
        data = as_tape(bytes(empty_volume(737)))
    else:
        data = bytes(empty_volume(3248)) + bytes(empty_volume(random.choice([3248, 3248, 400])))
    if random.random() < 0.4:
        more = bytes(random.choice([1, 2, 124, 128, 256, 511]))
        data = more + data if random.random() < 0.5 else data + more
    image = bytearray(data)
    for _ in range(random.choice([0, 0, 1, 2])):
        at = random.choice([BLOCK + 124, BLOCK + 128, 516, 516 + 124, 640, 3249 * BLOCK, 2 * random.randrange(len(image) // 2)])
        head = words_of(random.choice(HEADS))
        if at + len(head) <= len(image):
            image[at : at + len(head)] = head
    if random.random() < 0.2:
        image[BLOCK + 2 * random.randrange(8)] ^= random.choice([1, 8, 255])
    return bytes(image)


def run(program: str, folder: str, words: list[str], given: bytes = b"") -> tuple[str, str, int]:
    done = subprocess.run([program, *words], cwd=folder, input=given, capture_output=True, timeout=patience(600))
    return done.stdout.decode("latin1"), done.stderr.decode("latin1"), done.returncode


def bytes_of(folder: str) -> bytes:
    with open(f"{folder}/{NAME}", "rb") as file:
        return file.read()


def judged_otherwise(program: str, folder: str, readings: list[Kind]) -> str:
    """How the program takes a file for something else than the rule does."""
    data = bytes_of(folder)
    output, errors, status = run(program, folder, ["check", NAME])
    if status not in (0, 1) or bytes_of(folder) != data:
        return f"check ends with {status}, or has changed the file"
    if len(readings) > 1:
        return "" if output == "? KIND 1 TWO READINGS\n" else f"two readings are {output}"
    if output.startswith("? KIND 1"):
        return f"one reading is {output}"
    form, before, after = readings[0] if readings else ("volume", 0, 0)
    if (f"{NAME}:1: " in output) != (form == "disk"):
        return f"{form} is not read so: {output}"
    margins = f"note: {NAME} has {before} bytes before its blocks and {after} after them, which are left alone\n"
    if (margins in errors) != bool(before or after):
        return f"{form} with {before} and {after} is not read so: {errors}"
    return ""


def changed(random: Random, program: str, folder: str, files: dict[str, bytes], options: list[str]) -> str:
    """One change, and what is wrong with it."""
    name = random.choice(["A", "B", "C.DA", "D", "E"])
    if files and random.random() < 0.2:
        gone = random.choice(sorted(files))
        if run(program, folder, ["delete", NAME, gone, *options])[2] == 0:
            del files[gone]
        return ""
    if random.random() < 0.2:
        at = random.choice([[0, 192 + random.randrange(64)], [1, random.randrange(20)], [random.randrange(7, 60), random.randrange(256)]])
        run(program, folder, ["patch", NAME, str(at[0]), str(at[1]), "0000", random.choice(["7777", "0007", "7770"]), *options])
        files.clear()  # a word that is changed by hand may be of a file, or of the directory
        return ""
    words = [random.choice(random.choice(HEADS)) for _ in range(random.choice([3, 128, 300]))]
    frames = bytes(random.choice([0o377, 7, 0o360, 0]) for _ in words)
    output, _, status = run(program, folder, ["put", NAME, "-", "--as", name, *options], frames)
    if status == 0:
        files[name] = frames
    return "" if status == 0 or (status == 1 and output.startswith(REFUSALS)) else f"put ends with {status} and {output}"


def fault_of(program: str, random: Random) -> str:
    """What is wrong with how a file is taken, or with a change of it; nothing where nothing is."""
    data = random_file(random)
    with tempfile.TemporaryDirectory() as folder:
        with open(f"{folder}/{NAME}", "wb") as file:
            file.write(data)
        readings = readings_of(data)
        fault = judged_otherwise(program, folder, readings)
        if fault:
            return fault
        options = ["--plain"] if random.randrange(4) == 0 else []
        if readings and readings[0][0] == "disk":
            options = ["--volume", random.choice("12")]
        files = dict[str, bytes]()
        for _ in range(random.randrange(6)):
            fault = changed(random, program, folder, files, options)
            after = bytes_of(folder)
            if not options and readings_of(after)[:1] != readings[:1] and [it for it in readings_of(after) if it != ("volume", 0, 0)] != [it for it in readings if it != ("volume", 0, 0)]:
                return f"{readings} has become {readings_of(after)}"
            for name, frames in files.items():
                got = subprocess.run([program, "get", NAME, name, *options], cwd=folder, capture_output=True, timeout=patience(600)).stdout
                if got[: len(frames)] != frames:
                    return f"{name} is out of reach"
            if fault:
                return fault
    return ""


if __name__ == "__main__":
    sys.exit(try_each(__doc__, "files", 300, fault_of))
