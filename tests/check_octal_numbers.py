#!/usr/bin/env python3
"""check_octal_numbers.py: the machine's numbers are octal, as the handbook has them. In the definitions and sources of the program's crates no core,
field, page, sign or mask stands in decimal, nor does one in comments; a text that is printed may count in it. The number 4095 stands there only as the most blocks of a volume, which people
count. The last line is 'N passed, M failed', a file being one.
"""
import glob
import os
import re
import sys
from typing import Iterator

sys.dont_write_bytecode = True
TOP = os.path.dirname(os.path.dirname(os.path.abspath(__file__)))
sys.path.insert(0, TOP)
from tests.rattle_sources import crates_of_program

# those that count a volume's blocks
COUNT_BLOCKS = {"archive_files", "command_table", "command_refusals", "command_line", "volume_jobs", "os8_dir", "os8_files", "volume_image", "image_kind", "volume_salvage", "monitor8", "outcome", "program_tasks", "word12"}
DECIMAL = re.compile(r"(?<![\w.])(32768|32767|8192|8191|4096|3072|2048|2047|128|127)(?![\w]|\.\d)")
TEXT = re.compile(r'"[^"]*"')
MOST = re.compile(r"(?<![\w.])4095(?![\w]|\.\d)")


def faults(crate: str, path: str) -> Iterator[str]:
    """The lines of a file that have such a number, each with the number as it is to be."""
    with open(path, encoding="utf-8") as text:
        lines = text.readlines()
    for number, line in enumerate(lines, 1):
        line = TEXT.sub('""', line)
        found = DECIMAL.search(line) or (crate not in COUNT_BLOCKS and MOST.search(line))
        if found:
            yield f"{os.path.relpath(path, TOP)}:{number}: {found[0]} is 0o{int(found[0]):o}"


def main() -> int:
    passed = failed = 0
    for crate in crates_of_program():
        for part in ("specs/**/*.antt", "src/**/*.rt"):
            for path in sorted(glob.glob(f"{TOP}/crates/{crate}/{part}", recursive=True)):
                found = list(faults(crate, path))
                print(*found, sep="\n", end="\n" if found else "")
                passed, failed = passed + (not found), failed + bool(found)
    if not passed + failed:
        print("check_octal_numbers: there is no source")
        failed = 1
    print(f"{passed} passed, {failed} failed")
    return 1 if failed else 0


if __name__ == "__main__":
    sys.exit(main())
