#!/usr/bin/env python3
"""check_tools.py [python | shell | javascript] [FILE..]: the tools read as they should. Every Python file passes `mypy --strict`, every shell script
`shellcheck`, and every JavaScript file of web/ and tests/page/ `node --check`. Each file counts as one. What is wrong is shown. Where a checker isn't
there (Debian's mypy, shellcheck and nodejs), its files are skipped, which fails where CI is set. The words take one kind of files alone, or some of
them. The last line is 'N passed, M failed'.
"""
import concurrent.futures
import glob
import os
import re
import shutil
import subprocess
import sys
import tempfile
from typing import Callable

TOP = os.path.dirname(os.path.dirname(os.path.abspath(__file__)))
FOLDERS = ("build", "tests", "bench", "examples")
Faults = dict[str, list[str]]


def below(*patterns: str) -> list[str]:
    """The files of the tools, and those at the top, whose names are like these."""
    places = [place for pattern in patterns for folder in FOLDERS for place in (f"{folder}/{pattern}", f"{folder}/*/{pattern}")]
    return sorted({os.path.relpath(it, TOP) for place in places for it in glob.glob(f"{TOP}/{place}") if os.path.isfile(it)})


def first_line(path: str) -> str:
    with open(f"{TOP}/{path}", "rb") as file:
        return file.readline().decode(errors="replace")


def python_files() -> list[str]:
    return below("*.py")


def shell_files() -> list[str]:
    """The scripts of bash and sh: by their first lines, or by the ending of those that others read."""
    at_top = [os.path.relpath(it, TOP) for it in [*glob.glob(f"{TOP}/*"), f"{TOP}/.ci/run"] if os.path.isfile(it)]
    candidates = [*at_top, *(it for it in below("*") if not it.startswith("tests/edits/"))]
    return sorted({it for it in candidates if it.endswith(".sh") or re.match(r"#!.*\b(bash|sh)\n", first_line(it))})


def script_files() -> list[str]:
    """The files of JavaScript."""
    return sorted(os.path.relpath(it, TOP) for it in [*glob.glob(f"{TOP}/web/*.js"), *glob.glob(f"{TOP}/tests/page/*.mjs")])


def printed(words: list[str]) -> tuple[int, str]:
    ran = subprocess.run(words, cwd=TOP, stdin=subprocess.DEVNULL, stdout=subprocess.PIPE, stderr=subprocess.STDOUT, text=True)
    return ran.returncode, ran.stdout


def by_file(said: str, status: int, files: list[str]) -> Faults:
    """What a checker says, by the file that each line begins with. What belongs to no file stands under ''."""
    found: Faults = {}
    for line in said.splitlines():
        file = re.sub(r"^\./", "", line.split(":")[0])
        if file in files:
            found.setdefault(file, []).append(line)
    if status and not found:
        found[""] = [said or f"the checker ended with status {status}"]
    return found


def python_faults(files: list[str]) -> Faults:
    status, said = printed(["mypy", "--strict", "--no-error-summary", *files])
    return by_file(said, status, files)


def shell_faults(files: list[str]) -> Faults:
    status, said = printed(["shellcheck", "--shell=bash", "--external-sources", "--exclude=SC1091", "--format=gcc", *files])
    return by_file(said, status, files)


def script_fault(file: str) -> list[str]:
    """What node says of a file, which it is given as a module."""
    with tempfile.TemporaryDirectory(prefix="pdp8-tools-") as room:
        module = f"{room}/{os.path.basename(file).rsplit('.', 1)[0]}.mjs"
        shutil.copy(f"{TOP}/{file}", module)
        status, said = printed(["node", "--check", module])
    return [f"{file}: {said.strip()}"] if status else []


def script_faults(files: list[str]) -> Faults:
    with concurrent.futures.ThreadPoolExecutor(len(os.sched_getaffinity(0))) as pool:
        return {file: said for file, said in zip(files, pool.map(script_fault, files)) if said}


# The command that is asked, which files it reads, and how it is asked.
KINDS: dict[str, tuple[str, Callable[[], list[str]], Callable[[list[str]], Faults]]] = {
    "python": ("mypy", python_files, python_faults),
    "shell": ("shellcheck", shell_files, shell_faults),
    "javascript": ("node", script_files, script_faults),
}


def counted(kind: str, some: list[str]) -> tuple[int, int]:
    """How many files of a kind pass and fail, or of some of them."""
    command, files_of, faults_of = KINDS[kind]
    files = [it for it in files_of() if not some or it in some]
    if not files:
        print(f"check_tools: there is no file of {kind}")
        return 0, 1
    if not shutil.which(command):
        print(f"check_tools: there is no {command}: its {len(files)} files are skipped")
        return (0, 1) if os.environ.get("CI") else (1, 0)
    faults = faults_of(files)
    for lines in faults.values():
        print(*lines, sep="\n")
    return len(files) - len(faults.keys() - {""}), len(faults)


def main(words: list[str]) -> int:
    kinds = words[:1] if words and words[0] in KINDS else [*KINDS]
    counts = [counted(kind, words[1:] if len(kinds) == 1 else words) for kind in kinds]
    passed, failed = sum(it for it, _ in counts), sum(it for _, it in counts)
    print(f"{passed} passed, {failed} failed")
    return 1 if failed else 0


if __name__ == "__main__":
    sys.exit(main(sys.argv[1:]))
