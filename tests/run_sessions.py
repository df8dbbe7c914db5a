#!/usr/bin/env python3
"""run_sessions.py [--unproved | --program FILE] [FILE..]: runs the sessions of tests/sessions/*.md, README.md and the pages below docs/, or those of
these files. They run with the proved program, with the one that is built with checks, or with another.

A session is what stands indented by four blanks below one heading, where a line begins with `$ `. Such a line is a command, those with `> ` go on
with it, and the others are what it prints, on either stream. `[N]` ends that where its status is N, not 0. Each session runs in one shell in a fresh
folder that has the built program as ./pdp8, a copy of examples/ and the functions of tests/recipes.sh. Several run side by side, each begun by a
process of its own. Else a session that is begun while a copy of the program is being written for another would keep that open, and the copy couldn't
be started then. The last line is 'N passed, M failed'.
"""
import concurrent.futures
import difflib
import glob
import os
import re
import shutil
import subprocess
import sys
import tempfile

sys.dont_write_bytecode = True
TOP = os.path.dirname(os.path.dirname(os.path.abspath(__file__)))
sys.path.insert(0, TOP)
from build.unproved import Build, ready
from tests.options import patience
from tests.tally import Tally

OWN = f"{TOP}/crates/pdp8/out/pdp8"
# A session: of each command the number of its line, its text, and what it prints.
Session = list[tuple[int, str, str]]
MARK = "=== a command has ended ==="
# the texts that have no session
BARE = {f"{TOP}/docs/{name}.md" for name in ("CHANGELOG", "DECISIONS", "GLOSSARY", "PROVED", "using/page")}
BARE |= {f"{TOP}/docs/reference/{name}.md" for name in ("machine", "page", "pal3", "refusals", "volume")}


def sessions(path: str) -> list[Session]:
    """The sessions of a file."""
    found, inside, blank = [Session()], False, ""
    with open(path, encoding="utf-8", newline="\n") as whole:
        lines = whole.readlines()
    for number, line in enumerate(lines, 1):
        text, (at, command, printed) = line[4:], found[-1][-1] if found[-1] else (0, "", "")
        if line.startswith("#"):
            found.append(Session())
        if line.startswith("    $ "):
            inside = True
            found[-1].append((number, text[2:], ""))
        elif inside and line.startswith("    >"):
            found[-1][-1] = (at, command + (text[2:] or "\n"), printed)
        elif inside and line.startswith("    "):
            found[-1][-1] = (at, command, printed + blank + text)
        inside = inside and (line == "\n" or line.startswith("    "))
        blank = blank + line if line == "\n" else ""
    return [it for it in found if it]


def every_file() -> list[str]:
    """The texts that have sessions, or may have."""
    return [*sorted(glob.glob(f"{TOP}/tests/sessions/*.md") + glob.glob(f"{TOP}/docs/**/*.md", recursive=True)), f"{TOP}/README.md"]


def silent(path: str) -> list[str]:
    """Where a text has no session though one belongs there: the whole text, or what stands below a heading of tests/sessions/."""
    if not sessions(path):
        return [] if os.path.abspath(path) in BARE else [f"{os.path.relpath(path)}:1: no session"]
    if "/sessions/" not in os.path.abspath(path):
        return []
    text = open(path, encoding="utf-8").read()
    parts = [(text[: it.start()].count("\n") + 1, it[0]) for it in re.finditer(r"(?ms)^##+ .*?(?=^#|\Z)", text)]
    return [f"{os.path.relpath(path)}:{number}: no session" for number, part in parts if "\n    $ " not in part]


def run(commands: Session, program: str) -> list[tuple[str, str]]:
    """What each command of a session prints, with its status."""
    with tempfile.TemporaryDirectory(prefix="pdp8-session-", ignore_cleanup_errors=True) as folder:
        shutil.copy(program, f"{folder}/pdp8")
        shutil.copytree(f"{TOP}/examples", f"{folder}/examples")
        with open(f"{folder}/.session", "w", encoding="utf-8") as script:
            script.write(f". {TOP}/tests/recipes.sh\n")
            script.writelines(f"{command}printf '{MARK}%d\\n' $?\n" for _, command, _ in commands)
        words = ["bash", ".session"]
        ran = subprocess.run(words, cwd=folder, timeout=patience(600), stdin=subprocess.DEVNULL, stdout=subprocess.PIPE, stderr=subprocess.STDOUT)
        said = ran.stdout.decode(errors="backslashreplace")
    return re.findall(rf"(.*?){MARK}(\d+)\n", said, re.S)


def faults(path: str, commands: Session, program: str) -> list[str]:
    try:
        ran = run(commands, program)
    except subprocess.TimeoutExpired as late:
        return [f"{path}:{commands[0][0]}: no end within {late.timeout} seconds"]
    ran, told = ran + [("", "no end")] * (len(commands) - len(ran)), []
    for (number, command, wanted), (printed, status) in zip(commands, ran):
        got = printed + ("" if status == "0" else f"[{status}]\n")
        if not command.strip() or status == "127":
            told.append(f"{path}:{number}: the command is missing: {command}{printed}")
        elif got != wanted:
            lines = difflib.unified_diff(wanted.splitlines(True), got.splitlines(True), "wanted", "printed")
            told.append(f"{path}:{number}: {command}" + "".join(lines))
    return told


def is_old() -> bool:
    """Whether a source of the program has changed since ./pdp8 built it."""
    sources = [it for part in ("src", "specs", "proofs") for it in glob.glob(f"{TOP}/crates/*/{part}/**", recursive=True)]
    return any(os.path.getmtime(it) > os.path.getmtime(OWN) for it in sources if os.path.isfile(it))


def main(words: list[str]) -> int:
    program = OWN
    if words == ["--program"]:
        sys.exit("run_sessions: --program wants a file")
    if words[:1] == ["--program"]:
        program, words = words[1], words[2:]
    elif words[:1] == ["--unproved"]:
        if ready("pdp8"):
            return 1
        program, words = Build("pdp8").program, words[1:]
    if not os.path.isfile(program):
        sys.exit(f"run_sessions: there is no program {program}: ./prove builds it")
    if program == OWN and is_old():
        print("run_sessions: the program is older than a source of it: ./prove builds it anew", file=sys.stderr)
    paths = words or every_file()
    tally = Tally(sys.maxsize)
    work = [(os.path.relpath(path), commands) for path in paths for commands in sessions(path)]
    with concurrent.futures.ProcessPoolExecutor(len(os.sched_getaffinity(0))) as lanes:
        runs = lanes.map(faults, *zip(*((path, commands, os.path.abspath(program)) for path, commands in work))) if work else []
        for kind, told in [*(("sessions", it) for it in runs), *(("silent texts", [it]) for path in paths for it in silent(path))]:
            tally.add(kind, "\n".join(told))
    return tally.end()


if __name__ == "__main__":
    sys.exit(main(sys.argv[1:]))
