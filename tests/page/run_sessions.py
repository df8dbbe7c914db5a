#!/usr/bin/env python3
"""run_sessions.py [--program FILE] [FILE..]: runs the sessions of tests/sessions/*.md, README.md and the pages below docs/, or those of these files,
with the program's WebAssembly module. It does as tests/run does with the native programs, but leaves out those that beyond.txt lists. They need more
of the host than the page has.

The program is client.c, so this runs below server.mjs, as tests/page/check_page.sh calls it. The last line is 'N passed, M failed'.
"""
import concurrent.futures
import os
import sys
from typing import Iterator

sys.dont_write_bytecode = True
HERE = os.path.dirname(os.path.abspath(__file__))
TOP = os.path.dirname(os.path.dirname(HERE))
sys.path.insert(0, TOP)
from tests import run_sessions
from tests.tally import Tally

PROGRAM = f"{TOP}/target/wasm/client"


def headed(path: str) -> Iterator[tuple[str, run_sessions.Session]]:
    """The sessions of a file, each with its file and heading, as beyond.txt has them."""
    lines = open(path, encoding="utf-8").read().split("\n")
    for commands in run_sessions.sessions(path):
        heading = next((it for it in reversed(lines[: commands[0][0]]) if it.startswith("#")), "")
        yield f"{os.path.relpath(path, TOP)}: {heading.lstrip('# ')}", commands


def beyond() -> dict[str, str]:
    """What beyond.txt lists: lines `FILE: HEADING | REASON`."""
    lines = open(f"{HERE}/beyond.txt", encoding="utf-8").read().splitlines()
    return dict(it.split(" | ") for it in lines if it and not it.startswith("#"))


def faults(path: str, commands: run_sessions.Session, program: str) -> list[str]:
    """What tests/run finds. Processes do this beside each other, and not threads. With threads, the copy of a program that one of these is writing
    would be open in the shell that another begins, and so couldn't be started."""
    return run_sessions.faults(path, commands, program)


def main(words: list[str]) -> int:
    program, words = (words[1], words[2:]) if words[:1] == ["--program"] else (PROGRAM, words)
    found = [it for path in ([os.path.abspath(it) for it in words] or run_sessions.every_file()) for it in headed(path)]
    listed = beyond()
    tally = Tally(sys.maxsize)
    for name in [] if words else sorted(listed.keys() - {name for name, _ in found}):
        tally.add("missing", f"beyond.txt: there is no session {name}")
    todo = [(name.split(": ")[0], commands, os.path.abspath(program)) for name, commands in found if name not in listed]
    with concurrent.futures.ProcessPoolExecutor(len(os.sched_getaffinity(0))) as lanes:
        for told in lanes.map(faults, *zip(*todo)):
            tally.add("sessions", "\n".join(told))
    return tally.end()


if __name__ == "__main__":
    sys.exit(main(sys.argv[1:]))
