#!/usr/bin/env python3
"""check_install.py: lays the built program by ./install into a new folder, and looks at what is there. The program and its page need nothing
of the clone, the page names every command and option that the sources give the command line, and ./pdp8 works through a link. The program
that is built with checks is laid too, under another name, with what is said of other programs of that name. With --tree the program of that tree is
laid, by its own ./install. The last line is 'N passed, M failed'.

usage: check_install.py [--tree FOLDER]
"""
import glob
import os
import pty
import re
import select
import shutil
import subprocess
import sys
import tempfile
import time
from typing import Any, Iterator

sys.dont_write_bytecode = True
TOP = os.path.dirname(os.path.dirname(os.path.abspath(__file__)))
sys.path.insert(0, TOP)
from tests.options import option, patience
from tests.rattle_sources import source
from tests.tally import run_in_time

TREE = option("--tree", TOP)
TAPE = f"{TOP}/examples/add-one.bin"
# What `tape` prints of it.
LISTED = "0 0200 7300\n0 0201 1203\n0 0202 7402\n0 0203 0007\n"


def ran(words: list[str], folder: str, **how: Any) -> subprocess.CompletedProcess[str]:
    with open(TAPE, "rb") as tape:
        return run_in_time(words, patience(600), cwd=folder, stdin=tape, **how)


FILES = ["bin/pdp8", "libexec/pdp8", "libexec/pdp8-terminal", "share/bash-completion/completions/pdp8", "share/fish/vendor_completions.d/pdp8.fish",
    "share/man/man1/pdp8.1", "share/zsh/site-functions/_pdp8"]


def files_of(folder: str) -> list[str]:
    return sorted(os.path.relpath(f"{at}/{name}", folder) for at, _, names in os.walk(folder) for name in names)


def named() -> tuple[list[str], list[str]]:
    """The commands and options that the table of the command line names, but for the hidden ones."""
    table, rows = (source(f"{TOP}/crates/command_table/src/{it}.rt").code for it in ("table", "rows"))
    commands = re.findall(r'(?m)^    Verb::\w+, "(\w+)",', table)
    return commands, [f"--{it}" for it in re.findall(r'(?m)^    "([\w-]+)" (?:\'\w\' )?(?:flag|option) ', rows)]


def faults(room: str) -> Iterator[list[str]]:
    """What is wrong with what ./install lays, a list for each check."""
    folder, link = f"{room}/laid in here", f"{room}/linked"
    laid = ran([f"{TREE}/install", folder], room)
    yield [laid.stderr] if laid.returncode else []
    yield [] if laid.stdout.startswith("pdp8 is proved as its sources stand, with ") else [laid.stdout]
    yield [f"laid {files_of(folder)}"] if files_of(folder) != FILES else []
    if files_of(folder) != FILES:
        return
    moved = shutil.copytree(folder, f"{room}/moved")
    os.symlink(f"{moved}/bin/pdp8", f"{room}/found")
    for program in (f"{moved}/bin/pdp8", f"{room}/found"):
        listed = ran([program, "tape"], "/", env={})
        yield [listed.stdout + listed.stderr] if listed.stdout != LISTED else []
    page = open(f"{folder}/share/man/man1/pdp8.1", encoding="utf-8").read().replace("\\-", "-")
    commands, options = named()
    yield [f"the page has no {it}" for it in commands if not re.search(rf'(?m)^\.IP "\\fBpdp8 {it}\b', page) and it != "pdp8"]
    yield [f"the page has no {it}" for it in options if not re.search(rf"(?m)^\.IP .*{it}\b", page)]
    yield ["the sources name no command, or no option"] if len(commands) < 2 or not options else []
    yield ["the page has 350 lines, or more"] if page.count("\n") >= 350 else []
    if shutil.which("groff"):
        told = ran(["groff", "-man", "-ww", "-z", f"{folder}/share/man/man1/pdp8.1"], room)
        yield [told.stderr] if told.stderr or told.returncode else []
    asked = f". '{folder}/share/bash-completion/completions/pdp8'; COMP_WORDS=(pdp8 get --in) COMP_CWORD=2; _pdp8; echo \"${{COMPREPLY[@]}}\""
    completed = ran(["bash", "-c", asked], room)
    yield [completed.stdout + completed.stderr] if completed.stdout != "--into\n" else []
    for typed, whole in (("pdp8 tel", "pdp8 teletype "), ("pdp8 get --in", "pdp8 get --into "), ("pdp8 put disk.img -t lon", "pdp8 put disk.img -t long.pa ")):
        shown = typed_at_bash(f"{folder}/share/bash-completion/completions/pdp8", typed, room)
        yield [f"{typed} and Tab: {shown!r}"] if whole not in shown else []
    os.symlink(f"{TREE}/pdp8", link)
    listed = ran([link, "tape"], room)
    yield [listed.stdout + listed.stderr] if (listed.stdout, listed.stderr) != (LISTED, "") else []
    for words in (["--help"], ["--name"], ["--name", "a/b"], ["one", "two"]):
        wrong = ran([f"{TREE}/install", *words], room)
        yield [f"{words}: status {wrong.returncode}"] if wrong.returncode != 2 else []
    yield from faults_of_unproved(room)
    costs = min(cost(folder), cost(folder))
    yield [f"a call by the script costs {costs:.1f} ms more"] if costs > 3 else []


def faults_of_unproved(room: str) -> Iterator[list[str]]:
    """What is wrong with the program that is built with checks, laid as `eight` between two folders of the PATH that have an `eight` too."""
    folder, own = f"{room}/unproved", f"{room}/unproved/bin"
    for other in ("before", "after"):
        os.makedirs(f"{room}/{other}")
        shutil.copy("/bin/true", f"{room}/{other}/eight")
    os.makedirs(own)
    env = {**os.environ, "PATH": f"{room}/before:{own}:{room}/after:{os.environ['PATH']}"}
    laid = ran([f"{TREE}/install", "--unproved", "--name", "eight", folder], room, env=env)
    yield [laid.stderr] if laid.returncode else []
    yield [] if laid.stdout.startswith("pdp8 is built with checks, and not proved here\n") else [laid.stdout]
    yield [f"laid {files_of(folder)}"] if files_of(folder) != [it.replace("pdp8", "eight") for it in FILES] else []
    yield [] if f"another eight stands before it on the PATH, and is the one that eight runs: {room}/before/eight" in laid.stdout else [laid.stdout]
    yield [] if f"another eight stands after it on the PATH: {room}/after/eight" in laid.stdout else [laid.stdout]
    listed = ran([f"{own}/eight", "tape"], "/", env={})
    yield [listed.stdout + listed.stderr] if listed.stdout != LISTED else []
    yield [] if b"Ctrl-\\ ends it" in shown_at_terminal([f"{own}/eight", "teletype", TAPE]) else ["teletype has no keys at a terminal"]
    page = open(f"{folder}/share/man/man1/eight.1", encoding="utf-8").read()
    yield ["its page has another name"] if not page.startswith(".TH EIGHT 1 ") or "\\fBeight tape" not in page else []


def shown_at_terminal(words: list[str]) -> bytes:
    """What a command shows at a terminal."""
    child, terminal = pty.fork()
    if child == 0:
        os.execv(words[0], words)
    shown = b""
    try:
        while part := os.read(terminal, 4096):
            shown += part
    except OSError:
        pass  # how a terminal whose other end is closed ends
    os.close(terminal)
    os.waitpid(child, 0)
    return shown


def typed_at_bash(completions: str, typed: str, room: str) -> str:
    """What an interactive bash at a terminal shows where a line is typed, and Tab struck."""
    open(f"{room}/long.pa", "w").close()
    child, terminal = pty.fork()
    if child == 0:
        os.chdir(room)
        os.execvpe("bash", ["bash", "--norc", "--noprofile", "-i"], {**os.environ, "TERM": "dumb", "PS1": "> "})
    shown = ""
    try:
        for keys, end in ((f". '{completions}'; echo re''ady\n", "ready"), (f"{typed}\t", None), ("\x15exit\n", None)):
            os.write(terminal, keys.encode())
            limit = time.monotonic() + (10 if end else 1)
            while time.monotonic() < limit and not (end and end in shown):
                if select.select([terminal], [], [], 0.1)[0]:
                    shown += os.read(terminal, 4096).decode(errors="replace")
    except OSError:
        pass  # how a terminal whose other end is closed ends
    os.close(terminal)
    os.waitpid(child, 0)
    return shown


def cost(folder: str) -> float:
    """The milliseconds that the laid script costs over the program itself, the least of many calls."""
    least: dict[str, float] = {}
    for part in ["bin", "libexec"] * 60:
        begun = time.perf_counter()
        subprocess.run([f"{folder}/{part}/pdp8", "--version"], stdin=subprocess.DEVNULL, stdout=subprocess.DEVNULL)
        least[part] = min(time.perf_counter() - begun, least.get(part, 1))
    return (least["bin"] - least["libexec"]) * 1000


def main() -> int:
    with tempfile.TemporaryDirectory(prefix="pdp8-laid-") as room:
        told = list(faults(room))
    for it in told:
        print(*(f"check_install: {line}" for line in it), sep="\n", end="\n" if it else "")
    failed = sum(map(bool, told))
    print(f"{len(told) - failed} passed, {failed} failed")
    return 1 if failed else 0


if __name__ == "__main__":
    sys.exit(main())
