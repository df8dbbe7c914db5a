#!/usr/bin/env python3
"""check_release.py: packs the proved program by ./release, twice, and looks at what is packed. The bytes are the same, and the sum is theirs. In an
empty folder, with a PATH of coreutils alone, the program does its main job. Of sources that are not proved nothing is packed. With --tree that tree
is packed, by its own ./release. The last line is 'N passed, M failed'.

usage: check_release.py [--tree FOLDER]
"""
import glob
import hashlib
import os
import shutil
import subprocess
import sys
import tarfile
import tempfile
from typing import Iterator

TOP = os.path.dirname(os.path.dirname(os.path.abspath(__file__)))
sys.dont_write_bytecode = True
sys.path.insert(0, TOP)
from tests.check_install import LISTED
from tests.options import option, patience
from tests.tally import run_in_time

TREE = option("--tree", TOP)
COREUTILS = ("cat", "cp", "head", "ls", "mkdir", "mv", "readlink", "rm", "stty", "tail", "tr")
FILES = {"README.txt", "bin/pdp8", "libexec/pdp8", "libexec/pdp8-terminal", "share/man/man1/pdp8.1", "share/bash-completion/completions/pdp8",
    "share/fish/vendor_completions.d/pdp8.fish", "share/zsh/site-functions/_pdp8", "page/index.html", "page/pdp8.wasm"}


def unpack(archive: str, room: str) -> str:
    """Unpacks an archive into an empty folder, and returns the folder that it has."""
    os.makedirs(f"{room}/empty")
    with tarfile.open(archive) as packed:
        packed.extractall(f"{room}/empty")
    return f"{room}/empty/{os.listdir(f'{room}/empty')[0]}"


def lay_tools(room: str) -> str:
    """A folder for a PATH that has coreutils alone."""
    os.makedirs(f"{room}/tools")
    for tool in COREUTILS:
        os.symlink(shutil.which(tool) or f"/usr/bin/{tool}", f"{room}/tools/{tool}")
    return f"{room}/tools"


def faults(room: str) -> Iterator[list[str]]:
    """What is wrong with what ./release packs, a list for each check."""
    made = []
    for name in ("one", "two"):
        packed = run_in_time([f"{TREE}/release", f"{room}/{name}"], patience(1200))
        yield [packed.stdout + packed.stderr] if packed.returncode else []
        made += glob.glob(f"{room}/{name}/*.tar.gz")
    if len(made) != 2:
        return
    first, second = (open(path, "rb").read() for path in made)
    yield ["two archives of one commit differ"] if first != second else []
    said = open(f"{made[0]}.sha256", encoding="utf-8").read()
    yield [f"the sum is {said}"] if said != f"{hashlib.sha256(first).hexdigest()}  {os.path.basename(made[0])}\n" else []
    folder = unpack(made[0], room)
    missing = [name for name in FILES if not os.path.exists(f"{folder}/{name}")]
    yield [f"there is no {name}" for name in missing]
    env = {"PATH": lay_tools(room)}
    with open(f"{TOP}/examples/add-one.bin", "rb") as tape:
        listed = run_in_time([f"{folder}/bin/pdp8", "tape"], patience(60), cwd=folder, stdin=tape, env=env)
    yield [listed.stdout + listed.stderr] if (listed.stdout, listed.stderr) != (LISTED, "") else []
    shutil.copy(f"{TOP}/examples/hello.pa", folder)
    script = "bin/pdp8 assemble hello.pa >hello.bin && bin/pdp8 teletype hello.bin"
    ran = run_in_time(["/bin/sh", "-c", script], patience(60), cwd=folder, stdin=subprocess.DEVNULL, env=env)
    yield [ran.stdout + ran.stderr] if not ran.stdout.startswith("HELLO\n") or ran.returncode else []
    ran = subprocess.run([f"{copy_of_sources(room)}/release"], capture_output=True, text=True)
    is_refused = ran.returncode == 70 and ran.stderr == "release: the program is not proved as its sources stand; ./prove proves it\n"
    yield [] if is_refused else [f"without a proof: {ran.returncode} {ran.stdout}{ran.stderr}"]


def copy_of_sources(room: str) -> str:
    """A copy of the tree in which nothing is proved."""
    listed = subprocess.run(["git", "-C", TOP, "ls-files", "-z", "--", "crates", "crates.txt", "build", "release"], capture_output=True, text=True)
    for name in filter(None, listed.stdout.split("\0")):
        os.makedirs(os.path.dirname(f"{room}/sources/{name}"), exist_ok=True)
        shutil.copy(f"{TOP}/{name}", f"{room}/sources/{name}")
    return f"{room}/sources"


def main() -> int:
    with tempfile.TemporaryDirectory(prefix="pdp8-released-") as room:
        told = list(faults(room))
    for it in told:
        print(*(f"check_release: {line}" for line in it), sep="\n", end="\n" if it else "")
    failed = sum(map(bool, told))
    print(f"{len(told) - failed} passed, {failed} failed")
    return 1 if failed else 0


if __name__ == "__main__":
    sys.exit(main())
