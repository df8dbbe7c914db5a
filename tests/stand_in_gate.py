"""A copy of the gate as it stands, in which each check and the toolchain's own gate have a stand-in. It notes that it was run, with its words, and ends as
a file of the room says.
"""
import os
import shutil
import subprocess
import sys
from dataclasses import dataclass
from typing import Iterable

from tests import gate
from tests.stand_ins import write

TOP = os.path.dirname(os.path.dirname(os.path.abspath(__file__)))
PART = """#!/bin/sh
echo "{part} $*" >>"$ROOM/log"
[ -z "$CI" ] || echo "{part}" >>"$ROOM/in-ci"
[ ! -e "$ROOM/every" ] || . "$ROOM/every"
[ ! -e "$ROOM/ends/{part}" ] || . "$ROOM/ends/{part}"
echo '1 passed, 0 failed'
"""
# What stands for `rt`: it leaves a program and a library, and ends as the file `rt` of the room says.
RT = """#!/bin/sh
echo "rt $*" >>"$ROOM/log"
cd "$ROOM/tree" || exit 2
mkdir -p crates/low/out/rlib/low.rlib crates/pdp8/out
echo "a library" >crates/low/out/rlib/low.rlib/format
printf '#!/bin/sh\\necho "from rt ci"\\n' >crates/pdp8/out/pdp8
chmod +x crates/pdp8/out/pdp8
echo 'rt: low proved'
. "$ROOM/rt"
"""
PASSES = "echo '2 passed, 0 failed'; exit 0\n"
# What a tool of the gate needs of the system.
TOOLS = "basename bash cat chmod cut dirname env find git grep mkdir mktemp pgrep readlink rm sed sh sleep touch uname".split()


@dataclass
class Ran:
    """How a call of the gate ended: its status, its last line, all that it printed, and which parts were run, each with its words."""

    status: int
    last: str
    printed: str
    parts: list[str]


class StandInGate:
    """A copy of the gate in a room. `path` is what its PATH has: links to the tools of the system and stand-ins."""

    def __init__(self, room: str, checks: Iterable[str]) -> None:
        self.room, self.top, self.path = room, f"{room}/tree", f"{room}/path"
        for file in ("check", ".ci/run", "prove", "pdp8", "tests/gate.py", "docs/CONTRIBUTING.md"):
            os.makedirs(os.path.dirname(f"{self.top}/{file}"), exist_ok=True)
            shutil.copy(f"{TOP}/{file}", f"{self.top}/{file}")
        shutil.copytree(f"{TOP}/build", f"{self.top}/build")
        for name in os.listdir(f"{TOP}/tests"):  # what the gate takes from
            if name.endswith(".py") and not os.access(f"{TOP}/tests/{name}", os.X_OK):
                shutil.copy(f"{TOP}/tests/{name}", f"{self.top}/tests/{name}")
        for check in checks:
            if check != "tests/gate.py":
                write(f"{self.top}/{check}", PART.format(part=check))
        # what each part counts, of each gate
        rows = [f"{name} | {' '.join(words)} | {1 + (words == gate.RT_CI)}\n" for name in ("whole", "quick") for it in gate.parts(name == "quick") for words in it]
        write(f"{self.top}/tests/counts.txt", "".join(rows))
        write(f"{self.top}/crates.txt", "low:\npdp8: low\n")
        for file in ("low/src/lib.rt", "low/src/deep/deeper/more.rt", "pdp8/src/main.rt"):
            write(f"{self.top}/crates/{file}", "")
        write(f"{room}/kit/KIT-ID", "a kit\n")
        write(f"{room}/kit/bin/rt", RT)
        self.lay_path()
        self.rt_ends(PASSES)

    def lay_path(self) -> None:
        os.makedirs(self.path)
        for tool in TOOLS:
            os.symlink(shutil.which(tool) or f"/usr/bin/{tool}", f"{self.path}/{tool}")
        os.symlink(sys.executable, f"{self.path}/python3")
        os.symlink(f"{self.room}/kit/bin/rt", f"{self.path}/rt")
        write(f"{self.path}/apt-get", '#!/bin/sh\necho "apt-get $*" >>"$ROOM/log"\nexit "$(cat "$ROOM/apt-get")"\n')
        write(f"{self.room}/apt-get", "0")
        for tool in ("cc", "chromium", "node", "tsc", "mypy", "shellcheck"):
            write(f"{self.path}/{tool}", "#!/bin/sh\nexit 9\n")

    def rt_ends(self, script: str) -> None:
        write(f"{self.room}/rt", script)

    def ends(self, part: str, script: str) -> None:
        """How a part ends from now on."""
        write(f"{self.room}/ends/{part}", script)

    def every_ends(self, script: str) -> None:
        write(f"{self.room}/every", script)

    def loses_row(self, words: str) -> None:
        """Takes the rows of a part out of what each part must count."""
        with open(f"{self.top}/tests/counts.txt", encoding="utf-8") as text:
            rows = [line for line in text if f" | {words} | " not in line]
        write(f"{self.top}/tests/counts.txt", "".join(rows))

    def run(self, *words: str) -> Ran:
        write(f"{self.room}/log", "")
        env = {"PATH": self.path, "ROOM": self.room, "PYTHONDONTWRITEBYTECODE": "1"}
        ran = subprocess.run([f"{self.top}/{words[0]}", *words[1:]], env=env, stdin=subprocess.DEVNULL, stdout=subprocess.PIPE, stderr=subprocess.STDOUT, text=True)
        with open(f"{self.room}/log", encoding="utf-8") as log:
            parts = sorted(line.rstrip() for line in log.read().splitlines())
        return Ran(ran.returncode, (ran.stdout.splitlines() or [""])[-1], ran.stdout, parts)

    def is_proved(self) -> bool:
        """Whether the program that the stand-in for `rt ci` has left counts as proved from now on."""
        is_so = self.run("prove", "--status").status == 0
        return is_so and os.path.exists(f"{self.top}/crates/low/out/program/sum")
