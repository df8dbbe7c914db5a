"""What the builds of the program share: what they show on standard error, the processes that they start, and the lock that keeps two
builds of one kind apart.
"""
import contextlib
import fcntl
import os
import shutil
import signal
import subprocess
import sys
import tempfile
import time
from typing import Any, Iterator

from build.toolchain import toolchain


class Progress:
    """What standard error shows: lines, and on a terminal one more line that is written over."""

    def __init__(self) -> None:
        self.begun, self.is_live, self.shown = time.monotonic(), sys.stderr.isatty(), ""

    def clock(self) -> str:
        seconds = int(time.monotonic() - self.begun)
        return f"{seconds // 60}:{seconds % 60:02}"

    def show(self, what: str) -> None:
        """Shows on a terminal what the build does now, and for how long it has run."""
        if self.is_live:
            line = f"{what}, {self.clock()}"[: shutil.get_terminal_size().columns - 1]
            if line != self.shown:
                print(f"\r\033[K{line}", end="", file=sys.stderr, flush=True)
                self.shown = line

    def say(self, line: str) -> None:
        self.clear()
        print(line, file=sys.stderr, flush=True)

    def clear(self) -> None:
        if self.is_live and self.shown:
            print("\r\033[K", end="", file=sys.stderr, flush=True)
        self.shown = ""


class Group:
    """The processes of a build, all of which end when the build does, however it ends."""

    def __init__(self) -> None:
        ends, self.own_end = os.pipe()
        # the shell reads until this program's end of the pipe is closed
        self.guard = subprocess.Popen(["sh", "-c", "read _; kill -9 0"], stdin=ends, preexec_fn=os.setpgrp)
        self.number = self.guard.pid
        os.close(ends)

    def start(self, words: list[str], **how: Any) -> subprocess.Popen[bytes]:
        return subprocess.Popen(words, stdin=subprocess.DEVNULL, preexec_fn=lambda: os.setpgid(0, self.number), **how)

    def end(self) -> None:
        os.close(self.own_end)
        self.guard.wait()


@contextlib.contextmanager
def toolchain_with(clang: str) -> Iterator[str]:
    """A folder like the toolchain's, whose clang is this script. It lies outside the tree, where the toolchain's gate would refuse its
    links."""
    own = f"{toolchain()}/toolchain"
    with tempfile.TemporaryDirectory(prefix="pdp8-toolchain-") as folder:
        os.makedirs(f"{folder}/bin")
        os.symlink(f"{own}/lib", f"{folder}/lib")
        for tool in os.listdir(f"{own}/bin"):
            if tool != "clang":
                os.symlink(f"{own}/bin/{tool}", f"{folder}/bin/{tool}")
        with open(f"{folder}/bin/clang", "w", encoding="utf-8") as script:
            script.write(clang)
        os.chmod(f"{folder}/bin/clang", 0o755)
        yield folder


def lock(folder: str, progress: Progress, waiting: str) -> None:
    """Waits until no other build holds a folder, and holds it until this program ends. Says `waiting` where it has to wait."""
    number = os.open(folder, os.O_RDONLY)
    try:
        fcntl.flock(number, fcntl.LOCK_EX | fcntl.LOCK_NB)
    except BlockingIOError:
        progress.say(waiting)
        fcntl.flock(number, fcntl.LOCK_EX)
    except OSError:
        pass  # a file system without locks


def heed_signals() -> None:
    """Has the signals that end a program break it off as Ctrl-C does."""

    def break_off(*_: object) -> None:
        raise KeyboardInterrupt

    signal.signal(signal.SIGTERM, break_off)
    signal.signal(signal.SIGHUP, break_off)
