#!/usr/bin/env python3
"""page.py [--proved | --unproved] FOLDER: makes the page's folder: the files of web/, examples/, help made of docs/using/, and pdp8.wasm,
which is the program.

Where the program is proved as its sources stand, its module for WebAssembly is made of what was proved. The prover is called for the program's crate
as build/proved.py calls it, over the same libraries. A stand-in for the toolchain's clang keeps the LLVM module that the prover hands on, and makes
no native object of it. Else, or with --unproved, it is made of the module that build/unproved.py keeps, with its checks. The toolchain's clang and
its linker make a WebAssembly module of either and of web/runtime.c. The foot of the page says which it is. A module is made again only where a source
of the program, the toolchain, runtime.c or this file has changed. --proved refuses to make the other page.
"""
import glob
import os
import shutil
import subprocess
import sys
import tempfile
from typing import Callable

sys.dont_write_bytecode = True
TOP = os.path.dirname(os.path.dirname(os.path.abspath(__file__)))
sys.path.insert(0, TOP)
from build import help_page
from build.proved import PROGRAM, Wanted
from build.prover import words_for
from build.sums import sum_of
from build.toolchain import kit, toolchain
from build.unproved import Build, ready
from build.working import Progress, lock, toolchain_with

# A call of it is `.. -c -x ir module.bc -o module.o ..`: the object, which nothing would use, stays empty.
STAND_IN = """#!/bin/sh
last= given= object=
for word; do
    case $word in *.bc) given=$word ;; esac
    [ "$last" = -o ] && object=$word
    last=$word
done
[ -n "$given" ] || exec "{clang}" "$@"
cp "$given" "{module}" && : >"$object"
"""
WASM = ["--target=wasm64-unknown-unknown", "--no-default-config", "-mcpu=lime1", "-O3", "-ffunction-sections"]
OF_MODULE = ["-Wno-override-module", "-c", "-x", "ir"]
LINK = ["-mwasm64", "--no-entry", "--gc-sections", "--strip-all", "--allow-undefined", "-z", "stack-size=4194304", "--stack-first", "--export=main"]
MARK = "<!-- which program this is -->"
FILES = "/* the files of the page */"
UNPROVED = "built with checks of sources that were not proved here, and compiled for WebAssembly. A failed check ends a run and says so."


class Page:
    """How the module of the page is made, of a program that is proved or not."""

    def __init__(self, wanted: Wanted, library: Callable[[str], str] | None) -> None:
        self.wanted, self.library = wanted, library
        self.folder = f"{TOP}/target/wasm/{'proved' if library else 'unproved'}"
        self.work, self.made = f"{self.folder}/work", f"{self.folder}/{PROGRAM}.wasm"

    def sum(self) -> str:
        """The sum of all that the module is made of."""
        return sum_of("page", TOP, [self.wanted.sums[PROGRAM] if self.library else Build(PROGRAM).sum], [])

    def is_current(self) -> bool:
        kept = f"{self.folder}/sum"
        return os.path.exists(self.made) and os.path.exists(kept) and open(kept, encoding="utf-8").read() == self.sum()

    def run(self, words: list[str], folder: str = TOP) -> None:
        """Runs a tool. Where it fails, what it says is shown, and that is the end."""
        ran = subprocess.run(words, cwd=folder, stdin=subprocess.DEVNULL, stdout=subprocess.PIPE, stderr=subprocess.STDOUT)
        if ran.returncode:
            sys.stderr.buffer.write(ran.stdout)
            sys.exit(70)

    def object_of_proof(self, library: Callable[[str], str]) -> list[str]:
        """Compiles what was proved, over its libraries."""
        words = [f"{toolchain()}/bin/rattle", "build", *words_for(self.wanted.all, PROGRAM, library)]
        words += ["--jobs", str(len(os.sched_getaffinity(0))), "--cpu=x86-64", "-o", f"{self.work}/{PROGRAM}.o"]
        with toolchain_with(STAND_IN.format(module=f"{self.work}/{PROGRAM}.bc", clang=self.clang())) as tools:
            self.run([*words, "--toolchain", tools], f"{TOP}/crates/{PROGRAM}")
        made = f"{self.work}/{PROGRAM}.wasm.o"
        self.run([self.clang(), *WASM, *OF_MODULE, f"{self.work}/{PROGRAM}.bc", "-o", made])
        return [made]

    def object_of_build(self) -> list[str]:
        """Has the linker compile the module of the build with checks, in parts, without what nothing reaches."""
        if ready(PROGRAM, to_module=True):
            sys.exit(70)
        made = f"{self.work}/{PROGRAM}.bc"
        self.run([self.clang(), *WASM, "-O0", "-Xclang", "-disable-llvm-passes", "-emit-llvm", *OF_MODULE, Build(PROGRAM).module, "-o", made])
        return ["--lto-O3", f"--lto-partitions={len(os.sched_getaffinity(0))}", made]

    def clang(self) -> str:
        return f"{toolchain()}/toolchain/bin/clang"

    def build(self) -> None:
        """Makes the module."""
        shutil.rmtree(self.folder, ignore_errors=True)
        os.makedirs(self.work)
        of = self.sum()
        words = self.object_of_proof(self.library) if self.library else self.object_of_build()
        self.run([self.clang(), *WASM, "-ffreestanding", "-fno-builtin", "-c", f"{TOP}/web/runtime.c", "-o", f"{self.work}/runtime.o"])
        with tempfile.TemporaryDirectory(prefix="pdp8-linker-") as tools:
            os.symlink(self.clang(), f"{tools}/wasm-ld")
            self.run([f"{tools}/wasm-ld", *LINK, "-o", self.made, *words, f"{self.work}/runtime.o"])
        shutil.rmtree(self.work)
        if Page(Wanted(), self.library).sum() != of:
            print("page: a source has changed while it was made; the next call makes it anew", file=sys.stderr)
            sys.exit(70)
        with open(f"{self.folder}/sum", "w", encoding="utf-8") as kept:
            kept.write(of)

    def lay(self, folder: str) -> None:
        """Lays all files of the page into a folder."""
        os.makedirs(folder, exist_ok=True)
        for path in [it for kind in ("css", "js", "svg", "webmanifest") for it in glob.glob(f"{TOP}/web/*.{kind}")]:
            shutil.copy(path, folder)
        text = open(f"{TOP}/web/index.html", encoding="utf-8").read()
        which = f"proved with {kit()} and then compiled for WebAssembly." if self.library else UNPROVED
        with open(f"{folder}/index.html", "w", encoding="utf-8") as page:
            page.write(text.replace(MARK, which))
        with open(f"{TOP}/web/help.html", encoding="utf-8") as frame, open(f"{folder}/help.html", "w", encoding="utf-8") as page:
            page.write(help_page.laid(frame.read()))
        shutil.copytree(f"{TOP}/examples", f"{folder}/examples", dirs_exist_ok=True)
        shutil.copy(self.made, folder)
        self.list_files(folder)

    def list_files(self, folder: str) -> None:
        """Writes into sw.js which files the page has, which is what it keeps for a time without a network."""
        files = sorted(os.path.relpath(it, folder) for it in glob.glob(f"{folder}/**", recursive=True) if os.path.isfile(it))
        with open(f"{folder}/sw.js", encoding="utf-8") as script:
            text = script.read()
        with open(f"{folder}/sw.js", "w", encoding="utf-8") as script:
            script.write(text.replace(FILES, ", ".join(f"'{it}'" for it in ["./", *files] if it != "sw.js")))


def library_of(wanted: Wanted) -> Callable[[str], str] | None:
    """Where the libraries lie of which the proved program was made. Nothing where the program is not proved as its sources stand."""
    return wanted.library if all(map(wanted.is_proved, wanted.names)) else None


def main(words: list[str]) -> int:
    which, folder = words if len(words) == 2 else ("", *words)
    wanted = Wanted()
    library = None if which == "--unproved" else library_of(wanted)
    if which == "--proved" and not library:
        print("page: the program is not proved as its sources stand; ./prove proves it", file=sys.stderr)
        return 70
    page = Page(wanted, library)
    os.makedirs(f"{TOP}/target/wasm", exist_ok=True)
    lock(f"{TOP}/target/wasm", Progress(), "another call makes the page: this one waits for it")
    if not page.is_current():
        what = "proved" if library else "unproved"
        print(f"page: compiling the {what} program for WebAssembly; this takes two minutes or so, once", file=sys.stderr, flush=True)
        page.build()
    page.lay(os.path.abspath(folder))
    return 0


if __name__ == "__main__":
    sys.exit(main(sys.argv[1:]))
