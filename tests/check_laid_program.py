#!/usr/bin/env python3
"""check_laid_program.py [NAME..]: that ./install, ./release and ./page lay the program that is proved as its sources stand, and say so, and no other. It
has stand-ins for the toolchain's commands and a tree of two crates, in which the program is not proved, or is older than a source, or has other bytes.
./release refuses these, ./install proves anew, and ./page takes the program with checks and says that it is not proved. Nothing is laid where a proof
or a build fails. NAME takes those whose names have it. The last line is 'N passed, M failed'.
"""
import concurrent.futures
import glob
import itertools
import os
import sys
import tarfile
from typing import Callable, Iterator

sys.dont_write_bytecode = True
TOP = os.path.dirname(os.path.dirname(os.path.abspath(__file__)))
sys.path.insert(0, TOP)
from tests.stand_in_toolchain import Tree
from tests.stand_ins import Result, append, report, results, write

PARTS = [it for part in ("web", "examples", "docs/using") for it in glob.glob(f"{TOP}/{part}/**", recursive=True) if os.path.isfile(it)]
MORE = ("install", "release", "page", *(os.path.relpath(it, TOP) for it in PARTS))
MADE, SUM, DEEP = "crates/pdp8/out/pdp8", "crates/pdp8/out/program/sum", "crates/low/src/deep/deeper/more.rt"
NOT_PROVED = "the program is not proved as its sources stand; ./prove proves it\n"
PROVED_PAGE = "proved with a kit and then compiled for WebAssembly."
OTHER_PAGE = "built with checks of sources that were not proved here, and compiled for WebAssembly."


def tree_in(room: str) -> Tree:
    tree = Tree(room, more=MORE, is_small=True)
    for tool in ("manual", "completions"):
        write(f"{tree.top}/build/{tool}.py", "#!/bin/sh\necho \"of $1\"\n")
    return tree


def text_of(path: str) -> str:
    if not os.path.exists(path):
        return ""
    with open(path, encoding="utf-8") as file:
        return file.read()


def spoiled(tree: Tree) -> Iterator[str]:
    """Makes the tree, one after the other, such that the program which is there is not proved as its sources stand. The tree is as it was after each."""
    was = {file: text_of(f"{tree.top}/{file}") for file in (MADE, SUM, DEEP, "crates.txt")}
    changes = {MADE: "echo more\n", DEEP: "// changed\n", "crates.txt": "low: clap\n", SUM: "0"}
    for file, more in changes.items():
        append(f"{tree.top}/{file}", more)
        yield f"{file} has changed"
        write(f"{tree.top}/{file}", was[file])
    os.remove(f"{tree.top}/{SUM}")
    yield "its sum is lost"
    write(f"{tree.top}/{SUM}", was[SUM].split()[0])
    yield "its sum is that of no program"
    write(f"{tree.top}/{SUM}", was[SUM])
    write(f"{tree.room}/kit/KIT-ID", "another kit\n")
    yield "the toolchain is another"
    write(f"{tree.room}/kit/KIT-ID", "a kit\n")
    os.makedirs(f"{tree.room}/aside")
    os.rename(f"{tree.top}/{MADE}", f"{tree.room}/aside/pdp8")
    yield "it is lost"
    os.rename(f"{tree.room}/aside/pdp8", f"{tree.top}/{MADE}")


def is_refused_release(tree: Tree) -> bool:
    """Whether ./release packs nothing, and says why."""
    return tree.call("release", f"{tree.room}/none") == (70, "", f"release: {NOT_PROVED}") and not os.path.exists(f"{tree.room}/none")


def releases(room: str) -> Iterator[Result]:
    tree = tree_in(room)
    yield "a release of no program is refused", is_refused_release(tree)
    write(f"{tree.top}/{MADE}", "#!/bin/sh\necho stray\n")
    yield "a release of a program that nothing has proved is refused", is_refused_release(tree)
    tree.call()
    write(f"{tree.top}/{MADE}", text_of(f"{tree.top}/target/unproved/pdp8/pdp8"))
    yield "so is one of the program with checks", is_refused_release(tree)
    yield "it is proved", tree.call("prove")[0] == 0
    for what in spoiled(tree):
        yield f"a release is refused where {what}", is_refused_release(tree)
    yield "the proved program is released", tree.call("release", f"{room}/made")[0] == 0
    with tarfile.open(glob.glob(f"{room}/made/*.tar.gz")[0]) as packed:
        packed.extractall(f"{room}/unpacked")
    folder = glob.glob(f"{room}/unpacked/*")[0]
    made = text_of(f"{tree.top}/{MADE}")
    yield "what is packed is the proved program", text_of(f"{folder}/libexec/pdp8") == made != ""
    yield "its page is that of the proof", PROVED_PAGE in text_of(f"{folder}/page/index.html") and "module of the proof" in text_of(f"{folder}/page/pdp8.wasm")
    yield "the sum of its proof is named", text_of(f"{tree.top}/{SUM}").split()[0] in text_of(f"{folder}/README.txt")
    os.remove(f"{tree.top}/crates/low/out/program/sum")
    yield "nothing is packed where a crate below is not proved", tree.call("release", f"{room}/none")[0] == 70 and not os.path.exists(f"{room}/none")


def installs(room: str) -> Iterator[Result]:
    tree = tree_in(room)
    laid, program = f"{room}/laid", f"{room}/laid/libexec/pdp8"
    status, printed, _ = tree.call("install", laid)
    yield "./install proves first", status == 0 and printed.startswith("pdp8 is proved, with a kit;")
    yield "and lays what it has proved", text_of(program) == text_of(f"{tree.top}/{MADE}") != ""
    yield "what is proved is laid as it is", tree.call("install", laid)[1].startswith("pdp8 is proved as its sources stand, with a kit\n")
    for what in spoiled(tree):
        before = tree.log()["pdp8 proved"]
        status, printed, _ = tree.call("install", laid)
        yield f"./install proves anew where {what}", status == 0 and tree.log()["pdp8 proved"] == before + 1 and printed.startswith("pdp8 is proved, with ")
        yield f"and lays what it has proved where {what}", text_of(program) == text_of(f"{tree.top}/{MADE}")
        tree.call("prove")
    tree.change("low", "src/deep/deeper/more.rt")
    for order in ("fails-low", "killed-pdp8", "killed-linker"):
        tree.has(order)
        status, printed, _ = tree.call("install", f"{room}/none")
        yield f"./install lays nothing: {order}", status == 70 and "laid" not in printed and not os.path.exists(f"{room}/none")
    tree.has()


def installs_with_checks(room: str) -> Iterator[Result]:
    tree = tree_in(room)
    laid, made, said = f"{room}/laid", f"{tree.top}/target/unproved/pdp8/pdp8", "pdp8 is built with checks, and not proved here\n"
    tree.call("prove")
    for what in ("nothing is there", "a source has changed"):
        status, printed, _ = tree.call("install", "--unproved", laid)
        is_so = status == 0 and printed.startswith(said) and text_of(f"{laid}/libexec/pdp8") == text_of(made) and "checked" in text_of(made)
        yield f"./install --unproved builds and lays the program with checks where {what}", is_so and tree.log()["linked"] == 1 + (what != "nothing is there")
        tree.change("low", "src/deep/deeper/more.rt")
    for order in ("fails-linking", "killed-linking", "fails-lowering"):
        tree.change("low")
        tree.has(order)
        status, printed, _ = tree.call("install", "--unproved", f"{room}/none")
        yield f"./install --unproved lays nothing: {order}", status == 70 and printed == "" and not os.path.exists(f"{room}/none")


def is_page(folder: str, is_proved: bool) -> bool:
    """Whether a page says that it is proved, or not, in just one place, and has the module of which that is so."""
    text, module = text_of(f"{folder}/index.html"), text_of(f"{folder}/pdp8.wasm")
    says = [text.count(PROVED_PAGE), text.count(OTHER_PAGE), text.count("<!-- which program this is -->")]
    has = ["module of the proof" in module, "module with checks" in module]
    return says == [is_proved, not is_proved, 0] and has == [is_proved, not is_proved]


def pages(room: str) -> Iterator[Result]:
    tree = tree_in(room)
    page = f"{room}/page"

    def is_made(is_proved: bool, *words: str) -> bool:
        return tree.call("page", *words, page)[0] == 0 and is_page(page, is_proved)

    yield "a page with nothing proved says so", is_made(False)
    write(f"{tree.top}/{MADE}", "#!/bin/sh\necho stray\n")
    yield "so does one where nothing has proved the program", is_made(False)
    yield "no page of it is a proved one", tree.call("page", "--proved", f"{room}/none")[::2] == (70, f"page: {NOT_PROVED}") and not os.path.exists(f"{room}/none")
    yield "it is proved", tree.call("prove")[0] == 0
    yield "the page of what is proved says so", is_made(True) and is_made(True, "--proved")
    yield "--unproved makes the other", is_made(False, "--unproved") and is_made(True)
    first = text_of(f"{page}/pdp8.wasm")
    for what in spoiled(tree):
        yield f"the page says that it is not proved where {what}", is_made(False)
        yield f"no page is a proved one where {what}", tree.call("page", "--proved", f"{room}/none")[0] == 70 and not os.path.exists(f"{room}/none")
    yield "as it was, it is proved", is_made(True) and text_of(f"{page}/pdp8.wasm") == first
    tree.change("low", "specs/deep/Words.antt")
    yield "what is proved anew has a new module", is_made(False) and tree.call("prove")[0] == 0 and is_made(True) and text_of(f"{page}/pdp8.wasm") != first
    os.remove(f"{tree.top}/crates/low/out/program/sum")
    yield "the page says that it is not proved where a crate below is not", is_made(False)


def pages_that_fail(room: str) -> Iterator[Result]:
    tree, none = tree_in(room), f"{room}/none"
    tree.call("prove")
    for words, tool in (("--proved", "pdp8"), ("--unproved", "lowering")):
        for order in ("fails", "killed"):
            tree.has(f"{order}-{tool}")
            yield f"no page {words}: {order}-{tool}", tree.call("page", words, none)[0] == 70 and not os.path.exists(none)
        tree.has("fails-clang")
        yield f"no page {words} where the compiler fails", tree.call("page", words, none)[0] == 70 and not os.path.exists(none)
        tree.has()
        tree.changes("clang", DEEP)
        before = text_of(f"{tree.top}/{DEEP}")
        yield f"no page {words} where a source changes meanwhile", tree.call("page", words, none)[0] == 70 and not os.path.exists(none)
        write(f"{tree.top}/{DEEP}", before)
        tree.has()
        yield f"it is made anew with {words}", "compiling" in tree.call("page", words, f"{room}/page")[2] and is_page(f"{room}/page", words == "--proved")


WORKS: tuple[Callable[[str], Iterator[Result]], ...] = (releases, installs, installs_with_checks, pages, pages_that_fail)


def main(names: list[str]) -> int:
    works = [work for work in WORKS if not names or any(it in work.__name__ for it in names)]
    with concurrent.futures.ThreadPoolExecutor(3) as lanes:
        return report("check_laid_program", itertools.chain.from_iterable(lanes.map(results, works)))


if __name__ == "__main__":
    sys.exit(main(sys.argv[1:]))
