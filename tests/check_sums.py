#!/usr/bin/env python3
"""check_sums.py [NAME..]: the sums by which it is known what is proved, refused, built and shown on the page. Those of this tree are made anew here in
another way, from what `find` lists. Then each file of a small tree changes in turn, of each depth of each folder, and each tool, and the toolchain.
Exactly the sums that rest on it must change, and ./pdp8 must look again. NAME takes what is tried `anew` or on the `small` tree. The last line is
'N passed, M failed'.
"""
import collections
import hashlib
import os
import re
import shutil
import subprocess
import sys
import time
from typing import Callable, Iterator

sys.dont_write_bytecode = True
TOP = os.path.dirname(os.path.dirname(os.path.abspath(__file__)))
sys.path.insert(0, TOP)
from build.crates import Crates
from build.page import Page
from build.proved import Wanted
from build.toolchain import toolchain
from build.unproved import Build
from tests.stand_ins import Result, append, report, results, write
from tests.wrong_bodies import Edit


class Anew:
    """The sums of a tree, made of a listing of all its files by another way than that of build/."""

    def __init__(self, top: str) -> None:
        self.top = top
        listed = subprocess.run(["find", "crates", "-type", "f", "-print0"], cwd=top, capture_output=True, check=True).stdout
        paths = [it.split("/", 3) for it in listed.decode().rstrip("\0").split("\0")]
        self.paths = collections.defaultdict[tuple[str, str], list[str]](list)
        for _, name, folder, rest in (it for it in paths if len(it) == 4):
            self.paths[name, folder].append(f"crates/{name}/{folder}/{rest}")
        with open(f"{top}/crates.txt", encoding="utf-8") as text:
            self.rows = re.findall(r"(?m)^(\w+) *:([^#\n]*)", text.read())
        self.names = [name for name, _ in self.rows]
        self.stands = {name: below.split() for name, below in self.rows}
        self.of, self.lower = dict[str, str](), dict[str, set[str]]()

    def files(self, name: str, *folders: str) -> list[str]:
        return sorted(it for folder in folders for it in self.paths[name, folder])

    def hashed(self, words: list[str], files: list[str]) -> str:
        text = open(f"{toolchain()}/KIT-ID", "rb").read() + "".join(f"{it}\n" for it in words).encode()
        for file in files:
            content = open(f"{self.top}/{file}", "rb").read()
            text += b"%s %d\n%s" % (file.encode(), len(content), content)
        return hashlib.sha256(text).hexdigest()

    def proof(self, name: str) -> str:
        if name not in self.of:
            below = self.stands[name]
            words = ["proof", name, "std", *(it for it in below if it not in self.names), *(f"{it} {self.proof(it)}" for it in below if it in self.names)]
            self.of[name] = self.hashed(words, [*self.files(name, "src", "specs", "proofs"), "build/prover.py"])
        return self.of[name]

    def below(self, name: str) -> set[str]:
        if name not in self.lower:
            own = [it for it in self.stands[name] if it in self.names]
            self.lower[name] = {*own, *(lower for it in own for lower in self.below(it))}
        return self.lower[name]

    def build(self, name: str) -> str:
        names = [it for it in self.names if it in self.below(name)] + [name]
        lines = [f"{it}:{rest}".strip() for wanted in names for it, rest in self.rows if it == wanted]
        files = [file for it in names for file in self.files(it, "src")]
        return self.hashed(["build", *lines], [*files, "build/unproved.py", "build/working.py", "build/checked.c"])

    def page(self, of: str) -> str:
        return self.hashed(["page", of], ["build/page.py", "build/working.py", "web/runtime.c"])


def made_anew(_: str) -> Iterator[Result]:
    """That the sums of this tree rest on all its files."""
    anew, crates = Anew(TOP), Crates()
    yield "crates.txt has the crates", crates.names == anew.names and len(crates.names) > 1
    for name in anew.names:
        yield f"the sum of {name}'s proof is that of all its files", crates.sum(name) == anew.proof(name)
    for name in (it for it in anew.names if os.path.exists(f"{TOP}/crates/{it}/src/main.rt")):
        yield f"the sum of {name}'s build is that of all its sources", Build(name).sum == anew.build(name)
    wanted = Wanted()
    yield "the sum of the page of what is proved", Page(wanted, wanted.library).sum() == anew.page(anew.proof("pdp8"))
    yield "the sum of the page of what is built with checks", Page(wanted, None).sum() == anew.page(anew.build("pdp8"))
    for edit in [Edit(f"{at}/{it}") for at, _, files in os.walk(f"{TOP}/tests/edits/word12") for it in files]:
        words = ["refusal", anew.proof(edit.crate), *sorted(map(str, edit.functions))]
        known = anew.hashed(words, [os.path.relpath(edit.path, TOP), "tests/wrong_bodies.py"])
        yield f"the sum of the refusal of {edit.label}", os.path.basename(edit.kept()) == known


# Answers each line of standard input with the sums of the tree as it stands then.
SUMS = """import sys
from build.crates import Crates
from build.page import Page
from build.proved import Wanted
from build.unproved import Build
from tests import wrong_bodies
for _ in sys.stdin:
    wrong_bodies.CRATES, wanted = Crates(), Wanted()
    refusal = wrong_bodies.Edit("tests/edits/low/one.edit").kept()
    print(Crates().sum("pdp8"), refusal, Build("pdp8").sum, Page(wanted, wanted.library).sum(), Page(wanted, None).sum(), Crates().sum("low"), flush=True)
"""
KINDS = ("a proof", "a refusal", "a build", "a page of the proved", "a page of the other", "a proof below")
OF_PROOF = {"a proof", "a refusal", "a page of the proved", "a proof below"}
OF_BUILD = {"a build", "a page of the other"}
PAGES = {"a page of the proved", "a page of the other"}
EVERY = {*KINDS}
FILES = [f"{part}/{depth}{file}" for part, file in (("src", "lib.rt"), ("specs", "Words.antt"), ("proofs", "words.antt")) for depth in ("", "deep/", "deep/deeper/")]
# What changes, and the sums that rest on it.
ROWS: list[tuple[str, set[str]]] = [("kit/KIT-ID", EVERY), ("tree/crates.txt", EVERY - {"a proof below", "a refusal"}), ("tree/crates/pdp8/src/main.rt", EVERY - {"a refusal", "a proof below"})]
ROWS += [(f"tree/crates/low/{file}", OF_PROOF | (OF_BUILD if file.startswith("src") else set())) for file in FILES]
ROWS += [(f"tree/crates/pdp8/{file}", {"a proof", "a page of the proved"} | (OF_BUILD if file.startswith("src") else set())) for file in FILES]
ROWS += [("tree/build/prover.py", OF_PROOF), ("tree/build/checked.c", OF_BUILD), ("tree/build/unproved.py", OF_BUILD), ("tree/build/page.py", PAGES)]
ROWS += [("tree/build/working.py", OF_BUILD | PAGES), ("tree/web/runtime.c", PAGES), ("tree/tests/wrong_bodies.py", {"a refusal"})]
ROWS += [("tree/tests/edits/low/one.edit", {"a refusal"}), ("tree/crates/low/data/more", set()), ("tree/build/proved.py", set()), ("tree/tests/try_edits.py", set())]


class Small:
    """A tree of two crates, and what answers with its sums."""

    def __init__(self, room: str) -> None:
        self.room, self.top, kit = room, f"{room}/tree", f"{room}/kit"
        shutil.copytree(f"{TOP}/build", f"{self.top}/build", ignore=shutil.ignore_patterns("__pycache__"))
        shutil.copy(f"{TOP}/pdp8", self.top)
        for file in ("web/runtime.c", "tests/__init__.py", "tests/wrong_bodies.py", "tests/rattle_sources.py", "tests/try_edits.py"):
            os.makedirs(os.path.dirname(f"{self.top}/{file}"), exist_ok=True)
            shutil.copy(f"{TOP}/{file}", f"{self.top}/{file}")
        for file in ("pdp8/src/main.rt", "low/data/more", *(f"{name}/{file}" for name in ("low", "pdp8") for file in FILES)):
            write(f"{self.top}/crates/{file}", "a text\n")
        write(f"{self.top}/tests/edits/low/one.edit", "file: src/lib.rt\nold: a text\nnew: another\n")
        for path, text in (("crates.txt", "low: clap\npdp8: low\n"), ("crates/pdp8/out/pdp8", "#!/bin/sh\necho proved\n"), ("crates/pdp8/out/program/sum", "")):
            write(f"{self.top}/{path}", text)
        write(f"{kit}/bin/rt", "")
        write(f"{kit}/KIT-ID", "a kit\n")
        env = {**os.environ, "PATH": f"{kit}/bin:{os.environ['PATH']}", "PYTHONDONTWRITEBYTECODE": "1"}
        self.answering = subprocess.Popen([sys.executable, "-c", SUMS], cwd=self.top, env=env, stdin=subprocess.PIPE, stdout=subprocess.PIPE, text=True)

    def sums(self) -> list[str]:
        assert self.answering.stdin and self.answering.stdout
        self.answering.stdin.write("\n")
        self.answering.stdin.flush()
        return self.answering.stdout.readline().split()

    def runs(self) -> bool:
        """Whether ./pdp8 runs the proved program, and looks for nothing. (There is no toolchain on the path, where it would need one.)"""
        return subprocess.run([f"{self.top}/pdp8"], env={**os.environ, "PATH": "/usr/bin:/bin"}, capture_output=True, text=True).stdout == "proved\n"

    def renew(self) -> None:
        """Gives the proved program a time that is later than that of all changes, and earlier than that of the next."""
        time.sleep(0.02)
        os.utime(f"{self.top}/crates/pdp8/out/pdp8")
        time.sleep(0.02)

    def end(self) -> None:
        self.answering.communicate()


def small_tree(room: str) -> Iterator[Result]:
    """A small tree in which one file after the other changes: what then has another sum, and whether ./pdp8 looks again."""
    tree = Small(room)
    before = tree.sums()
    yield "each sum is there, and another", len(set(before)) == len(KINDS)
    yield "nothing changes of itself", tree.sums() == before
    tree.renew()
    yield "./pdp8 runs the proved program", tree.runs()
    for file, kinds in ROWS:
        append(f"{room}/{file}", "low: clap std\n" if file.endswith("crates.txt") else "changed\n")
        after = tree.sums()
        rests = {kind for kind, old, new in zip(KINDS, before, after) if old != new}
        wanted = kinds | ({"a proof below", "a refusal"} if file.endswith("crates.txt") else set())
        yield f"on {file} rest {sorted(wanted)}; it was {sorted(rests)}", rests == wanted and len(after) == len(KINDS)
        before = after
        is_looked_at = file.startswith("tree/build/") or file == "tree/crates.txt" or "/crates/" in file and "/data/" not in file
        yield f"./pdp8 looks again once {file} has changed", tree.runs() != is_looked_at
        tree.renew()
    yield from other_files(tree)
    tree.end()


def other_files(tree: Small) -> Iterator[Result]:
    """A file that is new, has another name, or is gone."""
    at = f"{tree.top}/crates/low/src/deep/deeper"
    changes: list[tuple[str, Callable[[], None]]] = [("a new file", lambda: write(f"{at}/new.rt", "a text\n"))]
    changes += [("another name", lambda: os.rename(f"{at}/new.rt", f"{at}/other.rt")), ("a file that is gone", lambda: os.remove(f"{at}/other.rt"))]
    changes += [("a new folder", lambda: write(f"{at}/more/deep/new.rt", "a text\n"))]
    before = tree.sums()
    for what, change in changes:
        change()
        after = tree.sums()
        yield f"each sum has {what} in it", all(old != new for old, new in zip(before, after))
        yield f"./pdp8 looks again for {what}", not tree.runs()
        tree.renew()
        before = after


def main(names: list[str]) -> int:
    works = [work for work in (made_anew, small_tree) if not names or any(it in work.__name__ for it in names)]
    return report("check_sums", [it for work in works for it in results(work)])


if __name__ == "__main__":
    sys.exit(main(sys.argv[1:]))
