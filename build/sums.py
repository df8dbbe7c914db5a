"""The one place for sums. What is proved, refused, built and shown on the page is known by a sum of all that it rests on. That is the toolchain, words
that say what it stands on and what is asked for, files, and the tools that asked. A changed file of any depth, tool or option gives another sum.
"""
import hashlib
import os
from typing import Iterable, NoReturn

from build.toolchain import toolchain

# The tools and options that each kind of sum has in it, as the bytes of their files. What other files of build/ say comes in as words, or decides
# only when something is made and where it lies.
TOOLS = {
    "proof": ("build/prover.py",),
    "refusal": ("tests/wrong_bodies.py",),
    "build": ("build/unproved.py", "build/working.py", "build/checked.c"),
    "page": ("build/page.py", "build/working.py", "web/runtime.c"),
}


def refuse(error: OSError) -> NoReturn:
    raise error


def files_below(folders: Iterable[str]) -> list[str]:
    """All files below these folders, whatever their depth. A folder that can't be read is no empty one."""
    there = filter(os.path.isdir, folders)
    return sorted(f"{at}/{file}" for folder in there for at, _, files in os.walk(folder, onerror=refuse) for file in files)


def sum_of(kind: str, top: str, words: Iterable[str], files: Iterable[str]) -> str:
    """The sum of what rests on these words, each one line, and on these files of the tree `top`."""
    with open(f"{toolchain()}/KIT-ID", "rb") as identity:
        whole = hashlib.sha256(identity.read())
    for word in (kind, *words):
        whole.update(f"{word}\n".encode())
    for path in (*files, *(f"{top}/{tool}" for tool in TOOLS[kind])):
        with open(path, "rb") as file:
            text = file.read()
        whole.update(f"{os.path.relpath(path, top)} {len(text)}\n".encode() + text)
    return whole.hexdigest()
