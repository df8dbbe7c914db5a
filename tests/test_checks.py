"""The checks that need no proof as tests of pytest, one a thing: each look at the documents, sources and tools, each planted defect, and each
session. A session runs with the program that is built with checks, or with the one that PROGRAM names. They are the functions that the gate calls.

    pytest -k links                          what has `links` in its name
    pytest -k 'session and tapes'            the sessions of docs/using/tapes.md and tests/sessions/tapes.md
    pytest --junitxml=report.xml             all of them, with a report
"""
import atexit
import functools
import os
import shutil
import sys
import tempfile
import time
from typing import Any

TOP = os.path.dirname(os.path.dirname(os.path.abspath(__file__)))
sys.path.insert(0, TOP)
from build.unproved import Build, ready
from tests import gate, run_sessions, try_defects
from tests.page.run_sessions import headed


def looks() -> dict[str, gate.Words]:
    return {os.path.basename(words[0]): words for words in gate.TEXTS if words != ("tests/try_defects.py",)}


def sessions() -> dict[str, tuple[str, run_sessions.Session]]:
    return {name: (path, commands) for path in run_sessions.every_file() for name, commands in headed(path)}


def pytest_generate_tests(metafunc: Any) -> None:
    """Gives each test its things, by their names."""
    if "look" in metafunc.fixturenames:
        metafunc.parametrize("look", [*looks().values()], ids=[*looks()])
    if "defect" in metafunc.fixturenames:
        defects = try_defects.defects_of([])
        metafunc.parametrize("defect", defects, ids=[it.name for it in defects])
    if "session" in metafunc.fixturenames:
        metafunc.parametrize("session", [*sessions().values()], ids=[*sessions()])


@functools.cache
def tree() -> try_defects.Tree:
    """A copy of the tree, in which defects are planted."""
    room = tempfile.mkdtemp(prefix="pdp8-defects-")
    atexit.register(shutil.rmtree, room, ignore_errors=True)
    shutil.copytree(TOP, f"{room}/first", ignore=try_defects.APART, symlinks=True)
    return try_defects.Tree(f"{room}/0", f"{room}/first")


@functools.cache
def program() -> str:
    """The program that the sessions run, which is built where it is not there."""
    named = os.environ.get("PROGRAM")
    if named:
        return os.path.abspath(named)
    assert ready("pdp8") == 0, "the program is not built"
    return Build("pdp8").program


@functools.cache
def why_not_sound(words: tuple[str, ...]) -> str:
    return try_defects.why_not_sound(tree(), [*words])


def test_look(look: gate.Words) -> None:
    passed, failed = gate.Part(look, time.monotonic()).run()
    assert passed and not failed


def test_defect(defect: try_defects.Defect) -> None:
    told = why_not_sound(tuple(defect.words)) or try_defects.why_not_found(tree(), defect)
    assert not told, told


def test_session(session: tuple[str, run_sessions.Session]) -> None:
    path, commands = session
    told = run_sessions.faults(os.path.relpath(path), commands, program())
    assert not told, "\n".join(told)
