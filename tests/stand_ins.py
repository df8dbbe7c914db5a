"""What the checks with a stand-in for the toolchain share."""
import os
import tempfile
import traceback
from typing import Callable, Iterable, Iterator

# What a check tries: in words, with whether it is so.
Result = tuple[str, bool]


def write(path: str, text: str) -> None:
    """Writes a file that can be run, and the folders that it wants."""
    os.makedirs(os.path.dirname(path), exist_ok=True)
    with open(path, "w", encoding="utf-8") as file:
        file.write(text)
    os.chmod(path, 0o755)


def append(path: str, text: str) -> None:
    """Changes a file, or makes it."""
    os.makedirs(os.path.dirname(path), exist_ok=True)
    with open(path, "a", encoding="utf-8") as file:
        file.write(text)


def results(work: Callable[[str], Iterator[Result]]) -> list[Result]:
    """What a work tries, in a folder of its own. A work that breaks off is a result too, and not the end of the others."""
    found = list[Result]()
    with tempfile.TemporaryDirectory(prefix="pdp8-stand-in-") as room:
        try:
            found.extend(work(room))
        except Exception:  # whatever it is, it is reported
            found.append((f"it breaks off: {traceback.format_exc()}", False))
    return found


def report(check: str, found: Iterable[Result]) -> int:
    """Prints what is not so, and the counts. The exit status of the check."""
    passed = failed = 0
    for what, is_so in found:
        passed, failed = passed + is_so, failed + (not is_so)
        if not is_so:
            print(f"{check}: not so: {what}")
    print(f"{passed} passed, {failed} failed")
    return 1 if failed or not passed else 0
