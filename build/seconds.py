"""The processor seconds that the proof of each crate takes, as the gate measured them last. They decide only which crate is proved first."""
import os
from typing import Mapping

TOP = os.path.dirname(os.path.dirname(os.path.abspath(__file__)))
FILE = f"{TOP}/build/seconds.txt"
HEAD = "# The processor seconds of each crate's proof. The gate writes this file where a crate took much more or less than its row says.\n"
# What a crate takes that was never measured.
UNKNOWN = 60.0
# A row stays while the prover takes no more than this many times as long, and no less than that part of it: a busy machine takes longer.
LIMIT = 1.5


def seconds(path: str = FILE) -> dict[str, float]:
    """The seconds of each crate that was measured."""
    try:
        with open(path, encoding="utf-8") as text:
            rows = [line.split() for line in text if not line.startswith("#")]
    except FileNotFoundError:
        return {}
    return {name: float(taken) for name, taken in rows}


def rows_after(known: Mapping[str, float], measured: Mapping[str, float], names: list[str]) -> dict[str, float]:
    """The rows of these crates after a measure. One that took about what its row says keeps it."""
    rows = {name: known[name] for name in names if name in known}
    for name in names:
        taken = round(measured.get(name, 0))
        if taken and not known.get(name, 0) / LIMIT <= taken <= known.get(name, 0) * LIMIT:
            rows[name] = taken
    return {name: rows[name] for name in names if name in rows}


def keep(measured: Mapping[str, float], names: list[str], path: str = FILE) -> None:
    """Writes what was measured, where that is another row than there was."""
    known = seconds(path)
    rows = rows_after(known, measured, names)
    if rows != known:
        with open(path, "w", encoding="utf-8") as text:
            text.write(HEAD + "".join(f"{name} {taken:.0f}\n" for name, taken in rows.items()))
