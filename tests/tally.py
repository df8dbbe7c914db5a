"""What the checks that run a program share: counts of what they tried, by kind, cases of which each ends with what is wrong, and runs that end in time."""
import subprocess
from collections import Counter
from typing import Any, Callable, Iterator


class Tally:
    """Counts of what was tried, by kind, each made once it was tried. The first faults are printed as they come."""

    def __init__(self, shown: int = 3) -> None:
        self.tried, self.wrong, self.failed, self.shown = Counter[str](), Counter[str](), 0, shown

    def add(self, kind: str, fault: str) -> None:
        """Counts one that was tried, with what is wrong with it, which is nothing where it passed."""
        self.tried[kind] += 1
        self.failed += bool(fault)
        self.wrong[kind] += bool(fault)
        if fault and self.failed <= self.shown:
            print(fault, flush=True)

    def end(self) -> int:
        """Prints the counts of the kinds, those of what failed where something did, and the line 'N passed, M failed'. Returns the exit status."""
        tried = sum(self.tried.values())
        print("by kind:", shown(self.tried))
        print(*[f"failed by kind: {shown(+self.wrong)}\n"] * (self.failed > 0), sep="", end="")
        print(f"{tried - self.failed} passed, {self.failed} failed")
        return 1 if self.failed or not tried else 0


def shown(counts: Counter[str]) -> str:
    return ", ".join(f"{kind} {count}" for kind, count in counts.items())


def fault_in(case: Callable[[], str]) -> str:
    """What a case finds wrong. What breaks it off, as a command that does not end in time, is a fault of the case too."""
    try:
        return case()
    except subprocess.TimeoutExpired as late:
        return f"no end within {late.timeout} seconds"
    except Exception as broken:
        return f"the case broke off: {broken!r}"


def gathered(kind: str, cases: Iterator[tuple[str, str]]) -> list[tuple[str, str]]:
    """What each of several cases finds wrong, by its kind. What breaks them off is a fault of this kind."""
    found = list[tuple[str, str]]()

    def gather() -> str:
        found.extend(cases)
        return ""

    broken = fault_in(gather)
    return [*found, *([(kind, broken)] if broken else [])]


def run_in_time(words: list[str], seconds: float, **how: Any) -> subprocess.CompletedProcess[str]:
    """Runs a command. One that has no end within so many seconds has the status -1, and says so on standard error."""
    try:
        return subprocess.run(words, capture_output=True, text=True, timeout=seconds, **how)
    except subprocess.TimeoutExpired as late:
        return subprocess.CompletedProcess(words, -1, "", f"{' '.join(words)}: no end within {late.timeout} seconds\n")
