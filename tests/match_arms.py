"""The arms of the matches in a source in Rattle: of each its pattern, and where it stands with what follows it. Clauses, comments and strings are left out."""
import bisect
import functools
import re
from dataclasses import dataclass

from tests.rattle_sources import Source, closing

OPENING, CLOSING = "([{", ")]}"


@dataclass(frozen=True)
class Arm:
    """An arm: where its pattern begins and ends, and where what follows its arrow begins and ends."""

    start: int
    arrow: int
    begin: int
    end: int
    pattern: str


def pattern_start(text: str, arrow: int) -> int:
    """Where the pattern before an arrow begins: after the bracket that opens the match, or after the arm before it."""
    depth, at, is_empty = 0, arrow - 1, True
    while at >= 0:
        letter = text[at]
        # (a brace closes the arm before this one, unless the pattern ends with it or goes on after it)
        is_of_pattern = letter != "}" or is_empty or text[at + 1 :].lstrip().startswith(("|", "if "))
        if letter in CLOSING and (depth or is_of_pattern):
            depth += 1
        elif not depth and letter in "{},([":
            return at + 1
        elif letter in OPENING:
            depth -= 1
        is_empty = is_empty and letter.isspace()
        at -= 1
    return 0


def body_end(text: str, begin: int) -> int:
    """Where what follows an arrow ends: with the brace that closes it, or before the comma or the bracket that ends the arm."""
    if text[begin : begin + 1] == "{":
        return closing(text, begin) + 1
    at = begin
    while at < len(text) and text[at] not in "," + CLOSING:
        at = closing(text, at) if text[at] in OPENING else at
        at += 1
    return at


class RunningText:
    """The lines of a source that run, as one text, with its arms and with the line and the function of each place."""

    def __init__(self, source: Source) -> None:
        self.lines = list(source.lines_that_run())
        self.starts, length = list[int](), 0
        for _, _, line in self.lines:
            self.starts.append(length)
            length += len(line) + 1
        self.text = "\n".join(line for _, _, line in self.lines)

    @functools.cached_property
    def arms(self) -> list[Arm]:
        found = []
        for it in re.finditer(r"=>\s*", self.text):
            start = pattern_start(self.text, it.start())
            pattern = " ".join(self.text[start : it.start()].split())
            found.append(Arm(start, it.start(), it.end(), body_end(self.text, it.end()), pattern))
        return found

    def line_at(self, place: int) -> tuple[int, str, str]:
        """The number, the function and the text of the line at a place."""
        return self.lines[bisect.bisect(self.starts, place) - 1]

    def arm_at(self, place: int) -> "Arm | None":
        """The innermost arm in which a place follows the arrow."""
        around = [it for it in self.arms if it.begin <= place < it.end]
        return max(around, key=lambda it: it.begin) if around else None

    def match_at(self, arm: Arm) -> int:
        """The place of the brace that opens the match of an arm."""
        depth, at = 0, arm.start - 1
        while at >= 0:
            depth += (self.text[at] in CLOSING) - (self.text[at] in OPENING)
            if depth < 0:
                return at
            at -= 1
        return 0

    def is_in_pattern(self, place: int) -> bool:
        """Whether a place stands before an arrow, in a `let`, in a `matches!`, or in what is compared."""
        if any(it.start <= place < it.arrow for it in self.arms):
            return True
        _, _, line = self.line_at(place)
        before = line[: place - self.starts[bisect.bisect(self.starts, place) - 1]]
        return bool(re.search(r"\blet [^=]*\Z|\bmatches!\([^,]*,[^)]*\Z|[!=]= \Z", before))

    def text_at(self, place: int) -> str:
        """The line at a place, after the pattern of its arm."""
        _, _, line = self.line_at(place)
        arm = self.arm_at(place)
        if not arm:
            return line
        whole = " ".join(self.text[arm.begin : arm.end].split())
        return f"{arm.pattern} => {'.. ' + line if whole.startswith('{') else whole}"
