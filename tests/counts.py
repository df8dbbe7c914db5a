"""The counts of tests/counts.txt: how much each part of the gate must count, and how many sessions, wrong bodies, defects, faults and liars there
are. A row is `GATE | WORDS | COUNTS`. GATE is `whole`, `quick` or `both`, or `tree` where the WORDS name what is counted in the tree. COUNTS are `N`
or `KIND N, KIND N`, each with `at least` or `at most` before its number where chance or the text of the sources decides it. `needs COMMAND ..` in a fourth
column says that without these commands the part counts less, which it may but where CI is set.
"""
import collections
import glob
import os
import re
import shutil
from dataclasses import dataclass
from typing import Mapping

TOP = os.path.dirname(os.path.dirname(os.path.abspath(__file__)))
FILE = f"{TOP}/tests/counts.txt"
COUNT = re.compile(r"(?:(?!at (?:least|most) )(?P<kind>.*?\S) )?(?:(?P<least>at least )|(?P<most>at most ))?(?P<number>\d+)")

# What was counted, by kind. What has no kinds stands under an empty one.
Counts = dict[str, int]


class BadRow(ValueError):
    """Why a row can't be read."""


@dataclass
class Row:
    """How much of something there must be, by kind: exactly, at least, or at most."""

    gate: str
    words: str
    wanted: Counts
    least: set[str]
    most: set[str]
    needs: list[str]

    def is_asked(self) -> bool:
        """Whether the commands are there that the counts need. Where CI is set they must be."""
        return bool(os.environ.get("CI")) or all(shutil.which(it) for it in self.needs)

    def faults(self, found: Counts) -> list[str]:
        """What differs between what was counted and what must be."""
        found = found if {*self.wanted} != {""} else {"": sum(found.values())}
        wrong = [kind for kind in {**self.wanted, **found} if not self.is_right(kind, found.get(kind, 0))]
        return [f"{self.words}: {kind or 'all'} are {found.get(kind, 0)}, and {shown(self, kind)} in tests/counts.txt" for kind in wrong]

    def is_right(self, kind: str, count: int) -> bool:
        wanted = self.wanted.get(kind, 0)
        return count >= wanted if kind in self.least else count <= wanted if kind in self.most else count == wanted


def shown(row: Row, kind: str) -> str:
    return f"{'at least ' * (kind in row.least)}{'at most ' * (kind in row.most)}{row.wanted.get(kind, 0)}"


def read_row(line: str) -> Row:
    """The row that a line is."""
    gate, words, counts, *more = (it.strip() for it in line.split("|"))
    row = Row(gate, words, {}, set(), set(), more[0].removeprefix("needs ").split() if more else [])
    for it in counts.split(", "):
        count = COUNT.fullmatch(it)
        if not count or (count["kind"] or "") in row.wanted:
            raise BadRow(f"tests/counts.txt: {line.strip()}: {it} is no count")
        row.wanted[count["kind"] or ""] = int(count["number"])
        row.least |= {count["kind"] or ""} if count["least"] else set()
        row.most |= {count["kind"] or ""} if count["most"] else set()
    return row


def read_rows(text: str) -> list[Row]:
    """The rows of a text in their order. None may be there twice."""
    rows = [read_row(line) for line in text.split("\n") if line.strip() and not line.startswith("#")]
    for gates in (("whole", "both"), ("quick", "both"), ("tree",)):
        names = [row.words for row in rows if row.gate in gates]
        twice = {it for it in names if names.count(it) > 1}
        if twice:
            raise BadRow(f"tests/counts.txt: twice: {sorted(twice)}")
    return rows


def all_rows() -> list[Row]:
    with open(FILE, encoding="utf-8") as text:
        return read_rows(text.read())


def by_kind(line: str) -> Counts:
    """What a line `by kind: KIND N, KIND N` counts; nothing where a line is none."""
    found = re.findall(r"(?:^by kind:|,) ([^,]*\S) (\d+)(?=,|$)", line) if line.startswith("by kind: ") else []
    return {kind: int(number) for kind, number in found}


def faults(gate: str, found: Mapping[str, Counts | None], rows: list[Row]) -> list[str]:
    """What differs between the counts of the parts of a gate, by their words, and the rows: other counts, parts left out, parts without a row. Of one
    that failed there are no counts.
    """
    wanted = {row.words: row for row in rows if row.gate in (gate, "both" if gate != "tree" else gate)}
    wrong = [f"{words}: it is no part of the {gate}, and has a row in tests/counts.txt" for words in wanted if words not in found]
    for words, counts in found.items():
        if words not in wanted:
            wrong.append(f"{words}: it has no row of the {gate} in tests/counts.txt, and counts {written(counts or {})}")
        elif counts is not None and wanted[words].is_asked():
            wrong += wanted[words].faults(counts)
    return wrong


def written(counts: Counts) -> str:
    """Counts as a row has them."""
    return ", ".join(f"{kind} {count}".strip() for kind, count in counts.items())


def names(pattern: str) -> list[str]:
    return [os.path.relpath(it, TOP) for it in sorted(glob.glob(f"{TOP}/{pattern}", recursive=True))]


def lines(path: str, begin: str) -> int:
    """How many lines of a file begin so."""
    with open(f"{TOP}/{path}", encoding="utf-8") as text:
        return sum(line.startswith(begin) for line in text)


def tree() -> dict[str, Counts]:
    """What there is in the tree, by kind."""
    from tests import check_liars, run_sessions

    found: dict[str, Counts] = {f"sessions of {os.path.relpath(it, TOP)}": {"": len(run_sessions.sessions(it))} for it in run_sessions.every_file()}
    found = {name: counts for name, counts in found.items() if counts[""]}
    found["sessions that the page leaves out"] = {"": lines("tests/page/beyond.txt", "tests/") + lines("tests/page/beyond.txt", "docs/") + lines("tests/page/beyond.txt", "README")}
    found["crates"] = {"": lines("crates.txt", "") - lines("crates.txt", "#") - lines("crates.txt", "\n")}
    found |= wrong_bodies()
    found["defects"] = dict(sorted(collections.Counter(os.path.basename(it).split("-")[0] for it in names("tests/defects/*.defect")).items()))
    found["breaks"] = dict(sorted(collections.Counter(os.path.basename(it).split("-")[0] for it in names("tests/breaks/*.defect")).items()))
    found["faults"] = {"calls": len(names("tests/calls/faults/*.fault")), "page": len(names("tests/page/faults/*.edit"))}
    found["worked sources of PAL8"] = {"": lines("tests/model/pal8_rows.txt", "= ")}
    for row in check_liars.rows():
        liars = found.setdefault(f"liars of {row.check()}", {"both": 0, "whole": 0, "texts": 0})
        for kind, some in (("both", row.quick), ("whole", row.whole), ("texts", row.finds)):
            liars[kind] += len(some)
    return found


def wrong_bodies() -> dict[str, Counts]:
    """The wrong bodies of each crate: those that must fail there, those that the gate tries, and others."""
    found = dict[str, Counts]()
    for path in names("tests/edits/**/*.edit") + names("crates/*/must-fail/*.edit"):
        parts = path.split("/")
        kind = "must fail" if parts[0] == "crates" else "gate" if "gate" in parts else "others"
        kinds = found.setdefault(f"wrong bodies of {parts[1] if parts[0] == 'crates' else parts[2]}", {})
        kinds[kind] = kinds.get(kind, 0) + 1
    return {name: dict(sorted(found[name].items())) for name in sorted(found)}
