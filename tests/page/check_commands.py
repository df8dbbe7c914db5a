#!/usr/bin/env python3
"""check_commands.py: docs/reference/page.md has a place on the page for each command of the program and each of its arguments and options, as the
table of crates/command_table has them. A row of its table is `| Commands | Arguments and options | Place |`. What it lists is of those of its commands
that have it; `each` stands for the commands that have no row of their own for it. Each is in one row alone, and no row has what isn't there. A place
names a pane and, in bold letters, controls that the texts of web/ have; the command and its options stand in web/ too, as words that the program is
given. Where there is no place the row says `none: ` and, in three words at most, why. The last line is 'N passed, M failed'.
"""
import glob
import os
import re
import sys
from typing import Iterator

sys.dont_write_bytecode = True
TOP = os.path.dirname(os.path.dirname(os.path.dirname(os.path.abspath(__file__))))
TABLE = f"{TOP}/crates/command_table/src"
PAGE = f"{TOP}/docs/reference/page.md"
HEAD = "| Command | Arguments and options | Place |"
PANES = {"Files", "Source", "Machine", "Teletype", "Script", "each pane"}
NONE = "none: "
MOST_WORDS = 3
Row = tuple[list[str], list[str], str]
Result = tuple[str, bool]


def text_of(path: str) -> str:
    with open(path, encoding="utf-8") as text:
        return text.read()


def commands() -> dict[str, list[str]]:
    """The commands, each with its arguments, and its options as they are typed."""
    rows = text_of(f"{TABLE}/rows.rt")
    listed = re.compile(r'(?m)^ +"([\w-]+)"')
    devices = listed.findall(rows.partition("macro_rules! rows_with_devices {")[2].partition("\n}\n")[0])
    tables = re.findall(r"(?s)pub const (\w+): &\[Argument\] =\s+rows(_with_devices)?! \{(.*?)\n\};", rows)
    found = {name: listed.findall(text) + (devices if has_devices else []) for name, has_devices, text in tables}
    table = text_of(f"{TABLE}/table.rt")
    words = dict(re.findall(r'Verb::(\w+), "([\w-]+)", "Usage', table))
    return {words[verb]: [it if it.isupper() else f"--{it}" for it in found[name]] for verb, name in re.findall(r"Verb::(\w+) => (\w+),", table)}


def rows() -> list[Row]:
    """The rows of the table: commands, arguments and options, and the place."""
    lines = text_of(PAGE).split("\n")
    at = lines.index(HEAD) + 2 if HEAD in lines else len(lines)
    found = list[Row]()
    while at < len(lines) and lines[at].startswith("| "):
        first, second, place = (it.strip() for it in lines[at].strip("|").split("|"))
        found.append((["each"] if first == "each" else re.findall(r"`([^`]+)`", first), re.findall(r"`([^`]+)`", second), place))
        at += 1
    return found


def own_rows(command: str, all_rows: list[Row]) -> dict[str, list[Row]]:
    """The rows for each argument and option of a command; those of `each` where it has none of its own."""
    own = {word: [row for row in all_rows if command in row[0] and word in row[1]] for word in commands()[command]}
    return {word: found or [row for row in all_rows if row[0] == ["each"] and word in row[1]] for word, found in own.items()}


def placed(all_rows: list[Row]) -> Iterator[Result]:
    """Whether each command, and each of its arguments and options, is in one row."""
    for command in commands():
        yield f"{command} has no row", any(command in row[0] for row in all_rows)
        for word, found in own_rows(command, all_rows).items():
            yield f"{command} {word} is in {len(found)} rows, and not in one", len(found) == 1


def known(all_rows: list[Row]) -> Iterator[Result]:
    """Whether each row has only what the program has."""
    all_commands = commands()
    for names, words, _ in all_rows:
        for name in names:
            yield f"there is no command {name}", name == "each" or name in all_commands
        for word in words:
            yield f"{', '.join(names)} has no {word}", any(word in own for name, own in all_commands.items() if name in names or names == ["each"])


def there(all_rows: list[Row]) -> Iterator[Result]:
    """Whether each place is there: its pane, its controls, and the words that the program is given."""
    web = "\n".join(text_of(it) for it in sorted(glob.glob(f"{TOP}/web/*.js") + [f"{TOP}/web/index.html"]))
    for names, words, place in all_rows:
        what = f"{', '.join(names)} {' '.join(words)}"
        if place.startswith(NONE):
            yield f"{what}: more than {MOST_WORDS} words: {place}", 0 < len(place.removeprefix(NONE).split()) <= MOST_WORDS
            continue
        yield f"{what}: {place or 'an empty place'} names no pane", any(re.search(rf"\b{it}\b", place) for it in PANES)
        for control in re.findall(r"\*\*([^*]+)\*\*", place):
            yield f"{what}: web/ has no {control}", re.search(rf"[>'`]\s*{re.escape(control)}\b", web) is not None
        for word in [*(it for it in names if it != "each"), *(it for it in words if it.startswith("--"))]:
            yield f"{what}: web/ gives the program no word {word}", re.search(rf"['\"`]{re.escape(word)}['\"`=]", web) is not None


def main() -> int:
    found = rows()
    results = [*placed(found), *known(found), *there(found)]
    faults = [what for what, is_so in results if not is_so]
    for fault in faults:
        print(f"check_commands: {fault}")
    print(f"{len(results) - len(faults)} passed, {len(faults)} failed")
    return 1 if faults or not found else 0


if __name__ == "__main__":
    sys.exit(main())
