#!/usr/bin/env python3
"""completions.py PROGRAM NAME SHELL: writes the completions of the program pdp8, laid under this name, for bash, zsh or fish to standard output. They
are made from what the program says of itself (`--help`, and `COMMAND --help` for each of its commands)."""
import os
import re
import subprocess
import sys

# An option: its short and its long name, whether a value follows, and what it says. A command: its name, what it says, and its options.
Option = tuple[str, str, bool, str]
Row = tuple[str, str, list[Option]]


def help_of(program: str, *words: str) -> str:
    return subprocess.run([program, *words, "--help"], capture_output=True, text=True, check=True).stdout


def commands_of(program: str) -> list[tuple[str, str]]:
    """The commands, each with what the program's own help says of it."""
    listed = help_of(program).split("\nOptions:\n")[0]
    return re.findall(r"(?m)^  (\w+) +(.*)$", listed)


def options_of(program: str, name: str) -> list[Option]:
    """The options of a command: each its short and its long name, whether a value follows, and what it says."""
    if name == "help":
        return []
    found = re.findall(r"(?m)^ +(?:(-\w), )?(--[\w-]+)( <\w+>)?\n? +(\S.*)$", help_of(program, name))
    return [(short, long, bool(value), text) for short, long, value, text in found]


def quoted(text: str) -> str:
    return "'" + text.replace("'", "'\\''") + "'"


def bash(name: str, commands: list[Row]) -> list[str]:
    word = re.sub(r"\W", "_", name)
    lines = [f"# completions of {name} for bash", f"_{word}() {{", "    local here=${COMP_WORDS[COMP_CWORD]} options="]
    lines += ["    COMPREPLY=()", "    if [ \"$COMP_CWORD\" -eq 1 ]; then"]
    lines += [f"        mapfile -t COMPREPLY < <(compgen -W {quoted(' '.join(it for it, _, _ in commands))} -- \"$here\")", "        return", "    fi"]
    lines += ["    case ${COMP_WORDS[1]} in"]
    for command, _, options in commands:
        both = " ".join(it for short, long, _, _ in options for it in (short, long) if it)
        lines += [f"    {command}) options={quoted(both)} ;;"]
    lines += ["    esac", "    if [[ $here == -* ]]; then", "        mapfile -t COMPREPLY < <(compgen -W \"$options\" -- \"$here\")"]
    lines += ["    else", "        mapfile -t COMPREPLY < <(compgen -f -- \"$here\")", "    fi", "}", f"complete -o filenames -F _{word} {name}"]
    return lines


def plain(text: str) -> str:
    """A text as zsh reads the words of an option."""
    return re.sub(r"([\[\]:])", r"\\\1", text)


def zsh(name: str, commands: list[Row]) -> list[str]:
    word = re.sub(r"\W", "_", name)
    lines = [f"#compdef {name}", f"_{word}() {{", "    local -a commands", "    commands=("]
    lines += [f"        {quoted(f'{command}:{plain(about)}')}" for command, about, _ in commands]
    lines += ["    )", "    if (( CURRENT == 2 )); then", "        _describe command commands", "        return", "    fi", "    case $words[2] in"]
    for command, _, options in commands:
        rows = [f"{long}[{plain(text)}]" + (":value:_files" if takes else "") for _, long, takes, text in options]
        rows += [f"{short}[{plain(text)}]" + (":value:_files" if takes else "") for short, _, takes, text in options if short]
        lines += [f"    {command}) _arguments {' '.join(map(quoted, [*rows, '*:file:_files']))} ;;"]
    return [*lines, "    esac", "}", f'_{word} "$@"']


def fish(name: str, commands: list[Row]) -> list[str]:
    lines = [f"# completions of {name} for fish"]
    for command, about, options in commands:
        lines += [f"complete -c {name} -n __fish_use_subcommand -f -a {command} -d {quoted(about)}"]
        for short, long, takes, text in options:
            row = f"complete -c {name} -n '__fish_seen_subcommand_from {command}' -l {long[2:]}"
            lines += [row + (f" -s {short[1:]}" if short else "") + (" -r" if takes else "") + f" -d {quoted(text)}"]
    return lines


SHELLS = {"bash": bash, "zsh": zsh, "fish": fish}


def main(words: list[str]) -> None:
    if len(words) != 3 or words[2] not in SHELLS or not os.access(words[0], os.X_OK):
        sys.exit("completions: usage: completions.py PROGRAM NAME bash|zsh|fish")
    program = os.path.abspath(words[0])
    commands = [(name, about, options_of(program, name)) for name, about in commands_of(program)]
    print("\n".join(SHELLS[words[2]](words[1], commands)))


if __name__ == "__main__":
    main(sys.argv[1:])
