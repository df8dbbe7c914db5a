#!/usr/bin/env python3
"""check_types.py [NAME..]: checks the types of the page's JavaScript, which its comments give (JSDoc), by TypeScript's checker, with all that
`--strict` asks for. It checks the page, its worker, its service worker, and what its tests share. Of the tests themselves it asks for no types of
parameters. The elements of the page are known by their ids: those of index.html. Each file of JavaScript counts as one, and each of web/ and of
tests/page/ must be one. NAME takes those that are checked with the file of this name. The last line is 'N passed, M failed'. Where the checker isn't
there, Debian's node-typescript, all is skipped, which fails where CI is set.
"""
import glob
import os
import re
import shutil
import subprocess
import sys
import tempfile

HERE = os.path.dirname(os.path.abspath(__file__))
TOP = os.path.dirname(os.path.dirname(HERE))
WEB = f"{TOP}/web"
HOW = ["tsc", "--noEmit", "--allowJs", "--checkJs", "--strict", "--target", "es2022", "--module", "es2022", "--moduleResolution", "node", "--skipDefaultLibCheck"]
TAGS = {"a": "Anchor", "button": "Button", "canvas": "Canvas", "details": "Details", "dialog": "Dialog", "form": "Form", "input": "Input"}
TAGS |= {"ol": "OList", "p": "Paragraph", "pre": "Pre", "select": "Select", "table": "Table", "textarea": "TextArea"}
LOOSE = ["--noImplicitAny", "false"]
NODE = (f"{HERE}/node.d.ts", f"{HERE}/globals.d.ts")
# The tests' files that are checked with what they share.
APART = ("browser.mjs", "tools.mjs", "server.mjs", "host.mjs")
# What is checked together: a library, further words, and the files where the checker begins; it follows what these import.
PARTS: list[tuple[str, list[str], list[str]]] = [
    ("es2022,dom,dom.iterable", [], [f"{WEB}/page.js", f"{WEB}/from_file.js", f"{WEB}/types.d.ts"]),
    ("es2022,webworker", [], [f"{WEB}/worker.js", f"{WEB}/worker.d.ts"]),
    ("es2022,webworker", [], [f"{WEB}/sw.js"]),
    ("es2022", [], [f"{HERE}/browser.mjs", f"{HERE}/tools.mjs", *NODE]),
    ("es2022,webworker", LOOSE, [f"{HERE}/server.mjs", f"{HERE}/host.mjs", f"{HERE}/node.d.ts", f"{WEB}/worker.d.ts"]),
    ("es2022", LOOSE, [*sorted(it for it in glob.glob(f"{HERE}/*.mjs") if os.path.basename(it) not in APART), *NODE]),
]


def ids() -> str:
    """The elements of index.html by their ids, as a file of types has them."""
    found = re.findall(r'<(\w+)\b[^>]*?\bid="([\w-]+)"', open(f"{WEB}/index.html", encoding="utf-8").read())
    return "interface Ids {\n" + "".join(f"    '{name}': HTML{TAGS.get(tag, '')}Element;\n" for tag, name in found) + "}\n"


def checked(room: str, library: str, words: list[str], files: list[str]) -> tuple[set[str], dict[str, list[str]]]:
    """The files that were checked, and what is wrong in them, by file; what no file of the page is to blame for stands under ''."""
    known = [f"{room}/ids.d.ts"] if "dom" in library.split(",") else []
    ran = subprocess.run([*HOW, "--lib", library, *words, "--listFiles", *files, *known], cwd=TOP, capture_output=True, text=True)
    seen, wrong, last = set[str](), dict[str, list[str]](), ""
    for line in ran.stdout.splitlines():
        fault = re.match(r"(\S.*?)\(\d+,\d+\): error", line)
        if os.path.exists(line):
            seen.add(os.path.realpath(line))
        elif fault or not line.startswith(" "):
            last = os.path.realpath(f"{TOP}/{fault[1]}") if fault else ""
            wrong.setdefault(last, []).append(line)
        elif last in wrong:
            wrong[last].append(line)
    if ran.returncode and not wrong:
        wrong[""] = [ran.stderr or f"tsc ended with status {ran.returncode}"]
    return {it for it in seen if it.endswith(("js", ".d.ts")) and it.startswith((WEB, HERE))}, wrong


def main(names: list[str]) -> int:
    if not shutil.which("tsc"):
        print("check_types: there is no tsc: Debian's package node-typescript has it")
        print("0 passed, 1 failed" if os.environ.get("CI") else "1 passed, 0 failed")
        return 1 if os.environ.get("CI") else 0
    seen, wrong = set[str](), dict[str, list[str]]()
    with tempfile.TemporaryDirectory(prefix="pdp8-types-") as room:
        with open(f"{room}/ids.d.ts", "w", encoding="utf-8") as laid:
            laid.write(ids())
        for part in [it for it in PARTS if not names or any(os.path.basename(file) in names for file in it[2])]:
            some, faults = checked(room, *part)
            seen |= some
            for file, lines in faults.items():
                wrong.setdefault(file, []).extend(it for it in lines if it not in wrong.get(file, []))
    for lines in wrong.values():
        print(*lines, sep="\n")
    for file in sorted({*glob.glob(f"{WEB}/*.js"), *glob.glob(f"{HERE}/*.mjs")} - seen) if not names else ():
        print(f"check_types: {os.path.basename(file)} was not checked")
        wrong[file] = []
    print(f"{len(seen - wrong.keys())} passed, {len(wrong)} failed")
    return 1 if wrong or not seen else 0


if __name__ == "__main__":
    sys.exit(main(sys.argv[1:]))
