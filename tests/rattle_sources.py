"""Reads the sources in Rattle, `crates/NAME/src/**/*.rt`, and the definitions, `crates/NAME/specs/*.antt`. Every check that looks at them does
so by this module: it alone says what a comment, a string, a function, a clause, a type and a definition are.
"""
import functools
import glob
import os
import re
from dataclasses import dataclass, field
from typing import Iterator

TOP = os.path.dirname(os.path.dirname(os.path.abspath(__file__)))
# Crates that take no part in the program.
APART = re.compile(r"_tests$|_bench$|^short_memory$")

STRING = r'"(?:[^"\\]|\\.)*"'
# A raw string, a string, a character, or a comment.
PIECE = re.compile(rf"r(#*)\".*?\"\1|{STRING}|b?'(?:[^'\\]|\\.)'|//[^\n]*|/\*.*?\*/", re.S)
VISIBLE = r"(?:pub(?:\([\w: ]+\))? )?"
FUNCTION = re.compile(rf"(?m)^( *){VISIBLE}(?:const )?fn (\w+)")
CLAUSE = re.compile(r"\b(requires|ensures)\*?\s*\w*\s*\Z")
ANGLES = r"<(?:[^<>]|<[^<>]*>)*>"
BLOCK = re.compile(
    rf"(?m)^(?:impl(?:{ANGLES})? (?:(?:\w+::)*(\w+)(?:<([\w:]+)>|{ANGLES})?\s+for\s+)?(?:\w+::)*(\w+)[^{{]*|{VISIBLE}trait (\w+)[^{{]*)\{{"
)
PROMISE = re.compile(r"(?m)^    ghost \w+ = \{")
DECLARED = re.compile(rf"(?m)^ *({VISIBLE})(?:const )?(fn|struct|enum|union|trait|type|const|static|mod) (\w+)")
CONSTANT = re.compile(r"\bconst (\w+): \w+ = ([0-9a-fxo_]+);")
STRUCT = re.compile(rf"(?m)^ *{VISIBLE}struct \w+[^{{;(]*\{{")
FIELD = re.compile(rf"(?m)^\s*{VISIBLE}(\w+)\s*:")
NAMED_VALUE = re.compile(rf"(?m)^ *{VISIBLE}(?:const|static) (\w+):")
COMMENT = re.compile(r"^\s*(?:///?|//!|--)(?:\s|$)")
GHOST = re.compile(r"(requires|ensures|ghost)\b")


def blank(text: str) -> str:
    """Blanks in place of a text, on as many lines."""
    return re.sub(r"[^\n]", " ", text)


def without_comments(text: str) -> str:
    """A source with blanks in place of its comments, and its strings as they are."""
    return PIECE.sub(lambda it: blank(it[0]) if it[0].startswith(("//", "/*")) else it[0], text)


def without_strings(text: str) -> str:
    """A source that has no comments, with blanks between the quotes of its strings and characters; every other character is at its place."""
    return PIECE.sub(lambda it: it[0][0] + blank(it[0][1:-1]) + it[0][-1], text)


def closing(mask: str, at: int) -> int:
    """The place of the bracket that closes the one at a place, in a source without strings."""
    depth = 0
    for it in re.compile(r"[{}()\[\]]").finditer(mask, at):
        depth += 1 if it[0] in "{([" else -1
        if not depth:
            return it.start()
    return len(mask)


@dataclass(frozen=True)
class Clause:
    """A clause of a contract, and where its text stands between the braces."""

    kind: str
    start: int
    end: int


@dataclass(frozen=True)
class Function:
    """A function: its name, where its head begins, its clauses, and where it ends."""

    name: str
    indent: int
    start: int
    clauses: tuple[Clause, ...]
    end: int
    is_public: bool


@dataclass(frozen=True)
class Block:
    """An `impl` or a trait: the trait that it is of, of which type that is, whose it is, and where its text stands between the braces."""

    trait: str
    of: str
    owner: str
    start: int
    begin: int
    end: int
    is_trait: bool


class Source:
    """A source, with each thing that stands in it at its place in the text."""

    def __init__(self, path: str, text: str) -> None:
        self.path, self.text = path, text

    @functools.cached_property
    def code(self) -> str:
        """The text without comments."""
        return without_comments(self.text)

    @functools.cached_property
    def mask(self) -> str:
        """The text without comments and without what stands in strings."""
        return without_strings(self.code)

    @functools.cached_property
    def functions(self) -> list[Function]:
        return [self.function(it) for it in FUNCTION.finditer(self.mask)]

    def function(self, head: re.Match[str]) -> Function:
        """The function whose head is there: clauses up to its body, or up to the sign that ends a head with none."""
        mask, clauses, at, last = self.mask, list[Clause](), head.end(), head.end()
        end = len(mask)
        while it := re.compile(r"[\[({};]").search(mask, at):
            if it[0] in "[(":
                at = closing(mask, it.start()) + 1
                continue
            kind = CLAUSE.search(mask, last, it.start()) if it[0] == "{" else None
            if not kind:
                end = closing(mask, it.start()) + 1 if it[0] == "{" else it.end()
                break
            at = last = closing(mask, it.start()) + 1
            clauses.append(Clause(kind[1], it.end(), at - 1))
        return Function(head[2], len(head[1]), head.start(), tuple(clauses), end, head[0].lstrip().startswith("pub fn"))

    @functools.cached_property
    def blocks(self) -> list[Block]:
        found = []
        for it in BLOCK.finditer(self.mask):
            end = closing(self.mask, it.end() - 1)
            found.append(Block(it[1] or "", it[2] or "", it[3] or it[4], it.start(), it.end(), end, bool(it[4])))
        return found

    def block_at(self, place: int) -> "Block | None":
        """The `impl` or trait in which a place stands."""
        return next((it for it in self.blocks if it.begin <= place <= it.end), None)

    def function_before(self, place: int) -> "Function | None":
        """The last function whose head begins before a place, unless what stands at the left margin has ended between."""
        last = next((it for it in reversed(self.functions) if it.start < place), None)
        return last if last and "\n}\n" not in self.mask[last.start : place] else None

    def prover_name(self, place: int) -> "str | None":
        """The function at a place as the prover names it: its name, after that of its type or its module."""
        function = self.function_before(place)
        if not function:
            return None
        if not function.indent:
            module = os.path.basename(self.path).removesuffix(".rt")
            return function.name if module in ("lib", "main") else f"{module}::{function.name}"
        block = [it for it in self.blocks if it.start < place][-1]
        # (`From<io::Error> for Fault` is FaultFromIoError to the prover)
        of = "".join(it[:1].upper() + it[1:] for it in block.of.split("::"))
        return f"{block.owner}{block.trait}{of}::{function.name}"

    def promises(self, block: Block) -> Iterator[str]:
        """What an `impl` promises of its trait."""
        for it in PROMISE.finditer(self.mask, block.begin, block.end):
            yield self.code[it.end() - 1 : closing(self.mask, it.end() - 1) + 1]

    def contract(self, function: Function) -> list[str]:
        """The clauses of a function."""
        return [self.code[it.start : it.end] for it in function.clauses]

    def lines_that_run(self) -> Iterator[tuple[int, str, str]]:
        """The lines that run, each with its number and the function before it: no comment, clause or import of definitions, no string's text."""
        name, depth = "", 0
        heads = {self.mask.count("\n", 0, it.start): it.name for it in self.functions}
        for number, whole in enumerate(self.mask.split("\n")):
            line = re.sub(r'b?" *"', '""', whole).strip()
            name = heads.get(number, name)
            if depth or GHOST.match(line):
                depth += line.count("{") - line.count("}")
            elif line:
                yield number + 1, name, line

    @functools.cached_property
    def declared(self) -> set[tuple[str, str]]:
        """What the source declares: kinds and names."""
        return {(kind, name) for _, kind, name in DECLARED.findall(self.mask)}

    def names(self) -> Iterator[str]:
        """The functions, constants and fields that the source declares."""
        yield from (it.name for it in self.functions)
        yield from NAMED_VALUE.findall(self.mask)
        for it in STRUCT.finditer(self.mask):
            yield from FIELD.findall(self.mask[it.end() : closing(self.mask, it.end() - 1)])

    def constants(self) -> dict[str, int]:
        """The constants whose values are plain numbers."""
        return {name: int(value.replace("_", ""), 0) for name, value in CONSTANT.findall(self.mask)}


@functools.cache
def source(path: str) -> Source:
    """The source in a file."""
    with open(path, encoding="utf-8") as text:
        return Source(path, text.read())


def comments(path: str) -> Iterator[tuple[int, str]]:
    """The comments of a source or of a file of definitions, each with its first line's number; lines that follow one another are one."""
    first, kept = 0, list[str]()
    with open(path, encoding="utf-8") as text:
        for number, line in enumerate([*text.read().split("\n"), ""], 1):
            is_comment = bool(COMMENT.match(line))
            if kept and not is_comment:
                yield first, " ".join(kept)
                kept = []
            if is_comment:
                first = first if kept else number
                kept.append(COMMENT.sub("", line, count=1).strip())


def crates(top: str = TOP) -> list[str]:
    """The names of the folders of crates/."""
    return sorted(os.path.basename(it) for it in glob.glob(f"{top}/crates/*"))


def crates_of_program() -> list[str]:
    """Those that take part in the program."""
    return [it for it in crates() if not APART.search(it)]


def files_of(crate: str) -> list[str]:
    """The sources of a crate, or of all where it is `*`."""
    return sorted(glob.glob(f"{TOP}/crates/{crate}/src/**/*.rt", recursive=True))


def crate_of(path: str) -> str:
    return os.path.relpath(path, f"{TOP}/crates").split(os.sep)[0]


HEAD = re.compile(r"^(?:unfoldable )?(?:abbrev )?pub (?:record |data )?([^\s:({]+)|^(?:abbrev|record|data) ([^\s:({]+)")
MUTUAL = re.compile(r"^  (?:pub )?([^\s:({]+) : ")
USE = re.compile(r"(?:pub )?use Rattle\.(\w+)\.specs\.(\w+)(?:\.\{(.*)\}| as (\w+))\s*$")
# A Rust type or the constants of a file, as definitions or contracts import them.
OF_TYPES = re.compile(
    r"(?m)^(?:pub |ghost )?use Rattle\.(\w+)\.specs\.declared\.((?:[a-z]\w*\.)*[a-z]\w*)\.([A-Z]\w*)(?:\.TheVariants)?(?:\.\{(.*)\}| as (\w+));?\s*$"
)
# The definitions of a file, as a contract imports them.
OF_DEFINITIONS = re.compile(r"ghost use Rattle\.(\w+)\.specs\.([\w.]+?)(?:\.\{([^}]*)\}| as (\w+));")
NAME = re.compile(r"(?<![^\s(){}\[\],;:])[^\s(){}\[\],;.:]+")


@dataclass
class Definitions:
    """A file of definitions: the text of each, what each `use` line imports and from where, and the words above."""

    path: str
    texts: dict[str, str] = field(default_factory=dict)
    uses: dict[str, tuple[str, str, str]] = field(default_factory=dict)
    modules: dict[str, tuple[str, str]] = field(default_factory=dict)
    head: str = ""
    comments: dict[str, str] = field(default_factory=dict)

    def take_use(self, line: str) -> None:
        whole = USE.match(line)
        if not whole or not os.path.exists(definitions_path(whole[1], whole[2])):
            return
        for part in (whole[3] or "").split(", "):
            theirs, _, ours = part.partition(" as ")
            self.uses[ours or theirs] = (whole[1], whole[2], theirs)
        if whole[4]:
            self.modules[whole[4]] = (whole[1], whole[2])

    def take_texts(self, lines: list[str]) -> None:
        """Takes the text of each definition."""
        name, together = "", False
        for line in lines:
            if line.startswith(("use Rattle.", "pub use Rattle.")):
                self.take_use(line)
            elif not line.startswith("--"):
                together = line.startswith("abbrev mutual") or (together and line[:2] in ("  ", "\n"))
                head = MUTUAL.match(line) if together else HEAD.match(line)
                if head:
                    name = head[1] or head[2]
                    self.texts.setdefault(name, "")
                if name:
                    self.texts[name] += line

    def take_comments(self, lines: list[str]) -> None:
        """Takes the first comment of the file, and for each name the comment above the line where it first stands."""
        first = next((k for k, line in enumerate(lines) if not line.startswith("--")), len(lines))
        self.head = " ".join(line.removeprefix("--").strip() for line in lines[:first])
        above: list[str] = []
        for line in lines[first:]:
            if line.startswith("--"):
                above.append(line.removeprefix("--").strip())
                continue
            for name in NAME.findall(line) if not line.startswith("use ") else ():
                self.comments.setdefault(name, " ".join(above))
            above = []


def definitions_path(crate: str, file: str) -> str:
    return f"{TOP}/crates/{crate}/specs/{file}.antt"


@functools.cache
def definitions(crate: str, file: str) -> Definitions:
    """The definitions in a file."""
    found = Definitions(definitions_path(crate, file))
    with open(found.path, encoding="utf-8") as text:
        lines = text.readlines()
    found.take_texts(lines)
    found.take_comments([line.removesuffix("\n") for line in lines] + [""])
    return found


def definition_files() -> list[tuple[str, str]]:
    """The files of definitions, each with its crate."""
    found = sorted(glob.glob(f"{TOP}/crates/*/specs/**/*.antt", recursive=True))
    return [(crate_of(path), os.path.relpath(path, f"{TOP}/crates/{crate_of(path)}/specs")[:-5]) for path in found]
