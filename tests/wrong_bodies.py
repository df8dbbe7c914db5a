"""The wrong bodies of tests/edits: what each changes, and whether a prover refuses it. A refusal counts only of a function that the edit changes, and
only where the prover says so with the status and the last line that it has then. Nothing else stands here, since each refusal that is kept rests on
the bytes of this file (build/sums.py): a change of it has all tried again.
"""
import ctypes
import os
import re
import shutil
import signal
import subprocess
import tempfile

from build.crates import PARTS, Crates
from build.prover import words_for
from build.sums import sum_of
from build.toolchain import toolchain
from tests.rattle_sources import Source

TOP = os.path.dirname(os.path.dirname(os.path.abspath(__file__)))
CRATES = Crates()
# What the prover says of a text that it could not read, where a false statement reads well.
UNREAD = re.compile(r"is not in scope|has no field|is no name|operand is missing|expected the end|cannot continue")
# What the prover says where it had too little memory to judge.
MEMORY = re.compile(r"outgrew the memory limit|commit limit|out of memory")
# Where it says that a text of the crate is wrong.
AT = re.compile(r"(?:\./)?(?:src|specs|proofs)/\S+:\d+:\d+: error")
# What other proofs than the function's own see.
CLAUSE = re.compile(r"\b(?:requires|ensures|ghost)\b")
# Where the refusals are kept that were seen, each as an empty file.
KEPT = f"{os.environ.get('XDG_CACHE_HOME') or os.path.expanduser('~/.cache')}/geivottu/refused"


class BadEdit(Exception):
    """An edit that tries no contract."""


class Edit:
    """A wrong body: what it changes, and the functions that stand there, or that a line `function: NAME` names."""

    def __init__(self, path: str) -> None:
        self.path, self.crate = path, os.path.relpath(path, f"{TOP}/tests/edits").split("/")[0]
        self.label = f"{self.crate}/{os.path.basename(path)}"
        self.changes: list[tuple[str, str, str]] = []
        self.functions: set[str | None] = set()
        self.named: set[str] = set()
        self.is_of_heads = False
        self.fault: Exception | None = None
        try:
            self.read()
        except (BadEdit, OSError) as error:
            self.fault = error

    def read(self) -> None:
        file = old = ""
        for line in open(self.path, encoding="utf-8").read().split("\n"):
            word, _, rest = line.partition(": ")
            if word == "file":
                file = rest.strip()
            elif word == "old":
                old = rest
            elif word == "function":
                self.named.add(rest.strip())
            elif word.startswith("new"):
                self.change(file, old, rest)
        if not self.changes:
            raise BadEdit("it changes nothing")
        self.functions = {*self.named} or self.functions

    def change(self, file: str, old: str, new: str) -> None:
        text = changed(source(self.crate, file), self.changes, file)
        if text.count(old) != 1:
            raise BadEdit(f"an old text is in {file} {text.count(old)} times, and not once")
        self.functions.add(function_at(file, text, text.index(old) + len(old)))
        self.is_of_heads |= not is_in_body(file, text, text.index(old))
        self.changes.append((file, old, new))

    def is_of_bodies(self) -> bool:
        """Whether it changes nothing but bodies of functions that are known. Then no other function's proof sees it."""
        is_of_clauses = self.is_of_heads or any(CLAUSE.search(old + new) for _, old, new in self.changes)
        return not self.fault and None not in self.functions and not is_of_clauses

    def names(self) -> list[str]:
        """The functions that it changes, as the prover names them."""
        return sorted(it for it in self.functions if it)

    def tried(self) -> bool:
        """Whether the edit is refused where it stands alone, as it must be."""
        is_well, said, only = False, "", list[str]()
        try:
            if self.fault:
                raise self.fault
            ways: list[list[str]] = [self.names(), []] if None not in self.functions else [[]]
            for only in ways:
                with Copy([self]) as copy:
                    is_well, said = copy.is_refused(only)
                if is_well:
                    break
        except (BadEdit, OSError) as error:
            is_well, said = False, f"BAD EDIT: {error}"
        self.tell(f"refused{f' at {chr(44).join(only)}' if only else ''}: {said}" if is_well else said or "NOT REFUSED")
        if is_well:
            self.keep()
        return is_well

    def kept(self) -> str:
        """The file that notes the edit's refusal. Its name is a sum of the edit, the functions that are asked for, and all that its crate's proof
        rests on."""
        return f"{KEPT}/{sum_of('refusal', TOP, [CRATES.sum(self.crate), *self.names()], [self.path])}"

    def keep(self) -> None:
        try:
            os.makedirs(KEPT, exist_ok=True)
            open(self.kept(), "w", encoding="utf-8").close()
        except OSError:
            pass  # it is tried again then

    def tell(self, said: str) -> None:
        print(f"{self.label}: {said}", flush=True)


class Copy:
    """A copy of a crate with edits in it."""

    def __init__(self, edits: list[Edit]) -> None:
        self.edits, self.crate, self.texts = edits, edits[0].crate, dict[str, str]()
        for edit in edits:
            for file, old, new in edit.changes:
                text = self.texts.get(file) or source(self.crate, file)
                if text.count(old) != 1:
                    raise BadEdit(f"an old text is in {file} {text.count(old)} times where others are changed")
                self.texts[file] = text.replace(old, new)

    def __enter__(self) -> "Copy":
        self.room = tempfile.mkdtemp(prefix="pdp8-edit-")
        for part in PARTS:
            if os.path.isdir(f"{TOP}/crates/{self.crate}/{part}"):
                shutil.copytree(f"{TOP}/crates/{self.crate}/{part}", f"{self.room}/{part}")
        for file, text in self.texts.items():
            with open(f"{self.room}/{file}", "w", encoding="utf-8") as laid:
                laid.write(text)
        return self

    def __exit__(self, *_: None) -> None:
        shutil.rmtree(self.room, ignore_errors=True)

    def is_unread(self, line: str) -> bool:
        """Whether the prover says so of the edited text. Then no contract was tried."""
        at = re.match(r"(?:\./)?(\S+?):\d+:\d+: error: (?:(`[^`]*`): )?(.*)", line)
        if not at or at[1] not in self.texts and not at[1].startswith(("src/", "specs/")):
            return False
        return not at[2] or bool(UNREAD.search(re.sub(r"`[^`]*`", "", at[3])))

    def asked(self, only: list[str]) -> tuple[int, list[str]]:
        """What the prover says of the crate, or of those of its functions that are named, and with which status it ends."""
        words = [f"{toolchain()}/bin/rattle", "check", *words_for(CRATES, self.crate, library), "--jobs", "1"]
        words += [word for name in only for word in ("--only", name)]
        ran = subprocess.run(
            words, cwd=self.room, preexec_fn=end_with_this, stdin=subprocess.DEVNULL, stdout=subprocess.PIPE, stderr=subprocess.STDOUT, errors="replace"
        )
        lines = ran.stdout.rstrip("\n").split("\n")
        if any(map(self.is_unread, lines)):
            raise BadEdit(f"the prover can't read it: {next(filter(self.is_unread, lines))[:200]}")
        if any(map(MEMORY.search, lines)):
            raise BadEdit(f"the prover had too little memory: {next(filter(MEMORY.search, lines))[:200]}")
        return ran.returncode, lines

    def is_refused(self, only: list[str]) -> tuple[bool, str]:
        """Whether the prover refuses the crate, or those of its functions that are named, and what it says first."""
        status, lines = self.asked(only)
        if is_refusal(status, lines[-1], bool(only)):
            found = self.all_blamed(lines)
            is_own = any(is_among(it, only) for it in found)
            # what a definition or a clause says, other functions see
            if not is_own and (only and self.edits[0].is_of_bodies() or not (found or any(map(AT.match, lines)))):
                raise BadEdit(f"the prover refuses {', '.join(found) or 'no function'}, and not {', '.join(only) or 'one of the crate'}")
            return True, next((it for it in lines if ": error" in it), "")[:160]
        if status == 0 or (only and status == 2 and re.search("functions are named|has no function", lines[-1])):
            return False, ""
        raise BadEdit(f"the prover ended with status {status}: {lines[-1][:200]}")

    def refused(self) -> list[Edit]:
        """Those of the edits of which the prover refuses a function, and not only because it calls one that is refused."""
        status, lines = self.asked(sorted({name for edit in self.edits for name in edit.names()}))
        if not is_refusal(status, lines[-1], True):
            return []
        found = self.all_blamed(lines)
        return [edit for edit in self.edits if any(is_among(it, edit.names()) for it in found)]

    def all_blamed(self, lines: list[str]) -> list[str]:
        """The functions whose own proofs the prover refuses."""
        return [*dict.fromkeys(filter(None, map(self.blamed, lines)))]

    def blamed(self, line: str) -> str | None:
        """The function whose own proof a line of the prover refuses, if it does."""
        if at := re.match(r"fn (\S+): (?:not proved|no proof)(?!.* it calls )", line):
            return at[1]
        if at := re.match(r"(?:\./)?proofs/(\S+)/\w+\.antt:\d+:\d+: error", line):
            return at[1].replace("/", "::")
        if at := re.match(r"note: (src/\S+\.rt):(\d+):\d+: it is not proved", line):
            text = self.texts.get(at[1]) or source(self.crate, at[1])
            return function_at(at[1], text, len("\n".join(text.split("\n")[: int(at[2])])))
        return None


def is_refusal(status: int, last: str, is_of_functions: bool) -> bool:
    """Whether the prover ended as it does where it refuses something, and had memory and time for all: of functions fewer are proved than were
    asked for."""
    counts = re.fullmatch(r"only=(\d+) proved=(\d+)", last)
    return status == 1 and (bool(counts and int(counts[2]) < int(counts[1])) if is_of_functions else last == "logic=not-proved")


def is_among(function: str, names: list[str]) -> bool:
    """Whether the prover's name of a function ends with one of these."""
    return any(f"::{function}".endswith(f"::{name}") for name in names)


def source(crate: str, file: str) -> str:
    return open(f"{TOP}/crates/{crate}/{file}", encoding="utf-8").read()


def changed(text: str, changes: list[tuple[str, str, str]], file: str) -> str:
    """A file's text after those of the changes that are of it."""
    for at, old, new in changes:
        if at == file:
            text = text.replace(old, new)
    return text


def function_at(file: str, text: str, at: int) -> str | None:
    """The function at a place of a source, as the prover names it."""
    return Source(file, text).prover_name(at) if file.startswith("src/") else None


def is_in_body(file: str, text: str, at: int) -> bool:
    """Whether a place of a source is in a function's body, and not in its head or its contract, which others see."""
    source_of = Source(file, text)
    function = source_of.function_before(at)
    if not file.startswith("src/") or not function:
        return False
    end_of_contract = max((it.end + 1 for it in function.clauses), default=function.start)
    return source_of.mask.find("{", end_of_contract) <= at < function.end


def library(name: str) -> str:
    return f"{TOP}/crates/{name}/out/rlib/{name}.rlib"


def end_with_this() -> None:
    """Has a command end when this program does, however it does."""
    ctypes.CDLL(None).prctl(1, signal.SIGKILL)
