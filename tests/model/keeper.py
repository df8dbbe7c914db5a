"""What the commands that work on the files of an image answer and leave, by their definitions: a volume is a map of files, and runs of blocks."""
from __future__ import annotations
import datetime
import fnmatch
import re
from dataclasses import dataclass, replace
from typing import Optional, Sequence, Union
from tests.model.volume import File, Run, Volume
from tests.model.words import Name, frames_of, octal, packed, read_name, shown_word, spelled_name, stored_host_text, text_of

FULL = "? 4.3 DIRECTORY FULL"
BAD_NAME = "? 4.5 BAD NAME"
NOT_FOUND = "? 4.1 NOT FOUND"
NOTHING = "? 4.11 NOTHING WRITTEN"
BAD_TEXT = "? 7 BAD TEXT"
TEXTS = ["BA", "BI", "FT", "HL", "LS", "MA", "PA", "RA", "SB", "TX"]

Answer = tuple[list[str], int]
"""The lines of an answer, and the status."""

Asked = Union[bytes, int]
"""What a file is asked for by: its name as typed, or its first block."""


def typed_name(typed: bytes) -> Optional[Name]:
    """The name that is typed on a command line, where small letters are taken for capitals."""
    return read_name(typed.upper())


def day_of(info: tuple[int, ...], last: int) -> list[str]:
    """The day that the first information word means among the eight years up to a last one: four bits of month, five of day, three of year."""
    if not info:
        return []
    year = next(it for it in range(last, last - 8, -1) if (it - 1970) % 8 == info[0] % 8)
    try:
        return [datetime.date(year, info[0] >> 8, info[0] >> 3 & 31).isoformat()]
    except ValueError:
        return []


def word_of_time(seconds: int) -> Optional[int]:
    """The word of the day, in UTC, of a time in seconds after the begin of 1970. That of files with no date, 0, has none."""
    if not seconds:
        return None
    day = datetime.datetime.fromtimestamp(seconds, datetime.timezone.utc)
    return day.month << 8 | day.day << 3 | (day.year - 1970) % 8


def year_note(seconds: int) -> list[str]:
    """The note on the day, in UTC, of a time, where a volume that shows 1970 to 1977 shows it as one of another year."""
    word = word_of_time(seconds)
    if word is None:
        return []
    day = datetime.datetime.fromtimestamp(seconds, datetime.timezone.utc).date().isoformat()
    shown, own = day_of((word,), 1977)[0], max(int(day[:4]), 1977)
    return [] if shown == day else [f"note: {day} is shown as {shown}: --year {own} shows it so"]


def asked_text(asked: Asked) -> str:
    return f"--at {asked}" if isinstance(asked, int) else asked.decode().upper()


def found(volume: Volume, asked: Asked) -> tuple[Optional[Name], str]:
    """The name of the file that is asked for, and why there is none."""
    name = volume.name_at(asked) if isinstance(asked, int) else typed_name(asked)
    if name is None:
        return None, NOT_FOUND if isinstance(asked, int) else BAD_NAME
    return name, "" if name in volume.files else NOT_FOUND


def emptying(path: str) -> Answer:
    """What is said of an input of no byte that would replace a file."""
    return [f"note: {path} is empty, and the volume has a file of its name: --empty puts it all the same", NOTHING], 1


def frames_note(path: str, what: str) -> str:
    """What is said of a file that goes as frames, where others go as texts."""
    return f"note: {path} is {what} as frames: its extension is none of a text's"


def refused(line: str) -> Answer:
    return [line], 1


def with_files(volume: Volume, files: dict[Name, File], runs: list[Run]) -> Volume:
    return replace(volume, files=files, runs=runs)


@dataclass
class Keeper:
    """Volumes, by the names of their image files."""

    volumes: dict[str, Volume]

    def put(self, image: str, name: Optional[Name], words: list[int], info: Optional[tuple[int, ...]]) -> Answer:
        """Puts a file in, with the information words that are given, else with those of the older file of its name, else with zeros."""
        volume = self.volumes[image]
        if name is None:
            return refused(BAD_NAME)
        older = volume.files[name].info if name in volume.files else ()
        own = (tuple(older if info is None else info) + (0,) * volume.info)[: volume.info]
        file = File(own, words)
        runs = volume.with_file(name, file.blocks)
        if runs is None:
            return refused(f"? 4.2 NO ROOM {volume.largest}")
        if len(runs) > volume.limit:
            return refused(FULL)
        self.volumes[image] = with_files(volume, {**volume.files, name: file}, runs)
        return [f"STORED {spelled_name(name)} {file.blocks}"], 0

    def put_frames(self, image: str, typed: bytes, frames: bytes, info: Optional[tuple[int, ...]]) -> Answer:
        name = typed_name(typed)
        volume = self.volumes[image]
        if name is not None and not frames and name in volume.files:
            return emptying("-")
        if len(info or ()) > volume.info:
            return refused(f"? PUT 2 ONLY {volume.info} WORDS")
        if name is not None and not frames:
            return refused(NOTHING)
        return self.put(image, name, packed(list(frames)), info)

    def put_all(self, image: str, given: list[tuple[bytes, bytes]], texts: list[str], info: Optional[tuple[int, ...]], times: Sequence[int] = ()) -> Answer:
        """Puts files of the host in, each with its bytes, all or none. All are texts where the extensions are those of texts, which the option for
        texts gives, or else those with one of them. Where times are given, in seconds after the begin of 1970, each file is dated by its own."""
        before, lines, names = self.volumes[image], list[str](), [typed_name(path) for path, _ in given]
        for at, name in enumerate(names):
            note = f"note: {given[at][0].decode()} is refused, and no file is put"
            if name is None:
                return [*lines, note, "note: a file's name is 1 to 6 letters, digits or escapes (_ and two octal digits), then nothing, or a dot and 1 or 2 more", BAD_NAME], 1
            if name in names[:at]:
                return [*lines, note, "? PUT 1 SAME NAME"], 1
            if texts and texts is not TEXTS and extension(name) not in texts:
                lines.append(frames_note(given[at][0].decode(), "put"))
        notes, dates = list(lines), [word_of_time(it) for it in times] if times else [None] * len(given)
        for (path, content), name in zip(given, names):
            if not content and name in before.files:
                told, status = emptying(path.decode())
                return [*notes, *told], status
        if max([len(info or ()) if it is None else 1 for it in dates]) > before.info:
            return [*notes, f"? PUT 2 ONLY {before.info} WORDS"], 1
        years = [note for it in times for note in year_note(it)]
        notes, lines = [*notes, *years], [*lines, *years]
        for at, ((path, content), name) in enumerate(zip(given, names)):
            date = dates[at]
            own = info if date is None else (date,)
            is_text = name is not None and (texts is TEXTS or extension(name) in texts)
            words = stored_host_text(content) if is_text else packed(list(content))
            if words is None:
                answer: Answer = refused(BAD_TEXT)
            else:
                answer = self.put(image, name, words, own) if is_text or content else refused(NOTHING)
            if answer[1]:
                self.volumes[image] = before
                hint = bad_text_hint(content) if answer[0] == [BAD_TEXT] else []
                return [*notes, f"note: {path.decode()} is refused, and no file is put", *hint, *answer[0]], 1
            lines += answer[0]
        return lines, 0

    def delete(self, image: str, asked: list[Asked]) -> Answer:
        """Takes files out, all or none. With a pattern among them each is taken out once, where it is asked for first."""
        volume, lines = self.volumes[image], []
        if any(has_sign(asked_text(it)) for it in asked):
            names, refused_lines = self.chosen(image, [asked_text(it) for it in asked], False)
            if refused_lines:
                word, _, why = refused_lines[0].rpartition(": ")
                return [f"note: {word} is refused, and no file is taken out", why], 1
            asked = [volume.places[it] for it in names]
        for one in asked:
            name, why = found(volume, one)
            if name is not None and not why:
                runs = volume.without(name)
                why = FULL if len(runs) > volume.limit else ""
                volume = with_files(volume, {it: file for it, file in volume.files.items() if it != name}, runs)
                lines.append(f"DELETED {spelled_name(name)}")
            if why:
                note = [f"note: {asked_text(one)} is refused, and no file is taken out"] if len(asked) > 1 else []
                return [*note, why], 1
        self.volumes[image] = volume
        return lines, 0

    def rename(self, image: str, asked: Asked, wanted: bytes) -> Answer:
        volume, new = self.volumes[image], typed_name(wanted)
        name, why = found(volume, asked)
        if why == BAD_NAME or new is None:
            return refused(BAD_NAME)
        if name is None or why:
            return refused(why)
        if new in volume.files:
            return refused("? RENAME 1 FILE EXISTS")
        if len(volume.runs) > volume.limit:
            return refused(FULL)
        files = {new if it == name else it: file for it, file in volume.files.items()}
        self.volumes[image] = with_files(volume, files, [(new if it == name else it, blocks) for it, blocks in volume.runs])
        return [f"RENAMED {spelled_name(name)} {spelled_name(new)}"], 0

    def copy(self, image: str, asked: Asked, to: str, wanted: Optional[bytes]) -> Answer:
        name, why = found(self.volumes[image], asked)
        if name is None or why:
            return [f"note: {image} is the image that refuses", why], 1
        source, target = self.volumes[image], self.volumes[to]
        file = source.files[name]
        lines, status = self.put(to, name if wanted is None else typed_name(wanted), file.words, file.info)
        return [*([f"note: {to} is the image that refuses"] if status else []), *lines, *([] if status else cut_lines(source, name, target))], status

    def copy_many(self, image: str, words: list[str], to: str, is_forced: bool) -> Answer:
        """Copies files that words choose, all or none; older ones of their names go only where that is asked for."""
        source, before, lines = self.volumes[image], self.volumes[to], []
        names, refused_lines = self.chosen(image, words, False)
        if refused_lines:
            word, _, why = refused_lines[0].rpartition(": ")
            return [f"note: {word} is refused, and no file is copied", why], 1
        for name in names:
            if name in before.files and not is_forced:
                return [f"note: {spelled_name(name)} is refused, and no file is copied", "? COPY 1 FILE EXISTS"], 1
        for name in names:
            told, status = self.put(to, name, source.files[name].words, source.files[name].info)
            if status:
                self.volumes[to] = before
                return [f"note: {spelled_name(name)} is refused, and no file is copied", f"note: {to} is the image that refuses", *told], 1
            lines += [*told, *cut_lines(source, name, before)]
        return lines, 0

    def squeeze(self, image: str) -> Answer:
        """Moves files down, the lowest with free blocks below it first, until there is none."""
        volume, moved = self.volumes[image], 0
        while (runs := volume.moved_down()) is not None:
            if len(runs) > volume.limit:
                return refused(FULL)
            volume, moved = with_files(volume, volume.files, runs), moved + 1
        self.volumes[image] = volume
        return [f"SQUEEZED {moved}"], 0

    def listed(self, image: str, words: list[str]) -> tuple[list[Name], list[str]]:
        """The files that are listed, and the lines of words of no file."""
        return self.chosen(image, words, not words)

    def list_short(self, image: str, words: list[str]) -> Answer:
        volume = self.volumes[image]
        names, lines = self.listed(image, words)
        for name in sorted(names):
            lines.append(f"{spelled_name(name)} {volume.files[name].blocks}")
        return [*lines, f"FREE {volume.capacity - volume.used}"], 1 if self.listed(image, words)[1] else 0

    def list_long(self, image: str, last: int, words: list[str]) -> Answer:
        volume, place = self.volumes[image], self.volumes[image].first
        names, lines = self.listed(image, words)
        for name, blocks in volume.runs:
            if name is not None and name in names:
                info = volume.files[name].info
                lines.append(" ".join([spelled_name(name), str(blocks), str(place), *(octal(it, 4) for it in info), *day_of(info, last)]))
            place += blocks
        return [*lines, f"FREE {volume.capacity - volume.used}"], 1 if self.listed(image, words)[1] else 0

    def get(self, image: str, asked: Asked, is_text: bool) -> tuple[bytes, int]:
        """The file's frames or its text, or on standard error why there is none."""
        name, why = found(self.volumes[image], asked)
        if name is None or why:
            return f"{why}\n".encode(), 1
        return given_of(self.volumes[image].files[name].words, is_text), 0

    def chosen(self, image: str, words: list[str], is_all: bool) -> tuple[list[Name], list[str]]:
        """The files that names, patterns and `--at N` choose, each once, and the lines of what is refused."""
        volume, lines = self.volumes[image], []
        in_order = sorted(volume.files, key=lambda it: volume.places[it])
        names = list(in_order) if is_all else []
        for typed in words:
            word = typed if typed.startswith("--at ") else typed.upper()
            asked: Asked = int(word[5:]) if word.startswith("--at ") else word.encode()
            if has_sign(word):
                found_names, why = [it for it in in_order if is_like(word, it)], "" if is_pattern(word) else BAD_NAME
                found_names, why = ([], why) if why else (found_names, "" if found_names else NOT_FOUND)
            else:
                name, why = found(volume, asked)
                found_names = [] if name is None or why else [name]
            if why:
                lines.append(f"{word}: {why}")
            names += found_names
        return list(dict.fromkeys(names)), lines

    def texts(self, image: str, words: list[str], is_all: bool) -> tuple[bytes, int]:
        """The texts of what is chosen, each once and after its name where there are several, and the lines of what is refused between them."""
        volume, parts = self.volumes[image], [self.chosen(image, [], True)] if is_all else []
        parts += [self.chosen(image, [word], False) for word in words]
        text, shown, are_several = b"", list[Name](), len({it for names, _ in parts for it in names}) > 1
        for names, lines in parts:
            for name in (it for it in names if it not in shown):
                head = f"==> {spelled_name(name)} <==\n" if are_several else ""
                text += (b"\n" if shown else b"") + head.encode("latin-1") + given_of(volume.files[name].words, True)
                shown.append(name)
            text += "".join(f"{line}\n" for line in lines).encode("latin-1")
        return text, 1 if any(lines for _, lines in parts) else 0


def cut_lines(source: Volume, name: Name, target: Volume) -> list[str]:
    """The line of a file that is copied without some of its information words that are not 0."""
    file = source.files[name]
    return [f"CUT FILE {spelled_name(name)} {source.places[name]} {file.blocks}"] if any(file.info[target.info:]) else []


def extension(name: Name) -> str:
    return shown_word(name[3])


def has_sign(word: str) -> bool:
    return "*" in word or "?" in word


def is_pattern(word: str) -> bool:
    return bool(re.fullmatch(r"[A-Z0-9*?]{1,12}(\.[A-Z0-9*?]{1,4})?", word))


def is_like(word: str, name: Name) -> bool:
    """Whether a pattern matches a name: the name and the extension each by itself."""
    wanted, _, wanted_behind = word.partition(".")
    return fnmatch.fnmatchcase("".join(map(shown_word, name[:3])), wanted) and fnmatch.fnmatchcase(extension(name), wanted_behind)


def given_of(words: list[int], is_text: bool) -> bytes:
    return text_of(words).replace(b"\r\n", b"\n") if is_text else bytes(frames_of(words))


def bad_text_hint(content: bytes) -> list[str]:
    """Where a text has its first byte that may not stand in one."""
    at = next(place for place, byte in enumerate(content) if byte > 0o177 or byte == 0o32)
    lines = content[:at].split(b"\n")
    return [f"note: line {len(lines)}, byte {len(lines[-1]) + 1}: a text has no byte above 0177, and no control Z"]
