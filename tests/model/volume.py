"""Volumes of OS/8: what the directory of an image says of its files, and images that are made for scripts."""
import sys
from array import array
from dataclasses import dataclass
from typing import Optional
from tests.model.words import BLOCK_WORDS, Name

FIRST_ENTRY = 5


@dataclass
class File:
    """A file: its information words, and the words of all its blocks."""

    info: tuple[int, ...]
    words: list[int]

    @property
    def blocks(self) -> int:
        return len(self.words) // BLOCK_WORDS


# A file's name, or none where its blocks are free, and how many blocks
Run = tuple[Optional[Name], int]


def tidied(runs: list[Run]) -> list[Run]:
    """The same runs, where free blocks that lie side by side are one run."""
    tidy: list[Run] = []
    for name, blocks in runs:
        if tidy and name is None and tidy[-1][0] is None:
            tidy[-1] = (None, tidy[-1][1] + blocks)
        elif blocks:
            tidy.append((name, blocks))
    return tidy


@dataclass
class Volume:
    """What a directory says: the files by name, the blocks that it covers, and how many information words a file has. It has, too, which runs of
    blocks, from the first on, are those of files."""

    files: dict[Name, File]
    first: int
    capacity: int
    info: int
    runs: list[Run]

    @property
    def limit(self) -> int:
        """The entries that six segments take."""
        return 6 * (251 // (5 + self.info))

    @property
    def used(self) -> int:
        return sum(file.blocks for file in self.files.values())

    @property
    def largest(self) -> int:
        """The longest run of free blocks."""
        return max((blocks for name, blocks in self.runs if name is None), default=0)

    @property
    def places(self) -> dict[Name, int]:
        """The first block of each file."""
        found, place = {}, self.first
        for name, blocks in self.runs:
            if name is not None:
                found[name] = place
            place += blocks
        return found

    def name_at(self, place: int) -> Optional[Name]:
        """The file whose first block this is."""
        return next((name for name, first in self.places.items() if first == place), None)

    def without(self, name: Name) -> list[Run]:
        """The runs where the file of a name is gone."""
        return tidied([(None if it == name else it, blocks) for it, blocks in self.runs])

    def with_file(self, name: Name, blocks: int) -> Optional[list[Run]]:
        """The runs with one more file, where it has room: at the beginning of the shortest free run that is long enough, the first of
        equals. The blocks of an older file of the name are free from then on, and no room for it before."""
        rooms = [(free, at) for at, (it, free) in enumerate(self.runs) if it is None and free >= blocks]
        if not rooms:
            return None
        free, at = min(rooms)
        runs: list[Run] = [(None if it == name else it, size) for it, size in self.runs]
        return tidied([*runs[:at], (name, blocks), (None, free - blocks), *runs[at + 1 :]])

    def moved_down(self) -> Optional[list[Run]]:
        """The runs where the lowest file with free blocks directly below it lies lower by these, where there is one."""
        for at, (name, blocks) in enumerate(self.runs[:-1]):
            if name is None:
                return tidied([*self.runs[:at], self.runs[at + 1], (None, blocks), *self.runs[at + 2 :]])
        return None


class Unsound(Exception):
    """A directory that is not sound."""


def words_of_image(image: bytes) -> list[int]:
    words = array("H", image)
    if sys.byteorder == "big":
        words.byteswap()
    return words.tolist()


def read_entries(words: list[int]) -> tuple[int, int, list[tuple[Optional[Name], tuple[int, ...], int]]]:
    """The first block, the number of information words, and each entry of a directory: name or None, information words, length."""
    entries, number, seen, place = [], 1, [], 0
    first, info = words[BLOCK_WORDS + 1], -words[BLOCK_WORDS + 4] % 4096
    while number:
        if number in seen or not 1 <= number <= 6:
            raise Unsound(f"link to segment {number}")
        seen.append(number)
        segment = words[BLOCK_WORDS * number : BLOCK_WORDS * (number + 1)]
        if -segment[4] % 4096 != info or (len(seen) > 1 and segment[1] != first + place):
            raise Unsound(f"head of segment {number}")
        at = FIRST_ENTRY
        for _ in range(-segment[0] % 4096):
            size = 2 if segment[at] == 0 else 5 + info
            if at + size > BLOCK_WORDS:
                raise Unsound("entry past its segment")
            entry = segment[at : at + size]
            name = None if size == 2 else (entry[0], entry[1], entry[2], entry[3])
            length = -entry[-1] % 4096
            entries.append((name, tuple(entry[4:-1]) if name else (), length))
            at, place = at + size, place + length
        number = segment[2]
    return first, info, entries


def read_volume(image: bytes) -> Volume:
    """The files of an image. An entry of length 0 is nothing."""
    words = words_of_image(image)
    first, info, entries = read_entries(words)
    files: dict[Name, File] = {}
    place, runs = first, []
    for name, data, length in entries:
        if name and length:
            if name in files:
                raise Unsound("two files of one name")
            files[name] = File(data, words[BLOCK_WORDS * place : BLOCK_WORDS * (place + length)])
        runs.append((name, length))
        place += length
    if 512 * place > len(image):
        raise Unsound("past the volume")
    return Volume(files, first, place - first, info, tidied(runs))


@dataclass
class Lot:
    """What lies in some blocks of an image that is made: a file with its words, or free blocks."""

    name: Optional[Name]
    blocks: int
    words: list[int]


def pieces_of(lots: list[Lot], info: int) -> list[list[Lot]]:
    """The lots of each segment, as many as it has words for: where many are free, more than a change may write."""
    pieces, room = list[list[Lot]](), 0
    for lot in lots:
        size = 5 + info if lot.name else 2
        if size > room:
            pieces.append([])
            room = BLOCK_WORDS - FIRST_ENTRY
        pieces[-1].append(lot)
        room -= size
    return pieces


def made_image(blocks: int, info: int, first: int, lots: list[Lot]) -> bytes:
    """An image whose files and free blocks lie in this order from a first block on; what is left is free."""
    words = [0] * (BLOCK_WORDS * blocks)
    pieces = pieces_of([*lots, Lot(None, blocks - first - sum(lot.blocks for lot in lots), [])], info)
    place = first
    for number, piece in enumerate(pieces, 1):
        link = number + 1 if number < len(pieces) else 0
        segment = [-len(piece) % 4096, place, link, 0, -info % 4096]
        for lot in piece:
            segment += [*lot.name, *range(info), -lot.blocks % 4096] if lot.name else [0, -lot.blocks % 4096]
            words[BLOCK_WORDS * place : BLOCK_WORDS * place + len(lot.words)] = lot.words
            place += lot.blocks
        words[BLOCK_WORDS * number : BLOCK_WORDS * number + len(segment)] = segment
    return b"".join(word.to_bytes(2, "little") for word in words)
