"""What an image file of unknown origin is, by the definition: whole blocks with a whole directory, then its length, and at last a whole
directory after a header or before a trailer."""
from typing import Callable, Optional
from tests.model.disks import TAPE_BLOCKS, VOLUME
from tests.model.words import BLOCK_WORDS

DISK, TAPE, LARGEST, BLOCK = 2 * VOLUME, 1474 * 258, 4095 * 512, 512
DISK_BLOCKS, DIRECTORY_BLOCKS, MOST_SEGMENTS = 3248, 7, 6

# A form, and how many bytes stand before and after its volumes
Kind = tuple[str, int, int]
Segment = list[int]


def word_at(data: bytes, at: int) -> int:
    """The low twelve bits of the word that begins with a byte; 0 after the end."""
    return int.from_bytes(data[at : at + 2], "little") % 4096


def segment_at(data: bytes, start: int, is_tape: bool, number: int) -> Segment:
    """The words of a block of a volume that begins with a byte; on a DECtape 128 words stand in each 258 bytes."""
    if is_tape:
        at = start + 516 * number
        return [word_at(data, at + 258 * (k // 128) + 2 * (k % 128)) for k in range(BLOCK_WORDS)]
    return [word_at(data, start + BLOCK * number + 2 * k) for k in range(BLOCK_WORDS)]


def directory_end(segment: Callable[[int], Segment], blocks: int) -> int:
    """The block after the last entry, where all segments from block 1 on, and all entries of each, read through; else 0."""
    head, names, number, seen = segment(1), set[tuple[int, ...]](), 1, set[int]()
    info, place = -head[4] % 4096, head[1]
    if info > 10 or not 7 <= place <= blocks:
        return 0
    while number:
        words = segment(number)
        if number >= DIRECTORY_BLOCKS or number in seen or -words[4] % 4096 != info or words[1] != place:
            return 0
        seen.add(number)
        at = 5
        for _ in range(-words[0] % 4096):
            size = 5 + info if at < BLOCK_WORDS and words[at] else 2
            if at + size > BLOCK_WORDS:
                return 0
            length = -words[at + size - 1] % 4096
            place += length
            name = tuple(words[at : at + 4])
            if place > blocks or (size > 2 and length and name in names):
                return 0
            if size > 2 and length:
                names.add(name)
            at += size
        number = words[2]
    return place


def whole_end(data: bytes, start: int, blocks: int, is_tape: bool = False) -> int:
    return directory_end(lambda number: segment_at(data, start, is_tape, number), blocks)


def has_head(data: bytes, at: int, blocks: int) -> bool:
    """The words with which a directory's first segment begins may stand at a byte."""
    if at + 10 > len(data):
        return False
    count, first, link, _, info = (word_at(data, at + 2 * k) for k in range(5))
    return -count % 4096 <= 125 and 7 <= first <= blocks and link <= 6 and -info % 4096 <= 10


def kind_by_length(data: bytes) -> Optional[Kind]:
    """A DECtape of exactly its length, or a disk, perhaps without its end."""
    if len(data) == TAPE and has_head(data, 516, TAPE_BLOCKS):
        return "tape", 0, 0
    if VOLUME < len(data) <= DISK:
        if has_head(data, VOLUME + BLOCK, DISK_BLOCKS) or (len(data) > LARGEST and has_head(data, BLOCK, DISK_BLOCKS)):
            return "disk", 0, 0
    return None


def is_form_at(form: str, data: bytes, before: int) -> bool:
    """A whole directory of the form reads through after so many bytes."""
    if form == "tape":
        return bool(whole_end(data, before, TAPE_BLOCKS, True))
    if form == "disk":
        return bool(whole_end(data, before, DISK_BLOCKS) or whole_end(data, before + VOLUME, DISK_BLOCKS))
    return bool(whole_end(data, before, min(len(data) // BLOCK, 4095)))


def excess(form: str, size: int) -> int:
    """How many bytes, fewer than a block, a file of so many has beyond its form's."""
    if form == "volume":
        return size % BLOCK if 8 * BLOCK <= size < LARGEST + BLOCK else 0
    more = size - (TAPE if form == "tape" else DISK)
    return more if 0 < more < BLOCK else 0


def readings_of(data: bytes) -> list[Kind]:
    """All that a file may be read as; one where it is told by itself or by its length."""
    if len(data) % BLOCK == 0 and 8 * BLOCK <= len(data) <= LARGEST:
        end = whole_end(data, 0, len(data) // BLOCK)
        if end and (len(data) <= VOLUME or end > DISK_BLOCKS):
            return [("volume", 0, 0)]
    told = kind_by_length(data)
    if told:
        return [told]
    found = list[Kind]()
    for form in ("tape", "disk", "volume"):
        more = excess(form, len(data))
        if more and is_form_at(form, data, 0):
            found.append((form, 0, more))
        if more and is_form_at(form, data, more):
            found.append((form, more, 0))
    return found


def kind_of(data: bytes) -> Optional[Kind]:
    """What a file is taken for."""
    return next(iter(readings_of(data)), None)
