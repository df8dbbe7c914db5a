"""What the blocks of a volume hold by their content alone, by its definitions: whole texts, core images, BIN and RIM tapes, segments of directories."""
from typing import Callable, Optional
from tests.model.index import TEXT, core_start, is_rim
from tests.model.tape import meaning_of
from tests.model.volume import FIRST_ENTRY
from tests.model.words import BLOCK_FRAMES, BLOCK_WORDS, Name, frames_of

MOST_SHOWN = 40
Piece = tuple[str, int, int]
"""What a piece is, its first block, and how many blocks it has."""


def is_graphic(frame: int) -> bool:
    return 0o41 <= frame % 128 <= 0o176


def end_of_text(frames: list[int]) -> Optional[int]:
    """How many frames of a text stand before its end among these: all of them where it goes on; nothing where they are none of a text."""
    for place, frame in enumerate(frames):
        if frame % 128 == 0o32 or not any(frames[place:]):
            return place
        if frame == 0 or frame % 128 not in TEXT:
            return None
    return len(frames)


def texts_in(blocks: list[list[int]]) -> list[Piece]:
    """The whole texts: each ends in a block, and begins where the longest run of blocks that it may go through begins."""
    found, first = list[Piece](), 0
    for block, frames in enumerate(blocks):
        end = end_of_text(frames)
        if end == len(frames):
            continue
        if end is not None and any(map(is_graphic, [*(it for run in blocks[first:block] for it in run), *frames[:end]])):
            found.append(("TEXT", first, block + 1 - first))
        first = block + 1
    return found


def is_bin(frames: list[int]) -> bool:
    return isinstance(meaning_of(frames), dict)


TAPES: list[tuple[str, Callable[[list[int]], bool]]] = [("BIN", is_bin), ("RIM", is_rim)]


def program_at(words: list[int], frames: list[int], left: int) -> Optional[tuple[str, int]]:
    """The first of a core image, a BIN tape and a RIM tape that begins with these blocks, and the fewest of them that are one."""
    if all(frame in (0, 0o200) for frame in frames[:BLOCK_FRAMES]):
        return None
    for size in range(1, left + 1):
        if core_start(words[: BLOCK_WORDS * size]) is not None:
            return "CORE", size
    for kind, is_one in TAPES:
        if is_one(frames):
            return kind, next(size for size in range(1, left + 1) if is_one(frames[: BLOCK_FRAMES * size]))
    return None


def programs_in(words: list[int]) -> list[Piece]:
    """The programs: after one that is found the next one is looked for."""
    found, block, count, frames = list[Piece](), 0, len(words) // BLOCK_WORDS, frames_of(words)
    while block < count:
        program = program_at(words[BLOCK_WORDS * block :], frames[BLOCK_FRAMES * block :], count - block)
        if program:
            found.append((program[0], block, program[1]))
        block += program[1] if program else 1
    return found


def is_segment(words: list[int], blocks: int) -> bool:
    """Whether a block can be read as a segment of a directory for so many blocks, and as the only one, and has a file."""
    count, place, link, info, at, names = -words[0] % 4096, words[1], words[2], -words[4] % 4096, FIRST_ENTRY, list[Name]()
    if link > 6 or info > 10 or not 7 <= place <= blocks:
        return False
    for _ in range(count):
        size = 2 if at < BLOCK_WORDS and words[at] == 0 else 5 + info
        if at + size > BLOCK_WORDS:
            return False
        length = -words[at + size - 1] % 4096
        name = (words[at], words[at + 1], words[at + 2], words[at + 3]) if size > 2 and length else None
        if place + length > blocks or name in names:
            return False
        names += [name] if name else []
        at, place = at + size, place + length
    return bool(names)


def segments_in(words: list[int]) -> list[Piece]:
    """The segments of directories after block 6."""
    blocks = [words[k : k + BLOCK_WORDS] for k in range(0, len(words), BLOCK_WORDS)]
    return [("DIR", place, 1) for place in range(7, len(blocks)) if is_segment(blocks[place], len(blocks))]


def line_of(frames: list[int], piece: Piece) -> str:
    kind, place, size = piece
    if kind != "TEXT":
        return f"{kind} {place} {size}"
    behind = frames[BLOCK_FRAMES * place :]
    at = next(k for k, frame in enumerate(behind) if is_graphic(frame))
    shown = ""
    for frame in behind[at : at + MOST_SHOWN]:
        if not 0o40 <= frame % 128 <= 0o176:
            break
        shown += chr(frame % 128)
    return f"{kind} {place} {size} {shown}"


def scanned(words: list[int]) -> list[str]:
    """The lines of all pieces of a volume."""
    frames = frames_of(words)
    blocks = [frames[k : k + BLOCK_FRAMES] for k in range(0, len(frames), BLOCK_FRAMES)]
    return [line_of(frames, piece) for piece in texts_in(blocks) + programs_in(words) + segments_in(words)]
