"""The index of image files by its definitions: what a file is, the volumes in it, and a line for each file of each."""
import hashlib
from collections import Counter
from dataclasses import dataclass
from typing import Optional
from tests.model.disks import image_in
from tests.model.keeper import day_of
from tests.model.kinds import BLOCK, kind_of
from tests.model.tape import meaning_of
from tests.model.volume import Unsound, Volume, read_volume, words_of_image
from tests.model.words import BLOCK_WORDS, Name, frames_of, octal, spelled_name

TEXT = {7, *range(0o11, 0o16), *range(0o40, 0o200)}


@dataclass
class Part:
    """A volume of a file: its number in a disk, and its image."""

    number: str
    image: bytes


# ## What a file is


def parts_of(data: bytes) -> list[Part]:
    """The volumes of a file of unknown origin; one of no known kind is taken as an image."""
    kind = kind_of(data)
    if kind is None:
        return [Part("", data)]
    form, before, after = kind
    body = data[before : len(data) - after]
    layouts = {"tape": ["tape"], "disk": ["1", "2"], "volume": [""]}[form]
    return [Part(it if form == "disk" else "", image_in(it, body)) for it in layouts]


# ## What a file of a volume is


def core_start(words: list[int]) -> Optional[int]:
    """Where the program of a core image starts, if words are one."""
    if len(words) < BLOCK_WORDS or words[0] < 0o7602 or words[1] // 64 != 0o62 or words[1] % 8 != 3:
        return None
    blocks = 1
    for k in range(4096 - words[0]):
        first, control = words[4 + 2 * k], words[5 + 2 * k]
        pages = control // 64 % 32 or 32
        blocks += (pages + 1) // 2
        if first % BLOCK_WORDS or control >= 0o4000 or control % 8 or first + 128 * pages > 4096 or BLOCK_WORDS * blocks > len(words):
            return None
    return 4096 * (words[1] // 8 % 8) + words[2]


def is_rim(frames: list[int]) -> bool:
    """Leader frames, addresses with words, one at least, and a trailer frame."""
    at = next((place for place, frame in enumerate(frames) if frame != 0o200), len(frames))
    first = at
    while at < len(frames) and frames[at] != 0o200:
        four = frames[at : at + 4]
        if len(four) < 4 or not 0o100 <= four[0] < 0o200 or any(frame >= 0o100 for frame in four[1:]):
            return False
        at += 4
    return at < len(frames) and at > first


def is_text(frames: list[int]) -> bool:
    """Up to the first control Z, or zeros to the end, each frame is a character's, and one of them is seen."""
    kept = []
    for place, frame in enumerate(frames):
        if frame % 128 == 0o32:
            break
        if frame == 0:
            if any(frames[place:]):
                return False
            break
        if frame % 128 not in TEXT:
            return False
        kept.append(frame % 128)
    return any(0o41 <= it <= 0o176 for it in kept)


def kind_of_words(words: list[int]) -> str:
    frames = frames_of(words)
    start = core_start(words)
    if not any(frames):
        return "zeros"
    if start is not None:
        return f"core-{octal(start, 5)}"
    if isinstance(meaning_of(frames), dict):
        return "BIN"
    if is_rim(frames):
        return "RIM"
    return "text" if is_text(frames) else "unknown"


# ## Lines


def spelled_date(info: tuple[int, ...], last: int) -> str:
    if not info or not info[0]:
        return "-"
    return (day_of(info, last) or [octal(info[0], 4)])[0]


def quoted(name: str) -> str:
    return "".join(chr(it) if 0o40 < it < 0o177 and it != 0o134 else f"\\{octal(it, 3)}" for it in name.encode())


def last_year(image: bytes, year: Optional[int]) -> int:
    return year or 1977 + 8 * (words_of_image(image[510:512])[0] // 128 % 4)


def lines_of(name: str, part: Part, volume: Volume, year: Optional[int]) -> list[str]:
    """The lines of the files of a volume, in the order of their blocks."""
    lines = []
    for it, place in sorted(volume.places.items(), key=lambda found: found[1]):
        file = volume.files[it]
        held = part.image[BLOCK * place : BLOCK * (place + file.blocks)]
        columns = [quoted(name), part.number or "-", str(place), str(file.blocks), spelled_name(it)]
        columns += [spelled_date(file.info, last_year(part.image, year)), kind_of_words(file.words), hashlib.md5(held).hexdigest()]
        lines.append("\t".join(columns))
    return lines


def volume_of(image: bytes) -> Optional[Volume]:
    """The volume of an image, if it is sound."""
    if len(image) % BLOCK or not 8 <= len(image) // BLOCK <= 4095 or max(words_of_image(image)) > 0o7777:
        return None
    try:
        return read_volume(image)
    except (Unsound, IndexError):
        return None


def indexed(name: str, data: bytes, year: Optional[int] = None) -> tuple[list[str], list[str]]:
    """The lines of a file's volumes, and the names of those that are refused."""
    lines, refused = list[str](), list[str]()
    for part in parts_of(data):
        volume = volume_of(part.image)
        if volume is None:
            refused.append(name + (f":{part.number}" if part.number else ""))
        else:
            lines += lines_of(name, part, volume, year)
    return lines, refused


def equal_lines(lines: list[str]) -> list[str]:
    """The lines whose digest another line has, by their digests."""
    digests = [line.rsplit("\t", 1)[1] for line in lines]
    shared = {it for it, count in Counter(digests).items() if count > 1}
    return [line for digest, line in sorted(zip(digests, lines), key=lambda pair: pair[0]) if digest in shared]
