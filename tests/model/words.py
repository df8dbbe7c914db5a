"""Words of twelve bits, names in sixbit, and three characters in two words, as OS/8 has them."""
import re
from typing import Optional

Name = tuple[int, int, int, int]
"""The name of a file: six characters and two of extension, two sixbit codes in a word."""

BLOCK_WORDS = 256
BLOCK_FRAMES = 384


def octal(number: int, digits: int) -> str:
    return format(number, f"0{digits}o")


def parsed_name(typed: bytes) -> Optional[Name]:
    """The name that was typed: 1 to 6 capital letters or digits, then nothing, or a dot and 1 or 2 more."""
    parts = re.fullmatch(rb"([A-Z0-9]{1,6})(?:\.([A-Z0-9]{1,2}))?", typed)
    if not parts:
        return None
    codes = [letter & 0o77 for letter in parts[1].ljust(6, b"\0") + (parts[2] or b"").ljust(2, b"\0")]
    return (64 * codes[0] + codes[1], 64 * codes[2] + codes[3], 64 * codes[4] + codes[5], 64 * codes[6] + codes[7])


def shown_word(word: int) -> str:
    return "".join(chr(code + 0o100 if code < 0o40 else code) for code in (word // 64, word % 64) if code)


def shown_name(name: Name) -> str:
    return "".join(map(shown_word, name[:3])) + ("." + shown_word(name[3]) if name[3] else "")


def spelled_codes(codes: list[int]) -> str:
    while codes and not codes[-1]:
        codes = codes[:-1]
    return "".join(chr(it + 64) if 1 <= it <= 26 else chr(it) if 48 <= it <= 57 else f"_{octal(it, 2)}" for it in codes)


def spelled_name(name: Name) -> str:
    """A name with each code that is no letter and no digit as `_` and two octal digits."""
    codes = [code for word in name for code in (word // 64, word % 64)]
    extension = spelled_codes(codes[6:])
    return spelled_codes(codes[:6]) + (f".{extension}" if extension else "")


def read_codes(typed: bytes, size: int) -> list[int]:
    codes = [int(it[1:], 8) if it[:1] == b"_" else it[0] & 0o77 for it in re.findall(rb"_..|.", typed)]
    return codes + [0] * (size - len(codes))


def read_name(typed: bytes) -> Optional[Name]:
    """The name of a file that was typed with escapes: up to 6 codes, then nothing, or a dot and 1 or 2 more. Its first word is not 0."""
    parts = re.fullmatch(rb"((?:[A-Z0-9]|_[0-7][0-7]){0,6})(?:\.((?:[A-Z0-9]|_[0-7][0-7]){1,2}))?", typed)
    if not parts:
        return None
    codes = read_codes(parts[1], 6) + read_codes(parts[2] or b"", 2)
    words = (64 * codes[0] + codes[1], 64 * codes[2] + codes[3], 64 * codes[4] + codes[5], 64 * codes[6] + codes[7])
    return words if words[0] else None


def frames_of(words: list[int]) -> list[int]:
    """Three frames for each two words."""
    frames = []
    for first, second in zip(words[::2], words[1::2]):
        frames += [first % 256, second % 256, 16 * (first // 256) + second // 256]
    return frames


def packed(frames: list[int]) -> list[int]:
    """The fewest whole blocks whose frames begin with these, zeros after them."""
    words = []
    frames = frames + [0] * (-len(frames) % BLOCK_FRAMES)
    for first, second, third in zip(frames[::3], frames[1::3], frames[2::3]):
        words += [first + 256 * (third // 16), second + 256 * (third % 16)]
    return words


def text_words(text: bytes) -> Optional[list[int]]:
    """The words of a text as a file: control Z ends it. A byte above 0177, and control Z itself, can't be kept."""
    if any(byte > 0o177 or byte == 0o32 for byte in text):
        return None
    return packed([0o200 + byte for byte in text] + [0o232])


def stored_text(lines: bytes) -> Optional[list[int]]:
    """The words of a script's text as a file: CR is dropped, LF becomes CR LF."""
    return text_words(lines.replace(b"\r", b"").replace(b"\n", b"\r\n"))


def stored_host_text(host: bytes) -> Optional[list[int]]:
    """The words of a host's text as a file: each line end is CR LF, another CR stays."""
    return text_words(host.replace(b"\r\n", b"\n").replace(b"\n", b"\r\n"))


def text_of(words: list[int]) -> bytes:
    """The text of a file: its frames without the top bit, up to the first control Z."""
    text = bytes(frame % 128 for frame in frames_of(words))
    return text.split(b"\x1a")[0]
