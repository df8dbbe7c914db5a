"""Image files of which the faults are mended, by the definitions: words of more than twelve bits, and lengths that no such file has."""
from tests.model.kinds import BLOCK, DISK, TAPE, kind_of
from tests.model.words import BLOCK_WORDS

MOST_LINES = 16
TAPE_WORDS = 129
MAY_BE = {"": ("tape", "disk", "volume"), "1": ("disk",), "2": ("disk",), "tape": ("tape",)}


def fitted_size(layout: str, size: int) -> int:
    """The length nearest to this one that a file has which is read so."""
    if layout == "tape":
        return TAPE
    if layout:
        return min(size, DISK)
    return BLOCK * min(max(-(-size // BLOCK), 8), 4095)


def mended(name: str, layout: str, data: bytes) -> tuple[bytes, list[str]]:
    """The bytes of a mended file, and the lines that say what was done."""
    kind = kind_of(data)
    is_known = kind is not None and kind[0] in MAY_BE[layout]
    before, after = kind[1:] if kind and is_known else (0, 0)
    size = len(data) if is_known else fitted_size(layout, len(data))
    block_words = TAPE_WORDS if layout == "tape" or (not layout and kind and kind[0] == "tape") else BLOCK_WORDS
    file = bytearray(data[:size].ljust(size, b"\0"))
    wide = list[str]()
    for number in range(max(size - before - after, 0) // 2):
        at = before + 2 * number
        bits = int.from_bytes(file[at : at + 2], "little")
        if bits >= 0o10000:
            wide.append(f"block {number // block_words}, word {number % block_words} is {bits:06o}, read as {bits % 0o10000:04o}")
            file[at + 1] %= 16
    said = wide[:MOST_LINES]
    if len(wide) > MOST_LINES:
        said.append(f"further words of more than 12 bits, read without the top ones: {len(wide) - MOST_LINES}")
    if size > len(data):
        said.append(f"bytes of zeros added at the end: {size - len(data)}")
    if size < len(data):
        said.append(f"bytes cut from the end: {len(data) - size}")
    return bytes(file), [f"note: {name}: {line}" for line in said]
