"""Files that hold a volume: its image alone, one of the two volumes of an RK05 disk, or a DECtape whose blocks have a 129th word."""
from dataclasses import dataclass
from random import Random
from typing import Optional

VOLUME = 3248 * 512
TAPE_BLOCKS = 737


def image_in(layout: str, data: bytes) -> bytes:
    """The image of the volume in a file: what is after the end of a disk's file reads as zeros."""
    if layout == "tape":
        return b"".join(data[at : at + 256] for at in range(0, len(data), 258))
    if layout:
        at = VOLUME * (int(layout) - 1)
        return data[at : at + VOLUME].ljust(VOLUME, b"\0")
    return data


def others_in(layout: str, data: bytes) -> bytes:
    """The bytes of a file that are none of the volume's."""
    if layout == "tape":
        return b"".join(data[at + 256 : at + 258] for at in range(0, len(data), 258))
    if layout:
        at = VOLUME * (int(layout) - 1)
        return data[:at] + data[at + VOLUME :]
    return b""


def needed(layout: str, data: bytes) -> int:
    """Where the last block of the volume ends that isn't zeros alone."""
    if layout not in ("1", "2"):
        return 0
    used = -(-len(image_in(layout, data).rstrip(b"\0")) // 512)
    return used and VOLUME * (int(layout) - 1) + 512 * used


@dataclass
class Held:
    """A file with a volume somewhere in it, as it was before a command, and how many bytes before and after its volumes are none of theirs."""

    layout: str
    data: bytes
    before: int = 0
    after: int = 0

    def words(self, to: str = "") -> list[str]:
        """The options that say where the volume is."""
        if self.layout == "tape":
            return [f"--{to}dectape"]
        return [f"--{to}volume", self.layout] if self.layout else []

    def body(self, data: bytes) -> bytes:
        return data[self.before : len(data) - self.after]

    @property
    def image(self) -> bytes:
        return image_in(self.layout, self.body(self.data))

    def fault(self, new: bytes) -> str:
        """What of a new file is not as it must be beside its volume."""
        if (new[: self.before], new[len(new) - self.after :]) != (self.data[: self.before], self.data[len(self.data) - self.after :]):
            return "a byte before or after the volumes has changed"
        if others_in(self.layout, self.body(new)) != others_in(self.layout, self.body(self.data)):
            return "a byte beside the volume has changed"
        length = max(len(self.data), needed(self.layout, new))
        return "" if len(new) == length else f"the file has {len(new)} bytes in place of {length}"


def with_margins(random: Random, held: Held) -> Held:
    """The same volume in a file with some bytes before it or after it."""
    more = random.randbytes(random.choice([1, 100, 511]))
    if random.random() < 0.5:
        return Held(held.layout, more + held.data, len(more), 0)
    return Held(held.layout, held.data + more, 0, len(more))


def held_image(random: Random, image: bytes) -> Held:
    """A file that holds this image, mostly alone."""
    layout = random.choice(["", "", "", "", "", "", "1", "2", "tape", "tape"])
    if len(image) > 512 * TAPE_BLOCKS and layout == "tape":
        layout = ""
    if layout == "tape":
        whole = image.ljust(512 * TAPE_BLOCKS, b"\0")
        return Held(layout, b"".join(whole[at : at + 256] + bytes([random.randrange(256), random.randrange(16)]) for at in range(0, len(whole), 256)))
    if layout == "1" and random.random() < 0.5:
        return Held(layout, image.ljust(VOLUME, b"\0") + random.randbytes(random.choice([1, 512, 1000])))
    if layout == "2":
        return Held(layout, random.randbytes(VOLUME) + image)
    return Held(layout, image)


def wrong_size(random: Random) -> tuple[Held, str]:
    """A file of a size that its layout can't have, and the line of that."""
    layout = random.choice(["1", "2", "tape"])
    if layout == "tape":
        return Held(layout, bytes(random.choice([0, 512, 380291, 380293, 377344]))), "? DISK 2 NO DECTAPE"
    return Held(layout, bytes(2 * VOLUME + random.choice([1, 512]))), "? DISK 1 TOO LONG"
