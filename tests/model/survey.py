"""What `check --all` prints of a directory, sound or not, by its definition. It prints each fault in the order in which it is met, each entry, and
the blocks that two entries claim. Also images whose directories are damaged."""
from random import Random
from tests.model.volume import FIRST_ENTRY, words_of_image
from tests.model.words import BLOCK_WORDS, spelled_name

PAST_VOLUME, SAME_NAME = "? DIRECTORY 4 PAST VOLUME", "? DIRECTORY 5 SAME NAME"


class Survey:
    def __init__(self, image: bytes) -> None:
        self.words, self.blocks = words_of_image(image), len(image) // 512
        self.lines: list[str] = []
        self.names: set[tuple[int, int, int, int]] = set()
        self.claims, self.faults = [0] * self.blocks, 0

    def fault(self, line: str) -> None:
        self.faults += 1
        self.lines.append(line)

    def all(self) -> None:
        """The segments along their links, as far as these lead to one that was not read, and then the blocks of two entries."""
        number, read, info, end = 1, [], -self.words[BLOCK_WORDS + 4] % 0o10000, 0
        while number:
            segment = self.words[BLOCK_WORDS * number : BLOCK_WORDS * (number + 1)]
            read.append(number)
            end = self.segment(number, segment, None if number == 1 else (info, end))
            link = segment[2]
            if link and (link > 6 or link in read):
                self.fault(f"? DIRECTORY 1 BAD LINK {number}")
            number = link if link <= 6 and link not in read else 0
        self.twice()

    def segment(self, number: int, words: list[int], before: tuple[int, int] | None) -> int:
        """Reports a segment after one that says so many information words and ends there. Returns the block after its entries."""
        count, first, info = -words[0] % 0o10000, words[1], -words[4] % 0o10000
        self.lines.append(f"SEGMENT {number} {count}")
        if info > 10:
            self.fault(f"? DIRECTORY 2 BAD COUNT {number}")
        if before and info != before[0]:
            self.fault("? DIRECTORY 7 MIXED INFO")
        if first != before[1] if before else not 7 <= first <= self.blocks:
            self.fault("? DIRECTORY 6 WRONG FIRST BLOCK")
        return first if info > 10 else self.entries(words, count, first, info)

    def entries(self, words: list[int], count: int, first: int, info: int) -> int:
        at, place = FIRST_ENTRY, first
        for _ in range(count):
            size = 2 if at < BLOCK_WORDS and words[at] == 0 else 5 + info
            if at + size > BLOCK_WORDS:
                self.fault("? DIRECTORY 3 ENTRY PAST SEGMENT")
                break
            length = -words[at + size - 1] % 0o10000
            if length:
                self.entry(None if size == 2 else (words[at], words[at + 1], words[at + 2], words[at + 3]), place, length)
            at, place = at + size, place + length
        return place

    def entry(self, name: tuple[int, int, int, int] | None, place: int, length: int) -> None:
        why = PAST_VOLUME if place + length > self.blocks else SAME_NAME if name in self.names else ""
        line = f"EMPTY {place} {length}" if name is None else f"FILE {spelled_name(name)} {place} {length}"
        if why:
            self.fault(why)
            self.lines.append(f"UNSOUND {line}")
            return
        self.lines.append(line)
        if name is not None:
            self.names.add(name)
        for block in range(place, place + length):
            self.claims[block] += 1

    def twice(self) -> None:
        """Reports each longest run of blocks that two entries or more claim."""
        block = 0
        while block < self.blocks:
            end = block
            while end < self.blocks and self.claims[end] > 1:
                end += 1
            if end > block:
                self.fault(f"TWICE {block} {end - block}")
            block = max(end, block + 1)


def surveyed(image: bytes) -> tuple[list[str], int]:
    """The lines of an image of right size, and the status."""
    survey = Survey(image)
    survey.all()
    return survey.lines, 1 if survey.faults else 0


def damaged(random: Random, image: bytes) -> bytes:
    """The image with some words of its directory changed."""
    data, blocks = bytearray(image), len(image) // 512
    for _ in range(random.choice([0, 1, 1, 2, 3, 6])):
        number = random.choice([1, 1, 1, 2, 3])
        at = BLOCK_WORDS * number + random.choice([0, 1, 2, 2, 4, *range(5, 30), random.randrange(BLOCK_WORDS)])
        word = random.choice([0, 1, 2, 7, 0o7777, 0o7776, 0o7770, blocks % 0o10000, -blocks % 0o10000, random.randrange(0o10000)])
        data[2 * at : 2 * at + 2] = word.to_bytes(2, "little")
    return bytes(data)
