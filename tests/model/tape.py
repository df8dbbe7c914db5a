"""BIN paper tape by its definition: the tape of words with their cells, and what frames mean or are refused for."""
from __future__ import annotations

from dataclasses import dataclass
from tests.model.words import octal

LEADER = [0o200] * 16


@dataclass
class TapeFault:
    """The line of a fault, and the place of the frame that decides it, or -1 where the frames end too soon."""

    line: str
    place: int


def split(word: int, mark: int) -> list[int]:
    return [mark + word // 64, word % 64]


def tape_of(pairs: list[tuple[int, int]]) -> list[int]:
    """Leader, for each pair a field frame and an origin where they are needed and the word, the check sum, and the trailer."""
    frames, total = [], 0
    for number, (cell, word) in enumerate(pairs):
        before = pairs[number - 1][0] if number else -1
        if cell // 4096 != (before // 4096 if number else 0):
            frames.append(0o300 + 8 * (cell // 4096))
        follows = number > 0 and cell == before + 1 and cell % 4096 != 0
        kept = ([] if follows else split(cell % 4096, 0o100)) + split(word, 0)
        total, frames = total + sum(kept), frames + kept
    return LEADER + frames + split(total % 4096, 0) + LEADER


def kept_places(frames: list[int]) -> list[int]:
    """The places of the frames that aren't ignored: what stands between two 0377, and these, is."""
    places, is_kept = [], True
    for place, frame in enumerate(frames):
        if frame == 0o377:
            is_kept = not is_kept
        elif is_kept:
            places.append(place)
    return places


def bad_frame(place: int) -> TapeFault:
    return TapeFault(f"? 6.1 BAD FRAME {place}", place)


def meaning_of(frames: list[int]) -> dict[int, int] | TapeFault:
    """The word of each cell that a tape names, the last one where it has several; or the tape's fault."""
    items: list[tuple[str, int]] = []
    places = kept_places(frames)
    total, at, has_origin = 0, 0, False
    while at < len(places):
        place, frame = places[at], frames[places[at]]
        is_leader = frame in (0, 0o200) and not has_origin
        if frame & 0o307 == 0o300:
            items.append(("field", frame // 8 % 8))
        elif frame == 0o200 and has_origin:
            return end_of(items, total, place)
        elif frame > 0o200:
            return bad_frame(place)
        elif frame < 0o100 and not has_origin and not is_leader:
            return TapeFault("? 6.2 NO ORIGIN", place)
        elif not is_leader:
            at += 1
            if at == len(places):
                break
            second = frames[places[at]]
            if second >= 0o100:
                return bad_frame(places[at])
            items.append(("origin" if frame >= 0o100 else "word", 64 * (frame % 64) + second))
            has_origin, total = has_origin or frame >= 0o100, total + frame + second
        at += 1
    return TapeFault("? 6.4 NO TRAILER", -1)


def end_of(items: list[tuple[str, int]], total: int, place: int) -> dict[int, int] | TapeFault:
    """What a tape means whose trailer begins at a place: its last item is a word, the check sum of those before."""
    kind, found = items[-1]
    if kind != "word":
        return bad_frame(place)
    computed = (total - found // 64 - found % 64) % 4096
    if found != computed:
        return TapeFault(f"? 6.3 CHECK SUM {octal(found, 4)} {octal(computed, 4)}", place)
    return {cell_of(items[:at]): number for at, (kind, number) in enumerate(items[:-1]) if kind == "word"}


def cell_of(before: list[tuple[str, int]]) -> int:
    """The cell of a word after these items: the last origin and the words since, in the field of the last field setting."""
    field, words = 0, 0
    for kind, number in before:
        field = number if kind == "field" else field
    for kind, number in reversed(before):
        if kind == "origin":
            return 4096 * field + (number + words) % 4096
        words += kind == "word"
    raise ValueError("no origin")
