"""Which cells of a program hold instructions, as far as that can be known from where it starts (Small Computer Handbook)."""
FIELD, PAGE = 0o10000, 0o200


def behind(cell: int, count: int) -> int:
    return cell // FIELD * FIELD + (cell + count) % FIELD


def named(cell: int, word: int) -> int:
    """The cell that a direct reference to memory names."""
    page = cell % FIELD // PAGE * PAGE if word & 0o200 else 0
    return cell // FIELD * FIELD + page + word % PAGE


def exits(cell: int, word: int) -> list[int]:
    """The cells at which a program goes on after an instruction."""
    on, skip, direct = behind(cell, 1), behind(cell, 2), not word & 0o400
    operation = word // 0o1000
    if operation == 2 or word & 0o7771 in (0o6031, 0o6041):
        return [on, skip]
    if operation == 4:
        return [on, behind(named(cell, word), 1)] if direct else [on]
    if operation == 5:
        return [named(cell, word)] if direct else []
    if word == 0o6001:
        return [on, 1]
    if operation == 7 and not word & 0o400:
        right, left, twice = word & 0o10, word & 4, word & 2
        return [] if (right and left) or (twice and not (right or left)) else [on]
    if operation == 7:
        if word & 1 or word & 2:
            return []
        return [on, skip] if word & 0o160 else [skip] if word & 0o10 else [on]
    return [on]


def reached(words: dict[int, int], starts: list[int]) -> set[int]:
    found, waiting = set(), [it for it in starts if it in words]
    while waiting:
        cell = waiting.pop()
        if cell not in found:
            found.add(cell)
            waiting += [it for it in exits(cell, words[cell]) if it in words]
    return found
