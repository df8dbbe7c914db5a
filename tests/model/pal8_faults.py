"""What PAL8 prints of sources: listings, faults and further faults, and the lines of a tape."""
from __future__ import annotations

from dataclasses import replace

from tests.model.pal8 import Place, Source, Words, pairs, word_columns
from tests.model.pal8_grammar import PLAIN, RESERVED, Fault, Options, Statement, Texts, Token, behind_tags, is_number, live_text, name_in, name_number, place_in, statements


def own_names(source: Source) -> dict[str, int]:
    """The names that a source defines, each with the value of its last definition, which may be late."""
    names = {name for now in source.judged for name, _ in now.definitions} | {now.body.name for now in source.judged if now.is_late}
    values = dict[str, int]()
    for name in names:
        k = source.last_definition(name, len(source.judged))
        assert k is not None
        is_late = source.judged[k].is_late and source.judged[k].body.name == name
        value = source.late_value(k) if is_late else source.definition_before(name, source.judged[: k + 1])
        assert value is not None
        values[name] = value
    return values


def lines_of_uses(source: Source, name: str) -> str:
    """The lines of the statements that use a name, each once, with `#` where one of them defines it."""
    lines = dict[tuple[int, int], bool]()
    for now in source.judged:
        files = [k for k, token in enumerate(now.tokens) if name_in(token) in ("FILENA", "DEVICE")]
        for k, token in enumerate(now.tokens[: min(files, default=len(now.tokens))]):
            if name_in(token) == name:
                where = now.number, now.line - source.lines_before[now.number]
                lines[where] = lines.get(where, False) or now.tokens[k + 1 : k + 2] in ([Token("sign", ",")], [Token("sign", "=")])
    return " ".join((f"{number + 1}:" if len(source.texts) > 1 else "") + f"{line}" + ("#" if is_defined else "") for (number, line), is_defined in lines.items())


def listing(texts: Texts, options: Options = PLAIN, is_cross: bool = False) -> str:
    """Each line after the columns of the first word of the statements that begin in it, the other ones below; the pools; the names. In place of the
    first blank after the word of a reference through a link stands `@`. In a cross reference the lines that use a name follow its value."""
    source = Source(texts, options=options)
    words = Words(source)
    listed = ""
    for number, text in enumerate(texts):
        lines = text.decode("latin1").replace("\r", "").split("\n")
        for k, line in enumerate(lines[:-1] if not lines[-1] else lines):
            columns = [it for where, at, it in words.rows if (where, at) == (number, k + 1)]
            listed += f"{columns[0] if columns else '':16}{line}" if columns or line else ""
            listed += "\n" + "".join(f"{it}\n" for it in columns[1:])
    pool = [word_columns(cell, word) + "\n" for cell, word in words.pool()]
    values = own_names(source)
    names = [f"{name:6}  {values[name]:04o}{'  ' + lines_of_uses(source, name) if is_cross else ''}\n" for name in sorted(values, key=name_number)]
    return "".join([listed, *(["\n"] if pool else []), *pool, "\n", *names])


# Further faults


def concerns_others(texts: Texts, fault: Fault) -> bool:
    """Whether the statement with a fault is ended by `<`, or a reserved name begins its body."""
    statement = statement_with(texts, fault)
    rest = behind_tags(statement.tokens)
    return statement.end == "<" or bool(rest) and name_in(rest[0]) in RESERVED


def lexical_faults(texts: Texts, first: Fault, most: int, options: Options) -> list[Fault]:
    """The faults after one of a statement's characters, numbers and form, as long as they are such."""
    found, harmless = [first], list[Place]()
    while len(found) <= most and not concerns_others(texts, found[-1]):
        harmless.append((found[-1].number, found[-1].start))
        try:
            Source(texts, frozenset(harmless), options)
            break
        except Fault as fault:
            if fault.code not in ("IC", "NU", "SY"):
                break
            found.append(fault)
    return found[1:]


def further_faults(texts: Texts, most: int, options: Options) -> list[Fault]:
    """So many faults after the first."""
    try:
        source = Source(texts, options=options)
    except Fault as fault:
        return lexical_faults(texts, fault, most, options) if fault.code in ("IC", "NU", "SY") else []
    faults = Words(source, True).faults
    return [fault for fault in faults[1:] if fault.code in ("UA", "DZ", "RL", "II")][:most]


def statement_with(texts: Texts, fault: Fault) -> Statement:
    """The statement that begins where a fault is, or one of no token there."""
    text = live_text(texts[fault.number]) + "\r"
    return next((it for it in statements(text) if it.start == fault.start), Statement(0, [], "", False, fault.start))


def mark_of(statement: Statement, fault: Fault) -> int:
    """Where in its statement a fault is: at the character, the number or the name that it is about, else where the statement begins."""
    runs = [token for token in statement.tokens if token.kind == "run"]
    marks = {
        "IC": [token for token in statement.tokens if token.kind == "bad"],
        "NU": [token for token in runs if token.text[0].isdigit() and not is_number(token.text, fault.radix)],
        "UA": [token for token in runs if name_in(token) and name_number(token.text) == fault.about],
        "DT": [token for token in runs if name_in(token) and name_number(token.text) == fault.about],
        "RD": behind_tags(statement.tokens),
    }
    return next((token.start for token in marks.get(fault.code, [])), statement.start)


def headline(texts: Texts, fault: Fault) -> str:
    """A fault with the number of its text, where there are several, and its line and its column there, as they are printed."""
    text = texts[fault.number]
    before = text[: place_in(text, mark_of(statement_with(texts, fault), fault))]
    column = 1 + len(before.rpartition(b"\n")[2].replace(b"\r", b""))
    return f"{f'{fault.number}:' if len(texts) > 1 else ''}{1 + before.count(10)}:{column}: {fault.code}"


def headlines(texts: Texts, most: int, options: Options = PLAIN) -> list[str]:
    """The first fault of a source, and so many after it."""
    try:
        pairs(texts, options)
        return []
    except Fault as first:
        return [headline(texts, fault) for fault in (first, *further_faults(texts, most, options))]


def lines_of(meaning: dict[int, int]) -> str:
    return "".join(f"{cell // 0o10000} {cell % 0o10000:04o} {meaning[cell]:04o}\n" for cell in sorted(meaning))


def placed_answer(text: bytes, options: Options = PLAIN) -> str:
    """The answer, and of a fault the byte at which its statement begins, and the name or the cell that it is about."""
    try:
        return lines_of(dict(pairs([text], options)))
    except Fault as fault:
        about = "" if fault.about is None else f" {fault.about:o}"
        return f"? 5 {fault.code} {fault.line} {place_in(text, fault.start)}{about}\n"


def answer(*texts: bytes, options: Options = PLAIN) -> str:
    """The cells that have words, each with the last one, a line each, or the line of the first fault."""
    try:
        meaning = dict(pairs(texts, options))
    except Fault as fault:
        return f"? 5 {fault.code} {fault.line}\n"
    return lines_of(meaning)
