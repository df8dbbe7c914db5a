"""Where palbart reads a PAL8 source in another way, as far as the tokens of its statements tell it: the lines of `assemble --pal8 --notes`.

A blank before an operator ends a term there. Operators but `!` bind closer than a blank. A tab in a string, or after `"`, is a blank. Each operator is
looked at by itself: from it back to where its expression begins.
"""
from __future__ import annotations

from tests.model import pal8
from tests.model.pal8_grammar import OPERATORS, PLAIN, RESERVED, Options, Statement, Texts, Token, name_in, place_in

WORDS = {
    "apart": "palbart ors what stands before and after a blank before an operator",
    "closer": "palbart applies the other operators before it ors what a blank joins",
    "tab": 'palbart reads a tab in a string, or after ", as a blank',
}


def is_operator(token: Token) -> bool:
    return token.kind == "sign" and token.text in OPERATORS


def is_term(token: Token) -> bool:
    """Whether a token is a term that is no literal."""
    return token.kind in ("here", "character") or token.kind == "run" and name_in(token) not in RESERVED


def is_apart(text: bytes, tokens: list[Token]) -> bool:
    """Whether a byte that is no token stands between a term and an operator."""
    pairs = [(a, b) for a, b in zip(tokens, tokens[1:]) if is_term(a) and is_operator(b)]
    return any(place_in(text, a.end - 1) + 1 < place_in(text, b.start) for a, b in pairs)


def spaced_tokens(tokens: list[Token]) -> list[tuple[Token, bool]]:
    """The tokens but blanks, each with whether a blank that means something stands before it."""
    return [(token, k > 0 and tokens[k - 1].kind == "blank") for k, token in enumerate(tokens) if token.kind != "blank"]


def expression_before(tokens: list[tuple[Token, bool]]) -> list[tuple[Token, bool]]:
    """What stands in the innermost expression at the end of tokens, of which a literal is its opening alone."""
    found, depth = list[tuple[Token, bool]](), 0
    for token, is_spaced in reversed(tokens):
        if token.kind == "closing":
            depth += 1
        elif depth:
            depth -= token.kind == "opening"
            if not depth:
                found.insert(0, (token, is_spaced))
        elif token.kind == "opening" or token.kind == "sign" and token.text in ",=*":
            break
        else:
            found.insert(0, (token, is_spaced))
    return found


def is_joined(tokens: list[tuple[Token, bool]], operations: dict[str, int]) -> bool:
    """Whether a blank joins terms of an expression: one after the name of an operation or of a form, or `I` or `Z` after that, does not."""
    names = [name_in(token) for token, _ in tokens]
    first = 0
    if names and (names[0] in RESERVED or names[0] in operations):
        first = 1
        while first < len(names) and names[first] in RESERVED:
            first += 1
    return any(is_spaced for _, is_spaced in tokens[first + 1 :])


def has_closer(tokens: list[tuple[Token, bool]], operations: dict[str, int]) -> bool:
    return any(is_operator(token) and token.text != "!" and is_joined(expression_before(tokens[:k]), operations) for k, (token, _) in enumerate(tokens))


def has_tab(tokens: list[Token]) -> bool:
    return any(token.kind == "character" and token.text in "\t\x89" or token.kind == "string" and any(ord(c) % 128 == 9 for c in token.text) for token in tokens)


class NotingSource(pal8.Source):
    """A source that notes the differences of its selected statements."""

    def __init__(self, texts: Texts, options: Options) -> None:
        self.bytes, self.notes = texts, list[tuple[int, int, str]]()
        super().__init__(texts, options=options)

    def judge(self, statement: Statement) -> bool:
        kinds = {
            "apart": is_apart(self.bytes[statement.number], [token for token in statement.tokens if token.kind != "blank"]),
            "closer": has_closer(spaced_tokens(statement.tokens), self.before.operations),
            "tab": has_tab(statement.tokens),
        }
        line = statement.line - self.lines_before[statement.number]
        self.notes += [(statement.number, line, kind) for kind, is_so in kinds.items() if is_so]
        return super().judge(statement)


def notes_text(texts: Texts, names: list[str], options: Options = PLAIN) -> str:
    """The notes on texts that have no fault, each a line."""
    return "".join(f"{names[number]}:{line}: note: {WORDS[kind]}\n" for number, line, kind in NotingSource(texts, options).notes)
