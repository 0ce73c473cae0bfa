"""Expressions of statements as trees, with their places, and how they are written."""
from __future__ import annotations

from typing import Callable, Dict, Iterator, List, NamedTuple, Optional, Tuple

from opprove.checkers.check import Token

Ends = Tuple[str, str]  # source and target, by their names


class Place(NamedTuple):
    """A line and a column of a text, counted from 1; a column counts characters."""

    line: int
    column: int


class Expression(NamedTuple):
    """A node of a tree; `opprove.text` says what its kinds have."""

    kind: str
    parts: Tuple["Expression", ...]
    name: str
    number: int
    ends: Optional[Ends]
    place: Place

    def __str__(self) -> str:
        return spelled(self)


class Parser:
    """Reads expressions from tokens that fit the grammar and have signatures, as check.py has found."""

    def __init__(self, tokens: List[Token], ends: Dict[str, Ends], place: int = 0) -> None:
        self.tokens, self.ends, self.place = tokens, ends, place

    def is_at(self, *kinds: str) -> bool:
        return self.tokens[self.place].kind in kinds

    def next(self) -> Token:
        self.place += 1
        return self.tokens[self.place - 1]

    def sum(self) -> Expression:
        """A sum, or its term where it has one alone."""
        first = self.here()
        terms: List[Expression] = []
        while not terms or self.is_at("+", "-"):
            start, is_negative = self.here(), self.is_at("-")
            self.place += self.is_at("+", "-")
            term = self.term()
            terms.append(Expression("negative", (term,), "", 0, term.ends, start) if is_negative else term)
        ends = next((term.ends for term in terms if term.ends), None)
        return Expression("sum", tuple(terms), "", 0, ends, first) if len(terms) > 1 else terms[0]

    def term(self) -> Expression:
        first = self.here()
        scale = int(self.next().text) if self.is_at("literal") else None
        if scale == 0 and not self.is_at("name", "[", "("):
            return Expression("zero", (), "", 0, None, first)
        factors = [self.factor()]
        while self.is_at("name", "[", "("):
            factors.append(self.factor())
        value = factors[0]
        if len(factors) > 1:
            source, target = factors[-1].ends, value.ends
            ends = (source[0], target[1]) if source and target else None
            value = Expression("product", tuple(factors), "", 0, ends, value.place)
        return value if scale is None else Expression("scaled", (value,), "", scale, value.ends, first)

    def factor(self) -> Expression:
        first, token = self.here(), self.next()
        if token.kind == "(":
            value = self.sum()
            self.next()
        elif token.kind == "[":
            name = self.next().text
            self.next()
            value = Expression("identity", (), name, 0, (name, name), first)
        else:
            value = Expression("map", (), token.text, 0, self.ends[token.text], first)
        while self.is_at("'", "^"):
            if self.next().kind == "^":
                value = Expression("power", (value,), "", int(self.next().text), value.ends, first)
            else:
                value = Expression("adjoint", (value,), "", 0, value.ends and value.ends[::-1], first)
        return value

    def here(self) -> Place:
        token = self.tokens[self.place]
        return Place(token.line, token.column)


# What may stand inside without brackets: a sum in nothing, a negative or scaled one as a term, a product as a scaled one's part.
TIGHTNESS = {"sum": 0, "negative": 1, "scaled": 2, "zero": 2, "product": 3, "adjoint": 4, "power": 4, "map": 4, "identity": 4}
# The least tightness of parts by the kind that they stand in.
FORMS = {
    "identity": "[{name}]", "zero": "0", "negative": "-{parts}", "scaled": "{number} {parts}", "product": "{parts}",
    "adjoint": "{parts}'", "power": "{parts}^{number}",
}  # fmt: skip
INSIDE = {"negative": 2, "scaled": 3, "product": 4, "adjoint": 4, "power": 4}


def spelled(expression: Expression, names: Optional[Callable[[str], str]] = None) -> str:
    """The expression in the language of statements, with the names that are given for those of maps."""
    kind, parts = expression.kind, expression.parts
    inner = [spelled(part, names) for part in parts]
    if kind == "sum":
        signs = [" - " if part.kind == "negative" else " + " for part in parts]
        texts = [text[1:].lstrip() if part.kind == "negative" and place else text for place, (part, text) in enumerate(zip(parts, inner))]
        return texts[0] + "".join(sign + text for sign, text in zip(signs[1:], texts[1:]))
    if kind == "map":
        return names(expression.name) if names else expression.name
    texts = [text if TIGHTNESS[part.kind] >= INSIDE[kind] else f"({text})" for part, text in zip(parts, inner)]
    return FORMS[kind].format(parts=" ".join(texts), name=expression.name, number=expression.number)


def walk(expression: Expression) -> Iterator[Expression]:
    """The expression and all that stands in it, each before its parts."""
    yield expression
    for part in expression.parts:
        yield from walk(part)
