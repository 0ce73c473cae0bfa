"""Statements as text: lines with their comments, and what they declare, assume and claim."""
from __future__ import annotations

import functools
from typing import Dict, Iterator, List, NamedTuple

from opprove.checkers.check import Line, Poly, Problem, Token, loaded, read_lines, tokens_of
from opprove.text.expressions import Expression, Parser, Place


class Map(NamedTuple):
    """A map as it is declared."""

    name: str
    source: str
    target: str
    is_self: bool  # its own adjoint
    place: Place


class Equation(NamedTuple):
    """An assumption or a claim; of an abbreviation one of the equations that it stands for."""

    word: str  # that its line begins with: assume, claim, pinv, ..
    left: Expression
    right: Expression
    poly: Poly  # the left side minus the right side
    text: str  # as it is written; of an abbreviation as it is meant
    place: Place  # of its first token; of an abbreviation of the line's first word


class SourceLine(NamedTuple):
    """A line of the file."""

    number: int
    text: str
    word: str  # the first one; "" where nothing but a comment stands there
    tokens: List[Token]  # with an "end" last; none where nothing but a comment stands there
    comment: str  # from its # on


class StatementText:
    """A statement that has no fault: its text, and what it says."""

    def __init__(self, data: bytes, path: str = "") -> None:
        self.data, self.path = data, path
        self.problem = Problem(data)

    @classmethod
    def read(cls, path: str) -> StatementText:
        """That of a file or a pipe."""
        return cls(loaded([path])[0], path)

    @functools.cached_property
    def language(self) -> int:
        return 2 if self.problem.lines and self.problem.lines[0].tokens[0].text == "language" else 1

    @functools.cached_property
    def lines(self) -> List[SourceLine]:
        """All lines, as they stand in the file."""
        found = []
        for number, text in read_lines(self.data, ""):
            tokens = tokens_of(text, number, self.language)
            comment = text[text.index("#") :] if "#" in text else ""
            found.append(SourceLine(number, text, tokens[0].text if tokens else "", tokens, comment))
        return found

    @property
    def objects(self) -> List[str]:
        return [name[1:-1] for name in self.problem.names if name[0] == "["]

    @functools.cached_property
    def maps(self) -> Dict[str, Map]:
        """The maps by their names, in the order of the file."""
        found = {}
        for line in self.problem.lines:
            ends, is_self = line.with_role("object"), line.with_role("self") != []
            for token, role in line.roles:
                if role == "new_map":
                    found[token.text] = Map(token.text, ends[0], ends[1], is_self, Place(token.line, token.column))
        return found

    @functools.cached_property
    def assumptions(self) -> List[Equation]:
        polys = iter(self.problem.assumptions)
        return [equation for line in self.problem.lines if not is_claim(line) for equation in self.equations(line, polys)]

    @functools.cached_property
    def claims(self) -> List[Equation]:
        polys = iter(self.problem.claims)
        return [equation for line in self.problem.lines if is_claim(line) for equation in self.equations(line, polys)]

    def equations(self, line: Line, polys: Iterator[Poly]) -> List[Equation]:
        """Those that a line stands for, with the next of these polynomials."""
        word, found = line.tokens[0], []
        ends = {name: (one.source, one.target) for name, one in self.maps.items()}
        for tokens in self.problem.equations(line):
            parser = Parser(tokens, ends, 1)
            left = parser.sum()
            parser.next()
            right = parser.sum()
            is_written = tokens is line.tokens
            first = tokens[1] if is_written else word
            text = self.written(first.line, first.column, tokens[-1].column) if is_written else f"{left} = {right}"
            found.append(Equation(word.text, left, right, next(polys), text, Place(first.line, first.column)))
        return found

    def written(self, line: int, first: int, last: int) -> str:
        """What stands in a line from a column to before another one."""
        return self.lines[line - 1].text[first - 1 : last - 1]


def is_claim(line: Line) -> bool:
    return line.tokens[0].text == "claim"
