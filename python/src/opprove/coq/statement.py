"""A statement in Coq: its expressions, as theorems have them and as the checker reads them, and what theorems have in common."""
from __future__ import annotations

import functools
import itertools
from typing import Iterator, List, NamedTuple, Optional, Tuple

from opprove import text
from opprove.checkers.check import Problem, Signature
from opprove.coq.layout import filled, listed
from opprove.coq.names import Names


class Said(NamedTuple):
    """An expression: how a theorem has it, at which level of Coq's grammar, and as the checker reads it."""

    text: str
    level: int
    term: str
    size: int = 1  # how many terms it has when it is multiplied out, and none are put together
    negated: Optional[Said] = None  # what its minus negates, where it has one

    def within(self, level: int) -> str:
        """Where a text of this level stands, in brackets if it needs them."""
        return f"({self.text})" if self.level > level else self.text


class Equation(NamedTuple):
    """An equation: its sides as a theorem has them, how the checker reads it, and how many terms it has multiplied out."""

    ends: Signature
    left: str
    right: str
    term: str
    size: int

    def text(self, sign: str = "=") -> str:
        """As a theorem has it, with this sign."""
        return f"{self.left} {sign} {self.right}"


class Reader:
    """Says expressions in Coq."""

    def __init__(self, problem: Problem, names: Names) -> None:
        self.names, self.numbers = names, problem.numbers

    def equation(self, equation: text.Equation) -> Equation:
        """An equation of the statement."""
        ends = equation.left.ends or equation.right.ends
        assert ends is not None
        source, target = (self.numbers[f"[{end}]"] for end in ends)
        return self.between((source, target), self.said(equation.left), self.said(equation.right))

    def between(self, ends: Signature, left: Said, right: Said) -> Equation:
        """An equation with these ends."""
        source, target = (self.names.place[end] for end in ends)
        return Equation(ends, left.text, right.text, f"Equation {source} {target} ({left.term}) ({right.term})", left.size + right.size)

    def said(self, expression: text.Expression) -> Said:
        """An expression of the statement."""
        if expression.kind == "map":
            letter = self.numbers[expression.name]
            return Said(self.names.of[letter], 0, f"Var {self.names.place[letter]}")
        return self.composed(expression, [self.said(part) for part in expression.parts])

    def composed(self, expression: text.Expression, parts: List[Said]) -> Said:
        """An expression that is no map, by its parts."""
        kind, number = expression.kind, expression.number
        if kind == "identity":
            letter = self.numbers[f"[{expression.name}]"]
            return Said(f"𝟙 {self.names.of[letter]}", 10, f"EOne {self.names.place[letter]}")
        if kind == "zero":
            return Said("0", 0, "EZero")
        if kind == "sum":
            return functools.reduce(self.sum, parts)
        if kind == "product":
            return functools.reduce(self.product, parts)
        first = parts[0]
        if kind == "negative":
            return Said(f"- {first.within(35)}", 35, f"EOpp ({first.term})", first.size, first)
        if kind == "scaled":
            return Said(f"{number} • {first.within(45)}", 45, f"EScale {number} ({first.term})", first.size)
        if kind == "adjoint":
            return Said(f"{first.within(2)}†", 2, f"EAdj ({first.term})", first.size)
        return self.power(first, number)

    def sum(self, total: Said, part: Said) -> Said:
        """A sum with one more part, which is taken off where a minus stands in front of it."""
        other = part.negated or part
        sign, constructor = ("-", "EMinus") if part.negated else ("+", "EPlus")
        term = f"{constructor} ({total.term}) ({other.term})"
        return Said(f"{total.within(50)} {sign} {other.within(49)}", 50, term, total.size + other.size)

    def product(self, left: Said, right: Said) -> Said:
        """A product with one more factor."""
        return Said(f"{left.within(40)} ∘ {right.within(39)}", 40, f"EComp ({left.term}) ({right.term})", left.size * right.size)

    def power(self, base: Said, exponent: int) -> Said:
        """A power; one with exponent 1 is its base."""
        if exponent == 1:
            return base
        return Said(f"{base.within(29)} ^ {exponent}", 30, f"EPow {exponent} ({base.term})", base.size**exponent)


class Statement:
    """What the theorems of a statement have in common."""

    def __init__(self, statement: text.StatementText) -> None:
        self.text, self.problem = statement, statement.problem
        problem = self.problem
        self.names = names = Names(problem)
        self.category, self.involution = names.fresh("C"), names.fresh("I")
        reader = Reader(problem, names)
        self.claims = [reader.equation(equation) for equation in statement.claims]
        hypotheses = [reader.equation(equation) for equation in statement.assumptions]
        self.hypotheses = [(names.fresh(f"h{number}"), equation) for number, equation in enumerate(hypotheses, 1)]
        self.selfs = [letter for letter in self.names.maps if problem.stars[letter] == letter]
        self.self_names = [self.names.fresh(f"h_{self.names.of[letter]}") for letter in self.selfs]

    def listed_selfs(self) -> str:
        """The places of the maps that are their own adjoints."""
        return "[" + "; ".join(f"{self.names.place[letter]}%nat" for letter in self.selfs) + "]"

    def ends_of(self, letter: int) -> Tuple[str, str]:
        """The source and the target of a map, as theorems call them."""
        source, target = self.problem.ends[letter]
        return self.names.of[source], self.names.of[target]

    def definitions(self) -> Iterator[str]:
        """The signatures of the maps and the assumptions, as the checker reads them."""
        places = ([str(self.names.place[end]) for end in self.problem.ends[letter]] for letter in self.names.maps)
        yield "Definition sigs : list signature :="
        yield listed([f"({', '.join(pair)})%nat" for pair in places], True) + "."
        yield "Local Notation Var := (@EVar sigs)."
        yield "Definition hyps : list (equation sigs) :="
        yield listed([equation.term for _, equation in self.hypotheses]) + "."

    def over(self) -> str:
        """The category and its objects, as binders."""
        involution = f" ({self.involution} : involution {self.category})" if self.problem.is_starred else ""
        objects = " ".join(self.names.of[letter] for letter in self.names.objects)
        return f"({self.category} : preadditive){involution} ({objects} : {self.category})"

    def map_binders(self) -> List[str]:
        """The maps with their ends."""
        return grouped([(self.names.of[letter], self.ends_of(letter)) for letter in self.names.maps])

    def assumptions(self) -> List[str]:
        """That maps are their own adjoints, and the assumptions."""
        selfs = [f"{self.names.of[letter]}† = {self.names.of[letter]}" for letter in self.selfs]
        return selfs + [equation.text() for _, equation in self.hypotheses]

    def premise_names(self) -> List[str]:
        """What proofs call these."""
        return [*self.self_names, *(name for name, _ in self.hypotheses)]


def grouped(maps: List[Tuple[str, Tuple[str, str]]]) -> List[str]:
    """Binders of maps with their sources and targets, those together that stand side by side and have the same."""
    groups = itertools.groupby(maps, key=lambda one: one[1])
    return [f"({' '.join(name for name, _ in found)} : {source} ⟶ {target})" for (source, target), found in groups]


def for_all(binders: List[str], premises: List[str], claim: str) -> Iterator[str]:
    """A claim for all that is bound, under premises: those as arrows, as Coq reads many binders slowly."""
    yield "\n".join(filled(binder, "  ") for binder in binders) + ","
    yield from (filled(f"{premise} ->", "  ") for premise in premises)
    yield filled(claim, "  ")
