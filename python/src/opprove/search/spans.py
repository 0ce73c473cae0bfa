"""Linear relations between polynomials with rational coefficients, as they are read off by elimination."""
from __future__ import annotations

from fractions import Fraction
from typing import Dict, Generic, Hashable, List, Optional, Tuple, TypeVar

Name = TypeVar("Name", bound=Hashable)
Vector = Dict[str, Fraction]


class Span(Generic[Name]):
    """The span of named vectors, each of which is no combination of those before it."""

    def __init__(self) -> None:
        self.rows: List[Tuple[str, Vector, Dict[Name, Fraction]]] = []  # a coordinate that later rows don't have, and how it was made

    def reduce(self, vector: Vector) -> Tuple[Vector, Dict[Name, Fraction]]:
        """What is left of a vector, and the combination that was taken off."""
        rest, taken = dict(vector), {}  # type: Vector, Dict[Name, Fraction]
        for lead, row, made in self.rows:
            factor = rest.get(lead)
            if factor:
                combine(rest, -factor, row)
                combine(taken, factor, made)
        return rest, taken

    def add(self, name: Name, vector: Vector) -> bool:
        """Adds a vector, unless it is in the span."""
        rest, taken = self.reduce(vector)
        if not rest:
            return False
        lead = min(rest)
        by = 1 / rest[lead]
        made: Dict[Name, Fraction] = {name: by}
        combine(made, -by, taken)
        self.rows.append((lead, {key: by * value for key, value in rest.items()}, made))
        return True

    def combination(self, vector: Vector) -> Optional[Dict[Name, Fraction]]:
        """The vector as a combination of the named ones, where it is one."""
        rest, taken = self.reduce(vector)
        return None if rest else taken


def combine(total: Dict[Name, Fraction], factor: Fraction, more: Dict[Name, Fraction]) -> None:
    """Adds a multiple, in place."""
    for key, value in more.items():
        after = total.pop(key, Fraction(0)) + factor * value
        if after:
            total[key] = after
