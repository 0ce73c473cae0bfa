"""Objects, maps and expressions with their ends: what doesn't fit together is refused as it is written."""
from __future__ import annotations

from operator import index
from typing import NamedTuple, Optional, SupportsIndex

SUM, PRODUCT, FACTOR = 1, 2, 3  # what the text of an expression is, so that it gets brackets where it needs them


class NotTyped(TypeError):
    """Expressions that don't fit together, with their ends."""


def integer(value: object) -> Optional[int]:
    """The value, if it is an integer, of whatever library."""
    try:
        return index(value) if isinstance(value, SupportsIndex) else None
    except TypeError:
        return None


class Object:
    """An object of one statement."""

    def __init__(self, name: str) -> None:
        self.name = name

    @property
    def id(self) -> Expression:
        """Its identity."""
        return Expression(self, self, f"[{self.name}]", FACTOR)

    def __repr__(self) -> str:
        return self.name


class Expression:
    """An expression of the statement language, and the objects from which and to which it leads."""

    __hash__ = None  # type: ignore[assignment]  # as == makes an equation

    def __init__(self, source: Object, target: Object, text: str, kind: int) -> None:
        self.source, self.target, self.text, self.kind = source, target, text, kind

    def __repr__(self) -> str:
        return self.text

    def typed(self) -> str:
        return f"{self} : {self.source} -> {self.target}"

    def within(self, kind: int) -> str:
        """The text where something of this kind has to stand."""
        return self.text if self.kind >= kind else f"({self.text})"

    def unlike(self, other: Expression, word: str) -> NotTyped:
        is_elsewhere = {self.source.name, self.target.name} & {other.source.name, other.target.name}
        is_same = {self.source, self.target} & {other.source, other.target}
        return NotTyped(f"{self.typed()}{word} {other.typed()}{' of another statement' * (bool(is_elsewhere) and not is_same)}")

    def like(self, other: object) -> Optional[Expression]:
        """The other side of a sum or an equation; an integer is so many identities, and 0 fits anywhere."""
        number = integer(other)
        if number == 0:
            return Expression(self.source, self.target, "0", FACTOR)
        if number is not None:
            if self.source is not self.target:
                raise NotTyped(f"{self.typed()}, and no identity beside it, of which there would be {number}")
            return number * self.source.id
        if isinstance(other, Expression) and (other.source is not self.source or other.target is not self.target):
            raise self.unlike(other, ", but")
        return other if isinstance(other, Expression) else None

    # ---- Sums

    def __add__(self, other: object) -> Expression:
        number = integer(other)
        return self - -number if number is not None and number < 0 else self.joined("+", other)

    def __sub__(self, other: object) -> Expression:
        number = integer(other)
        return self + -number if number is not None and number < 0 else self.joined("-", other)

    def joined(self, sign: str, other: object) -> Expression:
        right = self.like(other)
        if right is None:
            return NotImplemented
        return Expression(self.source, self.target, f"{self} {sign} {right.within(PRODUCT)}", SUM)

    def __radd__(self, other: object) -> Expression:
        left = self.like(other)
        if left is None:
            return NotImplemented
        return left + self

    def __rsub__(self, other: object) -> Expression:
        left = self.like(other)
        if left is None:
            return NotImplemented
        return left - self

    def __neg__(self) -> Expression:
        return Expression(self.source, self.target, f"-{self.within(PRODUCT)}", SUM)

    def __pos__(self) -> Expression:
        return self

    # ---- Products

    def __mul__(self, other: object) -> Expression:
        if not isinstance(other, Expression):
            return self.__rmul__(other)
        if self.source is not other.target:
            raise self.unlike(other, " doesn't compose with")
        return Expression(other.source, self.target, f"{self.within(PRODUCT)} {other.within(FACTOR)}", PRODUCT)

    def __rmul__(self, other: object) -> Expression:
        number = integer(other)
        if number is None:
            return NotImplemented
        if number < 0:
            return -(-number * self)
        body = self.within(FACTOR if self.text[0].isdigit() else PRODUCT)
        return self if number == 1 else Expression(self.source, self.target, f"{number} {body}", PRODUCT)

    def __pow__(self, exponent: object) -> Expression:
        number = integer(exponent)
        if number is None:
            return NotImplemented
        if number < 0:
            raise ValueError(f"{self} to the power {number}: declare an inverse")
        if number != 1 and self.source is not self.target:
            raise self.unlike(self, " doesn't compose with")
        power = self if number else self.source.id
        for _ in range(number - 1):
            power = power * self
        return power

    @property
    def H(self) -> Expression:
        """The adjoint."""
        return Expression(self.target, self.source, self.within(FACTOR) + "'", FACTOR)

    # ---- Equations

    def __eq__(self, other: object) -> Equation:  # type: ignore[override]
        right = self.like(other)
        if right is None:
            return NotImplemented
        return Equation(self, right)


class Equation(NamedTuple):
    """Two expressions with the same ends."""

    left: Expression
    right: Expression

    def __bool__(self) -> bool:
        raise TypeError(f"{self} is assumed or claimed, and neither true nor false by itself")

    def __repr__(self) -> str:
        return f"{self.left} = {self.right}"
