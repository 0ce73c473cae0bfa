"""Expressions from those of SymPy, where that is installed."""
from __future__ import annotations

from functools import reduce
from importlib import import_module
from operator import add, mul
from typing import Any, Dict, Union

from opprove.expressions import Equation, Expression, integer

Value = Union[int, Expression]


def from_sympy(expression: object, maps: Dict[object, Expression]) -> Union[Value, Equation]:
    """An expression of noncommutative symbols with the maps that their names, or they themselves, stand for; or an equation,
    from Eq. An integer alone stays one."""
    sympy: Any = import_module("sympy")

    named = {getattr(symbol, "name", symbol): a for symbol, a in maps.items()}

    def value(part: sympy.Basic) -> Value:
        if part.is_Integer:
            return int(part)
        if isinstance(part, sympy.Symbol):
            if part.is_commutative or part.name not in named:
                raise TypeError(f"{part} {'commutes' if part.is_commutative else 'stands for no map'}")
            return named[part.name]
        if part.is_Add:
            return reduce(add, map(value, part.args))
        if part.is_Mul:
            return reduce(mul, map(value, part.args))
        if part.is_Pow:
            return value(part.base) ** exponent(part)
        if isinstance(part, sympy.adjoint):
            return adjoint(value(part.args[0]))
        raise TypeError(f"{part} is no sum of products of symbols, their adjoints and integers")

    def exponent(part: sympy.Pow) -> int:
        number = integer(part.exp) if part.exp.is_Integer else None
        if number is None or number < 0:
            raise TypeError(f"{part} has another exponent than 0, 1, 2, ..: declare a map for it")
        return number

    expression = sympy.sympify(expression)
    if isinstance(expression, sympy.Equality):
        return value(expression.lhs) == value(expression.rhs)
    return value(expression)


def adjoint(value: Value) -> Value:
    return value.H if isinstance(value, Expression) else value
