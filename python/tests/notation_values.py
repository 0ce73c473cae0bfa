"""Random files of the notation with the values of their equations, which are computed from matrices modulo a prime and not by `expand`.

Each line is written together with functions from matrices to the value of left minus right. The equations of words stand here once
more, as products of matrices.
"""
from __future__ import annotations

from random import Random
from typing import Callable, Dict, List, NamedTuple, Sequence, Set, Tuple

from opprove.checkers.check import Poly, Problem

PRIME = 32003
Matrix = Tuple[Tuple[int, ...], ...]
Values = Dict[str, Matrix]  # of maps by their names
Function = Callable[[Values], Matrix]


def add(left: Matrix, right: Matrix, scale: int = 1) -> Matrix:
    return tuple(tuple((one + scale * two) % PRIME for one, two in zip(*rows)) for rows in zip(left, right))


def multiply(left: Matrix, *others: Matrix) -> Matrix:
    for right in others:
        left = tuple(tuple(sum(one * two for one, two in zip(row, column)) % PRIME for column in zip(*right)) for row in left)
    return left


def transposed(matrix: Matrix) -> Matrix:
    return tuple(zip(*matrix))


def unit(side: int) -> Matrix:
    return tuple(tuple(int(row == column) for column in range(side)) for row in range(side))


def power(matrix: Matrix, exponent: int) -> Matrix:
    return multiply(unit(len(matrix)), *[matrix] * exponent)


class Expression(NamedTuple):
    text: str
    value: Function


class Rule(NamedTuple):
    """A word: how its use is written, the ends of its arguments as letters, and the differences of its sides."""

    text: str
    ends: Sequence[str]  # two letters each
    value: Callable[..., List[Matrix]]


def penrose(a: Matrix, x: Matrix) -> List[Matrix]:
    p, q = multiply(a, x), multiply(x, a)
    return [add(multiply(a, x, a), a, -1), add(multiply(x, a, x), x, -1), add(transposed(p), p, -1), add(transposed(q), q, -1)]


def commutator(a: Matrix, b: Matrix) -> Matrix:
    return add(multiply(a, b), multiply(b, a), -1)


def minus(*products: Sequence[Matrix]) -> List[Matrix]:
    """Of each pair of products the difference."""
    return [add(multiply(*one), multiply(*two), -1) for one, two in zip(products[::2], products[1::2])]


def drazin(a: Matrix, x: Matrix, index: int) -> List[Matrix]:
    return [commutator(a, x), penrose(a, x)[1], add(multiply(power(a, index + 1), x), power(a, index), -1)]


TO, FRO, AT, ON = "UV", "VU", "VV", "UU"
RULES = [
    Rule("pinv {} {}", [TO, FRO], penrose),
    Rule("inner {} {}", [TO, FRO], lambda a, x: penrose(a, x)[:1]),
    Rule("outer {} {}", [TO, FRO], lambda a, x: penrose(a, x)[1:2]),
    Rule("reflexive {} {}", [TO, FRO], lambda a, x: penrose(a, x)[:2]),
    Rule("13 {} {}", [TO, FRO], lambda a, x: penrose(a, x)[0:3:2]),
    Rule("14 {} {}", [TO, FRO], lambda a, x: penrose(a, x)[0:4:3]),
    Rule("123 {} {}", [TO, FRO], lambda a, x: penrose(a, x)[:3]),
    Rule("124 {} {}", [TO, FRO], lambda a, x: [penrose(a, x)[place] for place in (0, 1, 3)]),
    Rule("inverse {} {}", [TO, FRO], lambda a, x: [add(multiply(a, x), unit(len(a)), -1), add(multiply(x, a), unit(len(x)), -1)]),
    Rule("weighted pinv {} {} {} {}", [TO, FRO, AT, ON], lambda a, x, m, n: penrose(a, x)[:2]
         + [add(transposed(w), w, -1) for w in (multiply(m, a, x), multiply(n, x, a))]),
    Rule("group {} {}", [AT, AT], lambda a, x: penrose(a, x)[:2] + [commutator(a, x)]),
    Rule("drazin {} {} 1", [AT, AT], lambda a, x: drazin(a, x, 1)),
    Rule("drazin {} {} 3", [AT, AT], lambda a, x: drazin(a, x, 3)),
    Rule("core {} {}", [AT, AT], lambda a, x: penrose(a, x)[:3] + minus((x, a, a), (a,), (a, x, x), (x,))),
    Rule("dual core {} {}", [AT, AT], lambda a, x: [penrose(a, x)[n] for n in (0, 1, 3)] + minus((a, a, x), (a,), (x, x, a), (x,))),
    Rule("along {} {} {} by {} {}", [TO, FRO, FRO, AT, ON],
         lambda a, x, d, k, l: minus((x, a, d), (d,), (d, a, x), (d,), (x,), (d, k), (x,), (l, d))),
    Rule("bc {} {} {} {} by {} {}", [TO, FRO, "VU", "VU", "UV", "UV"],
         lambda a, x, b, c, k, l: minus((x, a, b), (b,), (c, a, x), (c,), (x,), (b, k, x), (x,), (x, l, c))),
    Rule("bott duffin {} {} {}", [AT, AT, AT], lambda a, x, p: minus((p, x), (x,), (x, p), (x,), (x, a, p), (p,), (p, a, x), (p,))),
    Rule("hermitian {} {}", [AT, ON], lambda a, b: minus((transposed(a),), (a,), (transposed(b),), (b,))),
    Rule("normal {}", [AT], lambda a: [commutator(a, transposed(a))]),
    Rule("unitary {}", [AT], lambda u: minus((u, transposed(u)), (unit(len(u)),), (transposed(u), u), (unit(len(u)),))),
    Rule("isometry {}", [TO], lambda u: minus((transposed(u), u), (unit(len(u[0])),))),
    Rule("partial isometry {}", [TO], lambda a: minus((a, transposed(a), a), (a,))),
    Rule("ep {} {}", [AT, AT], lambda a, x: penrose(a, x) + [commutator(a, x)]),
    Rule("idempotent {} {}", [AT, AT], lambda p, q: minus((p, p), (p,), (q, q), (q,))),
    Rule("projection {}", [AT], lambda p: minus((p, p), (p,), (transposed(p),), (p,))),
    Rule("commute {} {} {}", [AT, AT, AT], lambda a, b, c: [commutator(a, b), commutator(a, c), commutator(b, c)]),
    Rule("orthogonal {} {}", [AT, AT], lambda a, b: [multiply(a, b), multiply(b, a)]),
    Rule("range {} in {} by {}", ["UV", "WV", "UW"], lambda u, v, k: minus((u,), (v, k))),
    Rule("kernel {} in {} by {}", ["UV", "UW", "VW"], lambda u, v, k: minus((v,), (k, u))),
]
MADE = {"range {} in {}": "range {} in {} by {}", "kernel {} in {}": "kernel {} in {} by {}"}  # with a new map k


class Stated(NamedTuple):
    """What a statement has to say: assumptions and claims."""

    name: str
    assumptions: List[Function]
    claims: List[Function]


class Written:
    """A random file: its text, the matrices of its maps, and what each of its statements says."""

    def __init__(self, seed: int) -> None:
        self.random = Random(seed)
        self.sides = {name: self.random.randint(2, 3) for name in "ABC"[: self.random.randint(1, 3)]}
        self.ends: Dict[str, Tuple[str, str]] = {}
        self.values: Values = {}
        self.hidden: List[str] = []  # maps without a signature
        self.made = 0
        self.lines: List[str] = []
        self.assumptions: List[Function] = []
        self.claims: List[Function] = []
        self.statements: List[Stated] = []
        self.inverses: Dict[str, str] = {}
        self.with_inverse: Set[str] = set()
        for _ in range(self.random.randint(1, 4)):
            self.new(*(self.random.choice([*self.sides]) for _ in range(2)))
        self.fill()

    def new(self, source: str, target: str, name: str = "") -> str:
        name = name or f"m{len(self.ends)}"
        self.ends[name] = source, target
        self.values[name] = tuple(tuple(self.random.randrange(PRIME) for _ in range(self.sides[source])) for _ in range(self.sides[target]))
        return name

    def some(self, source: str, target: str) -> str:
        """A map with these ends that is there, or a new one with a signature."""
        found = [name for name, ends in self.ends.items() if ends == (source, target) and name not in self.hidden]
        return self.random.choice(found) if found and self.random.random() < 0.6 else self.new(source, target)

    # ---- Expressions

    def factor(self, source: str, target: str, depth: int) -> Expression:
        if depth == 0 and self.random.random() < 0.2 and source == target:
            inner = self.sum(source, target, 1)
            exponent = self.random.randint(1, 3)
            return Expression(f"({inner.text})^{exponent}", lambda values: power(inner.value(values), exponent))
        if self.random.random() < 0.3:
            name, mark = self.some(target, source), self.random.choice(["'", "^*"])
            if name in self.inverses:
                other = self.inverses[name]
                return Expression(f"{name}{self.random.choice(['†', '^+'])}", lambda values: values[other])
            return Expression(name + mark, lambda values: transposed(values[name]))
        name = self.some(source, target)
        return Expression(name, lambda values: values[name])

    def term(self, source: str, target: str, depth: int) -> Expression:
        number, middle = self.random.randint(1, 3), self.random.choice([*self.sides])
        factors = [self.factor(source, target, depth)]
        if self.random.random() < 0.5:
            factors = [self.factor(middle, target, depth), self.factor(source, middle, depth)]
        text = f"{number} " * (number > 1) + " ".join(factor.text for factor in factors)

        def value(values: Values) -> Matrix:
            found = multiply(*(factor.value(values) for factor in factors))
            return add(found, found, number - 1)

        return Expression(text, value)

    def sum(self, source: str, target: str, depth: int = 0) -> Expression:
        first = self.term(source, target, depth)
        if depth == 0 and self.random.random() < 0.5:
            return first
        if source == target and self.random.random() < 0.5:
            number, side = self.random.randint(1, 3), self.sides[source]
            return Expression(f"{number} - {first.text}", lambda values: add(power_sum(side, number), first.value(values), -1))
        second, sign = self.term(source, target, depth), self.random.choice([1, -1])
        text = f"{first.text} {'+' if sign > 0 else '-'} {second.text}"
        return Expression(text, lambda values: add(first.value(values), second.value(values), sign))

    def equation(self) -> Tuple[str, List[Function]]:
        ends = self.random.choice([*self.sides]), self.random.choice([*self.sides])
        sides = [self.sum(*ends) for _ in range(self.random.choice([2, 2, 3]))]
        pairs = [difference(one, two) for one, two in zip(sides, sides[1:])]
        return " = ".join(side.text for side in sides), pairs

    # ---- Items

    def word(self, is_claim: bool) -> Tuple[str, List[Function]]:
        rule = self.random.choice(RULES)
        objects = {letter: self.random.choice([*self.sides]) for letter in "UVW"}
        names = [self.some(objects[ends[0]], objects[ends[1]]) for ends in rule.ends]
        text, made = rule.text, [text for text, full in MADE.items() if full == rule.text]
        if made and not is_claim and self.random.random() < 0.5:
            text = made[0]
            names[-1] = self.new(objects[rule.ends[-1][0]], objects[rule.ends[-1][1]], f"k{self.made}" if self.made else "k")
            self.made += 1
            self.hidden.append(names[-1])
        if text.startswith(("pinv", "ep")):
            if set(names) & self.with_inverse or names[0] == names[1]:
                return self.word(is_claim)  # for a map with two of them has none that is known
            self.with_inverse |= set(names)
            self.inverses.update(zip(names[:2], names[1::-1]) if not is_claim else ())
        return text.format(*names), [lambda values, place=place: rule.value(*(values[name] for name in names))[place]  # type: ignore[misc]
                                     for place in range(len(rule.value(*(self.values[name] for name in names))))]

    def items(self, is_claim: bool) -> Tuple[str, List[Function]]:
        found = [self.word(is_claim) if self.random.random() < 0.4 else self.equation() for _ in range(self.random.randint(1, 2))]
        return ", ".join(text for text, _ in found), [value for _, values in found for value in values]

    # ---- Lines

    def fill(self) -> None:
        for _ in range(self.random.randint(1, 4)):
            kind = self.random.random()
            if kind < 0.25:
                ends = self.random.choice([*self.sides]), self.random.choice([*self.sides])
                value = self.sum(*ends)
                name = self.new(*ends)
                self.hidden.append(name)
                self.lines.append(f"define {name} = {value.text}")
                self.assumptions.append(difference(Expression(name, lambda values, name=name: values[name]), value))  # type: ignore[misc]
                continue
            text, values = self.word(False) if kind < 0.6 else self.items(False)
            self.lines.append(text if kind < 0.6 else f"assume {text}")
            self.assumptions += values
        cases = [self.items(True) for _ in range(3)]
        self.claim("claim {}", True, [], cases[0])
        self.claim("claim {} if {}", False, [cases[2]], cases[1])
        if self.random.random() < 0.5:
            self.lines.append("equivalent: " + " ".join(f"({mark}) {text}" for mark, (text, _) in zip(["i", "ii", "iii"], cases)))
            for one, two, name in ((0, 1, "f-i-ii"), (1, 2, "f-ii-iii"), (2, 0, "f-iii-i")):
                self.statements.append(Stated(name, cases[one][1], cases[two][1]))
        shown = [name for name in self.ends if name not in self.hidden]
        places = [self.random.randint(0, len(self.lines)) for _ in shown]
        for name, place in sorted(zip(shown, places), key=lambda pair: -pair[1]):
            self.lines.insert(place, f"{name} : {' -> '.join(self.ends[name])}")

    def claim(self, text: str, is_plain: bool, given: List[Tuple[str, List[Function]]], claimed: Tuple[str, List[Function]]) -> None:
        self.lines.append(text.format(claimed[0], *(condition for condition, _ in given)))
        number = sum(line.startswith("claim") for line in self.lines)
        name = "f" if is_plain else f"f-{number}"
        self.statements.append(Stated(name, [value for _, values in given for value in values], claimed[1]))


def power_sum(side: int, number: int) -> Matrix:
    """So many times the identity."""
    return add(unit(side), unit(side), number - 1)


def difference(one: Expression, two: Expression) -> Function:
    return lambda values: add(one.value(values), two.value(values), -1)


def value_of(problem: Problem, poly: Poly, written: Written, ends: Tuple[str, str]) -> Matrix:
    """The value of a polynomial of a statement, in the matrices of the file."""
    source, target = (written.sides[end] for end in ends)
    total: Matrix = tuple((0,) * source for _ in range(target))
    for word, coefficient in poly.items():
        letters = [letter_value(problem.names[letter], written) for letter in word]
        total = add(total, multiply(letters[0], *letters[1:]), coefficient)
    return total


def letter_value(name: str, written: Written) -> Matrix:
    if name[0] == "[":
        return unit(written.sides[name[1:-1]])
    return transposed(written.values[name[:-1]]) if name[-1] == "'" else written.values[name]


def values_of(problem: Problem, polys: List[Poly], written: Written) -> List[Matrix]:
    """The values of polynomials that aren't zero: one that isn't zero may have such a value, as `[V] a - a`."""
    found = []
    for poly in polys:
        if poly:
            ends = problem.signature(next(iter(poly)))
            assert ends is not None
            found.append(value_of(problem, poly, written, (problem.names[ends[0]][1:-1], problem.names[ends[1]][1:-1])))
    return [value for value in found if not is_zero(value)]


def is_zero(matrix: Matrix) -> bool:
    return not any(map(any, matrix))


def generators_of(values: List[Matrix]) -> List[Matrix]:
    """In a starred file: the values of the assumptions, and of their adjoints that are no assumptions or negatives of their own."""
    stars = [(value, transposed(value)) for value in values]
    own = [star for value, star in stars if len(star) != len(value) or not (is_zero(add(star, value)) or is_zero(add(star, value, -1)))]
    return [value for value in values + own if not is_zero(value)]
