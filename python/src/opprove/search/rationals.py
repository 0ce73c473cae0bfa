"""Looks for matrices of rational numbers that make the assumptions of a statement zero, and not a claim.

A candidate has sides, and one map after another: it is drawn from families of small matrices, or solves the assumptions that are
linear in it once the maps before it are known, or is the inverse, pseudoinverse or reflexive inverse that they ask for. What it
breaks is tested by exact arithmetic, and again by check_model.py.
"""
from __future__ import annotations

import random
from fractions import Fraction
from typing import Callable, Dict, FrozenSet, Iterator, List, NamedTuple, Optional, Sequence, Tuple, Union

from opprove.checkers.check import MODULI, Poly, Problem, Refusal, Word
from opprove.checkers.check_model import Model, declared_maps, judge
from opprove.search.engine import now

Number = Union[int, Fraction]
Matrix = List[List[Number]]
MOST_SIDE = 4
DRAWS = 25  # of one map, until what is said of it alone holds


class Found(NamedTuple):
    """Matrices for the declared maps that break a claim."""

    claim: int
    sides: List[int]  # by the letters of identities
    maps: Dict[int, Matrix]


# ---- Matrices


def product(left: Matrix, right: Matrix) -> Matrix:
    columns = list(zip(*right))
    return [[sum(x * y for x, y in zip(row, column)) for column in columns] for row in left]


def transpose(matrix: Matrix) -> Matrix:
    return [list(row) for row in zip(*matrix)]


def identity(side: int) -> Matrix:
    return [[int(row == column) for column in range(side)] for row in range(side)]


def solve(rows: List[List[Number]], count: int, draws: random.Random) -> Optional[List[Number]]:
    """A solution of equations in so many unknowns, each with its right side at its end; what is free is drawn, mostly 0."""
    pivots: List[Tuple[int, List[Number]]] = []
    for row in rows:
        for column, pivot in pivots:
            if row[column]:
                factor = row[column]
                row = [x - factor * y for x, y in zip(row, pivot)]
        column = next((place for place in range(count) if row[place]), -1)
        if column < 0:
            if row[count]:
                return None
            continue
        by = Fraction(row[column])
        row = [simple(x / by) if x else 0 for x in row]
        pivots = [(place, [simple(x - old[column] * y) for x, y in zip(old, row)] if old[column] else old) for place, old in pivots]
        pivots.append((column, row))
    values: List[Number] = [draws.choice((0, 0, 0, 1, -1, 2)) for _ in range(count)]
    bound = {column for column, _ in pivots}
    for column, row in pivots:
        values[column] = simple(row[count] - sum(row[place] * values[place] for place in range(count) if place not in bound and row[place]))
    return values


def simple(number: Number) -> Number:
    """The same, as an integer where it is one."""
    return number.numerator if isinstance(number, Fraction) and number.denominator == 1 else number


def inverse(matrix: Matrix) -> Optional[Matrix]:
    side = len(matrix)
    rows = [[*row, *unit] for row, unit in zip(matrix, identity(side))]
    for column in range(side):
        at = next((place for place in range(column, side) if rows[place][column]), None)
        if at is None:
            return None
        rows[column], rows[at] = rows[at], rows[column]
        by = Fraction(rows[column][column])
        rows[column] = [simple(x / by) for x in rows[column]]
        for place in range(side):
            if place != column and rows[place][column]:
                factor = rows[place][column]
                rows[place] = [simple(x - factor * y) for x, y in zip(rows[place], rows[column])]
    return [row[side:] for row in rows]


def pseudoinverse(matrix: Matrix) -> Matrix:
    """By a factorization into columns that are a basis of its range, and what they are multiplied by."""
    columns: List[List[Number]] = []
    echelon: List[List[Number]] = []
    for column in transpose(matrix):
        rest = list(column)
        for row in echelon:
            lead = next(place for place, x in enumerate(row) if x)
            if rest[lead]:
                factor = Fraction(rest[lead]) / row[lead]
                rest = [x - factor * y for x, y in zip(rest, row)]
        if any(rest):
            echelon.append(rest)
            columns.append(column)
    if not columns:
        return [[0] * len(matrix) for _ in matrix[0]]
    basis = transpose(columns)
    star = transpose(basis)
    gram = inverse(product(star, basis))
    assert gram is not None
    left = product(gram, star)  # left basis = 1
    rest_of = product(left, matrix)  # basis rest_of = matrix
    gram = inverse(product(rest_of, transpose(rest_of)))
    assert gram is not None
    return [[simple(x) for x in row] for row in product(product(transpose(rest_of), gram), left)]


# ---- Families of small matrices


def small(draws: random.Random, rows: int, columns: int) -> Matrix:
    entries = draws.choice(((0, 1), (0, 0, 1), (-1, 0, 1), (0, 1, 2), (-2, -1, 0, 1, 2, 3)))
    return [[draws.choice(entries) for _ in range(columns)] for _ in range(rows)]


def thin(draws: random.Random, rows: int, columns: int) -> Matrix:
    """Of a rank that is drawn."""
    rank = draws.randint(0, min(rows, columns))
    if rank == 0:
        return [[0] * columns for _ in range(rows)]
    return product(small(draws, rows, rank), small(draws, rank, columns))


def partial_permutation(draws: random.Random, rows: int, columns: int) -> Matrix:
    matrix: Matrix = [[0] * columns for _ in range(rows)]
    places = draws.sample(range(columns), min(rows, columns))
    for row, column in zip(draws.sample(range(rows), len(places)), places):
        matrix[row][column] = draws.choice((1, 1, 1, -1, 0))
    return matrix


def isometric(draws: random.Random, rows: int, columns: int) -> Matrix:
    """A partial permutation, turned by an orthogonal matrix that has other entries than 0 and 1."""
    return product(orthogonal(draws, rows), partial_permutation(draws, rows, columns))


def orthogonal(draws: random.Random, side: int) -> Matrix:
    """1 - 2 v v' / (v' v)."""
    vector = [draws.choice((0, 1, 1, 2, -1)) for _ in range(side)]
    norm = sum(x * x for x in vector)
    if not norm:
        return identity(side)
    return [[simple(int(row == column) - Fraction(2 * x * y, norm)) for column, y in enumerate(vector)] for row, x in enumerate(vector)]


def symmetric(draws: random.Random, rows: int, columns: int) -> Matrix:
    matrix = small(draws, rows, rows)
    return [[matrix[min(row, column)][max(row, column)] for column in range(rows)] for row in range(rows)]


def square_of(draws: random.Random, rows: int, columns: int) -> Matrix:
    """m m', which is positive."""
    matrix = small(draws, rows, draws.randint(1, rows))
    return product(matrix, transpose(matrix))


def diagonal(draws: random.Random, rows: int, columns: int) -> Matrix:
    return [[draws.choice((0, 1, 1, -1, 2)) if row == column else 0 for column in range(rows)] for row in range(rows)]


def idempotent(draws: random.Random, rows: int, columns: int) -> Matrix:
    """u (v u)^-1 v."""
    rank = draws.randint(0, rows)
    if rank == 0:
        return [[0] * rows for _ in range(rows)]
    left, right = small(draws, rows, rank), small(draws, rank, rows)
    middle = inverse(product(right, left))
    return product(product(left, middle), right) if middle else identity(rows)


def projection(draws: random.Random, rows: int, columns: int) -> Matrix:
    matrix = thin(draws, rows, rows)
    return [[simple(x) for x in row] for row in product(matrix, pseudoinverse(matrix))]


def triangular(draws: random.Random, rows: int, columns: int) -> Matrix:
    """Nilpotent where it is drawn so."""
    matrix, least = small(draws, rows, rows), draws.choice((0, 1))
    return [[x if column >= row + least else 0 for column, x in enumerate(line)] for row, line in enumerate(matrix)]


def conjugated(draws: random.Random, rows: int, columns: int) -> Matrix:
    """A diagonal or triangular matrix in another basis."""
    change = small(draws, rows, rows)
    back = inverse(change)
    middle = draws.choice((diagonal, triangular))(draws, rows, rows)
    return product(product(change, middle), back) if back else middle


def rotation(draws: random.Random, rows: int, columns: int) -> Matrix:
    """x + y j with j antisymmetric, which is normal."""
    matrix = diagonal(draws, rows, rows)
    for row in range(0, rows - 1, 2):
        x, y = draws.choice((0, 1, 2)), draws.choice((1, -1, 2))
        matrix[row][row] = matrix[row + 1][row + 1] = x
        matrix[row][row + 1], matrix[row + 1][row] = y, -y
    return matrix


Family = Callable[[random.Random, int, int], Matrix]
ANY: List[Family] = [small, thin, small, partial_permutation, isometric]
SQUARE: List[Family] = [symmetric, square_of, diagonal, idempotent, projection, triangular, conjugated, rotation]


# ---- Candidates


class Candidate:
    """Sides, and the matrices of the maps that are known so far."""

    def __init__(self, search: "Rationals", draws: random.Random, most: int) -> None:
        self.search, self.problem, self.draws = search, search.problem, draws
        count = sum(name[0] == "[" for name in self.problem.names)
        self.sides = [most if draws.random() < 0.5 else draws.randint(1, most) for _ in range(count)]
        self.matrices: Dict[int, Matrix] = {letter: identity(side) for letter, side in enumerate(self.sides)}

    def shape(self, letter: int) -> Tuple[int, int]:
        source, target = self.problem.ends[letter]
        return self.sides[target], self.sides[source]

    def put(self, letter: int, matrix: Matrix) -> None:
        self.matrices[letter] = matrix
        if self.problem.stars[letter] != letter:
            self.matrices[self.problem.stars[letter]] = transpose(matrix)

    def value(self, word: Word) -> Optional[Matrix]:
        """The product of the letters, or nothing for the empty word."""
        matrix: Optional[Matrix] = None
        for letter in word:
            matrix = product(matrix, self.matrices[letter]) if matrix is not None else self.matrices[letter]
        return matrix

    def is_zero(self, poly: Poly) -> bool:
        total: Optional[Matrix] = None
        for word, coefficient in poly.items():
            value = self.value(word)
            assert value is not None
            scaled = [[coefficient * x for x in row] for row in value]
            total = scaled if total is None else [[x + y for x, y in zip(*rows)] for rows in zip(total, scaled)]
        return not any(x for row in total or [] for x in row)

    # ---- One map

    def fill(self) -> bool:
        """Finds a matrix for each map, in an order that is drawn."""
        order = list(self.search.maps)
        self.draws.shuffle(order)
        if self.draws.random() < 0.7:
            order.sort(key=lambda letter: self.search.after.get(letter, 0))
        known: List[int] = []
        for letter in order:
            known.append(letter)
            if not self.find(letter, set(known)):
                return False
        return True

    def find(self, letter: int, known: "set[int]") -> bool:
        """Finds a matrix for one map, by the assumptions on it and the maps before it."""
        equations = [poly for poly, maps in self.search.assumptions if letter in maps and maps <= known]
        for partner in self.search.partners.get(letter, []):
            if partner in known and self.draws.random() < 0.9:
                self.put(letter, pseudoinverse(self.matrices[partner]))
                if all(map(self.is_zero, equations)):
                    return True
        linear = [poly for poly in equations if self.degree(poly, letter) <= 1]
        for _ in range(DRAWS if len(linear) < len(equations) or not linear else 2):
            matrix = self.solved(letter, linear) if linear else self.drawn(letter)
            if matrix is None:
                return False
            self.put(letter, matrix)
            if all(map(self.is_zero, equations)) or self.is_mended(letter, equations):
                return True
        return False

    def degree(self, poly: Poly, letter: int) -> int:
        return max(sum(one in (letter, self.problem.stars[letter]) for one in word) for word in poly)

    def drawn(self, letter: int) -> Matrix:
        rows, columns = self.shape(letter)
        source, target = self.problem.ends[letter]
        if self.problem.stars[letter] == letter:
            return self.draws.choice((symmetric, square_of, projection, diagonal))(self.draws, rows, columns)
        families = ANY + SQUARE + SQUARE if source == target else ANY
        return self.draws.choice(families)(self.draws, rows, columns)

    def solved(self, letter: int, equations: Sequence[Poly]) -> Optional[Matrix]:
        """A solution of equations that are linear in the map."""
        rows, columns = self.shape(letter)
        count = rows * columns
        lines: List[List[Number]] = []
        for poly in equations:
            lines += self.lines(letter, poly, columns, count)
        if self.problem.stars[letter] == letter:
            for row in range(rows):
                for column in range(row):
                    line: List[Number] = [0] * (count + 1)
                    line[row * columns + column], line[column * columns + row] = 1, -1
                    lines.append(line)
        values = solve(lines, count, self.draws)
        return [values[row * columns : (row + 1) * columns] for row in range(rows)] if values is not None else None

    def lines(self, letter: int, poly: Poly, columns: int, count: int) -> List[List[Number]]:
        """The entries of a polynomial, as equations in those of the map."""
        star = self.problem.stars[letter]
        source, target = self.problem.signature(next(iter(poly))) or (0, 0)
        height, width = self.sides[target], self.sides[source]
        lines: List[List[Number]] = [[0] * (count + 1) for _ in range(height * width)]
        for word, coefficient in poly.items():
            place = next((place for place, one in enumerate(word) if one in (letter, star)), None)
            if place is None:
                value = self.value(word) or []
                for number, line in enumerate(lines):
                    line[count] -= coefficient * value[number // width][number % width]
                continue
            is_star = word[place] != letter
            ends = self.problem.ends[word[place]]
            left = self.value(word[:place]) or identity(self.sides[ends[1]])
            right = self.value(word[place + 1 :]) or identity(self.sides[ends[0]])
            for number, line in enumerate(lines):
                for first, x in enumerate(left[number // width]):
                    for second in range(len(right)) if x else ():
                        y = right[second][number % width]
                        if y:
                            entry = second * columns + first if is_star else first * columns + second
                            line[entry] += coefficient * x * y
        return lines

    def has_ranks(self) -> bool:
        """Whether the maps that are to be monic have full column rank, and the epic ones full row rank."""
        tall = [self.matrices[letter] for letter in self.search.monic]
        tall += [transpose(self.matrices[letter]) for letter in self.search.epic]
        return all(inverse(product(transpose(matrix), matrix)) is not None for matrix in tall)

    def is_mended(self, letter: int, equations: Sequence[Poly]) -> bool:
        """Whether x a x does where x doesn't, for an assumption x a x = x."""
        for poly in equations:
            word = max(poly, key=len)
            if len(poly) == 2 and poly.get((letter,)) == -poly[word] and len(word) > 2 and word[0] == word[-1] == letter:
                value = self.value(word)
                assert value is not None
                self.put(letter, [[simple(x) for x in row] for row in value])
                return all(map(self.is_zero, equations))
        return False


class Rationals:
    """A search over candidates, for the claims with these numbers."""

    def __init__(
        self, problem: Problem, claims: Sequence[int], seed: int, monic: FrozenSet[int] = frozenset(), epic: FrozenSet[int] = frozenset()
    ) -> None:
        self.problem, self.claims, self.seed = problem, claims, seed
        self.monic, self.epic = monic, epic  # letters whose matrices have full column rank, and full row rank
        self.maps = declared_maps(problem)
        self.assumptions = [(poly, self.maps_of(poly)) for poly in problem.assumptions if poly]
        self.partners: Dict[int, List[int]] = {}
        self.after: Dict[int, int] = {}  # maps that others come before: second ones, and defined ones
        for line in problem.lines:
            if line.tokens[0].text in ("pinv", "inverse", "inner"):
                first, second = (problem.numbers[name] for name in line.with_role("map"))
                self.partners.setdefault(second, []).append(first)
                self.after[second] = 2
        for poly, maps in self.assumptions:
            single = [word[0] for word in poly if len(word) == 1 and word[0] in self.maps]
            for letter in single:
                if sum(letter in word or problem.stars[letter] in word for word in poly) == 1:
                    self.after.setdefault(letter, 1)

    def maps_of(self, poly: Poly) -> "set[int]":
        letters = {letter for word in poly for letter in word}
        return {min(letter, self.problem.stars[letter]) for letter in letters if self.problem.names[letter][0] != "["}

    def run(self, until: float) -> Iterator[Found]:
        """What breaks each claim, once for a claim."""
        pending, number = list(self.claims), 0
        while pending and now() < until:
            number += 1
            draws = random.Random(f"{self.seed} {number}")
            most = draws.choice((1, 2) if number < 40 else (1, 2, 2, 2, 3) if number < 200 else (1, 2, 2, 2, 3, 3, MOST_SIDE))
            candidate = Candidate(self, draws, most)
            if not candidate.fill() or not candidate.has_ranks():
                continue
            for claim in list(pending):
                if not candidate.is_zero(self.problem.claims[claim - 1]):
                    pending.remove(claim)
                    yield Found(claim, candidate.sides, {letter: candidate.matrices[letter] for letter in self.maps})


def block(problem: Problem, found: Found, modulus: int = 0) -> List[str]:
    """The lines of a rational model, or of a model with a modulus."""
    lines = ["model 1", f"claim {found.claim}", f"modulus {modulus}"] if modulus else ["rational model 1", f"claim {found.claim}"]
    lines += [f"side {problem.names[letter][1:-1]} {side}" for letter, side in enumerate(found.sides)]
    for letter, matrix in found.maps.items():
        lines.append(f"map {problem.names[letter]} = " + " ; ".join(" ".join(map(str, row)) for row in matrix))
    return lines + ["end"]


def modular(problem: Problem, found: Found) -> List[str]:
    """The lines of the model that the matrices are modulo the least prime modulo which they break the claim too, if there is one."""
    for prime in MODULI:
        entries = [x for matrix in found.maps.values() for row in matrix for x in row]
        if any(Fraction(x).denominator % prime == 0 for x in entries):
            continue
        maps: Dict[int, Matrix] = {letter: [[residue(x, prime) for x in row] for row in matrix] for letter, matrix in found.maps.items()}
        try:
            judge(problem, Model(found.claim, prime, found.sides, maps), "")
        except Refusal:
            continue
        return block(problem, found._replace(maps=maps), prime)
    return []


def residue(number: Number, prime: int) -> int:
    fraction = Fraction(number)
    return fraction.numerator * pow(fraction.denominator, prime - 2, prime) % prime
