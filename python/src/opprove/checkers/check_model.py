#!/usr/bin/env python3
"""A second checker of the models that refute claims: check_model.py STATEMENT MODELS

Reads a statement and the models of an evidence text, puts the matrices of a model in for the maps, their transposes for
the adjoints and identity matrices for the objects, and multiplies and adds up. It prints a line for each model: that it
is confirmed, with its claim, or the first thing that is wrong, with its place, which ends the report. The statuses are those
of the program. A text whose first block is a `rational model` has matrices of rational numbers, which the program doesn't read,
and is computed with exactly.

It is written from docs/FORMATS.md and shares nothing with opprove; codes and places are those of that page. Statements
are read by check.py, with the limits that it doesn't look at; those of models are all looked at.
A referee reads 840 lines: this file and check.py, and no other but Python's own library.
"""
from __future__ import annotations

from fractions import Fraction
from typing import TYPE_CHECKING, Dict, Iterator, List, NamedTuple, Tuple, Union

if TYPE_CHECKING or __package__:
    from .check import Blocks, Poly, Problem, Source, Word, answering, is_name, require, script
else:  # run as a file by itself
    from check import Blocks, Poly, Problem, Source, Word, answering, is_name, require, script

Number = Union[int, Fraction]
Matrix = List[List[Number]]  # its rows; all numbers are from 0 to one less than a modulus, where there is one
NUMBERS = "[0-9]+( [0-9]+)*"
MAP = f"map ([^ ]+) = ({NUMBERS}( ; {NUMBERS})*)"
RATIONAL_MAP = MAP.replace("[0-9]+", "-?[0-9]+(?:/[0-9]+)?")
DIGITS = 1000  # of a numerator or a denominator


class Model(NamedTuple):
    claim: int
    modulus: int  # 0 where the numbers are rational
    sides: List[int]  # of each object
    maps: Dict[int, Matrix]  # of declared maps, each by the number of its letter


# ---- Models as text


class Models(Blocks):
    """The models of an evidence text."""

    HEAD, OTHERS, MAP_LINE = "model 1", "certificate|basis", MAP

    def __init__(self, problem: Problem, source: Source) -> None:
        super().__init__(source)
        self.problem = problem
        self.models: List[Model] = []
        self.read_all(self.HEAD.split(" ")[0], self.models, self.model, self.OTHERS)

    def model(self) -> Model:
        self.begin(self.HEAD, len(self.models))
        model = Model(self.number_within("claim", 0, 2**32 - 1), self.modulus(), [1 for name in self.problem.names if name[0] == "["], {})
        names: List[str] = []
        while self.line.startswith(("side ", "map ")):
            place, is_side = self.number, self.line.startswith("side ")
            name, text = self.take("side ([^ ]+) ([0-9]+)" if is_side else self.MAP_LINE)[:2]
            self.require(place, "K2", is_name(name) and name not in names)
            if is_side:
                self.add_side(model, place, name, int(text))
            else:
                self.add_map(model, place, name, [[self.entry(place, number) for number in row.split(" ")] for row in text.split(" ; ")])
            names.append(name)
        self.take("end")
        return model

    def modulus(self) -> int:
        return self.number_within("modulus", 2, 2**31 - 1)

    def entry(self, place: int, text: str) -> Number:
        return int(text)

    def number_within(self, word: str, least: int, most: int) -> int:
        place, number = self.number, self.take_number(word)
        self.require(place, "K2", number >= least)
        self.require(place, "K4", number <= most)
        return number

    def add_side(self, model: Model, place: int, name: str, side: int) -> None:
        self.require(place, "K2", side > 0)
        letter = self.letter(place, f"[{name}]")
        self.limit(place, side, 64)
        model.sides[letter] = side

    def add_map(self, model: Model, place: int, name: str, rows: Matrix) -> None:
        self.require(place, "K2", all(len(row) == len(rows[0]) for row in rows))
        letter = self.letter(place, name)
        self.require(place, "K4", not model.modulus or all(number < model.modulus for row in rows for number in row))
        self.limit(place, max(len(rows), len(rows[0])), 64)
        model.maps[letter] = rows

    def letter(self, place: int, text: str) -> int:
        self.require(place, "K3", text in self.problem.numbers)
        return self.problem.numbers[text]


class RationalModels(Models):
    """The rational models of an evidence text."""

    HEAD, OTHERS, MAP_LINE = "rational model 1", "certificate|model|basis|cancellation|star", RATIONAL_MAP

    def modulus(self) -> int:
        return 0

    def entry(self, place: int, text: str) -> Number:
        parts = text.lstrip("-").split("/")
        self.require(place, "K2", len(parts) == 1 or parts[1].strip("0") != "")
        self.require(place, "K4", max(map(len, parts)) <= DIGITS)
        return Fraction(text)


# ---- Matrices


def transpose(matrix: Matrix) -> Matrix:
    return [list(column) for column in zip(*matrix)]


def identity(side: int) -> Matrix:
    return [[int(row == column) for column in range(side)] for row in range(side)]


def product(left: Matrix, right: Matrix, modulus: int) -> Matrix:
    columns = transpose(right)
    totals = [[sum(x * y for x, y in zip(row, column)) for column in columns] for row in left]
    return [[total % modulus for total in row] for row in totals] if modulus else totals


def declared_maps(problem: Problem) -> List[int]:
    """The letters of the maps that are declared, without identities and adjoints."""
    letters = enumerate(zip(problem.names, problem.stars))
    return [letter for letter, (name, star) in letters if name[0] != "[" and letter <= star]


def sides_of(problem: Problem, sides: List[int], letter: int) -> Tuple[int, int]:
    """How many rows and columns the matrix of the letter has: the sides of its target and of its source."""
    source, target = problem.ends[letter]
    return sides[target], sides[source]


class Arrows:
    """The matrices of all letters, in a model that has one of the right sides for each declared map."""

    def __init__(self, problem: Problem, model: Model) -> None:
        self.modulus = model.modulus
        self.matrices = [identity(side) for side in model.sides]
        for letter in range(len(model.sides), len(problem.names)):
            is_declared = letter in model.maps
            self.matrices.append(model.maps[letter] if is_declared else transpose(model.maps[problem.stars[letter]]))

    def value(self, word: Word) -> Matrix:
        """The product of the letters, of which there is one or more."""
        matrix = self.matrices[word[0]]
        for letter in word[1:]:
            matrix = product(matrix, self.matrices[letter], self.modulus)
        return matrix

    def total(self, poly: Poly) -> Matrix:
        """The sum of all terms, with no rows where there are none. All words are paths with the same ends."""
        total: Matrix = []
        for word, coefficient in poly.items():
            value = [[coefficient * number for number in row] for row in self.value(word)]
            total = [[x + y for x, y in zip(*rows)] for rows in zip(total, value)] if total else value
        return [[number % self.modulus for number in row] for row in total] if self.modulus else total

    def is_zero(self, poly: Poly) -> bool:
        return not any(map(any, self.total(poly)))


# ---- What is said of a model


def judge(problem: Problem, model: Model, refused: str) -> None:
    """Raises the first test of the model that fails, where one does, behind what is refused."""
    require(1 <= model.claim <= len(problem.claims), f"{refused} M1")
    for letter in declared_maps(problem):
        name, matrix = problem.names[letter], model.maps.get(letter, [[]])
        require(letter in model.maps, f"{refused} M2 map {name}")
        require((len(matrix), len(matrix[0])) == sides_of(problem, model.sides, letter), f"{refused} M3 map {name}")
        require(problem.stars[letter] != letter or matrix == transpose(matrix), f"{refused} M6 map {name}")
    arrows = Arrows(problem, model)
    for number, assumption in enumerate(problem.assumptions, 1):
        require(arrows.is_zero(assumption), f"{refused} M4 assumption {number}")
    require(not arrows.is_zero(problem.claims[model.claim - 1]), f"{refused} M5")


def report(statement: Source, evidence: Source) -> Iterator[str]:
    """The lines of the report."""
    problem = Problem(statement)
    reader = RationalModels if Blocks(evidence).line.startswith("rational ") else Models
    for block, model in enumerate(reader(problem, evidence).models, 1):
        judge(problem, model, f"# block {block} refused")
        yield f"# block {block} confirmed claim {model.claim}"


main = answering(report, "check_model.py STATEMENT MODELS")

if __name__ == "__main__":
    script(main)
