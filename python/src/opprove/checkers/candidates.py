#!/usr/bin/env python3
"""A second search for models: candidates.py STATEMENT [--seed N]

Reads a statement, goes through the candidates of its shapes in their order, and prints for each claim the first that
makes all assumptions zero and not the claim, or that none does: the report of `opprove refute`, with its statuses 11 and
13. For a fault of the statement it prints its line, with status 3.

It is written from docs/FORMATS.md and shares nothing with opprove. Statements are read by check.py, with the limits that
it doesn't look at.
A referee reads 1,149 lines: this file, check.py, check_model.py and tree.py, and no other but Python's own library.
"""
from __future__ import annotations

import argparse
from collections import defaultdict
from typing import TYPE_CHECKING, DefaultDict, Dict, Iterator, List, Optional, Tuple

if TYPE_CHECKING or __package__:
    from .check import Poly, Problem, Source, Word, finished, loaded, script
    from .check_model import Arrows, Matrix, Model, declared_maps, identity, sides_of
    from .tree import Shape, shapes_of, solved_maps
else:  # run as a file by itself
    from check import Poly, Problem, Source, Word, finished, loaded, script
    from check_model import Arrows, Matrix, Model, declared_maps, identity, sides_of
    from tree import Shape, shapes_of, solved_maps

Form = List[int]  # a coefficient for each unknown, and behind them a constant, all below a prime modulus


def words_of(seed: int, stream: int) -> Iterator[int]:
    """The words of a stream of PCG32 (XSH RR over 64 bits) for a seed."""
    increment = (2 * stream + 1) % 2**64
    state = (seed + increment) % 2**64
    while True:
        state = (state * 6364136223846793005 + increment) % 2**64
        mixed, turn = (state >> 18 ^ state) >> 27 & 0xFFFFFFFF, state >> 59
        yield (mixed >> turn | mixed << 32 - turn) & 0xFFFFFFFF


class Equations:
    """Forms whose values are zero. Each has a first unknown, with the coefficient 1, which no other begins with."""

    def __init__(self, unknowns: int, modulus: int) -> None:
        self.unknowns, self.modulus = unknowns, modulus
        self.forms: Dict[int, Form] = {}  # by their first unknown

    def rest(self, form: Form) -> Form:
        """A form with the same value in all solutions, without the first unknowns of the equations."""
        for unknown in range(self.unknowns):
            if form[unknown] and unknown in self.forms:
                factor = form[unknown]
                form = [(x - factor * y) % self.modulus for x, y in zip(form, self.forms[unknown])]
        return form

    def add(self, form: Form) -> bool:
        """Adds an equation, and tells whether there can still be a solution."""
        rest = self.rest(form)
        first = next((unknown for unknown in range(self.unknowns) if rest[unknown]), None)
        if first is None:
            return rest[-1] == 0
        inverse = pow(rest[first], -1, self.modulus)
        self.forms[first] = [number * inverse % self.modulus for number in rest]
        return True

    def greedy_solution(self, draws: List[int]) -> List[int]:
        """The solution in which each unknown, in order, takes its draw where a solution has that and what was chosen
        before, and else the least value for which there is one. Where there is a solution, each unknown either has any
        value in some, or one value in all."""
        values = []
        for unknown, draw in enumerate(draws):
            form = [int(other == unknown) for other in range(self.unknowns)]
            rest = self.rest(form + [0])
            values.append(draw if any(rest[:-1]) else rest[-1])
            self.add(form + [-values[-1] % self.modulus])
        return values


def numbered(matrix: Matrix) -> Iterator[Tuple[int, int, int]]:
    """The entries of a matrix, each behind its row and its column."""
    return ((row, column, int(entry)) for row, entries in enumerate(matrix) for column, entry in enumerate(entries))


class Search:
    """The candidates of a shape."""

    def __init__(self, problem: Problem, shape: Shape) -> None:
        self.problem, self.shape = problem, shape
        self.solved = {letter for solved in solved_maps(problem) for letter in (solved, problem.stars[solved])}
        self.linear = [poly for poly in problem.generators() if all(map(self.is_linear, poly))]
        self.entries = 0  # how many there are
        self.places: Dict[Tuple[int, int, int], int] = {}  # the number of the entry at a letter, a row and a column
        for letter in declared_maps(problem):
            rows, columns = sides_of(problem, shape.sides, letter)
            for place in [(row, column) for row in range(rows) for column in range(columns)]:
                if (letter, *place) not in self.places:
                    self.places[(letter, *place)] = self.places[(problem.stars[letter], *place[::-1])] = self.entries
                    self.entries += 1
        lists = shape.modulus**self.entries
        self.is_exhaustive = lists <= 65536
        self.count = lists if self.is_exhaustive else 4096

    def is_linear(self, word: Word) -> bool:
        return sum(letter in self.solved for letter in word) <= 1

    def values(self, seed: int) -> Iterator[List[int]]:
        """The values of the entries in each candidate that has a model."""
        modulus, words = self.shape.modulus, words_of(seed, self.shape.number)
        for number in range(self.count):
            if self.is_exhaustive:
                yield [number // modulus**entry % modulus for entry in range(self.entries)]
            else:
                values = self.greedy_values([next(words) % modulus for _ in range(self.entries)])
                if values is not None:
                    yield values

    def model(self, values: List[int]) -> Model:
        """The model of these values, without a claim."""
        maps: Dict[int, Matrix] = {}
        for letter in declared_maps(self.problem):
            rows, columns = (range(side) for side in sides_of(self.problem, self.shape.sides, letter))
            maps[letter] = [[values[self.places[letter, row, column]] for column in columns] for row in rows]
        return Model(0, self.shape.modulus, self.shape.sides, maps)

    def greedy_values(self, draws: List[int]) -> Optional[List[int]]:
        """The greedy solution of the linear generators, where there is one. Entries that aren't solved for are in no
        equation, and so they take their draws."""
        arrows = Arrows(self.problem, self.model(draws))
        equations = Equations(self.entries, self.shape.modulus)
        if all(equations.add(form) for poly in self.linear for form in self.forms(poly, arrows)):
            return equations.greedy_solution(draws)
        return None

    def forms(self, poly: Poly, arrows: Arrows) -> List[Form]:
        """The entries of the value of a linear polynomial, as forms in the entries that are solved for."""
        forms: DefaultDict[Tuple[int, int], Form] = defaultdict(lambda: [0] * (self.entries + 1))
        for word, coefficient in poly.items():
            cut = next((place for place, letter in enumerate(word) if letter in self.solved), None)
            if cut is None:
                for row, column, number in numbered(arrows.value(word)):
                    forms[row, column][-1] += coefficient * number
                continue
            rows, columns = sides_of(self.problem, self.shape.sides, word[cut])
            left = arrows.value(word[:cut]) if word[:cut] else identity(rows)
            right = arrows.value(word[cut + 1 :]) if word[cut + 1 :] else identity(columns)
            for row, inner, x in numbered(left):
                for other, column, y in numbered(right):
                    forms[row, column][self.places[word[cut], inner, other]] += coefficient * x * y
        return [[number % self.shape.modulus for number in form] for form in forms.values()]


# ---- The report


def refuting(problem: Problem, searches: List[Search], seed: int) -> Dict[int, Model]:
    """For each claim, by its number, the first candidate that breaks it, where one does."""
    found: Dict[int, Model] = {}
    for model in (search.model(values) for search in searches for values in search.values(seed)):
        arrows = Arrows(problem, model)
        if all(map(arrows.is_zero, problem.assumptions)):
            for number, claim in enumerate(problem.claims, 1):
                if number not in found and not arrows.is_zero(claim):
                    found[number] = model
            if len(found) == len(problem.claims):
                break
    return found


def block_lines(problem: Problem, number: int, model: Model) -> Iterator[str]:
    yield from ("model 1", f"claim {number}", f"modulus {model.modulus}")
    yield from (f"side {name[1:-1]} {side}" for name, side in zip(problem.names, model.sides))
    for letter, matrix in model.maps.items():
        yield f"map {problem.names[letter]} = " + " ; ".join(" ".join(map(str, row)) for row in matrix)
    yield "end"


def report(statement: Source, seed: int) -> Tuple[List[str], int]:
    """The lines, and the status."""
    problem = Problem(statement)
    searches = [Search(problem, shape) for shape in shapes_of(problem)]
    found, count = refuting(problem, searches, seed), sum(search.count for search in searches)
    lines = []
    for number in range(1, len(problem.claims) + 1):
        if number in found:
            lines += [f"# claim {number} refuted", *block_lines(problem, number, found[number])]
        else:
            lines.append(f"# claim {number} not refuted candidates {count}")
    return lines, 11 if len(found) == len(problem.claims) else 13


def main(words: List[str]) -> int:
    """Writes the report, and gives the status."""
    parser = argparse.ArgumentParser(prog="candidates", description="A second search for models")
    parser.add_argument("statement")
    parser.add_argument("--seed", type=int, default=1, help="from 0 to 2^64 - 1; 1 if left out")
    options = parser.parse_args(words)
    if not 0 <= options.seed < 2**64:
        parser.error("a seed is from 0 to 2^64 - 1")
    return finished(lambda: report(loaded([options.statement])[0], options.seed))


if __name__ == "__main__":
    script(main)
