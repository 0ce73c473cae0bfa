#!/usr/bin/env python3
"""A statement as a tree of plain lines: tree.py STATEMENT

For programs that want what a statement says, and no language of statements: `plain_run.rs` and `plain_models.rs` read it.
Statements are read by check.py. For a fault the line of check.py is printed, with status 3. A line is a word and what
stands behind it, with one blank between them:

letters COUNT
letter NAME ADJOINT SOURCE TARGET      of each letter, in the order of their numbers, from 0; an object stands for its identity
measures NUMBER ..                     what each letter adds to the number that the order of words compares first
units COUNT                            how many relations of identities there are, which are the last generators
solved LETTER ..                       the maps that a search of models solves for
shape MODULUS SIDE ..                  a shape, with a side for each object
assumption | claim | generator COEFFICIENT COUNT LETTER .. ..      a polynomial: its terms, the greatest word first
"""
from __future__ import annotations

import itertools
from typing import TYPE_CHECKING, Iterator, List, NamedTuple, Set

if TYPE_CHECKING or __package__:
    from .check import DONE, USAGE, Poly, Problem, finished, loaded, script
else:  # run as a file by itself
    from check import DONE, USAGE, Poly, Problem, finished, loaded, script


class Shape(NamedTuple):
    """A shape for models."""

    number: int  # from 1
    modulus: int
    sides: List[int]  # of each object


def objects_of(problem: Problem) -> List[str]:
    return [name[1:-1] for name in problem.names if name[0] == "["]


def measures_of(problem: Problem) -> List[int]:
    """What a letter counts for, as an adjoint does too: its weight by weights; 1 if it is eliminated; else nothing."""
    for line in problem.lines:
        word, maps, weights = line.tokens[0].text, line.with_role("map"), line.with_role("literal")
        if word == "eliminate" or word == "order" and line.with_role("way") == ["weight"]:
            measures = [int(word == "order")] * len(problem.names)
            for name, literal in zip(maps, weights or itertools.repeat("1")):
                letter = problem.numbers[name]
                measures[letter] = measures[problem.stars[letter]] = int(literal)
            return measures
    return [0] * len(problem.names)


def solved_maps(problem: Problem) -> List[int]:
    """The maps of `solve`, and the second one of each abbreviation that has two."""
    solved: Set[int] = set()
    for line in problem.lines:
        word, maps = line.tokens[0].text, line.with_role("map")
        names = maps if word == "solve" else maps[1:] if word in ("pinv", "inverse", "inner") else []
        solved.update(problem.numbers[name] for name in names)
    return sorted(solved)


def shapes_of(problem: Problem) -> List[Shape]:
    """The shapes; where the statement names none, the two that stand in their place."""
    objects = objects_of(problem)
    shapes: List[Shape] = []
    for line in problem.lines:
        if line.tokens[0].text == "model":
            modulus, *numbers = map(int, line.with_role("literal"))
            sides = dict(zip(line.with_role("object"), numbers))
            shapes.append(Shape(len(shapes) + 1, modulus, [sides.get(name, 1) for name in objects]))
    return shapes or [Shape(side, 2, [side for _ in objects]) for side in (1, 2)]


def spoken(numbers: List[int]) -> str:
    return "".join(f" {number}" for number in numbers)


def terms(poly: Poly) -> str:
    words = sorted(poly, key=lambda word: (len(word), word), reverse=True)
    return "".join(f" {poly[word]} {len(word)}{spoken(list(word))}" for word in words)


def tree_lines(problem: Problem) -> Iterator[str]:
    generators, marked = problem.generators(), problem.marked
    problem.marked = set()
    units = len(generators) - len(problem.generators())
    problem.marked = marked
    yield f"letters {len(problem.names)}"
    for name, star, (source, target) in zip(problem.names, problem.stars, problem.ends):
        yield f"letter {name} {star} {source} {target}"
    yield "measures" + spoken(measures_of(problem))
    yield f"units {units}"
    yield "solved" + spoken(solved_maps(problem))
    yield from ("shape" + spoken([shape.modulus, *shape.sides]) for shape in shapes_of(problem))
    for word, polys in (("assumption", problem.assumptions), ("claim", problem.claims), ("generator", generators)):
        yield from (word + terms(poly) for poly in polys)


def main(words: List[str]) -> int:
    """Writes the lines, and gives the status."""
    if len(words) != 1:
        return finished(lambda: (["# usage: tree.py STATEMENT"], USAGE))
    return finished(lambda: (tree_lines(Problem(*loaded(words))), DONE))


if __name__ == "__main__":
    script(main)
