#!/usr/bin/env python3
"""Checks proofs that take stars off: star.py STATEMENT PROOF

A `star proof 1` is a `cancellation 1` that may besides conclude r = 0 from an item `S r' r` or `S r r'`, which holds where the
involution is proper (r' r = 0 gives r = 0, as for complex matrices and operators between Hilbert spaces), or from a sum of such
squares, which holds where it is positive (r1' r1 + .. + rn' rn = 0 gives r1 = 0). For each proof a line says that it is accepted,
and what it takes for granted: `positive` or `proper`, and the letters that it calls monic and epic; or the first thing that is
wrong ends the report. No command of the program reads such proofs. The form, the tests and their codes stand in docs/FORMATS.md,
and the statuses are those of `cancel`.
A referee reads 1,248 lines: this file, cancel.py, check.py and chain_text.py, and no other but Python's own library.
"""
from __future__ import annotations

import re
from typing import TYPE_CHECKING, Iterator, List, NamedTuple, Union

if TYPE_CHECKING or __package__:
    from .cancel import ITEMS, Cancel, Cancellation, Cancellations, Items, TERMS_OF_A_POLYNOMIAL, accepted, is_typed, judge
    from .chain_text import LETTERS_OF_A_WORD, MOST, NUMBERS, Lines
    from .check import Poly, Problem, Source, add, answering, difference, script
else:  # run as a file by itself
    from cancel import ITEMS, Cancel, Cancellation, Cancellations, Items, TERMS_OF_A_POLYNOMIAL, accepted, is_typed, judge
    from chain_text import LETTERS_OF_A_WORD, MOST, NUMBERS, Lines
    from check import Poly, Problem, Source, add, answering, difference, script

PRODUCTS = 1000000  # of terms, in the squares of one item


class Square(NamedTuple):
    """A positive multiple of r' r or of r r'."""

    scale: int
    poly: Poly


class Root(NamedTuple):
    """An item that is the polynomial of the first of these squares, to whose sum an earlier item is equal."""

    is_left: bool  # whether the stars stand left, as in r' r
    item: int
    squares: List[Square]


class StarProofs(Cancellations):
    """The proofs of an evidence text that take stars off."""

    HEAD, OTHERS = "star proof 1", "certificate|model|basis|cancellation|rational"
    ITEM_WORDS = ("lemma ", "cancel ", "root ")

    def other_item(self, wanted: int) -> Union[Cancel, Root]:
        """An item that is no lemma."""
        return self.root(wanted) if self.line.startswith("root ") else self.cancel(wanted)

    def root(self, wanted: int) -> Root:
        """A star that is taken off, in an item with this number."""
        place, (number, side, item) = self.number, self.take("root ([0-9]+) (left|right) ([0-9]+)")
        self.require(place, "K2", int(number) == wanted)
        self.require(place, "K4", max(int(number), int(item)) <= NUMBERS)
        self.limit(place, wanted, ITEMS)
        squares = [self.square()]
        while self.line.startswith("square "):
            squares.append(self.square())
        return Root(side == "left", int(item), squares)

    def square(self) -> Square:
        """A line `square S POLYNOMIAL`, whose terms stand in any order."""
        place, (scale, text) = self.number, self.take("square ([0-9]+) (.+)")
        pieces = re.split("(?:^| )([+-]) ", text if text[:2] == "- " else f"+ {text}")[1:]
        terms = [piece.split(" ") for piece in pieces[1::2]]
        numbers = [term.pop(0) if re.fullmatch("[0-9]+", term[0]) else "1" for term in terms]
        self.require(place, "K2", all(term and all(term) for term in terms))
        words = self.words(place, map(" ".join, terms))
        self.require(place, "K4", all(int(number) <= MOST for number in [scale, *numbers]))
        self.limit(place, len(terms), TERMS_OF_A_POLYNOMIAL)
        self.limit(place, max(map(len, words)), LETTERS_OF_A_WORD)
        poly: Poly = {}
        for sign, number, word in zip(pieces[::2], numbers, words):
            add(poly, int(sign + number), {word: 1})
        return Square(int(scale), poly)


# ---- What is said of a proof


class StarItems(Items):
    """The polynomials of the items of a proof, one after another."""

    def other(self, item: Union[Cancel, Root]) -> Poly:
        """The polynomial of an item that is no lemma."""
        return self.root(item) if isinstance(item, Root) else super().other(item)

    def root(self, root: Root) -> Poly:
        problem, place = self.lines.problem, f"item {len(self.polys) + 1}"
        scales = [square.scale for square in root.squares]
        self.test(problem.is_starred, f"P1 {place}")
        self.test(1 <= root.item <= len(self.polys), f"X1 {place}")
        self.test(min(scales) > 0 and (len(scales) > 1 or self.denominator % scales[0] == 0), f"P2 {place}")
        self.test(all(square.poly and is_typed(problem, square.poly) for square in root.squares), f"P3 {place}")
        self.test(sum(len(square.poly) ** 2 for square in root.squares) <= PRODUCTS, f"P4 {place} limit {PRODUCTS}")
        different = difference(problem, sum_of(problem, root), self.polys[root.item - 1])
        self.test(not different, f"P5 {place} {different}")
        return root.squares[0].poly


def sum_of(problem: Problem, root: Root) -> Poly:
    """The sum of the squares of an item."""
    total: Poly = {}
    for scale, poly in root.squares:
        star = problem.star(poly)
        left, right = (star, poly) if root.is_left else (poly, star)
        for word, coefficient in left.items():
            add(total, scale * coefficient, right, left=word)
    return total


def granted(proof: Cancellation) -> str:
    """What the proof takes for granted of the involution."""
    counts = [len(item.squares) for item in proof.items if isinstance(item, Root)]
    return " positive" if max(counts, default=0) > 1 else " proper" if counts else ""


def report(statement: Source, evidence: Source) -> Iterator[str]:
    """The lines of the report."""
    problem = Problem(statement)
    proofs = StarProofs(problem, evidence).proofs
    lines = Lines(problem)
    for block, proof in enumerate(proofs, 1):
        judge(lines, proof, f"# block {block} refused", StarItems)
        yield f"# block {block} {accepted(problem, proof, granted(proof))}"


main = answering(report, "star.py STATEMENT PROOF")

if __name__ == "__main__":
    script(main)
