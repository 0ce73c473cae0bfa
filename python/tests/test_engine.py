"""The completion of the searches: each member of a ledger is what its rows add up to, and is told from what isn't in the ideal."""
from __future__ import annotations

import random
import unittest
from fractions import Fraction
from typing import Dict

from opprove.checkers.check import Problem
from opprove.search import rationals, spans, squares
from opprove.search.engine import Alphabet, Bounds, Generator, Ledger, Poly, Sum, add, started
from trying import GALLERY

# The group with a a = b b = 1 and (a b)^3 = 1 has the normal forms 1, a, b, a b, b a and a b a.
GROUP = b"object V\nmap a b : V -> V\nassume a a = [V]\nassume b b = [V]\nassume a b a b a b = [V]\nclaim a b a = b a b\nclaim a b = b a\n"




class Engine(unittest.TestCase):
    def test_rows(self) -> None:
        for path in GALLERY.values():
            alphabet = Alphabet(Problem(str(path)))
            ledger = Ledger(alphabet)
            basis = started(ledger)
            basis.complete(Bounds(200))
            generators = alphabet.problem.generators()
            for poly, origin in zip(ledger.polys, ledger.origins):
                with self.subTest(path=path.name):
                    total: Poly = {}
                    if isinstance(origin, Generator):
                        total = alphabet.coded(generators[origin.number - 1])
                    elif isinstance(origin, Sum):
                        for row in origin.rows:
                            add(total, row.coefficient, ledger.polys[row.place], row.left, row.right)
                        poly = add({}, origin.scale, poly)
                    self.assertEqual(total, poly)

    def test_group(self) -> None:
        problem = Problem(GROUP)
        alphabet = Alphabet(problem)
        basis = started(Ledger(alphabet))
        self.assertTrue(basis.complete(Bounds(1000)))
        self.assertEqual([basis.is_zero(alphabet.coded(claim)) for claim in problem.claims], [True, False])
        letters = [alphabet.characters[problem.numbers[name]] for name in "ab"]
        forms = {frozenset(basis.reduce({word: 1}, False).rest.items()) for word in alphabet.words(letters, 6)}
        self.assertEqual(len(forms), 6)

    def test_elimination(self) -> None:
        """With x above all words without it, x = a b b leaves none of it."""
        problem = Problem(b"object V\nmap x a b : V -> V\nassume x = a b b\nassume a b = b\nclaim x = a\n")
        alphabet = Alphabet(problem, [], {problem.numbers["x"]: 100})
        basis = started(Ledger(alphabet))
        basis.complete(Bounds(100))
        rest = basis.reduce({alphabet.characters[problem.numbers["x"]]: 1}).rest
        self.assertEqual(alphabet.decoded(rest), {(problem.numbers["b"],) * 2: 1})


class Squares(unittest.TestCase):
    def parts(self, text: str) -> "list[tuple[int, dict[str, int]]] | None":
        problem = Problem(f"object V\nmap a b : V -> V\nclaim {text} = 0\n".encode())
        alphabet = Alphabet(problem)
        found = squares.parts_of(alphabet, alphabet.coded(problem.claims[0]), True)
        if found is None:
            return None
        self.assertEqual(squares.total(alphabet, found[1], True), add({}, found[0], alphabet.coded(problem.claims[0])))
        return [(scale, {problem.text(word): value for word, value in alphabet.decoded(poly).items()}) for scale, poly in found[1]]

    def test_sums(self) -> None:
        self.assertEqual(self.parts("a' a + b' b"), [(1, {"b": 1}), (1, {"a": 1})])
        self.assertEqual(self.parts("(a + 2 b)' (a + 2 b)"), [(1, {"b": 2, "a": 1})])
        self.assertEqual(self.parts("0 - a' a"), [(1, {"a": 1})])
        self.assertIsNotNone(self.parts("2 a' a + a' b + b' a + 2 b' b"))

    def test_no_sums(self) -> None:
        for text in ("a' a - b' b", "a' b + b' a", "a' a + a' b", "a' a + a' b + b' a", "a a", "a' a a"):
            self.assertIsNone(self.parts(text), text)


class Linear(unittest.TestCase):
    def test_spans(self) -> None:
        span: "spans.Span[str]" = spans.Span()
        vectors: Dict[str, Dict[str, Fraction]] = {
            "u": {"x": Fraction(2), "y": Fraction(1)}, "v": {"y": Fraction(3)}, "w": {"x": Fraction(4), "y": Fraction(8)},
        }  # fmt: skip
        self.assertEqual([span.add(name, vector) for name, vector in vectors.items()], [True, True, False])
        self.assertEqual(span.combination(vectors["w"]), {"u": 2, "v": 2})
        self.assertIsNone(span.combination({"z": Fraction(1)}))

    def test_pseudoinverses(self) -> None:
        draws = random.Random(1)
        for _ in range(50):
            matrix = rationals.thin(draws, draws.randint(1, 4), draws.randint(1, 4))
            inverse = rationals.pseudoinverse(matrix)
            left, right = rationals.product(matrix, inverse), rationals.product(inverse, matrix)
            self.assertEqual(rationals.product(left, matrix), matrix)
            self.assertEqual(rationals.product(right, inverse), inverse)
            self.assertEqual([left, right], [rationals.transpose(left), rationals.transpose(right)])

    def test_solutions(self) -> None:
        draws = random.Random(2)
        self.assertEqual(rationals.solve([[1, 1, 3], [1, -1, 1]], 2, draws), [2, 1])
        self.assertIsNone(rationals.solve([[1, 1, 3], [2, 2, 5]], 2, draws))
        x, y = rationals.solve([[1, 2, 3]], 2, draws) or []
        self.assertEqual(x + 2 * y, 3)
