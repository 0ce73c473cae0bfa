"""Tries opprove.text: trees of expressions and what they are written as, places, comments, and blocks of evidence."""
from __future__ import annotations

import unittest
from typing import List, Tuple

from opprove.checkers.check import Poly, Problem, add
from opprove.text import EvidenceText, Expression, Place, Refusal, StatementText, spelled, walk
from trying import EXAMPLES, TOP

HEAD = "language 2\nobject U V\nmap a : U -> V  # to and\nmap x : V -> U\nmap p : V -> V self\n"
# Expressions from V to V, how they are written back, and the kinds of the nodes, each before its parts.
WRITTEN: List[Tuple[str, str, str]] = [
    ("a x", "a x", "product map map"),
    ("+ a   x", "a x", "product map map"),
    ("(a x)", "a x", "product map map"),
    ("- a x + p", "-a x + p", "sum negative product map map map"),
    ("p - (p - a x)", "p - (p - a x)", "sum map negative sum map negative product map map"),
    ("p - (-p)", "p - (-p)", "sum map negative negative map"),
    ("2 (a x)", "2 a x", "scaled product map map"),
    ("p (2 p)", "p (2 p)", "product map scaled map"),
    ("2 (3 p)", "2 (3 p)", "scaled scaled map"),
    ("(a x)'", "(a x)'", "adjoint product map map"),
    ("p'^2'", "p'^2'", "adjoint power adjoint map"),
    ("(p + [V])^2 - 0", "(p + [V])^2 - 0", "sum power sum map identity negative zero"),
    ("a (x a) x", "a (x a) x", "product map product map map map"),
    ("0 p", "0 p", "scaled map"),
]


class Trees(unittest.TestCase):
    def test_written(self) -> None:
        for text, want, kinds in WRITTEN:
            with self.subTest(text=text):
                claim = StatementText(f"{HEAD}claim {text} = p\n".encode()).claims[0]
                self.assertEqual(spelled(claim.left), want)
                self.assertEqual(" ".join(node.kind for node in walk(claim.left)), kinds)
                self.assertEqual(claim.left.ends, ("V", "V"))

    def test_meaning(self) -> None:
        """What is written back has the same polynomial, on all statements of the repository."""
        count = 0
        for path in sorted([*EXAMPLES.glob("**/*.op"), *(TOP / "library").glob("**/*.op")]):
            text = StatementText.read(str(path))
            head = "".join(line.text.split("#")[0] + "\n" for line in text.lines if line.word in ("language", "object", "map"))
            for one in text.assumptions + text.claims:
                again = Problem(f"{head}claim {one.left} = {one.right}\n".encode())
                self.assertEqual(again.claims[0], one.poly, (path, one.text))
                self.assertEqual(self.value(text, one.left), self.value(StatementText(f"{head}claim {one.left} = 0\n".encode()), one.left))
                count += 1
        self.assertGreater(count, 300)

    def value(self, text: StatementText, expression: Expression) -> Poly:
        """The polynomial of an expression, added up from its tree."""
        problem, parts = text.problem, [self.value(text, part) for part in expression.parts]
        total: Poly = {}
        if expression.kind in ("map", "identity"):
            name = expression.name if expression.kind == "map" else f"[{expression.name}]"
            return {(problem.numbers[name],): 1}
        if expression.kind == "sum":
            for part in parts:
                add(total, 1, part)
        elif expression.kind in ("negative", "scaled"):
            add(total, -1 if expression.kind == "negative" else expression.number, parts[0])
        elif expression.kind in ("product", "power"):
            factors = parts * (expression.number if expression.kind == "power" else 1)
            total = factors[0]
            for factor in factors[1:]:
                total, before = {}, total
                for word, coefficient in before.items():
                    add(total, coefficient, factor, left=word)
        elif expression.kind == "adjoint":
            total = problem.star(parts[0])
        return total

    def test_places(self) -> None:
        text = StatementText(b"object U\n# a line\n  map a b : U -> U self\nassume a (b - a) = 0  # why\npinv a b\nclaim a = b\n")
        assumed = text.assumptions[0]
        self.assertEqual((assumed.text, assumed.place, assumed.word), ("a (b - a) = 0", Place(4, 8), "assume"))
        self.assertEqual([node.place for node in walk(assumed.left)], [(4, 8), (4, 8), (4, 11), (4, 11), (4, 13), (4, 15)])
        self.assertEqual([one.text for one in text.assumptions[1:]], ["a b a = a", "b a b = b", "(a b)' = a b", "(b a)' = b a"])
        self.assertEqual({one.place for one in text.assumptions[1:]}, {Place(5, 1)})
        self.assertEqual([line.comment for line in text.lines], ["", "# a line", "", "# why", "", "", ""])
        self.assertEqual((text.maps["b"].source, text.maps["b"].is_self, text.maps["b"].place), ("U", True, Place(3, 9)))
        self.assertEqual((text.language, text.objects, [one.text for one in text.claims]), (1, ["U"], ["a = b"]))

    def test_faults(self) -> None:
        for data, line in ((b"object U\nclaim a = 0\n", "# refused S6 line 2 column 7"), (b"object U\n", "# refused S15"), (b"\xff", "# refused S1 byte 0")):
            with self.assertRaises(Refusal) as raised:
                StatementText(data)
            self.assertEqual(str(raised.exception), line)
        with self.assertRaises(Refusal) as raised:
            StatementText.read(str(TOP / "none"))
        self.assertEqual(str(raised.exception), f"# load failed {TOP / 'none'}")


class Evidence(unittest.TestCase):
    def test_blocks(self) -> None:
        report = "# claim 1 proved denominator 1 rows 0\ncertificate 1\nclaim 1\ndenominator 1\nend\n# claim 2 not derivable rules 1\n"
        report += "basis 1\nclaim 2\nrule a b\n\nrest a\nend\n# claim 3 undecided pairs 5\n"
        text = EvidenceText(report.encode())
        self.assertEqual(text.kinds, ["certificate", "basis"])
        self.assertEqual([(block.kind, block.claim, block.line) for block in text.blocks], [("certificate", 1, 2), ("basis", 2, 7)])
        self.assertEqual(text.blocks[1].text, "basis 1\nclaim 2\nrule a b\n\nrest a\nend\n")
        heads = [(1, "proved", "denominator 1 rows 0", 1), (2, "not derivable", "rules 1", 6), (3, "undecided", "pairs 5", 13)]
        self.assertEqual([tuple(head) for head in text.heads], heads)

    def test_faulty(self) -> None:
        """Any bytes are read; what is wrong with them is for the checkers to say."""
        self.assertEqual([(block.kind, block.claim) for block in EvidenceText(b"certificate 1\r\nclaim x\r\n\xff").blocks], [("certificate", 0)])
        self.assertEqual(EvidenceText(b"").blocks, [])
