"""Random small statements in which something is hidden: a step that cancels, a solution, assumptions that aren't needed.

It has to be found, and what is found has to be accepted. PLANTED says how many of each kind are drawn (10).
"""
from __future__ import annotations

import os
import random
import re
from pathlib import Path
from typing import List

from opprove.checkers.check import Problem
from opprove.search import engine, exists, needed
from opprove.search.chase import Letters, first_of
from opprove.search.findings import is_accepted
from opprove.search.proofs import Writer, takes
from opprove.search.running import Program
from searching import PROGRAM, Answer, Asking, accepted, own_statement

COUNT = int(os.environ.get("PLANTED", "10"))


class Draws(random.Random):
    """Words and sums over maps of one object."""

    def word(self, letters: str, most: int = 3) -> str:
        return " ".join(self.choice(letters) for _ in range(self.randint(1, most)))

    def sum(self, letters: str, terms: int = 2) -> str:
        count = self.randint(1, terms)
        return " ".join(f"{self.choice('+-')} {self.choice(['', '', '2 '])}{self.word(letters)}" for _ in range(count)).lstrip("+ ")


def shuffled(draws: random.Random, lines: List[str]) -> str:
    draws.shuffle(lines)
    return "".join(f"assume {line}\n" for line in lines)


class Planted(Asking):
    def setUp(self) -> None:
        super().setUp()
        self.program = Program(Path(PROGRAM))

    def test_cancellations(self) -> None:
        """u = v by way of m u n = m v n, in one or two steps, where m is monic and n epic."""
        for seed in range(COUNT):
            draws = Draws(seed)
            left, right = draws.sum("abc"), draws.sum("abc")
            monic, epic = draws.choice(["m", "", "m k"]), draws.choice(["n", ""])
            monic = monic or ("" if epic else "m")
            lines = [f"{monic} ({left}) {epic} = s", f"{monic} ({right}) {epic} = s + t", "a t = 0", "t = 0" if seed % 2 else "t = 0 s"]
            text = "object V\nmap a b c m k n s t : V -> V\n" + shuffled(draws, lines) + f"claim {left} = {right}\n"
            with self.subTest(seed=seed, text=text):
                problem = Problem(text.encode())
                named = [frozenset(problem.numbers[name] for name in names.split()) for names in (monic, epic)]
                found = first_of(problem, [1], Letters(named[0], named[1]), engine.now() + 20).get(1)
                assert found is not None
                sides = re.findall("(monic|epic) ([a-z ]+?)(?= epic|$)", takes(found))
                taken = {side: set(names.split()) for side, names in sides}
                self.assertLessEqual(taken.get("monic", set()), set(monic.split()))
                self.assertLessEqual(taken.get("epic", set()), set(epic.split()))
                self.assertTrue(is_accepted(self.program, self.folder, text, Writer(found).block()))

    def answer(self, made: "object", text: str, *words: str) -> Answer:
        lines, status = made([str(self.file(text)), *words], self.folder)  # type: ignore[operator]
        return Answer(status, "\n".join(lines) + "\n", "")

    def test_solutions(self) -> None:
        """u = v k in other words: what u is said to be is v k by the assumptions."""
        for seed in range(COUNT):
            draws = Draws(seed)
            factor, solution = draws.sum("ab"), draws.sum("cd")
            if not Problem(f"object V\nmap a b : V -> V\nclaim {factor} = 0\n".encode()).claims[0]:
                factor = "a"  # what was drawn is zero
            lines = [f"u = ({factor}) e + p", f"e = {solution}", "p = q - q"]
            side = "--left"
            if seed % 2:
                lines[0], side = f"u = e ({factor}) + p", "--right"
            text = "object V\nmap a b c d e p q u : V -> V\n" + shuffled(draws, lines) + "claim u = 0\n"
            with self.subTest(seed=seed, text=text):
                answer = self.answer(exists.answer, text, side, factor)
                self.assertEqual(answer.status, 0, answer.out)
                statement = own_statement(answer)
                self.assertIn("claim (u) = ", statement)
                self.assertTrue(accepted(statement, answer.blocks[0]), answer.out)

    def test_needed(self) -> None:
        """A chain of equations from x to z is the least set, among others that say nothing of it."""
        for seed in range(COUNT):
            draws = Draws(seed)
            middle, last = draws.word("abc"), draws.word("abc")
            chain = [f"x = {middle} y", f"y = {last}", f"z = {middle} {last}"]
            others = [f"d {draws.word('abcd')} = {draws.word('abcd')} d" for _ in range(draws.randint(1, 4))]
            text = "object V\nmap a b c d x y z : V -> V\n" + shuffled(draws, chain + others) + "claim x = z\n"
            with self.subTest(seed=seed, text=text):
                answer = self.answer(needed.answer, text, "--seconds", "60", "--jobs", "1", "--pairs", "300")
                sets = re.findall("^# follows from (.*)$", answer.out, re.MULTILINE)
                self.assertIn(sorted(f"`assume {line}`" for line in chain), [sorted(one.split(", ")) for one in sets])
                for block in answer.blocks:
                    self.assertTrue(accepted(text, block), block)
