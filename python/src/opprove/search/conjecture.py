"""Equations between short words that follow from the assumptions

Lists equations `word = word` and `word = 0` between words of at most N letters (4) with the same ends, of which each follows from the
assumptions and none follows from those before it. The claims of the statement are left out. Behind an equation that is itself an
assumption or its adjoint stands `# given`. It is for exploring: the list has what rules found within the time, and more
may follow. FOLDER gets `conjecture.op`, which claims the equations that aren't given, 100 at most, to be asked of `prove`.

Status 0.
"""
from __future__ import annotations

import argparse
from pathlib import Path
from typing import Dict, FrozenSet, Iterator, List, NamedTuple, Set, Tuple

from opprove import second_check
from opprove.checkers.check import Problem
from opprove.search.engine import Alphabet, Basis, Bounds, Ledger, Poly, Sum, add, now, started
from opprove.search.findings import Answer, answered, marks_of, positive, text_of, with_claims, words_of
from opprove.search.proofs import Writer, proof_of

PAIRS, MOST_CLAIMS = 20000, 100


class Equation(NamedTuple):
    poly: Poly  # the left word less the right one
    text: str
    is_given: bool


class Conjecture:
    """A search for equations between words."""

    def __init__(self, problem: Problem, length: int, until: float) -> None:
        self.problem, self.length, self.until = problem, length, until
        self.alphabet = Alphabet(problem)
        ledger = Ledger(self.alphabet)
        self.given: Set[FrozenSet[Tuple[str, int]]] = set()
        for poly in ledger.polys:
            self.given |= {frozenset(poly.items()), frozenset(add({}, -1, poly).items())}
        self.basis = started(ledger)
        self.basis.complete(Bounds(PAIRS, now() + (until - now()) / 2))
        self.listed = Basis(Ledger(self.alphabet))  # of the equations that are listed, and of what identities do

    def candidates(self) -> Iterator[Tuple[str, str]]:
        """Words, each with the least word that it is equal to, or with nothing where it is zero."""
        letters = [character for character, letter in self.alphabet.letters.items() if self.is_in_play(letter)]
        known: Dict[Tuple[object, FrozenSet[Tuple[str, int]]], str] = {}
        words = sorted(self.alphabet.words(letters, self.length), key=lambda word: self.alphabet.rank(word), reverse=True)
        for word in words:
            if now() > self.until:
                return
            form = self.basis.reduce({word: 1}, False)
            if form.multiple != 1:
                continue
            if not form.rest:
                yield word, ""
                continue
            key = (self.alphabet.ends(word), frozenset(form.rest.items()))
            if key in known:
                yield word, known[key]
            else:
                known[key] = word

    def is_in_play(self, letter: int) -> bool:
        name = self.problem.names[letter]
        return letter in self.problem.marked if name[0] == "[" else self.problem.is_starred or letter <= self.problem.stars[letter]

    def run(self) -> Iterator[Equation]:
        for place in self.listed.ledger.units.values():
            self.listed.admit(place)
        for left, right in self.candidates():
            poly = {left: 1, right: -1} if right else {left: 1}
            is_unit = any(word[0] in self.alphabet.units or word[-1] in self.alphabet.units for word in poly if len(word) > 1)
            if is_unit or self.listed.is_zero(poly):
                continue
            self.list(poly)
            yield Equation(poly, f"{self.word(left)} = {self.word(right) if right else '0'}", frozenset(poly.items()) in self.given)

    def list(self, poly: Poly) -> None:
        """Has the equation, and its adjoint, give others."""
        polys = [poly] + ([self.alphabet.star(poly)] if self.problem.is_starred else [])
        for one in polys:
            self.listed.admit(self.listed.ledger.enter(one, Sum(1, [])))
        self.listed.complete(Bounds(self.listed.pairs + 200, self.until))

    def word(self, word: str) -> str:
        return self.problem.text(self.alphabet.letters_of(word))


def options_of(words: List[str]) -> argparse.Namespace:
    made = words_of("conjecture", __doc__, 20)
    made.add_argument("--length", type=positive, default=4, metavar="N", help="letters of a word at most (4)")
    return made.parse_args(words)


def answer(words: List[str], folder: Path) -> Answer:
    options = options_of(words)
    problem = Problem(options.statement)
    text = text_of(options.statement)
    marks = marks_of(problem, text)
    names = [name for name in problem.names if name[0] != "["]
    bare = Problem(with_claims(text, [f"0 {(names or problem.names)[0]} = 0"], marks).encode())
    search = Conjecture(bare, options.length, now() + options.seconds)
    lines = []
    for equation in search.run():
        if equation.is_given or is_proved(search, text, marks, equation):
            lines.append(equation.text + "  # given" * equation.is_given)
    claims = [line for line in lines if not line.endswith("# given")][:MOST_CLAIMS]
    if options.keep and claims:
        Path(options.keep).mkdir(parents=True, exist_ok=True)
        Path(options.keep, "conjecture.op").write_bytes(with_claims(text, claims, marks).encode("utf-8", "surrogateescape"))
    return lines, 0


def is_proved(search: Conjecture, text: str, marks: List[str], equation: Equation) -> bool:
    """Whether the certificate of an equation is accepted by the second checker."""
    proof = proof_of(search.basis.ledger, 1, search.basis.reduce(equation.poly))
    statement = with_claims(text, [equation.text], marks).encode("utf-8", "surrogateescape")
    return second_check.is_accepted(statement, ("\n".join(Writer(proof).block()) + "\n").encode())


def main(words: List[str]) -> int:
    return answered("conjecture", answer, words)
