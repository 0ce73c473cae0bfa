"""Formulas for maps by the others

For each MAP it looks for an equation `MAP = formula` that follows from the assumptions, in which none of the named maps stands
on the right, and with --by no maps but those. The claims of the statement are left out. Orders in which the named maps are above
all others are tried in turn, and sums of short words; the shortest formula is printed, with the statement that claims it and a
certificate that `check` accepts for that statement; FOLDER gets both as files. Where the rules of such an order are closed and leave
the map as it is, there is no such equation, and the line says so.

Statuses: 0 where each map has a formula, 12 where one has none that was found.
"""
from __future__ import annotations

import argparse
from fractions import Fraction
from math import gcd
from pathlib import Path
from typing import Dict, Iterator, List, NamedTuple, Sequence, Set

from opprove import program as programs
from opprove.checkers.check import Problem
from opprove.search.engine import Alphabet, Basis, Bounds, Ledger, Poly, add, now, started
from opprove.search.findings import Answer, Finding, answered, is_accepted, keep, lines_of, marks_of, names, text_of, with_claims, words_of
from opprove.search.proofs import Proof, Writer, poly_text, proof_of
from opprove.search.running import Program, Progress, Unusable
from opprove.search.spans import Span

ABOVE, STAGES = 500, (200, 800, 3200)  # the weight of a map that is eliminated; pairs
MOST_LENGTH, MOST_WORDS = 5, 20000  # of words that are added up


class Formula(NamedTuple):
    """A multiple of a map, as a polynomial that has none of the maps that are to be expressed, with its proof."""

    multiple: int
    text: str
    size: int
    proof: Proof


class Express:
    """A search for formulas."""

    def __init__(self, problem: Problem, names: Sequence[str], by: Sequence[str], until: float, progress: Progress) -> None:
        self.problem, self.until, self.progress = problem, until, progress
        self.wanted = [self.letter(name) for name in names]
        kept = {self.letter(name) for name in by}
        maps = [letter for letter, name in enumerate(problem.names) if name[0] != "["]
        own = {letter for letter in maps if min(letter, problem.stars[letter]) not in kept} if by else set()
        self.above: Set[int] = own | {one for letter in self.wanted for one in (letter, problem.stars[letter])}
        self.found: Dict[int, Formula] = {}
        self.is_none: Set[int] = set()  # maps of which closed rules show that there is no formula

    def letter(self, name: str) -> int:
        if name not in self.problem.numbers or name[0] == "[":
            raise Unusable(f"# no map {name}")
        return self.problem.numbers[name]

    def alphabets(self) -> Iterator[Alphabet]:
        """Orders that eliminate: as the file has its maps, from the last to the first, and adjoints above maps."""
        letters = [letter for letter, name in enumerate(self.problem.names) if name[0] != "["]
        weights = {letter: ABOVE for letter in self.above}
        yield Alphabet(self.problem, [], weights)
        yield Alphabet(self.problem, letters[::-1], weights)
        adjoints = {letter: 2 for letter in letters if self.problem.stars[letter] < letter}
        yield Alphabet(self.problem, [], {**adjoints, **weights})

    def run(self) -> None:
        for alphabet in self.alphabets():
            basis = started(Ledger(alphabet))
            for pairs in STAGES:
                self.progress.tell(f"{len(self.found)} of {len(self.wanted)} formulas found, now {pairs} pairs of {len(self.above)} letters above")
                is_closed = basis.complete(Bounds(pairs, self.until))
                for letter in self.wanted:
                    self.look(basis, letter)
                    if is_closed and letter not in self.found:
                        self.is_none.add(letter)
                is_done = all(letter in self.found or letter in self.is_none for letter in self.wanted)
                if is_closed or is_done or now() > self.until:
                    break
            if now() > self.until or self.is_none:
                break

        if now() < self.until and not self.is_none:
            self.combine()

    def combine(self) -> None:
        """Looks for sums of short words of the other maps with the normal form of a map."""
        alphabet = Alphabet(self.problem)
        basis = started(Ledger(alphabet))
        basis.complete(Bounds(STAGES[2], self.until))
        letters = [alphabet.characters[letter] for letter in range(len(self.problem.names)) if letter not in self.above]
        for letter in self.wanted:
            character = alphabet.characters[letter]
            traced = basis.reduce({character: 1}, False)
            span: Span[str] = Span()
            for word in self.short_words(alphabet, letters, letter):
                form = basis.reduce({word: 1}, False)
                if span.add(word, {one: Fraction(value, form.multiple) for one, value in form.rest.items()}):
                    taken = span.combination({one: Fraction(value, traced.multiple) for one, value in traced.rest.items()})
                    if taken is not None:
                        self.keep_sum(basis, letter, taken)
                        break

    def short_words(self, alphabet: Alphabet, letters: List[str], letter: int) -> Iterator[str]:
        """Words with the ends of the map, short ones first."""
        for number, word in enumerate(alphabet.words(letters, MOST_LENGTH)):
            if number > MOST_WORDS or now() > self.until:
                return
            if alphabet.ends(word) == self.problem.ends[letter]:
                yield word

    def keep_sum(self, basis: Basis, letter: int, taken: Dict[str, Fraction]) -> None:
        multiple = 1
        for value in taken.values():
            multiple *= value.denominator // gcd(multiple, value.denominator)
        rest = {word: int(value * multiple) for word, value in taken.items()}
        self.keep(basis, letter, multiple, rest, {basis.alphabet.characters[one] for one in self.above})

    def look(self, basis: Basis, letter: int) -> None:
        """Keeps the normal form of a map, and what rules made of it before, where that is a shorter formula."""
        alphabet, character = basis.alphabet, basis.alphabet.characters[letter]
        above = {alphabet.characters[one] for one in self.above}
        places = [rule.place for rule in basis.rules if rule.lead == character]
        traced = basis.reduce({character: 1})
        self.keep(basis, letter, traced.multiple, traced.rest, above)
        for place in places:
            poly = basis.ledger.polys[place]
            rest = {word: -value for word, value in poly.items() if word != character}
            self.keep(basis, letter, poly[character], rest, above)

    def keep(self, basis: Basis, letter: int, multiple: int, rest: Poly, above: Set[str]) -> None:
        alphabet = basis.alphabet
        if any(character in above for word in rest for character in word):
            return
        size = sum(len(word) + 1 for word in rest) + 1000 * (multiple != 1)
        if letter in self.found and self.found[letter].size <= size:
            return
        claim = add({alphabet.characters[letter]: multiple}, -1, rest)
        traced = basis.reduce(claim)
        if not traced.rest:
            self.found[letter] = Formula(multiple, poly_text(alphabet, rest), size, proof_of(basis.ledger, 1, traced))


def options_of(words: List[str]) -> argparse.Namespace:
    made = words_of("express", __doc__, 20)
    made.add_argument("maps", nargs="+", metavar="MAP", help="a map, or an adjoint")
    made.add_argument("--by", type=names, default=[], metavar="MAP,..", help="the maps that formulas may have")
    return made.parse_args(words)


def answer(words: List[str], folder: Path) -> Answer:
    options = options_of(words)
    text = text_of_checked(options.statement)
    problem = Problem(options.statement)
    program = Program(Path(programs.path()))
    marks = marks_of(problem, text)
    first = options.maps[0]
    stripped = Problem(with_claims(text, [f"0 {first} = 0"], marks).encode()) if first in problem.numbers else problem
    progress = Progress("express")
    search = Express(stripped, options.maps, options.by, now() + options.seconds, progress)
    search.run()
    progress.clear()
    lines: List[str] = []
    for name, letter in zip(options.maps, search.wanted):
        formula = search.found.get(letter)
        found = finding_of(name, formula, text, marks) if formula else None
        if found and is_accepted(program, folder, found.statement, found.block):
            keep(options.keep, found)
            lines += lines_of(found)
        else:
            why = "no formula: the rules are closed, and leave it" if letter in search.is_none else "no formula was found"
            lines.append(f"# {name}: {why}")
    return lines, 0 if len(search.found) == len(search.wanted) else 12


def text_of_checked(path: str) -> str:
    Problem(path)  # raises what is wrong with it
    return text_of(path)


def finding_of(name: str, formula: Formula, text: str, marks: List[str]) -> Finding:
    left = name if formula.multiple == 1 else f"{formula.multiple} {name}"
    claim = f"{left} = {formula.text}"
    statement = with_claims(text, [claim], marks)
    return Finding(claim, Writer(formula.proof).block(), statement, f"express_{name}")


def main(words: List[str]) -> int:
    return answered("express", answer, words)
