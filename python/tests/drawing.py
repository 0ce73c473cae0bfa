"""Random statements, and what holds in them: words and sums, maps between objects, rows over assumptions, and what rows add up to."""
from __future__ import annotations

from random import Random
from typing import Dict, List, Mapping, Sequence, Tuple, TypeVar

from opprove.checkers.check import Certificate, Poly, Problem, Row, Share, Signature, Word, add
from opprove.translations.chain import Writer

Letter = TypeVar("Letter")
Object = TypeVar("Object")


def word(draw: Random, letters: Sequence[str], most: int, least: int = 1) -> str:
    """So many letters, each of which may follow each."""
    return " ".join(draw.choice(letters) for _ in range(draw.randint(least, most)))


def path(draw: Random, ends: Mapping[Letter, Tuple[Object, Object]], source: Object, target: Object, least: int = 0) -> Tuple[Letter, ...]:
    """Letters by their ends that lead from one object to another, the last one first, as a product is written."""
    found: Tuple[Letter, ...] = ()
    while len(found) < least or target != source or draw.random() < 0.3:
        found += (draw.choice([letter for letter, pair in ends.items() if pair[1] == target]),)
        target = ends[found[-1]][0]
    return found


def maps(draw: Random, names: Sequence[str], objects: Sequence[str]) -> Dict[str, Tuple[str, str]]:
    """Maps with ends, the first of which go around through all objects, so that there is a path from each to each."""
    circle = zip(objects, [*objects[1:], objects[0]])
    return {name: next(circle, (draw.choice(objects), draw.choice(objects))) for name in names}


def declared(objects: Sequence[str], ends: Mapping[str, Tuple[str, str]]) -> List[str]:
    """The lines of a statement that declare them."""
    return [f"object {' '.join(objects)}", *(f"map {name} : {' -> '.join(pair)}" for name, pair in ends.items())]


class Rows:
    """Rows over the generators of a problem, lemmas of these, and what they add up to. A lemma is typed, and may have a scale; or its rows
    have any ends."""

    def __init__(self, draw: Random, problem: Problem) -> None:
        self.draw, self.problem, self.generators = draw, problem, problem.generators()
        letters = [letter for letter, star in enumerate(problem.stars) if problem.is_starred or star >= letter]
        self.ends = {letter: problem.ends[letter] for letter in letters}
        self.numbers = [number for number, poly in enumerate(self.generators, 1) if poly]
        self.objects = sorted({end for pair in self.ends.values() for end in pair})
        self.lemmas: List[Tuple[Poly, Share, Signature]] = []  # the ends of one that isn't typed are (-1, -1)

    def pair(self) -> Signature:
        """Two objects."""
        return self.draw.choice(self.objects), self.draw.choice(self.objects)

    def path(self, source: int, target: int, least: int = 0) -> Word:
        return path(self.draw, self.ends, source, target, least)

    def middle(self, row: Row) -> Poly:
        """What a row is over."""
        return self.lemmas[row.number - 1][0] if row.is_lemma else self.generators[row.number - 1]

    def total(self, rows: Sequence[Row]) -> Poly:
        total: Poly = {}
        for row in rows:
            add(total, row.coefficient, self.middle(row), row.left, row.right)
        return total

    def ends_of(self, word: Word) -> Signature:
        return self.problem.ends[word[-1]][0], self.problem.ends[word[0]][1]

    def row(self, factor: int, ends: Signature, number: int = 0) -> Row:
        """A row with these ends, over the generator with this number if there is one. Where they are (-1, -1) it need be no path."""
        draw = self.draw
        lemmas = [place for place, lemma in enumerate(self.lemmas, 1) if lemma[2][0] >= 0]
        is_lemma = not number and bool(lemmas) and draw.random() < 0.6
        number = number or draw.choice(lemmas if is_lemma else self.numbers)
        inner = self.lemmas[number - 1][2] if is_lemma else self.ends_of(next(iter(self.generators[number - 1])))
        if ends[0] < 0:
            ends, inner = self.pair(), draw.choice([inner, self.pair()])
        left, right = self.path(inner[1], ends[1]), self.path(ends[0], inner[0])
        return Row(factor * draw.choice([-3, -1, 1, 1, 2]), left, is_lemma, number, right)

    def share(self, ends: Signature) -> Share:
        """Rows with these ends, and a scale by which they can be divided."""
        scale = self.draw.choice([1, 1, 1, 2, 3]) if ends[0] >= 0 else 1
        return Share(scale, [self.row(scale, ends) for _ in range(self.draw.randrange(1, 6))])

    def untyped(self, ends: Signature) -> List[Row]:
        """A row over a lemma that isn't typed, and rows that take off what has other ends."""
        choices = [number for number, lemma in enumerate(self.lemmas, 1) if lemma[2][0] < 0]
        if not choices:
            return []
        number, (source, target) = self.draw.choice(choices), self.pair()
        left, right = self.path(target, ends[1]), self.path(ends[0], source)
        rows = [Row(6, left, True, number, right)]
        for row in self.lemmas[number - 1][1].rows:
            whole = row._replace(coefficient=-6 * row.coefficient, left=left + row.left, right=row.right + right)
            text = next(iter(add({}, 1, self.middle(row), whole.left, whole.right)), ())
            if self.problem.signature(text) != ends:
                rows.append(whole)
        return rows

    def claim(self, rows: Sequence[Row], scale: int, ends: Signature) -> str:
        """The text of the claim that rows with these ends add up to, with a part of the terms on each side."""
        terms = self.total(rows)
        left = {word: value // scale for word, value in terms.items() if self.draw.random() < 0.6}
        right = {word: -value // scale for word, value in terms.items() if word not in left}
        writer, zero = Writer(self.problem.names, " "), f"0 {self.problem.text(self.path(*ends, 1))}"
        return f"{writer.sum(left, ends) if left else zero} = {writer.sum(right, ends)}"

    def certificate(self, claim: int = 1) -> Tuple[str, Certificate]:
        """The text of the claim with this number, and the certificate."""
        draw, self.lemmas = self.draw, []
        for _ in range(draw.randrange(5)):
            ends = (-1, -1) if draw.random() < 0.3 else self.pair()
            share = self.share(ends)
            self.lemmas.append(({word: value // share.scale for word, value in self.total(share.rows).items()}, share, ends))
        ends = self.pair()
        goal = self.share(ends)
        rows = goal.rows + (self.untyped(ends) if draw.random() < 0.7 else [])
        draw.shuffle(rows)
        return self.claim(rows, goal.scale, ends), Certificate(claim, 12, [*(lemma[1] for lemma in self.lemmas), Share(goal.scale, rows)])
