"""Composes evidence by way of lemmas: join STATEMENT PIECE EVIDENCE [PIECE EVIDENCE ..]

A piece is a statement about maps of STATEMENT, with evidence of its claims. What its rows use has to be a generator of
STATEMENT, a claim of an earlier block or piece, or the adjoint of such a claim where STATEMENT is starred, or a multiple
of one of these, as the negative is. They are found by their polynomials, so a piece may leave assumptions out, and have
others numbers, another order and other letters than STATEMENT. For each claim of STATEMENT that some piece has, one
certificate of format 2 over the generators of STATEMENT is printed, with its head line.

As the translations do, it writes what `check` would refuse for its sum (C6): whether the whole adds up is for `check` to
say. For every other fault it prints a line on standard error.
"""
from __future__ import annotations

from functools import reduce
from math import gcd
from typing import Dict, FrozenSet, List, NamedTuple, Optional, Tuple

from opprove.translations import translation
from opprove.checkers.check import Certificate, Poly, Problem, Refusal, Row, Share, Word, loaded
from opprove.tool import ended, parser

Shape = FrozenSet[Tuple[Word, int]]  # a polynomial without its content, as a key


class Piece(NamedTuple):
    """Evidence for another statement."""

    problem: Problem
    certificates: List[Certificate]
    names: Dict[str, str]  # what letters of it are called in the whole, where that is another name


class Known(NamedTuple):
    """A generator or a lemma: its number and the content of its polynomial."""

    is_lemma: bool
    number: int
    content: int


def shape(poly: Poly) -> Tuple[Shape, int]:
    """The polynomial, which isn't zero, divided by its content, which has the sign of its greatest word."""
    greatest = max(poly, key=lambda word: (len(word), word))
    content = reduce(gcd, poly.values(), 0) * (-1 if poly[greatest] < 0 else 1)
    return frozenset((word, value // content) for word, value in poly.items()), content


class Join:
    """Lemmas over the generators of a problem, to which pieces are added."""

    def __init__(self, problem: Problem) -> None:
        self.problem = problem
        self.generators = problem.generators()
        self.shares: List[Share] = []  # lemma 1 comes first; behind each stands its adjoint, where there are adjoints
        self.known: Dict[Shape, List[Known]] = {}  # none of which is a multiple of one before it
        for number, poly in enumerate(self.generators, 1):
            self.learn(poly, False, number)

    def learn(self, poly: Poly, is_lemma: bool, number: int) -> None:
        """Keeps that the polynomial is zero, unless it is a multiple of one that is known to be."""
        if poly:
            key, content = shape(poly)
            others = self.known.setdefault(key, [])
            if all(content % other.content for other in others):
                others.append(Known(is_lemma, number, content))

    def found(self, poly: Poly) -> Optional[Row]:
        """A row with no words that is the polynomial. Where a multiple alone is known, a lemma divides it."""
        key, content = shape(poly)
        others = self.known.get(key)
        if not others:
            return None
        known = next((other for other in others if content % other.content == 0), others[0])
        divisor = gcd(content, known.content)
        scale = abs(known.content) // divisor
        row = Row(scale * content // known.content, (), known.is_lemma, known.number, ())
        if scale == 1:
            return row
        return Row(1, (), True, self.append(poly, Share(scale, [row])), ())

    def append(self, poly: Poly, share: Share) -> int:
        """Makes a lemma of rows that add up to a multiple of the polynomial, and one of their adjoints."""
        self.shares.append(share)
        number = len(self.shares)
        self.learn(poly, True, number)
        if self.problem.is_starred:
            self.shares.append(Share(share.scale, [self.adjoint(row) for row in share.rows]))
            self.learn(self.problem.star(poly), True, number + 1)
        return number

    def adjoint(self, row: Row) -> Row:
        left, right = (tuple(self.problem.stars[letter] for letter in word[::-1]) for word in (row.right, row.left))
        if row.is_lemma:
            number = row.number + 1 if row.number % 2 else row.number - 1
            return row._replace(left=left, number=number, right=right)
        found = self.found(self.problem.star(self.generators[row.number - 1]))
        assert found, "adjoints of generators are generators"
        return found._replace(coefficient=row.coefficient * found.coefficient, left=left, right=right)

    def add(self, piece: Piece) -> None:
        """Adds all certificates of the piece, as lemmas."""
        Joining(self, piece).add_all()

    def certificate(self, claim: int) -> Optional[Certificate]:
        """Evidence of the claim, where it is a generator or was proved by a piece."""
        poly = self.problem.claims[claim - 1]
        row = self.found(poly) if poly else None
        if poly and row is None:
            return None
        goal = Share(1, [row] if row else [])
        if row and row.is_lemma and row.coefficient == 1:
            goal = self.shares[row.number - 1]
        return renumbered(claim, self.shares, goal)


class Joining:
    """A piece, whose letters and generators are looked up in a join."""

    def __init__(self, join: Join, piece: Piece) -> None:
        self.join, self.piece = join, piece
        self.generators = piece.problem.generators()
        names = [piece.names.get(name, name) for name in piece.problem.names]
        self.letters = [join.problem.numbers.get(name) for name in names]
        self.rows: Dict[int, Optional[Row]] = {}  # of generators that were looked up

    def word(self, word: Word) -> Word:
        letters: List[int] = []
        for letter in word:
            other = self.letters[letter]
            if other is None:
                raise Refusal(f"# no letter {self.piece.problem.names[letter]} in the statement")
            letters.append(other)
        return tuple(letters)

    def poly(self, poly: Poly) -> Poly:
        return {self.word(word): value for word, value in poly.items()}

    def row(self, row: Row, lemmas: List[int]) -> Optional[Row]:
        """The row over what the join has, or none where its generator is zero."""
        left, right = self.word(row.left), self.word(row.right)
        if row.is_lemma:
            return Row(row.coefficient, left, True, lemmas[row.number - 1], right)
        if row.number not in self.rows:
            poly = self.poly(self.generators[row.number - 1])
            self.rows[row.number] = self.join.found(poly) if poly else Row(0, (), False, 0, ())
        found = self.rows[row.number]
        if found is None:
            raise Refusal(f"# no generator {row.number} of a piece in the statement, and none of the claims before it")
        coefficient = row.coefficient * found.coefficient
        return Row(coefficient, left, found.is_lemma, found.number, right) if found.coefficient else None

    def add_all(self) -> None:
        for certificate in self.piece.certificates:
            lemmas: List[int] = []
            claim = self.poly(self.piece.problem.claims[certificate.claim - 1])
            for share in certificate.shares:
                rows = [row for row in (self.row(row, lemmas) for row in share.rows) if row]
                is_goal = share is certificate.shares[-1]
                lemmas.append(self.join.append(claim if is_goal else {}, Share(share.scale, rows)))


def renumbered(claim: int, shares: List[Share], goal: Share) -> Certificate:
    """The certificate of a goal with the lemmas that it stands on alone, numbered from 1."""
    needed = {row.number for row in goal.rows if row.is_lemma}
    for number in range(len(shares), 0, -1):
        if number in needed:
            needed.update(row.number for row in shares[number - 1].rows if row.is_lemma)
    numbers = {old: new for new, old in enumerate(sorted(needed), 1)}
    denominator, found = 1, []
    for share in [shares[number - 1] for number in sorted(needed)] + [goal]:
        denominator *= share.scale // gcd(denominator, share.scale)
        rows = [row._replace(number=numbers[row.number]) if row.is_lemma else row for row in share.rows]
        found.append(Share(share.scale, rows))
    return Certificate(claim, denominator, found)


def written(problem: Problem, certificate: Certificate) -> List[str]:
    """The lines of a certificate of format 2, with its head line."""
    shares = certificate.shares
    lines = [
        f"# claim {certificate.claim} proved denominator {certificate.denominator} rows {sum(len(s.rows) for s in shares)}",
        "certificate 2", f"claim {certificate.claim}", f"denominator {certificate.denominator}",
    ]  # fmt: skip
    for number, share in enumerate(shares, 1):
        lines.append(f"lemma {number} scale {share.scale}" if number < len(shares) else f"goal scale {share.scale}")
        for row in share.rows:
            middle = f"lemma {row.number}" if row.is_lemma else f"{row.number}"
            lines.append(f"row {row.coefficient} ({problem.text(row.left)}) {middle} ({problem.text(row.right)})")
    return lines + ["end"]


def report(statement: str, pieces: List[str]) -> List[str]:
    """The lines of all certificates."""
    join = Join(Problem(*loaded([statement])))
    for place in range(0, len(pieces), 2):
        try:
            join.add(Piece(*translation.read(*loaded(pieces[place : place + 2])), {}))
        except Refusal as refusal:
            raise Refusal(f"{refusal} ({pieces[place]})") from None
    numbers = range(1, len(join.problem.claims) + 1)
    certificates = [found for found in map(join.certificate, numbers) if found]
    if not certificates:
        raise Refusal("# no piece has a claim of the statement")
    return [line for certificate in certificates for line in written(join.problem, certificate)]


def main(words: List[str]) -> int:
    """Writes the certificates, and gives the status."""
    made = parser("join", __doc__)
    made.add_argument("statement", metavar="STATEMENT", help="the statement whose claims are to be proved")
    made.add_argument("pieces", metavar="PIECE EVIDENCE", nargs="+", help="statements about maps of it, each with evidence")
    given = made.parse_args(words)
    if len(given.pieces) % 2:
        made.error("after each piece its evidence is named")
    return ended(lambda: report(given.statement, given.pieces))

