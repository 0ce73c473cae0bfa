"""Finds proofs that take letters and stars off: rounds of completion, and of what can be taken off its members.

A letter comes off where all words of a member begin (or end) with it, and off the claim where short words of such letters times
the claim are in the ideal. A star comes off where r' r is in the ideal, for r among the claim, its products with short words, and
their differences, and where a member is a sum of such squares. What is left joins the assumptions of the next round.
"""
from __future__ import annotations

from typing import Dict, FrozenSet, Iterator, List, NamedTuple, Optional, Sequence, Set, Tuple

from opprove.checkers.check import Problem
from opprove.search import squares
from opprove.search.engine import Alphabet, Basis, Bounds, Ledger, Poly, Root, Row, Sum, Word, add, content, now, started
from opprove.search.proofs import Proof, proof_of

ROUNDS, PAIRS, MOST_FOUND, MOST_CANDIDATES = 8, 400, 60, 4000


class Letters(NamedTuple):
    """Those that may be taken off, in front (monic) and behind (epic), and whether stars may."""

    monic: FrozenSet[int]
    epic: FrozenSet[int]
    has_stars: bool = False

    def closed(self, problem: Problem) -> "Letters":
        """With the adjoints, which are taken off on the other side, where the problem has adjoints."""
        if not problem.is_starred:
            return self
        monic = self.monic | {problem.stars[letter] for letter in self.epic}
        epic = self.epic | {problem.stars[letter] for letter in self.monic}
        return Letters(frozenset(monic), frozenset(epic), self.has_stars)


def maps_of(problem: Problem) -> List[int]:
    """The letters of maps and, where they are in play, of adjoints."""
    letters = [letter for letter, name in enumerate(problem.names) if name[0] != "["]
    return [letter for letter in letters if problem.is_starred or letter <= problem.stars[letter]]


class Chase:
    """A search for the claims with these numbers."""

    def __init__(
        self, problem: Problem, claims: Sequence[int], letters: Letters, until: float, is_small: bool = True, is_of_claims: bool = False
    ) -> None:
        """`is_small` has the letters that are taken off smallest, and `is_of_claims` takes them off claims alone."""
        self.problem, self.until, self.is_of_claims = problem, until, is_of_claims
        self.letters = letters.closed(problem)
        small = sorted(self.letters.monic | self.letters.epic) if is_small else []
        others = [letter for letter in maps_of(problem) if letter not in small]
        self.alphabet = Alphabet(problem, small, dict.fromkeys(others, 2) if small else {})
        self.ledger = Ledger(self.alphabet)
        self.open = {number: self.alphabet.coded(problem.claims[number - 1]) for number in claims}
        self.proofs: Dict[int, Proof] = {}
        characters = self.alphabet.characters
        self.monic = [characters[letter] for letter in sorted(self.letters.monic)]
        self.epic = [characters[letter] for letter in sorted(self.letters.epic)]
        self.maps = [characters[letter] for letter in maps_of(problem)]
        self.joined: List[Poly] = []

    def is_over(self) -> bool:
        return now() > self.until

    def run(self) -> Dict[int, Proof]:
        """The proofs that are found."""
        basis, pairs = started(self.ledger), PAIRS
        for _ in range(ROUNDS):
            is_closed = basis.complete(Bounds(pairs, self.until))
            self.settle(basis)
            found = [] if self.is_over() or not self.open else self.found(basis)
            if not self.open or self.is_over() or (not found and is_closed):
                break
            for place in found:
                basis.admit(place)
            pairs = basis.pairs + (PAIRS if found else 4 * PAIRS)
        return self.proofs

    def settle(self, basis: Basis) -> None:
        """Makes proofs of the claims that are reduced to zero."""
        for number, poly in list(self.open.items()):
            traced = basis.reduce(poly)
            if not traced.rest:
                self.proofs[number] = proof_of(self.ledger, number, traced)
                del self.open[number]

    def found(self, basis: Basis) -> List[int]:
        """The places of what can be taken off now, with adjoints, and isn't known to be zero yet."""
        places = self.off_claims(basis)
        if not places and not self.is_of_claims:
            places = self.off_members(basis)
            if self.letters.has_stars:
                places += self.off_stars(basis)
        return places

    # ---- Letters

    def off_members(self, basis: Basis) -> List[int]:
        """Members all of whose words begin with a letter that may be taken off, or end with one."""
        places = []
        for place in basis.members()[:MOST_CANDIDATES]:
            poly = self.ledger.polys[place]
            word = next(iter(poly))
            for letters, is_left in ((self.monic, True), (self.epic, False)):
                letter = word[0] if is_left else word[-1]
                if letter in letters and all((other[0] if is_left else other[-1]) == letter for other in poly):
                    places += self.taken_off(basis, place, letter, is_left)
            if len(places) >= MOST_FOUND:
                break
        return places

    def taken_off(self, basis: Basis, place: int, letter: Word, is_left: bool) -> List[int]:
        """The place without the letter, if that is news, and of its adjoint."""
        rest = self.ledger.off(place, letter, is_left)
        return self.news(basis, rest) if rest is not None else []

    def news(self, basis: Basis, place: int) -> List[int]:
        poly = self.ledger.polys[place]
        if basis.is_zero(poly) or poly in self.joined:
            return []
        self.joined.append(poly)
        star = self.alphabet.star(poly)
        if not self.problem.is_starred or star in (poly, add({}, -1, poly)):
            return [place]
        self.joined.append(star)
        return [place, self.ledger.adjoint(place)]

    def off_claims(self, basis: Basis) -> List[int]:
        """Open claims that are in the ideal once they stand between short words of letters that may be taken off."""
        places = []
        lefts = ["", *self.alphabet.words(self.monic, 3)]
        rights = ["", *self.alphabet.words(self.epic, 3)]
        for poly in self.open.values():
            found = self.off_claim(basis, poly, lefts, rights)
            places += [found] if found is not None else []
        return places

    def off_claim(self, basis: Basis, poly: Poly, lefts: List[Word], rights: List[Word]) -> Optional[int]:
        ends = self.alphabet.ends(next(iter(poly))) if poly else None
        pairs = sorted(((left, right) for left in lefts for right in rights), key=lambda pair: len(pair[0]) + len(pair[1]))
        for left, right in pairs[:MOST_CANDIDATES]:
            if self.is_over() or ends is None:
                break
            if not self.fits(left, ends, right):
                continue
            whole = add({}, 1, poly, left, right)
            traced = basis.reduce(whole)
            if traced.rest:
                continue
            place: Optional[int] = self.ledger.enter(whole, Sum(traced.multiple, traced.rows))
            for letter in left:
                place = self.ledger.off(place, letter, True) if place is not None else None
            for letter in reversed(right):
                place = self.ledger.off(place, letter, False) if place is not None else None
            if place is not None:
                return place
        return None

    def fits(self, left: Word, ends: Tuple[int, int], right: Word) -> bool:
        """Whether a polynomial with these ends may stand between the words."""
        problem, letters = self.problem, self.alphabet.letters
        return (not left or problem.ends[letters[left[-1]]][0] == ends[1]) and (not right or problem.ends[letters[right[0]]][1] == ends[0])

    # ---- Stars

    def off_stars(self, basis: Basis) -> List[int]:
        """Polynomials that are zero as their squares are, or as the sum of these is."""
        places: List[int] = []
        for is_left in (True, False):
            places += self.off_squares(basis, is_left)
        if not places:
            places = self.off_sums(basis)
        return places[:MOST_FOUND]

    def candidates(self) -> Iterator[Poly]:
        """The open claims, their products with short words, and the differences of these."""
        words = list(self.alphabet.words(self.maps, 2))
        for poly in self.open.values():
            yield poly
        for poly in self.open.values():
            ends = self.alphabet.ends(next(iter(poly)))
            for word in words:
                source, target = self.alphabet.ends(word) or (-1, -1)
                if ends and target == ends[0]:
                    yield add({}, 1, poly, right=word)
                if ends and source == ends[1]:
                    yield add({}, 1, poly, left=word)
                if ends and source == target == ends[0]:
                    yield add(dict(poly), -1, poly, right=word)
                if ends and source == target == ends[1]:
                    yield add(dict(poly), -1, poly, left=word)

    def off_squares(self, basis: Basis, is_left: bool) -> List[int]:
        """Candidates r with r' r (or r r') in the ideal, and two with a sum of such in it."""
        places: List[int] = []
        kept: Dict[FrozenSet[Tuple[Word, int]], Tuple[int, Poly]] = {}  # by what is left of a square, without its content
        for poly in self.candidates():
            if self.is_over() or len(places) >= MOST_FOUND:
                break
            rest = basis.reduce(poly, False).rest
            if not rest or rest in self.joined:
                continue
            poly = poly if poly in self.open.values() else rest
            square = squares.square(self.alphabet, poly, is_left)
            traced = basis.reduce(square)
            if not traced.rest:
                place = self.ledger.enter(square, Sum(traced.multiple, traced.rows))
                places += self.rooted(basis, place, is_left, [(1, poly)])
                continue
            share = content(traced.rest)
            shape = frozenset((word, coefficient // share) for word, coefficient in traced.rest.items())
            other = kept.get(frozenset((word, -value) for word, value in shape))
            if other and traced.multiple == 1:
                places += self.paired(basis, is_left, [(other[0], poly), (share, other[1])])
            elif traced.multiple == 1:
                kept.setdefault(shape, (share, poly))
        return places

    def paired(self, basis: Basis, is_left: bool, parts: List[Tuple[int, Poly]]) -> List[int]:
        """Two candidates, a sum of whose squares is in the ideal."""
        total = squares.total(self.alphabet, parts, is_left)
        traced = basis.reduce(total)
        if traced.rest:
            return []
        place = self.ledger.enter(total, Sum(traced.multiple, traced.rows))
        return self.rooted(basis, place, is_left, parts)

    def off_sums(self, basis: Basis) -> List[int]:
        """Members that are sums of squares."""
        places: List[int] = []
        for place in basis.members()[:MOST_CANDIDATES]:
            for is_left in (True, False):
                parts = squares.parts_of(self.alphabet, self.ledger.polys[place], is_left)
                if not parts:
                    continue
                multiple, summands = parts
                at = place
                if multiple != 1:
                    at = self.ledger.enter(add({}, multiple, self.ledger.polys[place]), Sum(1, [Row(multiple, "", place, "")]))
                places += self.rooted(basis, at, is_left, summands)
        return places

    def rooted(self, basis: Basis, place: int, is_left: bool, parts: List[Tuple[int, Poly]]) -> List[int]:
        """The places of all roots of a sum of squares that are news."""
        places: List[int] = []
        for number in range(len(parts)):
            order = [parts[number], *parts[:number], *parts[number + 1 :]]
            places += self.news(basis, self.ledger.enter(parts[number][1], Root(is_left, place, order)))
        return places


def least(problem: Problem, claim: int, proof: Proof, seconds: float) -> Proof:
    """A proof that takes off fewest letters, by dropping them one by one."""
    dropped: Set[Tuple[int, bool]] = set()
    while True:
        letters = [(letter, is_left) for is_left in (True, False) for letter in proof.letters(is_left)]
        pending = [one for one in letters if one not in dropped]
        if len(letters) < 2 or not pending:
            return proof
        dropped.add(pending[0])
        rest = set(letters) - {pending[0]}
        monic, epic = (frozenset(letter for letter, is_left in rest if is_left == wanted) for wanted in (True, False))
        found = first_of(problem, [claim], Letters(monic, epic), now() + seconds).get(claim)
        proof = found or proof


def first_of(problem: Problem, claims: Sequence[int], letters: Letters, until: float) -> Dict[int, Proof]:
    """The proofs that one order of words finds, or else another one."""
    proofs: Dict[int, Proof] = {}
    seconds = until - now()
    for is_small, share in ((False, 0.5), (True, 1.0)):
        rest = [claim for claim in claims if claim not in proofs]
        if rest and (is_small is False or letters.monic or letters.epic):
            proofs.update(Chase(problem, rest, letters, until - seconds * (1 - share), is_small).run())
    return proofs
