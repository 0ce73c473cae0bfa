"""A small noncommutative completion that keeps how each member of the ideal was made.

Words are strings with a character a letter, so that Python finds one in another by itself, and polynomials are dictionaries of
integers. A `Ledger` has polynomials that are zero, each with what it was made of: a generator, rows over earlier ones, or an
earlier one with a letter or a star taken off. A `Basis` completes some of them by an order, within bounds of pairs, terms and
time; what it finds is entered in the ledger, from which proofs are written (proofs.py).
"""
from __future__ import annotations

import time
from heapq import heapify, heappop, heappush
from math import gcd
from typing import Callable, Dict, Iterator, List, NamedTuple, Optional, Sequence, Set, Tuple, Union

from opprove.checkers import check
from opprove.checkers.check import Problem

Word = str
Poly = Dict[Word, int]  # words with their coefficients, none of which is 0
FIRST = 5000  # the character of the least letter; each greater letter has the one before, so a greater word is a lesser text
MOST_TERMS, MOST_LETTERS = 2000, 120  # of what is kept in a completion
CLOCK: Callable[[], float] = time.monotonic  # by which a search ends; worker.py counts its own processor time


def now() -> float:
    """Seconds by the clock of this process's searches."""
    return CLOCK()


class Generator(NamedTuple):
    """A generator of the statement, by its number from 1."""

    number: int


class Row(NamedTuple):
    """An integer, a word, the place of a polynomial in the ledger, and a word."""

    coefficient: int
    left: Word
    place: int
    right: Word


class Sum(NamedTuple):
    """Rows that add up to the scale times the polynomial."""

    scale: int
    rows: List[Row]


class Off(NamedTuple):
    """An earlier polynomial, without this letter in front (left) or behind each word."""

    letter: Word
    is_left: bool
    place: int


class Root(NamedTuple):
    """The polynomial of the first square, where an earlier one is the sum of scale times r' r (left) or r r'."""

    is_left: bool
    place: int
    squares: List[Tuple[int, Poly]]


Origin = Union[Generator, Sum, Off, Root]


# ---- Polynomials


def add(total: Poly, factor: int, poly: Poly, left: Word = "", right: Word = "") -> Poly:
    """Adds factor * left * poly * right to the total, and returns the total."""
    for middle, share in poly.items() if factor else ():
        word = left + middle + right
        if word not in total:
            total[word] = factor * share
        elif total[word] == -factor * share:
            del total[word]
        else:
            total[word] += factor * share
    return total


def product(left: Poly, right: Poly) -> Poly:
    total: Poly = {}
    for word, coefficient in left.items():
        add(total, coefficient, right, left=word)
    return total


def content(poly: Poly) -> int:
    """The greatest number that divides all coefficients."""
    divisor = 0
    for value in poly.values():
        divisor = gcd(divisor, value)
        if divisor == 1:
            break
    return divisor


class Alphabet:
    """The letters of a problem as characters, in an order of their own, and the order of words."""

    def __init__(self, problem: Problem, smallest: Sequence[int] = (), weights: Optional[Dict[int, int]] = None) -> None:
        """`smallest` are letters that are less than the others; the others weigh 1, where `weights` doesn't say more."""
        self.problem = problem
        order = [*smallest, *(letter for letter in range(len(problem.names)) if letter not in set(smallest))]
        self.characters = [""] * len(order)
        for rank, letter in enumerate(order):
            self.characters[letter] = chr(FIRST - rank)
        self.letters = {character: letter for letter, character in enumerate(self.characters)}
        self.measures = {self.characters[letter]: weight for letter, weight in (weights or {}).items()}
        self.stars = {character: self.characters[problem.stars[letter]] for character, letter in self.letters.items()}
        self.units = {self.characters[letter] for letter, name in enumerate(problem.names) if name[0] == "["}
        self.ranks: Dict[Word, Tuple[int, int, Word]] = {}

    def rank(self, word: Word) -> Tuple[int, int, Word]:
        """By which words are compared, the greatest first."""
        found = self.ranks.get(word)
        if found is None:
            measure = len(word)
            for character, weight in self.measures.items():
                measure += (weight - 1) * word.count(character)
            found = self.ranks[word] = (-measure, -len(word), word)
        return found

    def coded(self, poly: check.Poly) -> Poly:
        return {self.word(word): coefficient for word, coefficient in poly.items()}

    def word(self, word: check.Word) -> Word:
        return "".join(self.characters[letter] for letter in word)

    def decoded(self, poly: Poly) -> check.Poly:
        return {self.letters_of(word): coefficient for word, coefficient in poly.items()}

    def letters_of(self, word: Word) -> check.Word:
        return tuple(self.letters[character] for character in word)

    def star(self, poly: Poly) -> Poly:
        return {self.star_word(word): coefficient for word, coefficient in poly.items()}

    def star_word(self, word: Word) -> Word:
        return "".join(self.stars[character] for character in reversed(word))

    def ends(self, word: Word) -> Optional[check.Signature]:
        """Source and target of a word that is a path."""
        return self.problem.signature(self.letters_of(word)) if word else None

    def words(self, characters: Sequence[Word], length: int) -> Iterator[Word]:
        """The paths of these letters with at most so many letters, short ones first."""
        level = [""]
        for _ in range(length):
            level = [word + one for word in level for one in characters if not word or self.follows(word[-1], one)]
            yield from level

    def follows(self, left: Word, right: Word) -> bool:
        """Whether the product of two letters is one."""
        ends = self.problem.ends
        return bool(ends[self.letters[left]][0] == ends[self.letters[right]][1])


# ---- What is known to be zero


class Ledger:
    """Polynomials that are zero, with their origins."""

    def __init__(self, alphabet: Alphabet) -> None:
        self.alphabet = alphabet
        self.polys: List[Poly] = []
        self.origins: List[Origin] = []
        self.units: Dict[Tuple[Word, Word], int] = {}  # places of the generators that say what an identity does, by both letters
        for number, poly in enumerate(alphabet.problem.generators(), 1):
            place = self.enter(alphabet.coded(poly), Generator(number))
            if len(poly) == 2 and number > len(alphabet.problem.assumptions):
                word = max(self.polys[place], key=len)
                if len(word) == 2 and set(word) & alphabet.units:
                    self.units[word[0], word[1]] = place
        self.count = len(self.polys)  # of generators
        self.adjoints: Dict[int, int] = {}

    def enter(self, poly: Poly, origin: Origin) -> int:
        """The place of the polynomial, which is new."""
        self.polys.append(poly)
        self.origins.append(origin)
        return len(self.polys) - 1

    def off(self, place: int, letter: Word, is_left: bool) -> Optional[int]:
        """The place of a polynomial without a letter that all its words begin (or end) with. A word that is this letter alone
        leaves the identity, where that is in play."""
        poly = self.polys[place]
        ends = self.alphabet.problem.ends[self.alphabet.letters[letter]]
        unit = self.alphabet.characters[ends[0] if is_left else ends[1]]
        if letter in poly:
            pair = (letter, unit) if is_left else (unit, letter)
            if pair not in self.units:
                return None
            rows = [Row(1, "", place, ""), Row(poly[letter], "", self.units[pair], "")]
            poly = add(dict(poly), poly[letter], self.polys[self.units[pair]])
            place = self.enter(poly, Sum(1, rows))
        divided = {word[1:] if is_left else word[:-1]: coefficient for word, coefficient in poly.items()}
        return self.enter(divided, Off(letter, is_left, place))

    def generator(self, poly: Poly) -> Optional[Row]:
        """A row that is the polynomial, where that or its negative is a generator."""
        for sign in (1, -1):
            signed = add({}, sign, poly)
            for place in range(self.count):
                if self.polys[place] == signed:
                    return Row(sign, "", place, "")
        return None

    def adjoint(self, place: int) -> int:
        """The place of the adjoint of a polynomial, made as it was made, in a problem that is starred."""
        found = self.adjoints.get(place)
        if found is None:
            found = self.adjoint_of(place)
            self.adjoints[place], self.adjoints[found] = found, place
        return found

    def adjoint_of(self, place: int) -> int:
        alphabet, origin = self.alphabet, self.origins[place]
        star = alphabet.star(self.polys[place])
        if isinstance(origin, Generator):
            row = self.generator(star)
            assert row, "generators are closed under adjoints"
            return row.place if row.coefficient == 1 else self.enter(star, Sum(1, [row]))
        if isinstance(origin, Sum):
            rows = [
                Row(row.coefficient, alphabet.star_word(row.right), self.adjoint(row.place), alphabet.star_word(row.left))
                for row in origin.rows
            ]
            return self.enter(star, Sum(origin.scale, rows))
        if isinstance(origin, Off):
            return self.enter(star, Off(alphabet.stars[origin.letter], not origin.is_left, self.adjoint(origin.place)))
        squares = [(scale, alphabet.star(poly)) for scale, poly in origin.squares]
        return self.enter(star, Root(not origin.is_left, origin.place, squares))


# ---- Completion


class Traced(NamedTuple):
    """A normal form: the multiple of a polynomial less rows."""

    rest: Poly
    multiple: int
    rows: List[Row]


class Rule(NamedTuple):
    lead: Word
    coefficient: int  # of the lead, positive
    place: int


class Bounds(NamedTuple):
    """How far a completion goes."""

    pairs: int = 2000
    until: float = float("inf")  # by `now`

    def are_met(self) -> bool:
        return now() > self.until


class Basis:
    """Rules, and the ambiguities that were not treated yet."""

    def __init__(self, ledger: Ledger) -> None:
        self.ledger, self.alphabet = ledger, ledger.alphabet
        self.rules: List[Rule] = []
        self.live: Dict[Word, int] = {}  # leads of the rules that no later one replaces, with their numbers
        self.lengths: Set[int] = set()
        self.found: Dict[Word, Tuple[int, int]] = {}  # words that a rule replaces: its number and the place
        self.passed: Dict[Word, int] = {}  # words that none of the first so many rules replaces
        self.pending: List[Tuple[Tuple[int, int], int, int, int, int]] = []
        self.count = self.pairs = 0
        self.is_closed = False

    # ---- Reduction

    def match(self, word: Word) -> Optional[Tuple[int, int]]:
        """A rule whose lead occurs in the word, and the place."""
        rules, live = self.rules, self.live
        found = self.found.get(word)
        if found is not None and rules[found[0]].lead in live:
            return found
        for number in range(self.passed.get(word, 0), len(rules)):
            lead = rules[number].lead
            at = word.find(lead)
            if at >= 0 and lead in live:
                self.found[word] = (number, at)
                return number, at
        self.passed[word] = len(rules)
        return None

    def reduce(self, poly: Poly, is_traced: bool = True) -> Traced:
        """The normal form, with the rows of its steps."""
        total, multiple, rows = dict(poly), 1, []  # type: Poly, int, List[Row]
        rank, polys = self.alphabet.rank, self.ledger.polys
        waiting = [rank(word) for word in total]
        heapify(waiting)
        while waiting:
            word = heappop(waiting)[-1]
            found = self.match(word) if word in total else None
            if found is None:
                continue
            rule, at = self.rules[found[0]], found[1]
            left, right = word[:at], word[at + len(rule.lead) :]
            value, by = total[word], rule.coefficient
            if by != 1:
                divisor = gcd(value, by)
                value, by = value // divisor, by // divisor
                if by != 1:
                    multiple *= by
                    total = {other: by * coefficient for other, coefficient in total.items()}
                    rows = [row._replace(coefficient=by * row.coefficient) for row in rows]
            for middle, coefficient in polys[rule.place].items():
                other = left + middle + right
                before = total.pop(other, 0)
                after = before - value * coefficient
                if after:
                    total[other] = after
                    if not before:
                        heappush(waiting, rank(other))
            if is_traced:
                rows.append(Row(value, left, rule.place, right))
            if len(total) > MOST_TERMS:
                break
        return Traced(total, multiple, rows)

    def is_zero(self, poly: Poly) -> bool:
        return not self.reduce(poly, False).rest

    # ---- Rules

    def admit(self, place: int) -> None:
        """Makes a rule of a polynomial of the ledger as it stands, once it is reduced."""
        self.insert(self.ledger.polys[place], [Row(1, "", place, "")])

    def insert(self, poly: Poly, rows: List[Row]) -> None:
        """Makes a rule of what the rows add up to."""
        traced = self.reduce(poly)
        rest = traced.rest
        if not rest or len(rest) > MOST_TERMS or max(map(len, rest)) > MOST_LETTERS:
            return
        lead = min(rest, key=self.alphabet.rank)
        scale = content(rest) * (1 if rest[lead] > 0 else -1)
        if not traced.rows and len(rows) == 1 and scale == 1 and (rows[0].coefficient, rows[0].left, rows[0].right) == (1, "", ""):
            place = rows[0].place
        else:
            sign = 1 if scale > 0 else -1
            made = [row._replace(coefficient=sign * traced.multiple * row.coefficient) for row in rows]
            made += [row._replace(coefficient=-sign * row.coefficient) for row in traced.rows]
            place = self.ledger.enter({word: value // scale for word, value in rest.items()}, Sum(abs(scale), made))
        self.rules.append(Rule(lead, self.ledger.polys[place][lead], place))
        self.admitted(len(self.rules) - 1)

    def admitted(self, number: int) -> None:
        """Replaces rules whose leads have the new one in them, and lists the ambiguities of the new rule."""
        lead = self.rules[number].lead
        for other, older in list(self.live.items()):
            if lead in other:
                del self.live[other]
                self.push(older, -1, 0, other)
        self.live[lead] = number
        for other, older in list(self.live.items()):
            for shared in range(1, min(len(lead), len(other))):
                if lead[-shared:] == other[:shared]:
                    self.push(number, older, shared, lead + other[shared:])
                if older != number and other[-shared:] == lead[:shared]:
                    self.push(older, number, shared, other + lead[shared:])

    def push(self, first: int, second: int, shared: int, word: Word) -> None:
        measure, length, _ = self.alphabet.rank(word)
        self.count += 1
        heappush(self.pending, ((-measure, -length), self.count, first, second, shared))

    def treat(self, first: int, second: int, shared: int) -> None:
        """Makes a rule of an overlap, or of a rule that was replaced."""
        one = self.rules[first]
        if second < 0:
            self.insert(self.ledger.polys[one.place], [Row(1, "", one.place, "")])
            return
        two = self.rules[second]
        if self.live.get(one.lead) != first or self.live.get(two.lead) != second:
            return
        divisor = gcd(one.coefficient, two.coefficient)
        rows = [
            Row(two.coefficient // divisor, "", one.place, two.lead[shared:]),
            Row(-one.coefficient // divisor, one.lead[:-shared], two.place, ""),
        ]
        total: Poly = {}
        for row in rows:
            add(total, row.coefficient, self.ledger.polys[row.place], row.left, row.right)
        if total:
            self.insert(total, rows)

    def complete(self, bounds: Bounds) -> bool:
        """Treats ambiguities, least words first. Returns whether none is left."""
        while self.pending and self.pairs < bounds.pairs:
            if self.pairs % 16 == 0 and bounds.are_met():
                break
            _, _, first, second, shared = heappop(self.pending)
            self.pairs += 1
            self.treat(first, second, shared)
        self.is_closed = not self.pending
        return self.is_closed

    def members(self) -> List[int]:
        """The places of the rules that stand, the least ones first."""
        numbers = sorted(self.live.values(), key=lambda number: self.alphabet.rank(self.rules[number].lead), reverse=True)
        return [self.rules[number].place for number in numbers]


def started(ledger: Ledger) -> Basis:
    """A basis of all that the ledger has, the least leads first."""
    basis = Basis(ledger)
    rank = ledger.alphabet.rank
    places = [place for place, poly in enumerate(ledger.polys) if poly]
    for place in sorted(places, key=lambda place: min(map(rank, ledger.polys[place])), reverse=True):
        basis.admit(place)
    return basis
