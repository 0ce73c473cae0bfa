#!/usr/bin/env python3
"""A second `opprove confirm`: confirm.py STATEMENT BASIS

Prints the report of `opprove confirm`, byte for byte: whether each basis of a text is closed, which is that its rules reduce all
generators and all S-polynomials of their ambiguities to zero, and leave of its claim the rest that it has, which isn't zero; or the
first thing that is wrong, which ends the report. A closed basis is called sharp where its rules are typed and in play. The statuses
are those of the program. It is written from docs/FORMATS.md and the rules of reduction and shares nothing with opprove. Statements
are read by check.py: the faults S4 and S13, of numbers that are too large, are not looked at.
A referee reads 1,360 lines: this file, check.py, chain_text.py and tree.py, and no other but Python's own library.
"""
from __future__ import annotations

from collections import defaultdict
from functools import reduce
from heapq import heapify, heappop, heappush
from math import gcd
from typing import TYPE_CHECKING, DefaultDict, Dict, Iterable, Iterator, List, NamedTuple, Optional, Tuple

if TYPE_CHECKING or __package__:
    from . import check
    from .chain_text import MOST, NUMBERS, operated
    from .check import Blocks, Problem, Refusal, Source, answering, is_name, require, script, sum_text
    from .tree import measures_of
else:  # run as a file by itself
    import check
    from chain_text import MOST, NUMBERS, operated
    from check import Blocks, Problem, Refusal, Source, answering, is_name, require, script, sum_text
    from tree import measures_of

LETTERS_OF_A_WORD, TERMS, RULES, STEPS = 500, 20000, 100000, 1000000
FIRST = 5000  # the character of letter 0; each later letter has the one before, so a greater word is a lesser text
Word = str  # a character for each letter
Poly = Dict[Word, int]  # words with their coefficients, none of which is 0
Rank = Tuple[int, int, Word]  # by which words are compared, the greatest first


class Basis(NamedTuple):
    claim: int
    rules: List[Poly]
    rest: Poly


# ---- Words and polynomials


def greatness(word: Word) -> Tuple[int, Word]:
    """By which words are compared canonically, the greatest first."""
    return -len(word), word


def terms_of(poly: Poly) -> List[Tuple[Word, int]]:
    """The terms, the greatest word first."""
    return [(word, poly[word]) for word in sorted(poly, key=greatness)]


def text_of(problem: Problem, poly: Poly) -> str:
    return sum_text((" ".join(problem.names[FIRST - ord(letter)] for letter in word), number) for word, number in terms_of(poly))


def as_texts(poly: check.Poly) -> Poly:
    return {"".join(chr(FIRST - letter) for letter in word): coefficient for word, coefficient in poly.items()}


class Order:
    """The order of words of a file: by what the letters count for, and then canonically."""

    def __init__(self, problem: Problem) -> None:
        measures = measures_of(problem)
        self.usual = min(measures, default=0)
        self.more = {chr(FIRST - letter): measure - self.usual for letter, measure in enumerate(measures) if measure > self.usual}

    def rank(self, word: Word) -> Rank:
        measure = self.usual * len(word) + sum(word.count(letter) * more for letter, more in self.more.items())
        return -measure, -len(word), word


# ---- Bases as text


def is_written(token: str) -> bool:
    """Whether the token has the form of a letter as it is written: NAME, NAME' or [NAME]."""
    if token[0] == "[":
        return token[-1] == "]" and is_name(token[1:-1])
    return is_name(token[:-1] if token[-1] == "'" else token)


def is_number(token: str) -> bool:
    return token.isascii() and token.isdigit()


def number_in(token: str) -> int:
    """What the digits say, or a number above all bounds in the place of one that is longer than these."""
    digits = token.lstrip("0")
    return int(digits or "0") if len(digits) <= len(str(MOST)) else MOST + 1


class Bases(Blocks):
    """The bases of an evidence text."""

    def __init__(self, problem: Problem, source: Source) -> None:
        super().__init__(source)
        self.problem = problem
        self.bases: List[Basis] = []
        self.characters = {name: chr(FIRST - letter) for letter, name in enumerate(problem.names)}
        self.read_all("basis", self.bases, self.basis, "certificate|model|cancellation")

    def basis(self) -> Basis:
        self.begin("basis 1", len(self.bases))
        place, claim = self.number, number_in(self.take("claim ([0-9]+)")[0])
        self.require(place, "K4", claim <= NUMBERS)
        rules: List[Poly] = []
        while self.line.startswith("rule "):
            place = self.number
            rules.append(self.polynomial("rule"))
            self.limit(place, len(rules), RULES)
        rest = self.polynomial("rest")
        self.take("end")
        return Basis(claim, rules, rest)

    def polynomial(self, word: str) -> Poly:
        """That of a line behind its word. Faults are looked for in their order: the form, names, how they are written, bounds."""
        place = self.number
        tokens = self.take(f"{word} (.+)")[0].split(" ")
        terms = self.terms(place, tokens) if tokens[1:] or tokens[0].strip("0") else []
        self.require(place, "K3", all(letter in self.problem.numbers for _, letters in terms for letter in letters))
        self.require(place, "K2", all(letter in self.characters for _, letters in terms for letter in letters))
        words = ["".join(map(self.characters.__getitem__, letters)) for _, letters in terms]
        ranks = list(map(greatness, words))
        self.require(place, "K2", all(rank < later for rank, later in zip(ranks, ranks[1:])))
        self.require(place, "K4", all(abs(coefficient) <= MOST for coefficient, _ in terms))
        self.limit(place, len(words), TERMS)
        self.limit(place, max(map(len, words), default=0), LETTERS_OF_A_WORD)
        return {word: coefficient for word, (coefficient, _) in zip(words, terms)}

    def terms(self, place: int, tokens: List[str]) -> List[Tuple[int, List[str]]]:
        """The coefficients and the letters of a sum that isn't the number 0."""
        pieces: List[Tuple[int, List[str]]] = [] if tokens[0] == "-" else [(1, [])]
        for token in tokens:
            if token in ("+", "-"):
                pieces.append((-1 if token == "-" else 1, []))
            else:
                pieces[-1][1].append(token)
        terms = []
        for sign, piece in pieces:
            number = number_in(piece[0]) if piece and is_number(piece[0]) else None
            letters = piece if number is None else piece[1:]
            self.require(place, "K2", letters != [] and all(map(is_written, letters)) and (number is None or number > 1))
            terms.append((sign * (number or 1), letters))
        return terms


# ---- Rules


class Rule:
    """A polynomial with its leading word and that word's coefficient. Its terms stand canonically, the greatest word first."""

    def __init__(self, order: Order, poly: Poly) -> None:
        self.terms = terms_of(poly)
        self.lead = min(poly, key=order.rank)
        self.leading = poly[self.lead]
        self.longest = max(map(len, poly))


class Ambiguity(NamedTuple):
    """Compared as it is listed: by the overlap word in the order of the file, rules, overlaps before inclusions, and its place."""

    rank: Rank
    first: int  # rules are numbered from 1
    second: int
    is_inclusion: bool
    place: int

    def text(self) -> str:
        return f"{'inclusion' if self.is_inclusion else 'overlap'} {self.first} {self.second} {self.place}"


def check_size(refused: str, letters: int, terms: int) -> None:
    for word, count, limit in (("letters", letters, LETTERS_OF_A_WORD), ("terms", terms, TERMS)):
        if count > limit:
            raise Refusal(f"{refused} size {word} {limit}")


def add(total: Poly, terms: Iterable[Tuple[Word, int]], refused: str) -> None:
    """Adds terms to a polynomial, one by one."""
    for word, coefficient in terms:
        value = operated(total.pop(word, 0), "plus", coefficient, refused)
        if value:
            total[word] = value


class Rules:
    def __init__(self, order: Order, polys: List[Poly]) -> None:
        self.order = order
        self.rules = [Rule(order, poly) for poly in polys]
        self.numbers: Dict[Word, int] = {}  # of each leading word, the least number of a rule
        for number, rule in enumerate(self.rules, 1):
            self.numbers.setdefault(rule.lead, number)
        self.lengths = sorted({len(rule.lead) for rule in self.rules})

    def match(self, word: Word) -> Optional[Tuple[int, int]]:
        """The least number of a rule whose leading word occurs in the word, and the leftmost place."""
        if len(self.numbers) < len(word) * len(self.lengths):
            found = ((number, word.find(lead)) for lead, number in self.numbers.items())
            return next(((number, place) for number, place in found if place >= 0), None)
        places = ((place, word[place : place + length]) for length in self.lengths for place in range(len(word) - length + 1))
        return min(((self.numbers[part], place) for place, part in places if part in self.numbers), default=None)

    def normal_form(self, poly: Poly, refused: str) -> Poly:
        """Replaces the greatest word in which a leading word occurs, as long as there is one."""
        total, multiplier, overflow = dict(poly), 1, f"{refused} overflow"
        rows: List[int] = []
        waiting = list(map(self.order.rank, total))  # the words that may be replaced, among some that are gone
        heapify(waiting)
        while waiting:
            word = heappop(waiting)[-1]
            found = self.match(word) if word in total else None
            if not found:
                continue
            if len(rows) == STEPS:
                raise Refusal(f"{refused} steps {STEPS}")
            rule, place = self.rules[found[0] - 1], found[1]
            divisor = gcd(total[word], rule.leading)
            by, share = rule.leading // divisor, total[word] // divisor
            if by != 1:
                multiplier = operated(multiplier, "times", by, overflow)
                total = {other: operated(coefficient, "times", by, overflow) for other, coefficient in terms_of(total)}
                rows = [operated(row, "times", by, overflow) for row in rows]
            front, behind = word[:place], word[place + len(rule.lead) :]
            taken = [(front + middle + behind, -operated(share, "times", coefficient, overflow)) for middle, coefficient in rule.terms]
            for other, _ in taken:
                if other not in total:
                    heappush(waiting, self.order.rank(other))
            add(total, taken, overflow)
            check_size(refused, len(front) + rule.longest + len(behind), len(total))
            rows.append(share)
        return total

    def ambiguities(self) -> List[Ambiguity]:
        """All of them, in their order."""
        beginnings: DefaultDict[Word, List[int]] = defaultdict(list)  # the rules whose leading words begin so and go on
        wholes: DefaultDict[Word, List[int]] = defaultdict(list)
        for number, rule in enumerate(self.rules, 1):
            wholes[rule.lead].append(number)
            for length in range(1, len(rule.lead)):
                beginnings[rule.lead[:length]].append(number)
        found = []
        for number, rule in enumerate(self.rules, 1):
            lead = rule.lead
            for place in range(1, len(lead)):
                for other in beginnings.get(lead[place:], ()):
                    rank = self.order.rank(lead[:place] + self.rules[other - 1].lead)
                    found.append(Ambiguity(rank, number, other, False, place))
            rank = self.order.rank(lead)
            for length in self.lengths:
                for place in range(len(lead) - length + 1):
                    others = [other for other in wholes.get(lead[place : place + length], ()) if other != number]
                    found += [Ambiguity(rank, number, other, True, place) for other in others]
        # The greatest word has the least rank.
        found.sort(key=lambda ambiguity: ambiguity[1:])
        found.sort(key=lambda ambiguity: ambiguity.rank, reverse=True)
        return found

    def s_polynomial(self, ambiguity: Ambiguity, refused: str) -> Poly:
        first, second = (self.rules[number - 1] for number in (ambiguity.first, ambiguity.second))
        word = ambiguity.rank[-1]
        sides = ("", word[len(first.lead) :]), (word[: ambiguity.place], word[ambiguity.place + len(second.lead) :])
        overflow = f"{refused} overflow"
        for rule, (left, right) in zip((first, second), sides):
            check_size(refused, len(left) + rule.longest + len(right), 0)
        divisor = gcd(first.leading, second.leading)
        factors = second.leading // divisor, -(first.leading // divisor)
        parts = [
            [(left + middle + right, operated(factor, "times", coefficient, overflow)) for middle, coefficient in rule.terms]
            for rule, (left, right), factor in zip((first, second), sides, factors)
        ]
        total = dict(parts[0])
        add(total, parts[1], overflow)
        check_size(refused, 0, len(total))
        return total


# ---- What is said of a basis


def judge(problem: Problem, order: Order, basis: Basis, refused: str) -> None:
    """Raises the first test of the basis that fails, where one does."""
    require(1 <= basis.claim <= len(problem.claims), f"{refused} B1")
    for number, poly in enumerate(basis.rules, 1):
        require(gcd_of(poly) == 1 and poly[min(poly, key=order.rank)] > 0, f"{refused} B2 rule {number}")
    rules = Rules(order, basis.rules)
    for number, generator in enumerate(problem.generators(), 1):
        rest = rules.normal_form(as_texts(generator), f"{refused} B7 generator {number}")
        require(not rest, f"{refused} B3 generator {number} rest {text_of(problem, rest)}")
    for ambiguity in rules.ambiguities():
        stopped = f"{refused} B7 {ambiguity.text()}"
        rest = rules.normal_form(rules.s_polynomial(ambiguity, stopped), stopped)
        require(not rest, f"{refused} B4 {ambiguity.text()} rest {text_of(problem, rest)}")
    rest = rules.normal_form(as_texts(problem.claims[basis.claim - 1]), f"{refused} B7 claim")
    require(rest == basis.rest, f"{refused} B5 got {text_of(problem, rest)}")
    require(rest != {}, f"{refused} B6")


def is_sharp(problem: Problem, basis: Basis) -> bool:
    """Whether the words of each rule are paths of one signature, in letters that are in play."""
    words_of_rules = [[tuple(FIRST - ord(letter) for letter in word) for word in poly] for poly in basis.rules]
    signatures = [{problem.signature(word) for word in words} for words in words_of_rules]
    is_typed = all(len(found) == 1 and None not in found for found in signatures)
    return is_typed and all(is_in_play(problem, letter) for words in words_of_rules for word in words for letter in word)


def is_in_play(problem: Problem, letter: int) -> bool:
    """Whether it is an identity that the statement names, a declared map, or the adjoint of one where the statement is starred."""
    if problem.names[letter][0] == "[":
        return letter in problem.marked
    return problem.is_starred or letter <= problem.stars[letter]


def gcd_of(poly: Poly) -> int:
    return reduce(gcd, poly.values(), 0)


def report(statement: Source, evidence: Source) -> Iterator[str]:
    """The lines of the report."""
    problem = Problem(statement)
    bases = Bases(problem, evidence).bases
    order = Order(problem)
    for block, basis in enumerate(bases, 1):
        judge(problem, order, basis, f"# block {block} refused")
        yield f"# block {block} closed claim {basis.claim}" + (" sharp" if is_sharp(problem, basis) else "")


main = answering(report, "confirm.py STATEMENT BASIS")

if __name__ == "__main__":
    script(main)
