"""Proofs as chains of equal expressions

For each certificate the assumptions that its proof uses, by their numbers and lines, and then the chain from the left side
of the claim to the right side. Each step is one row: an assumption (n), the adjoint (n)' of one, or a lemma [k], at one
place and times an integer. Words lose their identities first, so the relations of identities need no step. In a
statement of language 2 a run of one letter is written as its power.

From the start on each row that isn't used yet is taken off the present sum: the next one is that which leaves the fewest
terms, then the fewest letters, then the first. The rows add up to the left side minus the right side, so the end is the
right side in whatever order. Where a sum comes back, the steps between are left out. With a scale S the chain begins with S
times the left side; a claim whose right side has more terms is read from there. A lemma that one row names is written out
in its place; the others are chains of their own before the claim's, from their greatest word.

Before that, fewer rows that add up to the same are looked for around the words of those that are known: of all places of the
equations there the least sum is taken, and a lemma is left out where that is shorter. No chain becomes longer by that. --effort N
says how much is tried for all proofs of a text: 4000000, some two seconds, where it isn't given; with 0 the rows are taken as they
were read.

A report of `explain`, or other text whose first block is a `chain 1`, is read as such: its lines are made anew from its `use`
lines, and the first that is another one is told with its number. What is written then has its sums in their order, each line
plus the denominator times the right side; where the left side is 0 it is read from the end. Sums that come back are cut there too.

A text that begins with a `cancellation` is read by cancel.py. An item that takes a letter off an earlier one is a lemma with no
steps, since the letter is monic or epic, and the head says which letters have to be.

--latex writes claim, lemmas and proof for a paper that loads amsmath; long chains go over pages, and steps are cited by the numbers of
assumptions and lemmas. --names FILE has a line for each map or object that LaTeX is to write otherwise. --certificate writes the
rows of the steps as certificates, or what was read where that has fewer rows: in format 2, and in format 1, whose rows `explain` takes
in their order, where there are no lemmas; proofs that take letters off are written as they were read. What is wrong with the texts
is said in one line on standard error: codes are those of `check`, `explain` and `cancel`, and `line L no step` is a `use` that is 0
or no map with the claim's ends.
"""
from __future__ import annotations

import sys
from argparse import ArgumentTypeError
from collections import Counter
from heapq import heapify, heappop, heappush
from itertools import groupby
from random import Random
from typing import Callable, Dict, Iterator, List, NamedTuple, Optional, Sequence, Set, Tuple, Union

from opprove.checkers import cancel
from opprove.checkers.cancel import Cancel, Cancellation, Cancellations
from opprove.checkers.star import Root, StarItems, StarProofs
from opprove.checkers.chain_text import ChainText, Lines, Texts, judge_chain
from opprove.checkers.check import (
    Blocks, Certificate, Line, Poly, Problem, Row, Share, Signature, Source, Token, Word, add, content, judge, loaded,
)  # fmt: skip
from opprove.tool import ended
from opprove.translations.least_sum import Effort
from opprove.translations.shorten_chain import Equations, Item, Shortener, rows_of, steps_of
from opprove.translations.translation import explained, of_two_files

# Limits of evidence text. A lemma whose rows would have longer words in its place is a chain of its own.
LETTERS_IN_A_WORD, LETTERS, MOST = 500, 1000000, 2**127 - 1
WIDTH = 96  # of a sum in text
EFFORT = 4_000_000  # in the search for shorter chains: some two seconds
QUICK_EFFORT = 200_000  # where many are shown: some tenth of a second for a statement


class Equation(NamedTuple):
    """One that a line of the statement stands for. Its words have no identities, nor have all others below."""

    ends: Signature
    left: Poly
    right: Poly
    line: List[Token]


Taken = Union[Cancel, Root]  # a letter or a star that is taken off an item


class Part(NamedTuple):
    """A lemma or, as the last one, the goal: the rows add up to the scale times its polynomial. Or, with no rows, an item without a
    letter, where `item` is the number of that part."""

    ends: Signature
    scale: int
    rows: List[Row]
    cancelled: Optional[Taken] = None


class Step(NamedTuple):
    row: Row  # which is taken off the sum before
    total: Poly  # which is left


class Chain(NamedTuple):
    """Sums that are equal, from the scale times the left side to the scale times the right side."""

    ends: Signature
    scale: int
    left: Poly
    right: Poly
    is_turned: bool  # whether the part's rows add up to the scale times right minus left
    steps: List[Step]
    cancelled: Optional[Taken] = None  # in the place of steps

    def start(self) -> Poly:
        return add({}, self.scale, self.left)

    def poly(self) -> Poly:
        """Which the part says to be 0."""
        sign = -1 if self.is_turned else 1
        return add(add({}, sign, self.left), -sign, self.right)

    def part(self) -> Part:
        return Part(self.ends, self.scale, self.rows(), self.cancelled)

    def rows(self) -> List[Row]:
        """The rows of the part that are left."""
        sign = -1 if self.is_turned else 1
        return [step.row._replace(coefficient=sign * step.row.coefficient) for step in self.steps]


class Proof(NamedTuple):
    certificate: Union[Certificate, Cancellation]  # as it was read
    chains: List[Chain]  # of the lemmas, by their numbers, and last that of the claim
    is_told: bool = False  # by text of a chain, and not by a certificate


class Reader:
    """Makes proofs of the certificates of a problem, which have to be accepted."""

    def __init__(self, problem: Problem, effort: int = EFFORT) -> None:
        self.effort = effort  # for shorter chains, 0 for none
        self.left, self.coming = 0, 0  # of the effort, and how many proofs are to share that
        self.problem, self.exact, self.has_adjoints = problem, problem.generators(), problem.is_starred
        self.units = {letter for letter, name in enumerate(problem.names) if name[0] == "["}
        self.generators = [self.bare(poly) for poly in self.exact]
        self.ends = [next((self.path(word, 0) for word in poly), None) for poly in self.exact]  # of generators but 0
        self.assumptions: List[Equation] = []
        self.claims: List[Equation] = []
        for line in problem.lines:
            equations = self.claims if line.tokens[0].text == "claim" else self.assumptions
            equations += [self.equation(tokens, line.tokens) for tokens in problem.equations(line)]
        # The assumptions of the first generators, and whether these are their adjoints.
        self.sources = [(number, False) for number, _ in enumerate(self.assumptions, 1)]
        for number, poly in enumerate(problem.assumptions if problem.is_starred else [], 1):
            if problem.star(poly) not in (poly, add({}, -1, poly)):
                self.sources.append((number, True))

    # ---- Words and equations

    def bare_word(self, word: Word) -> Word:
        return tuple(letter for letter in word if letter not in self.units)

    def bare(self, poly: Poly) -> Poly:
        total: Poly = {}
        for word, coefficient in poly.items():
            add(total, coefficient, {self.bare_word(word): 1})
        return total

    def path(self, word: Word, unit: int) -> Optional[Signature]:
        """The ends of a word that is a path. The empty one leads from the unit to itself."""
        ends = [self.problem.ends[letter] for letter in word] or [(unit, unit)]
        is_path = all(left[0] == right[1] for left, right in zip(ends, ends[1:]))
        return (ends[-1][0], ends[0][1]) if is_path else None

    def equation(self, tokens: List[Token], shown: List[Token]) -> Equation:
        (_, (left_ends, left)), (_, (right_ends, right)) = Line(tokens, self.problem).sides()
        return Equation(left_ends or right_ends or (0, 0), self.bare(left), self.bare(right), shown)

    # ---- Certificates

    def inner_ends(self, row: Row, ends: Signature) -> Optional[Signature]:
        """Those of what stands between the row's words, where the row is a path with the given ends. In a statement that
        isn't starred a row with adjoints is none: no generator has them, so all these add up to 0, unless letters are taken off."""
        stars = self.problem.stars
        if not self.has_adjoints and any(stars[letter] < letter for letter in row.left + row.right):
            return None
        left, right = self.path(row.left, ends[1]), self.path(row.right, ends[0])
        inner = (right[1], left[0]) if left and right and (right[0], left[1]) == ends else None
        return inner if row.is_lemma or self.ends[row.number - 1] == inner else None

    def typed(self, claim: int, items: Sequence[Union[Share, Taken]], polys: Sequence[Poly]) -> List[Part]:
        """The rows alone that are paths with the claim's ends, and the lemmas that these need: once for each of the ends
        with which they are needed. The rows that are left out add up to 0 by themselves. The polynomials are those of the items,
        where letters are taken off some."""
        found: Dict[Tuple[int, Signature], List[Tuple[Row, Signature]]] = {}
        wanted: List[Set[Signature]] = [set() for _ in items]
        wanted[-1].add(self.claims[claim - 1].ends)
        for number in range(len(items), 0, -1):
            item = items[number - 1]
            for ends in wanted[number - 1]:
                rows = item.rows if isinstance(item, Share) else []
                pairs = [(row, self.inner_ends(row, ends)) for row in rows]
                found[number, ends] = [(row, inner) for row, inner in pairs if inner and self.has_ends(row, inner, items, polys)]
                for row, inner in found[number, ends]:
                    if row.is_lemma:
                        wanted[row.number - 1].add(inner)
                if not isinstance(item, Share):
                    wanted[item.item - 1].add(self.ends_of(polys[item.item - 1]))
        numbers = {key: number for number, key in enumerate(sorted(found), 1)}
        parts = []
        for number, ends in sorted(found):
            item = items[number - 1]
            if not isinstance(item, Share):
                other = numbers[item.item, self.ends_of(polys[item.item - 1])]
                parts.append(Part(ends, 1, [], item._replace(item=other)))
                continue
            rows = [row._replace(number=numbers[row.number, inner]) if row.is_lemma else row for row, inner in found[number, ends]]
            rows = [row._replace(left=self.bare_word(row.left), right=self.bare_word(row.right)) for row in rows]
            parts.append(Part(ends, item.scale, merged(rows)))
        return parts

    def ends_of(self, poly: Poly) -> Signature:
        """Those of a polynomial that is typed, and isn't 0."""
        ends = self.problem.signature(next(iter(poly)))
        assert ends, "it is typed"
        return ends

    def has_ends(self, row: Row, inner: Signature, items: Sequence[Union[Share, Taken]], polys: Sequence[Poly]) -> bool:
        """Whether a row, if it is over an item without a letter, is over one that has these ends, and so isn't zero there."""
        if not row.is_lemma or isinstance(items[row.number - 1], Share):
            return True
        poly = polys[row.number - 1]
        return bool(poly) and self.ends_of(poly) == inner

    def proof(self, certificate: Certificate) -> Proof:
        return self.in_parts(certificate, self.typed(certificate.claim, certificate.shares, []))

    def cancelled(self, proof: Cancellation, polys: Sequence[Poly]) -> Proof:
        self.has_adjoints = True
        return self.in_parts(proof, self.typed(proof.claim, proof.items, polys))

    def in_parts(self, certificate: Union[Certificate, Cancellation], parts: List[Part]) -> Proof:
        claim = self.claims[certificate.claim - 1]
        chains = self.without_loops(in_place(parts), claim)
        shorter = self.without_loops(in_place(self.shorter(chains)), claim)
        return Proof(certificate, shorter if length(shorter) < length(chains) else chains)

    def without_loops(self, parts: List[Part], claim: Equation) -> List[Chain]:
        """Chains of the parts, or of those that are left where loops are cut."""
        while True:
            chains = self.chains(parts, claim)
            again = in_place([chain.part() for chain in chains])
            if len(again) == len(parts):
                return chains
            parts = again  # as steps that were left out were all that named some lemma, or all but one

    def shorter(self, chains: List[Chain]) -> List[Part]:
        """The parts of chains, with fewer rows where shorten_chain.py finds them."""
        equations, count = Equations(self.problem.ends), len(self.sources)
        for poly, ends in zip(self.generators[:count], self.ends):
            equations.append(poly, ends)
        for chain in chains:
            equations.append(chain.poly(), chain.ends)
        items = [Item(chain.ends, chain.scale, None if chain.cancelled else steps_of(chain.rows(), count)) for chain in chains]
        kept = [chain.cancelled.item - 1 for chain in chains if chain.cancelled]
        effort = Effort(self.share())
        found = Shortener(equations, count, items, kept, effort).shortened()
        self.left += effort.left
        return [chain.part()._replace(rows=rows_of(item.steps or {}, count)) for chain, item in zip(chains, found)]

    def begin(self, count: int) -> None:
        """Has the proofs that follow, so many, share the effort. A proof that isn't among those has all of it."""
        self.left, self.coming = self.effort, count

    def share(self) -> int:
        """The effort for a proof: what those before it left goes to those behind it."""
        if not self.coming:
            self.begin(1)
        found = max(self.left // self.coming, 0)
        self.left, self.coming = self.left - found, self.coming - 1
        return found

    def chains(self, parts: List[Part], claim: Equation) -> List[Chain]:
        chains: List[Chain] = []
        lemmas: List[Poly] = []
        for part in parts:
            if part.cancelled:
                lemmas.append(self.taken_off(part.cancelled, lemmas[part.cancelled.item - 1]))
                chains.append(Chain(part.ends, 1, *from_greatest_word(lemmas[-1]), [], part.cancelled))
                continue
            middles = [(lemmas if row.is_lemma else self.generators)[row.number - 1] for row in part.rows]
            values = [add({}, row.coefficient, poly, row.left, row.right) for row, poly in zip(part.rows, middles)]
            lemmas.append(divided(values, part.scale))
            left, right, is_turned = claim.left, claim.right, len(claim.right) > len(claim.left)
            if len(lemmas) < len(parts):
                left, right, is_turned = from_greatest_word(lemmas[-1])
            elif is_turned:
                left, right = right, left
            empty = Chain(part.ends, part.scale, left, right, is_turned, [])
            values = signed(empty, values)
            chains.append(empty._replace(steps=steps(empty, part.rows, values, in_order(empty.start(), values))))
        return chains

    def taken_off(self, taken: Taken, poly: Poly) -> Poly:
        """What an item with this polynomial leaves."""
        if isinstance(taken, Root):
            return self.bare(taken.squares[0].poly)
        return {word[1:] if taken.is_left else word[:-1]: value for word, value in poly.items()}

    def told(self, text: ChainText) -> Proof:
        """The proof that a chain is, which has to be right: with its steps in their order."""
        claim, denominator = self.claims[text.claim - 1], text.denominator
        rows = [row._replace(left=self.bare_word(row.left), right=self.bare_word(row.right)) for _, row in text.steps]
        values = [add({}, row.coefficient, self.generators[row.number - 1], row.left, row.right) for row in rows]
        sides, order = (claim.left, claim.right), list(range(len(rows)))
        is_turned = not claim.left
        if is_turned:
            sides, order = sides[::-1], order[::-1]
        empty = Chain(claim.ends, denominator, *sides, is_turned, [])
        certificate = Certificate(text.claim, denominator, [Share(denominator, [row for _, row in text.steps])])
        return Proof(certificate, [empty._replace(steps=steps(empty, rows, signed(empty, values), order))], True)

    # ---- Certificates of chains

    def shortened(self, proof: Proof) -> Certificate:
        """The rows of the steps, and those over relations of identities that they need; or what was read, where that has
        fewer rows, or these pass a limit."""
        read = proof.certificate
        assert isinstance(read, Certificate), "proofs that take letters off are written as they were read"
        shares: List[Share] = []
        lemmas: List[Poly] = []
        relations = {max(poly, key=len): number for number, poly in enumerate(self.exact, 1) if number > len(self.sources)}
        for chain in proof.chains:
            total: Poly = {}
            for row in chain.rows():
                middle = (lemmas if row.is_lemma else self.exact)[row.number - 1]
                add(total, row.coefficient, middle, row.left, row.right)
            if chain is proof.chains[-1]:
                add(total, -chain.scale, self.problem.claims[read.claim - 1])
            rows, rest = self.without_units(total, relations)
            # From the left side on, as `explain` goes.
            kept = chain.rows()[::-1] if chain.is_turned else chain.rows()
            shares.append(Share(chain.scale, merged(kept + rows)))
            lemmas.append({word: value // chain.scale for word, value in rest.items()})
        assert not lemmas[-1], lemmas[-1]
        found, before = ([row for share in some for row in share.rows] for some in (shares, read.shares))
        is_within = all(fits(row) and abs(row.coefficient) <= MOST for row in found)
        is_within &= len(found) <= len(before) and sum(len(row.left) + len(row.right) for row in found) <= LETTERS
        return read._replace(shares=shares) if is_within else read

    def without_units(self, poly: Poly, relations: Dict[Word, int]) -> Tuple[List[Row], Poly]:
        """Rows over relations, and what the polynomial and they add up to: words that are an identity, or have none."""
        rows: List[Row] = []
        rest: Poly = {}
        left = dict(poly)
        while left:
            word, coefficient = left.popitem()
            place = next((place for place, letter in enumerate(word) if letter in self.units), None)
            if place is None or len(word) == 1:
                add(rest, coefficient, {word: 1})
                continue
            start = min(place, len(word) - 2)
            relation = relations[word[start : start + 2]]
            rows.append(Row(-coefficient, word[:start], False, relation, word[start + 2 :]))
            add(left, coefficient, {word[:place] + word[place + 1 :]: 1})
        return rows, rest


# ---- Rows


def length(chains: Sequence[Chain]) -> int:
    """All steps."""
    return sum(len(chain.steps) for chain in chains)


def fits(row: Row) -> bool:
    return max(len(row.left), len(row.right)) <= LETTERS_IN_A_WORD


def merged(rows: List[Row]) -> List[Row]:
    """Rows that are equal but for their coefficients are one."""
    totals: Dict[Row, int] = {}
    for row in rows:
        place = row._replace(coefficient=0)
        totals[place] = totals.get(place, 0) + row.coefficient
    return [place._replace(coefficient=total) for place, total in totals.items() if total]


def in_place(parts: List[Part]) -> List[Part]:
    """The same, where lemmas that one row names are written out there, if the scale divides the row's coefficient, and those
    that none names are left out."""
    uses = Counter(row.number for part in parts for row in part.rows if row.is_lemma)
    cancelled = {part.cancelled.item for part in parts if part.cancelled}
    once = {number for number, count in uses.items() if count == 1 and number not in cancelled and not parts[number - 1].cancelled}
    kept = {len(parts): written_out(parts[-1], parts, once)}
    for number in range(len(parts), 0, -1):
        for other in lemmas_of(kept[number]) if number in kept else []:
            if other not in kept:
                kept[other] = written_out(parts[other - 1], parts, once)
    numbers = {old: new for new, old in enumerate(sorted(kept), 1)}
    again = []
    for old in sorted(kept):
        rows = [row._replace(number=numbers[row.number]) if row.is_lemma else row for row in kept[old].rows]
        taken = kept[old].cancelled
        again.append(kept[old]._replace(rows=rows, cancelled=taken and taken._replace(item=numbers[taken.item])))
    return again


def lemmas_of(part: Part) -> List[int]:
    """The numbers of those that it stands on."""
    return [part.cancelled.item] if part.cancelled else [row.number for row in part.rows if row.is_lemma]


def written_out(part: Part, parts: List[Part], once: Set[int]) -> Part:
    rows, stack = [], part.rows[::-1]
    while stack:
        row = stack.pop()
        inner = rows_in_place(row, parts[row.number - 1]) if row.is_lemma and row.number in once else None
        if inner is None:
            rows.append(row)
        else:
            stack += inner[::-1]
    return part._replace(rows=merged(rows))


def rows_in_place(row: Row, lemma: Part) -> Optional[List[Row]]:
    """The rows of the lemma in the place of a row over it, where they can stand there."""
    factor, rest = divmod(row.coefficient, lemma.scale)
    rows = [
        Row(factor * inner.coefficient, row.left + inner.left, inner.is_lemma, inner.number, inner.right + row.right)
        for inner in lemma.rows
    ]
    return rows if rest == 0 and all(map(fits, rows)) else None


# ---- Steps


def divided(values: List[Poly], scale: int) -> Poly:
    """Their sum, by the scale."""
    total: Poly = {}
    for value in values:
        add(total, 1, value)
    return {word: coefficient // scale for word, coefficient in total.items()}


def from_greatest_word(poly: Poly) -> Tuple[Poly, Poly, bool]:
    """The polynomial as an equation of its greatest word and the others, and whether it is right minus left."""
    word = max(poly, key=lambda word: (len(word), word), default=())
    sign = -1 if poly.get(word, 0) < 0 else 1
    others = {other: -sign * poly[other] for other in poly if other != word}
    return add({}, sign * poly.get(word, 0), {word: 1}), others, sign < 0


def signed(chain: Chain, values: List[Poly]) -> List[Poly]:
    """What is taken off a sum by rows with these values."""
    return [add({}, -1 if chain.is_turned else 1, value) for value in values]


def steps(chain: Chain, rows: List[Row], values: List[Poly], order: List[int]) -> List[Step]:
    """The steps of a chain that has none yet, by rows which take these values off, in this order."""
    sign = -1 if chain.is_turned else 1
    total, found = chain.start(), []
    for place in without_loops(order, values):
        total = add(dict(total), -1, values[place])
        found.append(Step(rows[place]._replace(coefficient=sign * rows[place].coefficient), total))
    assert total == add({}, chain.scale, chain.right), (total, chain)
    return found


def in_order(start: Poly, values: List[Poly]) -> List[int]:
    """The places of the values in the order in which they are taken off."""
    now = dict(start)
    having: Dict[Word, List[int]] = {}
    for place, value in enumerate(values):
        for word in value:
            having.setdefault(word, []).append(place)

    def change(place: int) -> Tuple[int, int, int]:
        """By how much taking off this value changes the number of terms and of letters."""
        signs = [(word, (now.get(word, 0) != value) - (word in now)) for word, value in values[place].items()]
        return sum(sign for _, sign in signs), sum(sign * len(word) for word, sign in signs), place

    changes: Dict[int, Tuple[int, int, int]] = {place: change(place) for place, value in enumerate(values) if value}
    heap, order = list(changes.values()), []
    heapify(heap)
    while changes:
        found = heappop(heap)
        if changes.get(found[2]) != found:
            continue  # as it has changed, or is taken off
        del changes[found[2]]
        order.append(found[2])
        add(now, -1, values[found[2]])
        for place in {place for word in values[found[2]] for place in having[word] if place in changes}:
            changes[place] = change(place)
            heappush(heap, changes[place])
    return order


def without_loops(order: List[int], values: List[Poly]) -> List[int]:
    """The order without the steps between a sum and the last one that is equal to it. Sums are known by what they add to the
    first one, in which a number of 128 bits stands for each word."""
    random, weights = Random(1), {}
    sums = [0]
    for place in order:
        for word in values[place]:
            if word not in weights:
                weights[word] = random.getrandbits(128)
        sums.append(sums[-1] + sum(value * weights[word] for word, value in values[place].items()))
    last = {total: number for number, total in enumerate(sums)}
    kept, number = [], last[0]
    while number < len(order):
        kept.append(order[number])
        number = last[sums[number + 1]]
    return kept


# ---- Texts


class Writer:
    """Writes sums: with the names of letters, what stands between factors, and how powers are written where they are."""

    def __init__(self, letters: List[str], joint: str, power: Optional[Callable[[str, int], str]] = None) -> None:
        self.letters, self.joint, self.power = letters, joint, power

    def factors(self, word: Word) -> Iterator[str]:
        """The letters, and where powers are written each run of one letter as its power."""
        for letter, run in groupby(word):
            count = len(list(run))
            name = self.letters[letter]
            yield from [self.power(name, count)] if count > 1 and self.power else [name] * count

    def terms(self, poly: Poly, ends: Signature) -> List[str]:
        """The signed terms, those with a + first, and then the longest first."""
        found = []
        for word in sorted(poly, key=lambda word: (poly[word] < 0, -len(word), word)):
            number = [] if abs(poly[word]) == 1 else [str(abs(poly[word]))]
            factors = [*number, *self.factors(word or ends[:1])]
            found.append(f"{'-' if poly[word] < 0 else '+'} {self.joint.join(factors)}")
        return found

    def lines(self, poly: Poly, ends: Signature, width: int) -> List[str]:
        """The sum in lines of this width, unless a term is longer."""
        lines: List[str] = []
        for term in self.terms(poly, ends) or ["0"]:
            if lines and len(lines[-1]) + len(term) < width:
                lines[-1] += " " + term
            else:
                lines.append(term if lines or term[:2] != "+ " else term[2:])
        return lines

    def sum(self, poly: Poly, ends: Signature) -> str:
        return " ".join(self.lines(poly, ends, sys.maxsize))

    def equation(self, left: Poly, right: Poly, ends: Signature) -> str:
        return f"{self.sum(left, ends)} = {self.sum(right, ends)}"


def has_powers(problem: Problem) -> bool:
    """Whether the statement is of language 2."""
    return problem.lines[0].tokens[0].text == "language"


def used(reader: Reader, proof: Proof) -> List[int]:
    """The assumptions that are used."""
    rows = [step.row for chain in proof.chains for step in chain.steps]
    return sorted({reader.sources[row.number - 1][0] for row in rows if not row.is_lemma})


def label(reader: Reader, row: Row, star: str) -> str:
    if row.is_lemma:
        return f"[{row.number}]"
    assumption, is_adjoint = reader.sources[row.number - 1]
    return f"({assumption})" + star * is_adjoint


def place_of(equation: Equation) -> str:
    """The line of the statement, and its words where it stands for several equations."""
    words = " ".join(token.text for token in equation.line[:-1])
    is_written = equation.line[0].text == "assume"
    return f"line {equation.line[0].line}" + ("" if is_written else f", {words}")


def not_used(reader: Reader, numbers: List[int]) -> str:
    others = [f"({number})" for number, _ in enumerate(reader.assumptions, 1) if number not in numbers]
    return f"Not used: {', '.join(others) or 'none'}"


def cancels(scale: int, before: str) -> str:
    return "" if scale == 1 else f"{before} {scale} cancels"


def granted(reader: Reader, proof: Proof, names: Sequence[str]) -> List[str]:
    """What has to be so for the claim: that the denominator cancels, and that letters with these names are monic or epic."""
    denominator = proof.certificate.denominator
    found = [] if denominator == 1 or proof.is_told else [f"{denominator} cancels"]
    for word, is_left in (("monic", True), ("epic", False)):
        cancelled = [chain.cancelled for chain in proof.chains if isinstance(chain.cancelled, Cancel)]
        letters = [one.letter for one in cancelled if one.is_left == is_left]
        texts = [names[letter] for letter in dict.fromkeys(letters)]
        found += [f"{listed(texts)} {'is' if len(texts) == 1 else 'are'} {word}"] if texts else []
    counts = [len(chain.cancelled.squares) for chain in proof.chains if isinstance(chain.cancelled, Root)]
    return found + ([f"the involution is {'positive' if max(counts) > 1 else 'proper'}"] if counts else [])


def listed(texts: Sequence[str]) -> str:
    return " and ".join([", ".join(texts[:-1])] * (len(texts) > 1) + [*texts[-1:]])


def reason(cancelled: Taken, names: Sequence[str], is_latex: bool = False) -> str:
    """Why a lemma holds that is another one without a letter, or without a star."""
    if isinstance(cancelled, Root):
        squares, sign = ((r"r^* \, r", r"r \, r^*"), "$") if is_latex else (("r' r", "r r'"), "")
        square, is_sum = squares[0 if cancelled.is_left else 1], len(cancelled.squares) > 1
        one, each = f"{sign}{square} = 0{sign} gives {sign}r = 0{sign}", f"a sum of {sign}{square}{sign} is 0 only where each is"
        return f"by [{cancelled.item}], since {each if is_sum else one}"
    return f"by [{cancelled.item}], since {names[cancelled.letter]} is {'monic' if cancelled.is_left else 'epic'}"


def text(reader: Reader, proof: Proof) -> Iterator[str]:
    """The proof in lines. Sums are written in the language of the statement."""
    writer = Writer(reader.problem.names, " ", "{}^{}".format if has_powers(reader.problem) else None)
    claim, numbers = reader.claims[proof.certificate.claim - 1], used(reader, proof)
    equation, denominator = writer.equation(claim.left, claim.right, claim.ends), proof.certificate.denominator
    conditions = granted(reader, proof, reader.problem.names)
    yield f"Claim {proof.certificate.claim}{', where ' if conditions else ''}{listed(conditions)}: {equation}"
    yield ""
    yield "Assumptions that are used" + ("" if numbers else ": none")
    assumptions = [(number, reader.assumptions[number - 1]) for number in numbers]
    lines = [f"({number}) {writer.equation(other.left, other.right, other.ends)}" for number, other in assumptions]
    width = min(WIDTH, max(map(len, lines), default=0))
    for line, (_, other) in zip(lines, assumptions):
        yield f"{line.ljust(width)}   {place_of(other)}"
    yield not_used(reader, numbers)
    for number, chain in enumerate(proof.chains, 1):
        yield ""
        if chain is proof.chains[-1]:
            yield f"Proof{'' if proof.is_told else cancels(chain.scale, ', as')}"
        else:
            lemma = writer.equation(chain.left, chain.right, chain.ends)
            why = f", {reason(chain.cancelled, reader.problem.names)}" if chain.cancelled else cancels(chain.scale, ", as")
            yield f"Lemma [{number}]{why}: {lemma}"
        yield from [] if chain.cancelled else chain_in_text(reader, writer, chain)
    if proof.is_told and denominator > 1:
        yield cancels(denominator, "and")


def chain_in_text(reader: Reader, writer: Writer, chain: Chain) -> Iterator[str]:
    groups: List[List[str]] = []
    for total in [chain.start(), *(step.total for step in chain.steps)]:
        first, *others = writer.lines(total, chain.ends, WIDTH)
        groups.append([("= " if groups else "  ") + first, *("    " + line for line in others)])
    width = max(len(lines[-1]) for lines in groups)
    yield from groups[0]
    for step, lines in zip(chain.steps, groups[1:]):
        yield from lines[:-1]
        name = label(reader, step.row, "'")
        yield f"{lines[-1].ljust(width)}   by {name}"


def cancellation_text(problem: Problem, proof: Cancellation) -> Iterator[str]:
    """The proof in lines."""
    is_star = any(isinstance(item, Root) for item in proof.items)
    yield from ("star proof 1" if is_star else "cancellation 1", f"claim {proof.claim}", f"denominator {proof.denominator}")
    for word, letters in (("monic", proof.monic), ("epic", proof.epic)):
        yield from (f"{word} {problem.names[letter]}" for letter in letters)
    for number, item in enumerate(proof.items, 1):
        if isinstance(item, Root):
            yield f"root {number} {'left' if item.is_left else 'right'} {item.item}"
            yield from (f"square {square.scale} {polynomial(problem, square.poly)}" for square in item.squares)
        elif isinstance(item, Cancel):
            yield f"cancel {number} {problem.names[item.letter]} {'left' if item.is_left else 'right'} {item.item}"
        else:
            yield f"{'goal' if item is proof.items[-1] else f'lemma {number}'} scale {item.scale}"
            yield from row_lines(problem, item)
    yield "end"


def polynomial(problem: Problem, poly: Poly) -> str:
    """A polynomial as evidence has it, the greatest word first."""
    return Lines(problem).line_text(poly)[len("line ") :]


def row_lines(problem: Problem, share: Share) -> Iterator[str]:
    for row in share.rows:
        middle = f"{'lemma ' if row.is_lemma else ''}{row.number}"
        yield f"row {row.coefficient} ({problem.text(row.left)}) {middle} ({problem.text(row.right)})"


def certificate_text(problem: Problem, certificate: Certificate) -> Iterator[str]:
    """The certificate in lines: in format 2, but in format 1 where there are no lemmas and no other scale."""
    goal = certificate.shares[-1]
    is_plain = certificate.shares == [goal] and goal.scale == certificate.denominator
    yield from (f"certificate {1 if is_plain else 2}", f"claim {certificate.claim}", f"denominator {certificate.denominator}")
    for number, share in enumerate(certificate.shares, 1):
        if not is_plain:
            yield f"{'goal' if share is goal else f'lemma {number}'} scale {share.scale}"
        yield from row_lines(problem, share)
    yield "end"


# ---- The command


def judge_all(problem: Problem, texts: Texts) -> None:
    """Raises what is wrong with the first certificate or chain that isn't right."""
    for block, certificate in enumerate(texts.certificates, 1):
        judge(problem, certificate, f"# block {block} refused")
    if texts.chains:
        lines = Lines(problem)
        for block, told in enumerate(texts.chains, 1):
            judge_chain(lines, told, f"# block {block} refused")


def written(statement: Source, evidence: Source, *, form: str = "text", names: str = "", effort: int = EFFORT) -> Iterator[str]:
    """The lines of all proofs of the evidence, in a form: text, latex, with the table of names in this file, or certificate."""
    from opprove.translations import chain_latex  # which stands on this file

    reader = Reader(Problem(statement), effort)
    proofs = proofs_of(reader, evidence)
    table = chain_latex.names_of(reader.problem, content(names).decode()) if names else {}
    if form == "certificate":
        yield from certificates(reader, proofs)
        return
    for block, proof in enumerate(proofs):
        yield from [""] * (block > 0)
        yield from text(reader, proof) if form == "text" else chain_latex.latex(reader, proof, table)


def certificates(reader: Reader, proofs: List[Proof]) -> Iterator[str]:
    """The proofs as evidence text."""
    for proof in proofs:
        if isinstance(proof.certificate, Cancellation):
            yield from cancellation_text(reader.problem, proof.certificate)
        else:
            yield from certificate_text(reader.problem, reader.shortened(proof))


def proofs_of(reader: Reader, evidence: Source) -> List[Proof]:
    """Those of a text, all of which have to be right."""
    problem = reader.problem
    first = Blocks(evidence).line
    if first.startswith(("cancellation ", "star ")):
        reader_of, items_of = (StarProofs, StarItems) if first.startswith("star ") else (Cancellations, cancel.Items)
        proofs, lines = reader_of(problem, evidence).proofs, Lines(problem)
        polys = [cancel.judge(lines, proof, f"# block {block} refused", items_of) for block, proof in enumerate(proofs, 1)]
        reader.begin(len(proofs))
        return list(map(reader.cancelled, proofs, polys))
    with explained(evidence):
        texts = Texts(problem, evidence)
    judge_all(problem, texts)
    reader.begin(len(texts.certificates))
    # One of both lists is empty.
    return [*map(reader.proof, texts.certificates), *map(reader.told, texts.chains)]


def natural(text: str) -> int:
    """A number of words, from 0."""
    if not text.isdecimal():
        raise ArgumentTypeError(f"{text} is no number")
    return int(text)


def main(words: List[str]) -> int:
    """Writes the chains, and gives the status."""
    made = of_two_files("chain", __doc__)
    form = made.add_mutually_exclusive_group()
    form.add_argument("--latex", dest="form", action="store_const", const="latex", default="text", help="for a paper that loads amsmath")
    form.add_argument("--certificate", dest="form", action="store_const", const="certificate", help="the rows of the steps as certificates")
    made.add_argument("--names", metavar="FILE", default="", help="how LaTeX has names, a line each, as `x a^{\\dagger}`")
    made.add_argument("--effort", type=natural, default=EFFORT, metavar="N", help=f"for shorter chains, 0 for none ({EFFORT})")
    given = made.parse_args(words)
    return ended(lambda: written(*loaded([given.statement, given.evidence]), form=given.form, names=given.names, effort=given.effort))


