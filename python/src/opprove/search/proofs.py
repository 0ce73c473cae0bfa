"""Proofs of claims from a ledger (engine.py), as text: certificates, cancellations and star proofs.

A proof has the polynomials of the ledger that its goal stands on, and no others. Lemmas that one row uses are put in its place.
"""
from __future__ import annotations

from math import gcd
from typing import Dict, Iterable, List, NamedTuple, Set, Tuple

from opprove.checkers.check import Problem
from opprove.search.engine import Alphabet, Generator, Ledger, Off, Origin, Poly, Root, Row, Sum, Traced, Word

MOST_INLINED = 60  # rows of a sum into which lemmas are put


class Item(NamedTuple):
    """A polynomial with its origin, whose rows and places name earlier items."""

    place: int
    origin: Origin


class Proof(NamedTuple):
    """The items of a proof in their order, and its goal: rows that add up to the scale times the claim."""

    ledger: Ledger
    claim: int
    items: List[Item]
    goal: Sum

    @property
    def denominator(self) -> int:
        """The least number that all scales divide."""
        scales = [item.origin.scale for item in self.items if isinstance(item.origin, Sum)] + [self.goal.scale]
        scales += [root.squares[0][0] for root in self.roots() if len(root.squares) == 1]
        found = 1
        for scale in scales:
            found *= scale // gcd(found, scale)
        return found

    def letters(self, is_left: bool) -> List[int]:
        """The letters that are taken off in front (left) or behind."""
        off = [item.origin for item in self.items if isinstance(item.origin, Off)]
        return sorted({self.ledger.alphabet.letters[one.letter] for one in off if one.is_left == is_left})

    def roots(self) -> List[Root]:
        return [item.origin for item in self.items if isinstance(item.origin, Root)]

    def rows(self) -> int:
        return sum(len(item.origin.rows) for item in self.items if isinstance(item.origin, Sum)) + len(self.goal.rows)

    def generators(self) -> Set[int]:
        """The numbers of the generators that rows name."""
        sums = [item.origin for item in self.items if isinstance(item.origin, Sum)] + [self.goal]
        found = set()
        for one in sums:
            for row in one.rows:
                origin = self.ledger.origins[row.place]
                if isinstance(origin, Generator):
                    found.add(origin.number)
        return found


# ---- What a proof needs


def proof_of(ledger: Ledger, claim: int, traced: Traced) -> Proof:
    """The proof of a claim whose normal form is zero."""
    goal = divided(Sum(traced.multiple, merged(traced.rows)))
    origins: Dict[int, Origin] = {}
    collect(ledger, [row.place for row in goal.rows], origins)
    goal = inlined(ledger, origins, goal)
    kept: Dict[int, Origin] = {}
    collect_kept(origins, [row.place for row in goal.rows], kept)
    return Proof(ledger, claim, [Item(place, kept[place]) for place in sorted(kept)], goal)


def used_by(origin: Origin) -> List[int]:
    """The places that an origin names."""
    if isinstance(origin, Sum):
        return [row.place for row in origin.rows]
    return [] if isinstance(origin, Generator) else [origin.place]


def collect(ledger: Ledger, places: Iterable[int], found: Dict[int, Origin]) -> None:
    """Finds all that these places stand on but for generators, each with its rows merged. A letter or a star is taken off an
    item: where it comes off a generator, that is copied."""
    pending = [place for place in places if not isinstance(ledger.origins[place], Generator)]
    copies = {row.place: place for place, one in found.items() for row in getattr(one, "rows", [])[:1] if isinstance(one, Sum)}
    while pending:
        place = pending.pop()
        if place in found:
            continue
        origin = ledger.origins[place]
        if isinstance(origin, Sum):
            origin = Sum(origin.scale, merged(origin.rows))
        elif isinstance(origin, (Off, Root)) and isinstance(ledger.origins[origin.place], Generator):
            copy = -1 - origin.place  # before all others
            found[copy] = Sum(1, [Row(1, "", origin.place, "")])
            origin = origin._replace(place=copy)
        found[place] = origin
        pending += [other for other in used_by(origin) if other >= 0 and not isinstance(ledger.origins[other], Generator)]


def collect_kept(origins: Dict[int, Origin], places: Iterable[int], kept: Dict[int, Origin]) -> None:
    pending = [place for place in places if place in origins]
    while pending:
        place = pending.pop()
        if place not in kept:
            kept[place] = origins[place]
            pending += [other for other in used_by(origins[place]) if other in origins]


def inlined(ledger: Ledger, origins: Dict[int, Origin], goal: Sum) -> Sum:
    """Puts lemmas in the place of the one row that uses them, and of all where they are a row themselves; returns the goal."""
    uses: Dict[int, int] = {}
    for origin in [*origins.values(), goal]:
        for place in used_by(origin):
            uses[place] = uses.get(place, 0) + (1 if isinstance(origin, Sum) else 2)
    for place in sorted(origins):
        origin = origins[place]
        if isinstance(origin, Sum):
            origins[place] = opened(origins, uses, origin)
    return opened(origins, uses, goal)


def opened(origins: Dict[int, Origin], uses: Dict[int, int], total: Sum) -> Sum:
    rows: List[Row] = []
    for row in total.rows:
        lemma = origins.get(row.place)
        is_short = isinstance(lemma, Sum) and lemma.scale == 1 and (uses[row.place] == 1 or len(lemma.rows) == 1)
        if isinstance(lemma, Sum) and is_short and len(lemma.rows) + len(rows) <= MOST_INLINED:
            rows += [Row(row.coefficient * one.coefficient, row.left + one.left, one.place, one.right + row.right) for one in lemma.rows]
        else:
            rows.append(row)
    return divided(Sum(total.scale, merged(rows)))


def merged(rows: Iterable[Row]) -> List[Row]:
    """Rows with the same words and place as one, none of them with the coefficient 0."""
    found: Dict[Tuple[Word, int, Word], int] = {}
    for row in rows:
        key = (row.left, row.place, row.right)
        found[key] = found.get(key, 0) + row.coefficient
    return [Row(coefficient, *key) for key, coefficient in found.items() if coefficient]


def divided(total: Sum) -> Sum:
    """The sum without what its scale and all its coefficients have in common."""
    divisor = total.scale
    for row in total.rows:
        divisor = gcd(divisor, row.coefficient)
    if divisor == 1:
        return total
    return Sum(total.scale // divisor, [row._replace(coefficient=row.coefficient // divisor) for row in total.rows])


# ---- Text


def poly_text(alphabet: Alphabet, poly: Poly) -> str:
    """The polynomial as it stands in evidence, the greatest word first."""
    problem = alphabet.problem
    words = {alphabet.letters_of(word): coefficient for word, coefficient in poly.items()}
    texts = []
    for word in sorted(words, key=lambda word: (len(word), word), reverse=True):
        number = "" if abs(words[word]) == 1 else f"{abs(words[word])} "
        texts.append(f"{'-' if words[word] < 0 else '+'} {number}{problem.text(word)}")
    text = " ".join(texts) or "0"
    return text[2:] if text[0] == "+" else text


class Writer:
    """Writes a proof: its items get numbers in their order."""

    def __init__(self, proof: Proof) -> None:
        self.proof, self.alphabet = proof, proof.ledger.alphabet
        self.problem: Problem = self.alphabet.problem
        self.numbers = {item.place: number for number, item in enumerate(proof.items, 1)}

    def word(self, word: Word) -> str:
        return self.problem.text(self.alphabet.letters_of(word))

    def row(self, row: Row) -> str:
        if row.place in self.numbers:
            middle = f"lemma {self.numbers[row.place]}"
        else:
            origin = self.proof.ledger.origins[row.place]
            assert isinstance(origin, Generator)
            middle = str(origin.number)
        return f"row {row.coefficient} ({self.word(row.left)}) {middle} ({self.word(row.right)})"

    def item(self, number: int, origin: Origin) -> List[str]:
        if isinstance(origin, Sum):
            return [f"lemma {number} scale {origin.scale}", *map(self.row, origin.rows)]
        if isinstance(origin, Off):
            return [f"cancel {number} {self.word(origin.letter)} {side(origin.is_left)} {self.numbers[origin.place]}"]
        assert isinstance(origin, Root)
        squares = [f"square {scale} {poly_text(self.alphabet, poly)}" for scale, poly in origin.squares]
        return [f"root {number} {side(origin.is_left)} {self.numbers[origin.place]}", *squares]

    def head(self) -> str:
        """The first line of the block."""
        if self.proof.roots():
            return "star proof 1"
        is_plain = not any(isinstance(item.origin, Off) for item in self.proof.items)
        return "certificate 2" if is_plain else "cancellation 1"

    def granted(self) -> List[str]:
        """The lines on letters that are taken off."""
        proof = self.proof
        kinds = [(word, letter) for word, is_left in (("monic", True), ("epic", False)) for letter in proof.letters(is_left)]
        return [f"{word} {self.problem.names[letter]}" for word, letter in kinds]

    def block(self) -> List[str]:
        proof = self.proof
        lines = [self.head(), f"claim {proof.claim}", f"denominator {proof.denominator}", *self.granted()]
        for number, item in enumerate(proof.items, 1):
            lines += self.item(number, item.origin)
        return lines + [f"goal scale {proof.goal.scale}", *map(self.row, proof.goal.rows), "end"]


def side(is_left: bool) -> str:
    return "left" if is_left else "right"


def takes(proof: Proof) -> str:
    """What a proof takes for granted, as the checkers name it."""
    writer = Writer(proof)
    roots = proof.roots()
    words = [] if not roots else ["positive"] if max(len(root.squares) for root in roots) > 1 else ["proper"]
    for word in ("monic", "epic"):
        names = [line.split(" ", 1)[1] for line in writer.granted() if line.startswith(word + " ")]
        words += [f"{word} {' '.join(names)}"] if names else []
    return " ".join(words)
