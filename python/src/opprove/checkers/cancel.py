#!/usr/bin/env python3
"""A second `opprove cancel`: cancel.py STATEMENT PROOF

Prints the report of `opprove cancel`, byte for byte: whether each proof of a text adds up to its claim, where besides sums of rows
a letter may be taken off an item: in front where the proof calls it monic, behind where it calls it epic. What is called so is
named in the answer; or the first thing that is wrong ends the report. The statuses are those of the program. It is written from
the rules of docs/FORMATS.md and shares nothing with opprove. Statements are read by check.py, and so are rows: the faults S4 and
S13 of statements, of numbers that are too large, are not looked at.
A referee reads 1,113 lines: this file, check.py and chain_text.py, and no other but Python's own library.
"""
from __future__ import annotations

from typing import TYPE_CHECKING, Any, Dict, Iterator, List, NamedTuple, Set, Tuple, Type

if TYPE_CHECKING or __package__:
    from .chain_text import LETTERS_OF_A_WORD, Bounded, Lines, add_row, compare
    from .check import Blocks, Poly, Problem, Row, Share, Source, Word, answering, check_numbers, greatness, is_letter, require, script
else:  # run as a file by itself
    from chain_text import LETTERS_OF_A_WORD, Bounded, Lines, add_row, compare
    from check import Blocks, Poly, Problem, Row, Share, Source, Word, answering, check_numbers, greatness, is_letter, require, script

TERMS_OF_A_POLYNOMIAL, TERMS_OF_ITEMS, ITEMS = 20000, 1000000, 200000


class Cancel(NamedTuple):
    """An item that is an earlier one without a letter, in front or behind."""

    letter: int
    is_left: bool
    item: int


class Cancellation(NamedTuple):
    claim: int
    denominator: int
    monic: List[int]
    epic: List[int]
    items: List[Any]  # each a Share or a Cancel, or of a kind of star.py; the last one is the goal, a Share


# ---- Proofs as text


class Cancellations(Bounded):
    """The proofs of an evidence text that take letters off."""

    HEAD, OTHERS = "cancellation 1", "certificate|model|basis"
    ITEM_WORDS: Tuple[str, ...] = ("lemma ", "cancel ")

    def __init__(self, problem: Problem, source: Source) -> None:
        self.is_large = False
        Blocks.__init__(self, source)
        self.letters = problem.numbers
        self.proofs: List[Cancellation] = []
        self.read_all(self.HEAD.split(" ")[0], self.proofs, self.proof, self.OTHERS)

    def proof(self) -> Cancellation:
        self.begin(self.HEAD, len(self.proofs))
        self.read = [0, 0]
        claim, denominator = self.take_number("claim"), self.take_number("denominator")
        declared: Dict[str, Dict[int, None]] = {"monic": {}, "epic": {}}
        while self.line.startswith(("monic ", "epic ")):
            place, (word, name) = self.number, self.take("(monic|epic) ([^ ]+)")
            letter = self.map_letter(place, name)
            self.require(place, "K2", letter not in declared[word])
            declared[word][letter] = None
        items: List[Any] = []
        while self.line.startswith(self.ITEM_WORDS):
            is_lemma, number = self.line.startswith("lemma "), len(items) + 1
            items.append(self.lemma(number) if is_lemma else self.other_item(number))
        items.append(Share(self.take_number("goal scale"), self.rows(True)))
        self.take("end")
        return Cancellation(claim, denominator, [*declared["monic"]], [*declared["epic"]], items)

    def other_item(self, wanted: int) -> Any:
        """An item that is no lemma."""
        return self.cancel(wanted)

    def cancel(self, wanted: int) -> Cancel:
        """A letter that is taken off, in an item with this number."""
        place, (number, name, side, item) = self.number, self.take("cancel ([0-9]+) ([^ ]+) (left|right) ([0-9]+)")
        self.require(place, "K2", int(number) == wanted)
        letter = self.map_letter(place, name)
        self.limit(place, wanted, ITEMS)
        return Cancel(letter, side == "left", int(item))

    def map_letter(self, place: int, name: str) -> int:
        """The number of the map or the adjoint with this name."""
        self.require(place, "K2", is_letter(name) and name[0] != "[")
        self.require(place, "K3", name in self.letters)
        return self.letters[name]


# ---- What is said of a proof


class Items:
    """The polynomials of the items of a proof, one after another."""

    def __init__(self, lines: Lines, proof: Cancellation, refused: str) -> None:
        self.lines, self.refused, self.denominator = lines, refused, proof.denominator
        self.monic, self.epic = set(proof.monic), set(proof.epic)
        self.polys: List[Poly] = []
        self.descending: Dict[int, List[Tuple[Word, int]]] = {}  # the terms of the items that rows name, by their numbers
        self.row = self.terms = 0  # how many rows were read, and how many terms all polynomials have

    def add(self, item: Any) -> None:
        self.polys.append(self.divided(item) if isinstance(item, Share) else self.other(item))
        self.terms += len(self.polys[-1])
        self.test(self.terms <= TERMS_OF_ITEMS, f"C11 row {self.row} limit {TERMS_OF_ITEMS}")

    def test(self, is_met: bool, fault: str) -> None:
        require(is_met, f"{self.refused} {fault}")

    def sum(self, share: Share) -> Poly:
        """What the rows add up to."""
        total: Poly = {}
        for row in share.rows:
            self.row += 1
            code, count = ("C7", len(self.polys)) if row.is_lemma else ("C2", len(self.lines.generators))
            self.test(1 <= row.number <= count, f"{code} row {self.row}")
            add_row(total, row, self.terms_of(row), self.refused, self.row)
        return total

    def terms_of(self, row: Row) -> List[Tuple[Word, int]]:
        """Those of what the row multiplies, the greatest word first."""
        if not row.is_lemma:
            return self.lines.generators[row.number - 1]
        if row.number not in self.descending:
            self.descending[row.number] = self.lines.terms(self.polys[row.number - 1])
        return self.descending[row.number]

    def divided(self, share: Share) -> Poly:
        """The polynomial of a lemma."""
        total, number = self.sum(share), len(self.polys) + 1
        rests = [word for word in total if total[word] % share.scale]
        least = min(rests, key=greatness, default=())
        self.test(not rests, f"C8 lemma {number} word {self.lines.problem.text(least)} got {total.get(least)}")
        self.test(len(total) <= TERMS_OF_A_POLYNOMIAL and max(map(len, total), default=0) <= LETTERS_OF_A_WORD, f"C9 lemma {number}")
        return {word: value // share.scale for word, value in total.items()}

    def other(self, item: Any) -> Poly:
        """The polynomial of an item that is no lemma."""
        return self.stripped(item)

    def stripped(self, cancel: Cancel) -> Poly:
        """The polynomial of an earlier item, with the letter off each word."""
        place = f"item {len(self.polys) + 1}"
        self.test(1 <= cancel.item <= len(self.polys), f"X1 {place}")
        self.test(cancel.letter in (self.monic if cancel.is_left else self.epic), f"X2 {place}")
        poly, end = self.polys[cancel.item - 1], 0 if cancel.is_left else -1
        self.test(is_typed(self.lines.problem, poly), f"X3 {place}")
        self.test(all(len(word) > 1 and word[end] == cancel.letter for word in poly), f"X4 {place}")
        return {word[1:] if cancel.is_left else word[:-1]: value for word, value in poly.items()}


def is_typed(problem: Problem, poly: Poly) -> bool:
    """Whether all words are paths with the same ends, as it is where there are none."""
    signatures: Set[object] = {problem.signature(word) for word in poly}
    return len(signatures) <= 1 and None not in signatures


def judge(lines: Lines, proof: Cancellation, refused: str, kind: Type[Items] = Items) -> List[Poly]:
    """Raises the first test of the proof that fails, where one does. Gives the polynomials of the items but the goal."""
    scales = {number % len(proof.items): item.scale for number, item in enumerate(proof.items, 1) if isinstance(item, Share)}
    check_numbers(lines.problem, proof.claim, proof.denominator, scales, refused)
    goal = proof.items[-1]
    want = lines.first(proof.claim, goal.scale, f"{refused} C4 row 0")
    items = kind(lines, proof, refused)
    for item in proof.items[:-1]:
        items.add(item)
    compare(lines, want, items.sum(goal), f"{refused} C6")
    return items.polys


def accepted(problem: Problem, proof: Cancellation, more: str = "") -> str:
    """What an accepted proof shows, and what it takes for granted, with more of it in front."""
    kinds = [(word, letters) for word, letters in (("monic", proof.monic), ("epic", proof.epic)) if letters]
    granted = "".join(f" {word} {problem.text(tuple(letters))}" for word, letters in kinds)
    return f"accepted claim {proof.claim} denominator {proof.denominator}{more}{granted}"


def report(statement: Source, evidence: Source) -> Iterator[str]:
    """The lines of the report."""
    problem = Problem(statement)
    proofs = Cancellations(problem, evidence).proofs
    lines = Lines(problem)
    for block, proof in enumerate(proofs, 1):
        judge(lines, proof, f"# block {block} refused")
        yield f"# block {block} {accepted(problem, proof)}"


main = answering(report, "cancel.py STATEMENT PROOF")

if __name__ == "__main__":
    script(main)
