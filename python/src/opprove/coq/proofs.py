"""Proofs as theorems for Coq: sums of rows, with lemmas, and with items that take letters and stars off."""
from __future__ import annotations

from typing import Dict, Iterator, List, NamedTuple, Optional, Set, Tuple, Union

from opprove.checkers.cancel import Cancel, Cancellation
from opprove.checkers.check import Certificate, Poly, Row, Share, Signature, Word, add
from opprove.checkers.star import Root
from opprove.coq.layout import chained, filled, integer, word
from opprove.coq.statement import Statement, for_all

Piece = Tuple[int, Signature]  # of an item, by its number: the part with this signature
Item = Union[Share, Cancel, Root]


class Proof(NamedTuple):
    """What certificates and proofs that cancel or take stars off have in common."""

    claim: int
    denominator: int
    monic: List[int]
    epic: List[int]
    items: List[Item]  # the last one is the goal

    def involution(self) -> str:
        """What the involution has to be, if that is more than an involution."""
        counts = [len(item.squares) for item in self.items if isinstance(item, Root)]
        return "positive" if max(counts, default=0) > 1 else "proper" if counts else ""


class Fitted(NamedTuple):
    """A row, and the signature of what stands between its words."""

    row: Row
    middle: Signature


def proof_of(evidence: Union[Certificate, Cancellation]) -> Proof:
    """What a certificate, or a proof that takes letters or stars off, has for Coq."""
    if isinstance(evidence, Certificate):
        return Proof(evidence.claim, evidence.denominator, [], [], list(evidence.shares))
    return Proof(*evidence)


class Letters:
    """The letters, generators and coefficients that rows name, each with a short name in the file. Its generators are the
    assumptions, in a starred statement their adjoints, and then the items."""

    def __init__(self, statement: Statement) -> None:
        problem, self.names = statement.problem, statement.names
        self.used: Dict[str, str] = {}  # definitions, by what they define
        count = len(problem.assumptions)
        self.numbers = list(range(1, count + 1))  # of the first generators; the others are relations of identities
        for number, poly in enumerate(problem.assumptions if problem.is_starred else [], count + 1):
            self.numbers += [number] * (problem.star(poly) not in (poly, add({}, -1, poly)))
        self.first_item = (2 if problem.is_starred else 1) * count + 1
        self.letters: Dict[int, int] = {}  # 2 n for the map n, counted from 1, and 2 n + 1 for its adjoint
        for place, letter in enumerate(self.names.maps, 1):
            self.letters[problem.stars[letter]] = 2 * place + 1
            self.letters[letter] = 2 * place

    def word(self, letters: Word) -> str:
        """The letters but for identities."""
        found = [self.letters[letter] for letter in letters if letter in self.letters]
        for number in found:
            self.used[f"letter_{number}"] = f"word -> word := cons {number}"
        return word([f"letter_{number}" for number in found])

    def link(self, number: int, row: Row) -> str:
        """A row over the generator or item with this number in Coq, as what puts it in front of others."""
        self.used[f"over_{number}"] = f"Z -> word -> word -> list row -> list row := row_over {number}"
        return f"over_{number} {integer(row.coefficient)} {self.word(row.left)} {self.word(row.right)}"

    def definitions(self) -> Iterator[str]:
        """Of the names that were used."""
        names = sorted(self.used, key=lambda name: (len(name), name))
        yield from (f"Definition {name} : {self.used[name]}." for name in names)


class Rows:
    """The rows of proofs as the checker in Coq reads them: an item is cut into pieces, each of one signature."""

    def __init__(self, statement: Statement) -> None:
        self.statement, self.problem, self.names = statement, statement.problem, statement.names
        self.letters = Letters(statement)
        self.generators = self.problem.generators()

    def middle(self, row: Row, ends: Signature) -> Optional[Signature]:
        """The signature that what stands between the words of a row has to have for the row to have this one."""
        source, target = ends
        left = self.problem.signature(row.left) if row.left else (target, target)
        right = self.problem.signature(row.right) if row.right else (source, source)
        if left is None or right is None or left[1] != target or right[0] != source:
            return None
        return right[1], left[0]

    def fitted(self, share: Share, ends: Signature) -> Iterator[Fitted]:
        """The rows of a share that say something of this signature."""
        for row in share.rows:
            middle = self.middle(row, ends) if row.coefficient else None
            if middle is not None and (row.is_lemma or self.has_signature(row.number, middle)):
                yield Fitted(row, middle)

    def has_signature(self, number: int, ends: Signature) -> bool:
        """Whether a generator that the checker has is one of this signature, and not zero."""
        poly = self.generators[number - 1] if number <= len(self.letters.numbers) else {}
        return bool(poly) and self.problem.signature(next(iter(poly))) == ends

    def stripped(self, item: Cancel, ends: Signature) -> List[Piece]:
        """The piece that a letter is taken off for the piece with these ends; none where that is zero."""
        source, target = ends
        start, end = self.problem.ends[item.letter]
        if item.is_left:
            return [(item.item, (source, end))] if target == start else []
        return [(item.item, (start, target))] if source == end else []

    def root_ends(self, root: Root) -> Signature:
        """The signature of the polynomial of an item."""
        ends = self.problem.signature(next(iter(root.squares[0].poly)))
        assert ends is not None
        return ends

    def sources(self, item: Item, ends: Signature) -> List[Piece]:
        """The pieces of earlier items on which the piece of an item with these ends stands."""
        if isinstance(item, Cancel):
            return self.stripped(item, ends)
        if isinstance(item, Root):
            end = ends[0] if item.is_left else ends[1]
            return [(item.item, (end, end))] if self.root_ends(item) == ends else []
        return [(row.number, middle) for row, middle in self.fitted(item, ends) if row.is_lemma]

    def pieces(self, proof: Proof) -> List[Piece]:
        """Those that are needed, from the first item on."""
        *items, goal = proof.items
        wanted: List[Set[Signature]] = [set() for _ in items]
        needed = self.sources(goal, self.statement.claims[proof.claim - 1].ends)
        for number in range(len(items), -1, -1):
            for earlier, ends in needed:
                wanted[earlier - 1].add(ends)
            needed = [piece for ends in wanted[number - 1] for piece in self.sources(items[number - 1], ends)] if number else []
        return [(number, ends) for number, found in enumerate(wanted, 1) for ends in sorted(found)]

    def links(self, share: Share, ends: Signature, numbers: Dict[Piece, int]) -> List[str]:
        """The rows of a share that say something of this signature."""
        links = []
        for row, middle in self.fitted(share, ends):
            number = numbers[row.number, middle] if row.is_lemma else self.letters.numbers[row.number - 1]
            links.append(self.letters.link(number, row))
        return links

    def numbered(self, proof: Proof) -> Dict[Piece, int]:
        """The pieces by their numbers in Coq, where one of a root with stars on the right is two items."""
        numbers, number = {}, self.letters.first_item - 1
        for piece in self.pieces(proof):
            item = proof.items[piece[0] - 1]
            number += 2 if isinstance(item, Root) and not item.is_left and self.sources(item, piece[1]) else 1
            numbers[piece] = number
        return numbers

    def definitions(self, tag: str, proof: Proof) -> Iterator[str]:
        """The claim, the items and the goal."""
        claim, numbers = self.statement.claims[proof.claim - 1], self.numbered(proof)
        yield f"Definition claim_{tag} : equation sigs :="
        yield filled(claim.term, "  ") + "."
        names: List[str] = []
        for place, (number, ends) in enumerate(numbers, 1):
            name, item = f"item_{tag}_{place}", proof.items[number - 1]
            sources = [numbers[piece] for piece in self.sources(item, ends)]
            if isinstance(item, Share):
                yield from self.sum_item(name, item.scale, ends, self.links(item, ends, numbers))
            elif not sources:
                yield from self.sum_item(name, 1, ends, [])
            else:
                yield f"Definition {name} : item := {self.other_item(item, ends, sources[0])}."
            if isinstance(item, Root) and sources and not item.is_left:
                names.append(name)
                name += "_adjoint"
                yield f"Definition {name} : item := Adj {numbers[number, ends] - 1}."
            names.append(name)
        yield from chained(f"items_{tag}", "list item", [f"cons {name}" for name in names], "nil")
        goal = proof.items[-1]
        assert isinstance(goal, Share)
        yield from chained(f"rows_{tag}", "list row", self.links(goal, claim.ends, numbers), "nil")

    def sum_item(self, name: str, scale: int, ends: Signature, links: List[str]) -> Iterator[str]:
        """An item that is a sum of rows, divided by its scale."""
        source, target = (self.names.place[end] for end in ends)
        yield from chained(f"{name}_rows", "list row", links, "nil")
        yield f"Definition {name} : item := Sum (Share {integer(scale)} {source} {target} {name}_rows)."

    def other_item(self, item: Union[Cancel, Root], ends: Signature, number: int) -> str:
        """An item that takes something off the one with this number in Coq."""
        if isinstance(item, Cancel):
            return f"Cancel {'on_left' if item.is_left else 'on_right'} {self.letters.letters[item.letter]} {number}"
        end = 0 if item.is_left else 1
        roots = []
        for scale, poly in item.squares:
            found = self.problem.signature(next(iter(poly)))
            if found and found[end] == ends[end]:
                gen = self.gen(poly, found) if item.is_left else self.gen(self.problem.star(poly), found[::-1])
                roots.append(f"({scale}%Z, {gen})")
        return f"Root [{'; '.join(roots)}] 0 {number}"

    def gen(self, poly: Poly, ends: Signature) -> str:
        """A polynomial with its signature."""
        source, target = (self.names.place[end] for end in ends)
        terms = (f"({self.letters.word(letters)}, {integer(coefficient)}%Z)" for letters, coefficient in poly.items())
        return f"Gen {source} {target} [{'; '.join(terms)}]"


# ---- Theorems


def binders(statement: Statement, proof: Proof) -> Iterator[str]:
    """What the theorem of a proof is about, and the premises on the category."""
    yield statement.over()
    involution = proof.involution()
    if involution:
        yield f"({involution} : is_{involution} {statement.involution})"
    if proof.denominator != 1:
        yield f"(cancel : cancels {statement.category} {proof.denominator})"
    yield from statement.map_binders()


def premises(statement: Statement, proof: Proof) -> List[str]:
    """What the theorem of a proof assumes of the maps, in the order of the soundness theorems."""
    kinds = (("monic", proof.monic), ("epic", proof.epic))
    found = [f"{kind} {statement.names.star_or_map(letter)}" for kind, letters in kinds for letter in letters]
    return found + statement.assumptions()


def soundness(statement: Statement, proof: Proof, tag: str) -> str:
    """The soundness theorem for the category and its objects. That it says what the theorem says is for Qed to find."""
    objects = [statement.names.of[letter] for letter in statement.names.objects]
    category, involution = statement.category, proof.involution()
    of = f"{category} {statement.involution}" if statement.problem.is_starred else category
    kind = f"{involution}_" if involution else "starred_" * statement.problem.is_starred
    binder = f" ({involution} : is_{involution} {statement.involution})" if involution else ""
    given = f" {involution}" if involution else ""
    cancels = f" (cancels_one {category})" if proof.denominator == 1 else ""
    return f"fun {statement.over()}{binder} => by_{kind}certificate {of} [{'; '.join(objects)}] {objects[0]} checked_{tag}{given}{cancels}"


def theorem(rows: Rows, name: str, tag: str, proof: Proof) -> Iterator[str]:
    """That the checker accepts a proof, whose rows are defined, and so the theorem."""
    statement = rows.statement
    stars = (proof.involution() or "starred") if statement.problem.is_starred else "unstarred"
    kind = f"{stars.capitalize()} {statement.listed_selfs()}"
    lists = " ".join("[" + "; ".join(str(rows.letters.letters[letter]) for letter in found) + "]" for found in (proof.monic, proof.epic))
    goal = proof.items[-1]
    assert isinstance(goal, Share)
    yield f"Lemma checked_{tag} : check {kind} {lists} {proof.denominator} hyps claim_{tag} items_{tag} {goal.scale} rows_{tag} = true."
    yield "Proof. vm_cast_no_check (eq_refl true). Qed."
    yield f"Theorem {name} : forall"
    claim = f"{statement.claims[proof.claim - 1].text()}."
    yield from for_all([*binders(statement, proof)], premises(statement, proof), claim)
    yield "Proof."
    yield filled(f"exact_no_check ({soundness(statement, proof, tag)}).", "  ")
    yield "Qed."
