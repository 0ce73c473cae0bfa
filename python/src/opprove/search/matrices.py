"""A star proof for matrices: the statement in which each r has a name and a Moore-Penrose inverse, and an ordinary certificate.

A complex matrix has a Moore-Penrose inverse, so what is assumed besides holds for all of them: e = r with the inverse f has
`e = e f e = f' e' e`, which is zero where `r' r` is. Of a sum of squares the column of all its r has one, with a row f1 .. fn.
"""
from __future__ import annotations

from typing import Dict, FrozenSet, List, NamedTuple, Tuple

from opprove.checkers.check import Problem
from opprove.search.engine import Alphabet, Ledger, Off, Origin, Poly, Root, Row, Sum, Traced, Word, add
from opprove.search.proofs import Proof, Writer, poly_text, proof_of

LEFT_OUT = ("language", "order", "eliminate", "solve", "model")  # lines that the statement for matrices has none or others of


class Column(NamedTuple):
    """The polynomials r1 .. rn of a sum of S r' r, with the names of the maps for them and for the row of their inverse."""

    scales: List[int]
    polys: List[Poly]
    names: List[str]
    inverses: List[str]


def columns_of(proof: Proof) -> Tuple[List[Column], Dict[int, Tuple[int, int]]]:
    """The columns, and for each item that takes a star off its column and which one of its polynomials it is."""
    alphabet = proof.ledger.alphabet
    columns: List[Column] = []
    found: Dict[int, Tuple[int, int]] = {}
    keys: Dict[FrozenSet[Tuple[int, FrozenSet[Tuple[Word, int]]]], int] = {}
    taken = {name.rstrip("'").strip("[]") for name in alphabet.problem.names}
    for item in proof.items:
        root = item.origin
        if not isinstance(root, Root):
            continue
        parts = [(scale, poly if root.is_left else alphabet.star(poly)) for scale, poly in root.squares]
        key = frozenset((scale, frozenset(poly.items())) for scale, poly in parts)
        if key not in keys:
            keys[key] = len(columns)
            names, inverses = (fresh(taken, letter, len(parts)) for letter in "ef")
            columns.append(Column([scale for scale, _ in parts], [poly for _, poly in parts], names, inverses))
        number = keys[key]
        found[item.place] = number, columns[number].polys.index(parts[0][1])
    return columns, found


def fresh(taken: "set[str]", letter: str, count: int) -> List[str]:
    """So many names that no map or object has, which are taken then."""
    found: List[str] = []
    number = 1
    while len(found) < count:
        name = f"{letter}{number}"
        if name not in taken:
            found.append(name)
            taken.add(name)
        number += 1
    return found


# ---- The statement


def statement_of(proof: Proof, text: str) -> str:
    """The text of the statement for matrices, from the text of the statement."""
    alphabet = proof.ledger.alphabet
    columns, _ = columns_of(proof)
    lines = [line.rstrip() for line in text.splitlines()]
    kept = [line for line in lines if line.split("#")[0].split()[:1] and line.split()[0] not in LEFT_OUT]
    before = [line for line in kept if line.split()[0] != "claim"]
    claims = [line for line in kept if line.split()[0] == "claim"]
    added: List[str] = []
    for column in columns:
        added += column_lines(alphabet, column)
    names = [name for column in columns for name in column.names]
    return "\n".join(["language 2", *before, *added, *claims, "eliminate " + " ".join(names)]) + "\n"


def column_lines(alphabet: Alphabet, column: Column) -> List[str]:
    objects = [alphabet.problem.names[end][1:-1] for end in range(len(alphabet.problem.names)) if alphabet.problem.names[end][0] == "["]
    lines, equations = [], []
    for name, inverse, poly in zip(column.names, column.inverses, column.polys):
        source, target = alphabet.ends(next(iter(poly))) or (0, 0)
        lines += [f"map {name} : {objects[source]} -> {objects[target]}", f"map {inverse} : {objects[target]} -> {objects[source]}"]
        equations.append(f"assume {name} = {poly_text(alphabet, poly)}")
    if len(column.names) == 1:
        return lines + equations + [f"pinv {column.names[0]} {column.inverses[0]}"]
    whole = " + ".join(f"{inverse} {name}" for name, inverse in zip(column.names, column.inverses))
    equations += [f"assume {name} ({whole}) = {name}" for name in column.names]
    equations += [f"assume ({whole}) {inverse} = {inverse}" for inverse in column.inverses]
    equations.append(f"assume ({whole})' = {whole}")
    for first in range(len(column.names)):
        for second in range(first, len(column.names)):
            left = f"{counted(column.scales[first])}{column.names[first]} {column.inverses[second]}"
            right = f"{counted(column.scales[second])}({column.names[second]} {column.inverses[first]})'"
            equations.append(f"assume {left} = {right}")
    return lines + equations


def counted(scale: int) -> str:
    return f"{scale} " if scale != 1 else ""


# ---- The certificate


class Matrices:
    """A star proof, made again over the statement for matrices."""

    def __init__(self, proof: Proof, text: str) -> None:
        self.proof = proof
        self.columns, self.of_item = columns_of(proof)
        self.text = statement_of(proof, text)
        self.problem = Problem(self.text.encode())
        self.alphabet = Alphabet(self.problem)
        self.ledger = Ledger(self.alphabet)
        old = proof.ledger.alphabet
        names = {character: old.problem.names[letter] for character, letter in old.letters.items()}
        self.moved = {character: self.alphabet.characters[self.problem.numbers[name]] for character, name in names.items()}
        self.places: Dict[int, int] = {}  # of the polynomials of the star proof
        self.roots: Dict[Tuple[int, int], int] = {}

    def certificate(self) -> List[str]:
        """The lines of the block, which is a certificate where no letter is taken off."""
        for item in self.proof.items:
            self.places[item.place] = self.made(item.place, item.origin)
        goal = Traced({}, self.proof.goal.scale, [self.row(row) for row in self.proof.goal.rows])
        return Writer(proof_of(self.ledger, self.proof.claim, goal)).block()

    def word(self, word: Word) -> Word:
        return "".join(self.moved[character] for character in word)

    def poly(self, poly: Poly) -> Poly:
        return {self.word(word): coefficient for word, coefficient in poly.items()}

    def row(self, row: Row) -> Row:
        if row.place in self.places:
            return Row(row.coefficient, self.word(row.left), self.places[row.place], self.word(row.right))
        found = self.generator(self.poly(self.proof.ledger.polys[row.place]))
        return Row(row.coefficient * found.coefficient, self.word(row.left), found.place, self.word(row.right))

    def generator(self, poly: Poly) -> Row:
        found = self.ledger.generator(poly)
        assert found, "the statement for matrices has the generators of the statement"
        return found

    def made(self, place: int, origin: Origin) -> int:
        """The place over the statement for matrices."""
        if isinstance(origin, Root):
            column, part = self.of_item[place]
            root = self.root(column, part)
            return root if origin.is_left else self.ledger.adjoint(root)
        # a negative place is a copy of a generator
        poly = self.poly(self.proof.ledger.polys[place if place >= 0 else -1 - place])
        if isinstance(origin, Sum):
            return self.ledger.enter(poly, Sum(origin.scale, [self.row(row) for row in origin.rows]))
        assert isinstance(origin, Off)
        return self.ledger.enter(poly, Off(self.word(origin.letter), origin.is_left, self.places[origin.place]))

    def root(self, number: int, part: int) -> int:
        """The place of a polynomial r of a column: S r is f' times the sum of squares, but for generators."""
        if (number, part) not in self.roots:
            column = self.columns[number]
            item = next(item for item in self.proof.items if self.of_item.get(item.place, (-1, 0))[0] == number)
            assert isinstance(item.origin, Root)
            rows = self.root_rows(column, part)
            rows.append(Row(1, self.letter(column.inverses[part] + "'"), self.places[item.origin.place], ""))
            poly = self.poly(column.polys[part])
            self.roots[number, part] = self.ledger.enter(poly, Sum(column.scales[part], rows))
        return self.roots[number, part]

    def letter(self, name: str) -> Word:
        return self.alphabet.characters[self.problem.numbers[name]]

    def root_rows(self, column: Column, part: int) -> List[Row]:
        """Rows of generators that add up to S r - f' (S1 r1' r1 + ..), for the S, r and f of this part."""
        scale, name = column.scales[part], self.letter(column.names[part])
        star = self.letter(column.inverses[part] + "'")  # of f
        letters = [(self.letter(one), self.letter(one + "'"), self.letter(other)) for one, other in zip(column.names, column.inverses)]
        definitions = [add({letters[place][0]: 1}, -1, self.poly(poly)) for place, poly in enumerate(column.polys)]
        inner = add({name: -1}, 1, {name + inverse + one: 1 for one, _, inverse in letters})  # e (f1 e1 + ..) - e
        rows = [self.times(-scale, "", definitions[part], ""), self.times(-scale, "", inner, "")]
        for place, (one, adjoint, inverse) in enumerate(letters):
            other = column.scales[place]
            rows.append(self.times(1, "", add({name + inverse: scale}, -other, {star + adjoint: 1}), one))
            rows.append(self.times(other, star + adjoint, definitions[place], ""))
            adjoined = self.alphabet.star(definitions[place])
            for word, coefficient in self.poly(column.polys[place]).items():
                rows.append(self.times(other * coefficient, star, adjoined, word))
        return rows

    def times(self, coefficient: int, left: Word, poly: Poly, right: Word) -> Row:
        found = self.generator(poly)
        return Row(coefficient * found.coefficient, left, found.place, right)
