"""Models as theorems for Coq: matrices modulo m in which all assumptions hold, and the claim doesn't."""
from __future__ import annotations

import re
from typing import Iterator, List

from opprove.checkers.check import Refusal
from opprove.checkers.check_model import Matrix, Model
from opprove.coq.layout import filled
from opprove.coq.statement import Statement, for_all

SIDES = 16  # the greatest side that is exported, since Coq takes long to multiply larger matrices
PRODUCTS = 500000  # of numbers, in all products of matrices of that side


def require_small(statement: Statement, model: Model, refused: str) -> None:
    """Raises that the model is too large for Coq, where it is."""
    side = max(model.sides)
    if side > SIDES:
        raise Refusal(f"{refused}: a side of the model is above {SIDES}, and Coq would take too long")
    equations = [statement.claims[model.claim - 1], *(equation for _, equation in statement.hypotheses)]
    if side**3 * sum(products_of(equation.term) for equation in equations) > PRODUCTS:
        raise Refusal(f"{refused}: the model has more than {PRODUCTS} products of numbers, and Coq would take too long")


def products_of(term: str) -> int:
    """How many products of matrices an equation has, as the checker reads it."""
    return term.count("EComp ") + sum(int(exponent) - 1 for exponent in re.findall("EPow ([0-9]+)", term))


def rows_of(matrix: Matrix) -> str:
    """A matrix as a list of its rows."""
    return "[" + "; ".join("[" + "; ".join(map(str, row)) + "]" for row in matrix) + "]"


class ModelTheorems:
    """The theorems of a model: NAME is that the claim isn't so in all categories, NAME_by with which matrices."""

    def __init__(self, statement: Statement, name: str, tag: str, model: Model) -> None:
        self.statement, self.name, self.tag, self.model = statement, name, tag, model
        self.matrices = {letter: f"matrix_{tag}_{place}" for place, letter in enumerate(statement.names.maps, 1)}
        self.claim = statement.claims[model.claim - 1].text()

    def written(self) -> Iterator[str]:
        """The matrices and both theorems."""
        for letter, matrix in self.matrices.items():
            yield filled(f"Definition {matrix} := {rows_of(self.model.maps[letter])}%Z.")
        yield from self.by_matrices()
        yield from self.refuted()

    def lets(self) -> Iterator[str]:
        """The category, its objects, and the values of the maps."""
        statement, model, of = self.statement, self.model, self.statement.names.of
        yield f"let {statement.category} := matrices_modulo {model.modulus} in"
        if statement.problem.is_starred:
            yield f"let {statement.involution} : involution {statement.category} := transposes_modulo {model.modulus} in"
        for letter in statement.names.objects:
            yield f"let {of[letter]} : {statement.category} := {model.sides[letter]}%nat in"
        for letter, matrix in self.matrices.items():
            source, target = statement.ends_of(letter)
            yield f"let {of[letter]} : {source} ⟶ {target} := by_rows {matrix} in"

    def by_matrices(self) -> Iterator[str]:
        """That with these matrices the assumptions hold, and the claim doesn't."""
        statement = self.statement
        yield f"Theorem {self.name}_by :"
        yield from (f"  {line}" for line in self.lets())
        parts = statement.assumptions()
        for part in parts:
            yield filled(f"({part}) /\\", "  ")
        yield filled(f"~ ({self.claim}).", "  ")
        splits = f"do {len(parts)} (split; [same_by_computation|]). " if parts else ""
        yield f"Proof. cbv zeta. {splits}different_by_computation. Qed."

    def refuted(self) -> Iterator[str]:
        """That no theorem holds that says the claim of all categories in which an integer cancels that is prime to the modulus."""
        statement, category, m = self.statement, self.statement.category, self.model.modulus
        z = statement.names.fresh(f"z_{self.tag}")
        yield f"Theorem {self.name} : forall {z}, Z.gcd {z} {m} = 1%Z -> ~ (forall"
        binders = [statement.over(), f"(cancel : cancels {category} {z})", *statement.map_binders()]
        yield from for_all(binders, statement.assumptions(), f"{self.claim}).")
        names = statement.premise_names()
        yield "Proof."
        yield f"  intros {z} prime all. destruct {self.name}_by as {self.pattern(names)}."
        yield filled(f"exact (fails (all {' '.join(self.given(z, names))})).", "  ")
        yield "Qed."

    def pattern(self, names: List[str]) -> str:
        """What takes the first theorem apart: the premises, and that the claim fails."""
        return f"({' & '.join([*names, 'fails'])})" if names else "fails"

    def given(self, z: str, names: List[str]) -> List[str]:
        """What the theorem is applied to."""
        m, statement = self.model.modulus, self.statement
        given = [f"(matrices_modulo {m})"] + [f"(transposes_modulo {m})"] * statement.problem.is_starred
        given += [f"{self.model.sides[letter]}%nat" for letter in statement.names.objects]
        given.append(f"(inverses_cancel {m} {z} prime)")
        return given + [f"(by_rows {matrix})" for matrix in self.matrices.values()] + names
