"""What a sharp basis says besides: a category in which the generators are zero and the claim isn't, as a theorem for Coq."""
from __future__ import annotations

from typing import Dict, Iterator, List, NamedTuple, Tuple

from opprove import text
from opprove.checkers.check import Signature, add
from opprove.coq.layout import filled, listed
from opprove.coq.statement import Equation, Reader, Said, Statement, for_all, grouped


class Arrow(NamedTuple):
    """A map, or the adjoint of one, as a map by itself."""

    letter: int
    name: str
    ends: Signature


class PlainReader(Reader):
    """Says expressions without adjoints: those of maps are maps by themselves."""

    def __init__(self, statement: Statement, arrows: List[Arrow]) -> None:
        super().__init__(statement.problem, statement.names)
        self.stars = statement.problem.stars
        self.arrows = {arrow.letter: (place, arrow) for place, arrow in enumerate(arrows)}

    def said(self, expression: text.Expression) -> Said:
        """An expression, without adjoints."""
        return self.plain(expression, False)

    def plain(self, expression: text.Expression, is_adjoint: bool) -> Said:
        """An expression, or its adjoint."""
        kind = expression.kind
        if kind == "map":
            letter = self.numbers[expression.name]
            place, arrow = self.arrows[self.stars[letter] if is_adjoint else letter]
            return Said(arrow.name, 0, f"Plain {place}")
        if kind == "adjoint":
            return self.plain(expression.parts[0], not is_adjoint)
        parts = [self.plain(part, is_adjoint) for part in expression.parts]
        return self.composed(expression, parts[::-1] if kind == "product" and is_adjoint else parts)

    def equations(self, equation: text.Equation, with_adjoint: bool) -> Iterator[Equation]:
        """An equation, and its adjoint where that is wanted."""
        found = self.equation(equation)
        yield found
        if with_adjoint:
            left, right = self.plain(equation.left, True), self.plain(equation.right, True)
            yield self.between(found.ends[::-1], left, right)


class Sharp:
    """The theorems of a statement whose bases are sharp, over maps and their adjoints as maps by themselves."""

    def __init__(self, statement: Statement) -> None:
        self.statement, self.problem, self.names = statement, statement.problem, statement.names
        self.arrows = list(self._arrows())
        reader = PlainReader(statement, self.arrows)
        self.hypotheses: List[Equation] = []
        for equation in statement.text.assumptions:
            star = self.problem.star(equation.poly)
            is_new = self.problem.is_starred and star not in (equation.poly, add({}, -1, equation.poly))
            self.hypotheses += reader.equations(equation, is_new)
        self.claims = [reader.equation(claim) for claim in statement.text.claims]

    def _arrows(self) -> Iterator[Arrow]:
        for letter in self.names.maps:
            yield Arrow(letter, self.names.of[letter], self.problem.ends[letter])
            star = self.problem.stars[letter]
            if self.problem.is_starred and star != letter:
                yield Arrow(star, self.names.fresh(f"{self.names.of[letter]}_star"), self.problem.ends[star])

    def places(self, ends: Signature) -> Tuple[int, int]:
        """The places of a source and a target."""
        return self.names.place[ends[0]], self.names.place[ends[1]]

    def definitions(self, numbers: Dict[int, int]) -> Iterator[str]:
        """Signatures, letters, those in play and those of marked identities, and the assumptions."""
        pairs = ["({}, {})%nat".format(*self.places(arrow.ends)) for arrow in self.arrows]
        marked = sorted(self.problem.marked)
        units = [f"({self.names.place[letter]}%nat, {numbers[letter]})" for letter in marked]
        identities = [f"({numbers[letter]}, ({self.names.place[letter]}, {self.names.place[letter]})%nat)" for letter in marked]
        play = [f"({numbers[arrow.letter]}, {pair})" for arrow, pair in zip(self.arrows, pairs)]
        lists = {
            "plain_sigs : list signature": pairs, "letters : list positive": [str(numbers[arrow.letter]) for arrow in self.arrows],
            "units : list (nat * positive)": units, "play : lettering": identities + play,
        }  # fmt: skip
        for name, items in lists.items():
            yield f"Definition {name} :="
            yield listed(items, True) + "."
        yield "Local Notation Plain := (@EVar plain_sigs)."
        yield "Definition plain_hyps : list (equation plain_sigs) :="
        yield listed([equation.term for equation in self.hypotheses]) + "."

    def theorem(self, name: str, tag: str, claim: int, multiple: int) -> Iterator[str]:
        """The theorem of a basis, whose rules, rest and steps are defined."""
        names, category = self.names, self.statement.category
        objects = [names.of[letter] for letter in names.objects]
        yield f"Definition plain_claim_{tag} : equation plain_sigs :="
        yield filled(self.claims[claim - 1].term, "  ") + "."
        yield f"Lemma sharp_{tag} : is_sharp less rules_{tag} play units {len(objects)} plain_sigs letters plain_hyps plain_claim_{tag}"
        yield f"  rest_{tag} (Witness {multiple} steps_{tag}) = true."
        yield "Proof. vm_cast_no_check (eq_refl true). Qed."
        yield f"Theorem {name}_sharp : ~ (forall"
        cancel = f"(cancel : forall z, (z > 0)%Z -> cancels {category} z)"
        binders = [f"({category} : preadditive) {cancel} ({' '.join(objects)} : {category})"]
        binders += grouped([(arrow.name, (names.of[arrow.ends[0]], names.of[arrow.ends[1]])) for arrow in self.arrows])
        yield from for_all(binders, [equation.text() for equation in self.hypotheses], f"{self.claims[claim - 1].text()}).")
        yield "Proof."
        yield f"  intros all. destruct (by_sharp _ _ _ _ _ _ _ _ less_order sharp_{tag}) as (C & objs & any & cancel & fails)."
        values = " ".join(f"(ob C objs any {place})" for place in range(len(objects)))
        yield filled(f"apply fails. exact (all C cancel {values}).", "  ")
        yield "Qed."
