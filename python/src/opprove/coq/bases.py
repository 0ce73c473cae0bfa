"""Bases as theorems for Coq: no positive multiple of the claim is a combination of the generators."""
from __future__ import annotations

from math import gcd
from typing import Dict, Iterator, List, NamedTuple, Tuple

from opprove.checkers.check import Refusal
from opprove.checkers.confirm import FIRST, Basis, Order, Poly, Rules, as_texts, terms_of
from opprove.checkers.tree import measures_of
from opprove.coq.layout import chained, filled, integer, word
from opprove.coq.statement import Statement

TERMS = 20000  # of an equation that is multiplied out, and no terms are put together


class Step(NamedTuple):
    """A rule times a number, between two words."""

    factor: int
    left: str
    rule: int  # from 0
    right: str


def reduced(rules: Rules, poly: Poly) -> Tuple[int, List[Step], Poly]:
    """What the rules leave of a polynomial: with the multiple m and the rest r, m times it less r is the sum of the steps."""
    total, multiple = dict(poly), 1
    steps: List[Step] = []
    while True:
        found = ((text, rules.match(text)) for text in sorted(total, key=rules.order.rank))
        text, match = next(((text, match) for text, match in found if match), ("", None))
        if match is None:
            return multiple, steps, total
        rule, place = rules.rules[match[0] - 1], match[1]
        divisor = gcd(total[text], rule.leading)
        by, share = rule.leading // divisor, total[text] // divisor
        multiple *= by
        total = {other: by * coefficient for other, coefficient in total.items()}
        steps = [step._replace(factor=by * step.factor) for step in steps]
        left, right = text[:place], text[place + len(rule.lead) :]
        for middle, coefficient in rule.terms:
            value = total.pop(left + middle + right, 0) - share * coefficient
            if value:
                total[left + middle + right] = value
        steps.append(Step(share, left, match[0] - 1, right))


class BasisTheorem:
    """The theorem of a basis."""

    def __init__(self, statement: Statement, name: str, tag: str, basis: Basis, refused: str) -> None:
        self.statement, self.name, self.tag, self.basis = statement, name, tag, basis
        self.multiple = 1  # of the claim, in the steps that reduce it
        self.claim = statement.claims[basis.claim - 1]
        self.numbers = numbers_of(statement)
        if max([self.claim.size, *(equation.size for _, equation in statement.hypotheses)]) > TERMS:
            raise Refusal(f"{refused}: an equation has more than {TERMS} terms when it is multiplied out, and Coq would take too long")

    def word(self, text: str) -> str:
        """A word of the second checker in Coq."""
        return word([f"sign_{self.numbers[FIRST - ord(letter)]}" for letter in text])

    def poly(self, terms: Iterator[Tuple[str, int]]) -> str:
        """Terms as what puts one after another in front of nothing."""
        links = [f"term_of {integer(coefficient)} {self.word(text)}" for text, coefficient in terms]
        return "".join(f"({link} " for link in links) + "nil" + ")" * len(links)

    def written(self) -> Iterator[str]:
        """The rules, the rest, the steps that reduce the claim to it, and the theorem."""
        tag, rules = self.tag, Rules(Order(self.statement.problem), self.basis.rules)
        links = []
        for rule in rules.rules:
            tail = ((text, -coefficient) for text, coefficient in rule.terms if text != rule.lead)
            links.append(f"rule_of {self.word(rule.lead)} {rule.leading} {self.poly(tail)}")
        yield from chained(f"rules_{tag}", "list rule", links, "nil")
        yield f"Definition rest_{tag} : poly := {self.poly(iter(terms_of(self.basis.rest)))}."
        self.multiple, steps, _ = reduced(rules, as_texts(self.statement.problem.claims[self.basis.claim - 1]))
        links = [f"step_of {integer(step.factor)} {self.word(step.left)} {step.rule} {self.word(step.right)}" for step in steps]
        yield from chained(f"steps_{tag}", "list step", links, "nil")
        yield from self.theorem()

    def theorem(self) -> Iterator[str]:
        """That the claim isn't derivable, in the words of the statement."""
        statement, tag = self.statement, self.tag
        yield f"Theorem {self.name} :"
        yield from lets(statement)
        generators = f"([{self.assumptions()}] ++\n    {relations(statement)})"
        generators = f"(with_adjoints {generators})" if statement.problem.is_starred else generators
        yield f"  ~ derivable {generators}%element"
        yield filled(f"({self.claim.text('≡')})%element.", "    ")
        yield "Proof."
        count = len(statement.names.objects)
        yield f"  cbv zeta. apply (by_rules {count} less rules_{tag} rest_{tag} (Witness {self.multiple} steps_{tag}) less_order)."
        yield "  vm_cast_no_check (eq_refl true)."
        yield "Qed."

    def assumptions(self) -> str:
        """The assumptions as elements of the free algebra."""
        return ";\n    ".join(equation.text("≡") for _, equation in self.statement.hypotheses)


def lets(statement: Statement) -> Iterator[str]:
    """The objects by their numbers, and the maps as elements of the free algebra."""
    names, of = statement.names, statement.names.of
    kinds = {letter: "Self" if letter in statement.selfs else "Map" for letter in names.maps}
    yield filled_lets([f"let {of[letter]} := {place}%nat in" for place, letter in enumerate(names.objects)])
    yield filled_lets([f"let {of[letter]} := of_letter ({kind} {names.place[letter]}) in" for letter, kind in kinds.items()])


def filled_lets(lets: List[str]) -> str:
    """In full lines, each of which has whole ones."""
    return filled(" ".join(one.replace(" ", "\0") for one in lets), "  ").replace("\0", " ")


def relations(statement: Statement) -> str:
    """Those of the identities of marked objects."""
    names, problem = statement.names, statement.problem
    marked = "; ".join(names.of[letter] for letter in sorted(problem.marked))
    maps = "; ".join(f"({names.of[letter]}, {', '.join(statement.ends_of(letter))})" for letter in names.maps)
    return f"identities [{marked}] [{maps}]"


def numbers_of(statement: Statement) -> Dict[int, int]:
    """The number of each letter in Coq."""
    names, count = statement.names, len(statement.names.objects)
    numbers = {letter: place + 1 for place, letter in enumerate(names.objects)}
    for place, letter in enumerate(names.maps):
        numbers[statement.problem.stars[letter]] = count + 2 * place + 2
        numbers[letter] = count + 2 * place + 1
    return numbers


def order_definitions(statement: Statement) -> Iterator[str]:
    """The letters of words, and the order of words of the statement."""
    numbers = numbers_of(statement)
    yield from (f"Definition sign_{number} : word -> word := cons {number}." for number in sorted(numbers.values()))
    measures = measures_of(statement.problem)
    if not any(measures):
        yield "Definition less := by_degree."
        yield "Definition less_order : order less := by_degree_order."
        return
    cases = " ".join(f"| {numbers[letter]}%positive => {measure}" for letter, measure in enumerate(measures))
    yield filled(f"Definition weight (a : positive) : N := (match a with {cases} | _ => 0 end)%N.")
    yield "Definition less := by_weight weight by_degree."
    yield "Definition less_order : order less := by_weight_order weight by_degree by_degree_order."
