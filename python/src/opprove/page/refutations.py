"""What shows that a claim isn't proved: matrices with the products worked out, and closed sets of rules."""
from __future__ import annotations

from html import escape
from typing import Iterator, List, Tuple

from opprove.checkers import confirm
from opprove.checkers.check import Poly, Signature
from opprove.checkers.check_model import Arrows, Matrix, Model, declared_maps
from opprove.page.formulas import HTML, MATHML, Writer, math, matrix
from opprove.translations.chain import Equation, Reader, place_of

SHOWN_SIDE, SHOWN_LETTERS = 4, 6  # products of larger matrices, or of more, are given by their value alone


# ---- Models


class ModelWriter:
    """Writes a model that refutes a claim."""

    def __init__(self, reader: Reader, model: Model) -> None:
        self.reader, self.model = reader, model
        self.arrows, self.writer = Arrows(reader.problem, model), Writer(reader.problem, MATHML)

    def written(self) -> Iterator[str]:
        """The matrices, and the values of both sides of each equation, in lines of HTML."""
        problem, writer = self.reader.problem, self.writer
        yield f"<h3>Matrices {f'modulo {self.model.modulus}' if self.model.modulus else 'of rational numbers'}</h3>"
        yield '<div class="matrices">'
        for letter in declared_maps(problem):
            yield math(writer.letters[letter], "<mo>=</mo>", matrix(self.arrows.matrices[letter]))
        yield "</div><h3>The assumptions hold</h3>" if self.reader.assumptions else "</div>"
        for number, found in enumerate(self.reader.assumptions, 1):
            left, right = self.value(found.left, found.ends), self.value(found.right, found.ends)
            assert left == right, found
            place = f'<a class="by" href="#a{number}">({number})</a> <span class="place">{escape(place_of(found))}</span>'
            sides = f"{self.side(found.left, found.ends)} {self.side(found.right, found.ends)}"
            yield f'<div class="worked"><p>{place}</p>{sides}<p>Both are equal.</p></div>'
        yield "<h3>The claim doesn’t</h3>"
        yield self.claim(self.reader.claims[self.model.claim - 1])

    def claim(self, found: Equation) -> str:
        left, right = self.value(found.left, found.ends), self.value(found.right, found.ends)
        places = [(i, j) for i, row in enumerate(left) for j, entry in enumerate(row) if entry != right[i][j]]
        one, other = (entry[places[0][0]][places[0][1]] for entry in (left, right))
        told = f"They differ in row {places[0][0] + 1}, column {places[0][1] + 1}: {one} and {other}."
        return (
            f'<div class="worked">{self.side(found.left, found.ends, places)} {self.side(found.right, found.ends, places)}'
            f'<p class="differ">{told}</p></div>'
        )

    def value(self, poly: Poly, ends: Signature) -> Matrix:
        """The value of a sum without identities, whose empty word is the identity."""
        rows, columns = len(self.arrows.matrices[ends[1]]), len(self.arrows.matrices[ends[0]])
        total: Matrix = [[0] * columns for _ in range(rows)]
        for word, coefficient in poly.items():
            total = [[x + coefficient * y for x, y in zip(*pair)] for pair in zip(total, self.arrows.value(word or ends[:1]))]
        modulus = self.model.modulus
        return [[entry % modulus if modulus else entry for entry in row] for row in total]

    def side(self, poly: Poly, ends: Signature, lit: List[Tuple[int, int]] = []) -> str:
        """A side of an equation, the matrices of its letters where these are few and small, and its value."""
        shown = matrix(self.value(poly, ends), lit)
        if not poly:
            return math(shown)
        parts = [self.writer.sum(poly, ends)]
        words = list(poly)
        is_small = max(self.model.sides) <= SHOWN_SIDE and sum(map(len, words)) <= SHOWN_LETTERS
        if is_small and (len(words) > 1 or len(words[0]) > 1 or abs(poly[words[0]]) > 1):
            parts.append(self.products(poly, ends))
        return math("<mo>=</mo>".join([*parts, shown]))

    def products(self, poly: Poly, ends: Signature) -> str:
        """The sum with the matrices of letters in their places."""
        texts = []
        for place, word in enumerate(sorted(poly, key=lambda word: (poly[word] < 0, -len(word), word))):
            sign = self.writer.forms.sign("-" if poly[word] < 0 else "+", place == 0)
            number = "" if abs(poly[word]) == 1 else self.writer.forms.number(abs(poly[word]))
            texts.append(sign + number + "".join(matrix(self.arrows.matrices[letter]) for letter in word or ends[:1]))
        return "".join(texts)


# ---- Bases


class BasisWriter:
    """Writes a closed set of rules. The box in which words are reduced works where scripts do, and says so by being shown."""

    def __init__(self, reader: Reader, basis: confirm.Basis, report: int, block: int) -> None:
        self.reader, self.basis, self.report, self.block = reader, basis, report, block
        self.html = Writer(reader.problem, HTML)
        self.order = confirm.Order(reader.problem)

    def letters(self, word: str) -> str:
        return self.html.factors([confirm.FIRST - ord(letter) for letter in word])

    def sum(self, poly: confirm.Poly, sign: int = 1) -> str:
        """The terms, the greatest word first."""
        texts: List[str] = []
        for word, coefficient in confirm.terms_of(poly):
            value = sign * coefficient
            number = [] if abs(value) == 1 else [HTML.number(abs(value))]
            texts.append(HTML.sign("-" if value < 0 else "+", not texts) + HTML.joint.join([*number, self.letters(word)]))
        return "".join(texts) or HTML.number(0)

    def written(self) -> Iterator[str]:
        """The rest of the claim, the rules, and the box, in lines of HTML."""
        rules = self.basis.rules
        yield f'<p>The rules leave of left minus right: <span class="w">{self.sum(self.basis.rest)}</span></p>'
        name = f"reduce-{self.report}-{self.block}"
        yield (
            f'<form class="reduce" data-report="{self.report}" data-block="{self.block}" hidden><label for="{name}">Reduce</label> '
            f'<input id="{name}" type="text" spellcheck="false" autocapitalize="off" autocomplete="off" value="{escape(self.start())}"> '
            '<button type="submit">step by step</button><output aria-live="polite"></output></form>'
        )
        yield f'<h3>The {len(rules)} rule{"" if len(rules) == 1 else "s"}</h3>'
        yield '<table class="rules"><thead><tr><th>Rule</th><th>A word</th><th></th><th>is replaced by</th></tr></thead><tbody>'
        for number, rule in enumerate(rules, 1):
            lead = min(rule, key=self.order.rank)
            number_text = "" if rule[lead] == 1 else HTML.number(rule[lead]) + HTML.joint
            others = {word: value for word, value in rule.items() if word != lead}
            yield (
                f'<tr><th>{number}</th><td class="w">{number_text}{self.letters(lead)}</td><td>→</td>'
                f'<td class="w">{self.sum(others, -1)}</td></tr>'
            )
        yield "</tbody></table>"

    def start(self) -> str:
        """What the box has at first: the longest leading word, or what is left of the claim."""
        words = [min(rule, key=self.order.rank) for rule in self.basis.rules] or list(self.basis.rest)
        problem = self.reader.problem
        return problem.text(tuple(confirm.FIRST - ord(letter) for letter in max(words, key=len, default="")))
