"""Proofs as chains in HTML: one step a line, with what comes and what goes marked, the equation that is used, and its instance."""
from __future__ import annotations

from html import escape
from typing import Dict, Iterator, List, NamedTuple, Sequence, Tuple

from opprove.checkers.cancel import Cancel, Cancellation
from opprove.checkers.check import Poly, Row, Share, Word
from opprove.checkers.star import Root
from opprove.page.formulas import CAME, GOES, HTML, MATHML, Marks, Writer, equation
from opprove.translations.chain import Chain, Equation, Proof, Reader, label, listed, place_of, reason, used


SHORT, MIDDLE = 8, 18  # letters, and twice the terms, of sums that are as wide as a column of that kind


class Replaced(NamedTuple):
    """The words of a row as they stand in sums, each with the place and the length of what stands between the row's words."""

    spans: Dict[Word, Tuple[int, int]]

    def flags(self, word: Word, flag: int) -> List[int]:
        start, length = self.spans.get(word, (0, 0))
        return [flag * (start <= place < start + length) for place in range(len(word))]


NOTHING = Replaced({})


def star_of(reader: Reader, poly: Poly) -> Poly:
    return reader.problem.star(poly)


def equation_of(reader: Reader, proof: Proof, row: Row) -> Equation:
    """The equation that a row uses: of an assumption, its adjoint or a lemma."""
    if row.is_lemma:
        chain = proof.chains[row.number - 1]
        return Equation(chain.ends, chain.left, chain.right, [])
    number, is_adjoint = reader.sources[row.number - 1]
    found = reader.assumptions[number - 1]
    if not is_adjoint:
        return found
    return found._replace(ends=(found.ends[1], found.ends[0]), left=star_of(reader, found.left), right=star_of(reader, found.right))


def replaced(reader: Reader, proof: Proof, row: Row) -> Replaced:
    used_equation = equation_of(reader, proof, row)
    middles = {**used_equation.left, **used_equation.right}
    return Replaced({row.left + middle + row.right: (len(row.left), len(middle)) for middle in middles})


class StarWriter:
    """Writes a proof that takes stars off, item by item: what each says, and by what."""

    def __init__(self, reader: Reader, proof: Cancellation, polys: Sequence[Poly], prefix: str) -> None:
        self.reader, self.proof, self.polys, self.prefix = reader, proof, polys, prefix
        self.html = Writer(reader.problem, HTML)

    def written(self) -> Iterator[str]:
        for number, (item, poly) in enumerate(zip(self.proof.items, self.polys), 1):
            shown = f'<span class="w">{self.html.sum(poly, (0, 0))} = 0</span>'
            yield f'<p class="off" id="{self.prefix}l{number}">[{number}] {shown}, {self.why(item)}</p>'
        yield f'<p class="off">The claim {self.why(self.proof.items[-1])}</p>'

    def link(self, number: int) -> str:
        return f'<a href="#{self.prefix}l{number}">[{number}]</a>'

    def why(self, item: object) -> str:
        """By what an item holds."""
        if isinstance(item, Cancel):
            letter, kind = self.html.letters[item.letter], "monic" if item.is_left else "epic"
            return f'by {self.link(item.item)}, since <span class="w">{letter}</span> is {kind}'
        if isinstance(item, Root):
            form = "{0}({1})<sup>∗</sup> ({1})" if item.is_left else "{0}({1}) ({1})<sup>∗</sup>"
            squares = [form.format(f"<b>{scale}</b> " * (scale > 1), self.html.sum(poly, (0, 0))) for scale, poly in item.squares]
            return f'since {self.link(item.item)} is <span class="w">{" + ".join(squares)}</span>'
        rows = item.rows if isinstance(item, Share) else []
        names = [self.named(row) for row in rows if row.coefficient]
        return f"by {listed(list(dict.fromkeys(names)))}" if names else "by nothing"


    def named(self, row: Row) -> str:
        if row.is_lemma:
            return self.link(row.number)
        return label(self.reader, row, "<sup>∗</sup>") if row.number <= len(self.reader.sources) else "what identities satisfy"


class ProofWriter:
    """Writes a proof of a claim. Anchors begin with a prefix, which no other proof of the page has."""

    def __init__(self, reader: Reader, proof: Proof, prefix: str) -> None:
        self.reader, self.proof, self.prefix = reader, proof, prefix
        self.html, self.mathml = Writer(reader.problem, HTML), Writer(reader.problem, MATHML)

    def written(self) -> Iterator[str]:
        """The proof in lines of HTML: what it uses, its lemmas, and the chain of the claim."""
        yield self.uses()
        chains = self.proof.chains
        if len(chains) > 1:
            yield '<p class="folds" hidden><button type="button" class="fold">Fold lemmas</button></p>'
        for number, chain in enumerate(chains[:-1], 1):
            yield from self.lemma(number, chain)
        yield f"<h3>Proof{self.scaled(chains[-1])}</h3>"
        yield from self.steps(chains[-1])
        if self.proof.is_told and self.proof.certificate.denominator > 1:
            yield f"<p>and {self.proof.certificate.denominator} cancels.</p>"

    def uses(self) -> str:
        numbers = used(self.reader, self.proof)
        links = [f'<a href="#a{number}">({number})</a>' for number in numbers]
        others = [f"({number})" for number, _ in enumerate(self.reader.assumptions, 1) if number not in numbers]
        rest = f"; not used: {', '.join(others)}" if others else ""
        return f'<p class="uses">Used: {", ".join(links) or "no assumption"}{rest}.</p>'

    def scaled(self, chain: Chain) -> str:
        return "" if chain.scale == 1 or self.proof.is_told else f", as {chain.scale} cancels"

    def lemma(self, number: int, chain: Chain) -> Iterator[str]:
        shown = equation(self.mathml, chain.left, chain.right, chain.ends)
        scale = "" if chain.scale == 1 else f' data-scale="{chain.scale}"'
        head = f"<summary>Lemma [{number}]{self.scaled(chain)}: {shown}</summary>"
        yield f'<details class="lemma" open id="{self.prefix}l{number}"{scale}>{head}'
        yield from [self.cancelled(chain.cancelled)] if isinstance(chain.cancelled, Cancel) else self.steps(chain)
        yield "</details>"

    def cancelled(self, found: Cancel) -> str:
        """Where a letter is taken off: the item as it was, with the letter struck out."""
        before = self.proof.chains[found.item - 1]

        def off(word: Word) -> List[int]:
            place = 0 if found.is_left else len(word) - 1
            return [GOES * (number == place) for number, _ in enumerate(word)]

        sides = [self.html.sum(side, before.ends, off) for side in (before.left, before.right)]
        told = escape(reason(found, self.reader.problem.names))
        why = told.replace(f"[{found.item}]", f'<a href="#{self.prefix}l{found.item}">[{found.item}]</a>', 1)
        return f'<p class="off"><span class="w">{sides[0]} = {sides[1]}</span>, {why}</p>'

    def steps(self, chain: Chain) -> Iterator[str]:
        """The lines of a chain."""
        spans = [NOTHING, *(replaced(self.reader, self.proof, step.row) for step in chain.steps), NOTHING]
        totals = [chain.start(), *(step.total for step in chain.steps)]
        longest = max(sum(map(len, total)) + 2 * len(total) for total in totals)
        kind = "chain" + (" long" if longest > MIDDLE else " middle" if longest > SHORT else "")
        yield f'<div class="{kind}" role="list">'
        for number, total in enumerate(totals):
            before, after = spans[number], spans[number + 1]
            other = totals[number + 1] if number < len(chain.steps) else total
            earlier = totals[number - 1] if number else total
            yield self.step(chain, number, total, self.marks(before, after, earlier, total, other))
        yield "</div>"

    def marks(self, before: Replaced, after: Replaced, earlier: Poly, total: Poly, later: Poly) -> Marks:
        """What of a word came by the last step, and what goes by the next one."""

        def marked(word: Word) -> Sequence[int]:
            came = before.flags(word, CAME) if earlier.get(word) != total.get(word) else [0] * len(word)
            goes = after.flags(word, GOES) if later.get(word) != total.get(word) else [0] * len(word)
            return [one | other for one, other in zip(came, goes)]

        return marked

    def step(self, chain: Chain, number: int, total: Poly, marks: Marks) -> str:
        shown = self.html.sum(total, chain.ends, marks)
        if number == 0:
            return f'<div class="step" role="listitem"><span></span><span class="w">{shown}</span></div>'
        row = chain.steps[number - 1].row
        name, anchor = label(self.reader, row, "<sup>∗</sup>"), f"{self.prefix}l{row.number}"
        if not row.is_lemma:
            anchor = f"a{self.reader.sources[row.number - 1][0]}"
        by = f'<a class="by" href="#{anchor}">{name}</a>'
        more = f'<span class="more">{self.instance(row, name)}</span>'
        return f'<div class="step" role="listitem"><span>=</span><span class="w">{shown}</span>{by}{more}</div>'

    def instance(self, row: Row, name: str) -> str:
        """The equation of a row, where it lies, and what stands before and behind it."""
        found = equation_of(self.reader, self.proof, row)
        sides = f"{self.html.sum(found.left, found.ends)} = {self.html.sum(found.right, found.ends)}"
        where = escape(place_of(found)) if found.line else "a lemma above"
        if not row.is_lemma and self.reader.sources[row.number - 1][1]:
            where = f"the adjoint of {where}"
        left, right = (self.html.factors(word) for word in (row.left, row.right))
        factor = "" if abs(row.coefficient) == 1 else f"<b>{abs(row.coefficient)}</b> "
        between = [f'before it <span class="w">{left}</span>'] * bool(left) + [f'behind it <span class="w">{right}</span>'] * bool(right)
        times = f"{factor}times, " if factor else ""
        return f'{name} <span class="w">{sides}</span>, {where}; {times}{" and ".join(between) or "it is the whole term"}'

