"""Certificates as displayed formulas for LaTeX

What is written stands in the body of a paper that loads amsmath: for each certificate the generators that are used,
its lemmas, and the claim as their sum. Names with letters beyond ASCII stay as they are, and need LuaLaTeX or XeLaTeX.
"""
from __future__ import annotations

import re
from typing import Iterator, List

from opprove.checkers.check import Certificate, Poly, Problem, Row
from opprove.text.expressions import INSIDE, TIGHTNESS, Expression
from opprove.translations.translation import generators_used, run

WIDTH = 270  # of a sum in points, at the size of ten points, beside what it is by
GREEK = """alpha beta gamma delta epsilon zeta eta theta iota kappa lambda mu nu xi pi rho sigma tau upsilon phi chi psi
omega Gamma Delta Theta Lambda Xi Pi Sigma Upsilon Phi Psi Omega""".split()


def name_in_latex(name: str) -> str:
    """The name; digits at its end, or what stands behind its first _, become its index."""
    match = re.fullmatch(r"([^\W\d_]+)_?([0-9]*|.*)", name)
    base, index = match.groups() if match else (name, "")
    base = rf"\{base}" if base in GREEK else base if len(base) == 1 else rf"\mathit{{{escaped(base)}}}"
    if not index:
        return base
    return f"{base}_{{{index}}}" if len(index) == 1 or index.isdigit() else rf"{base}_{{\mathit{{{escaped(index)}}}}}"


def formula(expression: Expression) -> str:
    """An expression of a statement; a product is written side by side."""
    kind, parts = expression.kind, expression.parts
    if kind == "map":
        return name_in_latex(expression.name)
    if kind == "identity":
        return letter_in_latex(f"[{expression.name}]")
    inner = [formula(part) for part in parts]
    if kind == "sum":
        return re.sub("[+] -", "-", " + ".join(inner))
    texts = [text if TIGHTNESS[part.kind] >= INSIDE[kind] else f"({text})" for part, text in zip(parts, inner)]
    body = r" \, ".join(texts)
    forms = {"zero": "0", "negative": f"- {body}", "scaled": rf"{expression.number} \, {body}", "product": body}
    base = f"({body})" if parts and parts[0].kind in ("adjoint", "power") else body
    return forms.get(kind) or f"{base}^{{{'*' if kind == 'adjoint' else expression.number}}}"


def escaped(text: str) -> str:
    return text.replace("_", r"\_")


def letter_in_latex(written: str) -> str:
    """[V] is 1_V, and an adjoint has a star."""
    name = name_in_latex(written.strip("[']"))
    return f"1_{{{name}}}" if written[0] == "[" else f"{name}^{{*}}" if written[-1] == "'" else name


def scaled(coefficient: int, factors: List[str]) -> str:
    """A signed term; a coefficient of 1 is left out."""
    sign = "-" if coefficient < 0 else "+"
    number = [] if abs(coefficient) == 1 else [str(abs(coefficient))]
    return f"{sign} " + r" \, ".join(number + factors)


def width_of(latex: str) -> int:
    """About how wide a formula is, in points at the size of ten points."""
    bare = re.sub(r"\\(?:mathit|text|mathrm) *", "", latex)
    raised = "".join(re.findall(r"[\^_](?:\{([^{}]*)\})", bare))
    bare = re.sub(r"[\^_]\{[^{}]*\}", "", bare)
    small = len(re.sub(r"\\[A-Za-z]+", "x", raised))
    spaces, signs = bare.count(r"\,"), len(re.findall(r" [-+=] ", f" {bare} "))
    letters = re.sub(r"\\[A-Za-z]+", "x", re.sub(r"\\,|[{} ]", "", bare))
    return 4 * small + 2 * spaces + 7 * signs + 6 * len(letters)


def lines_of(terms: List[str], width: int = WIDTH) -> List[str]:
    """The terms of a sum in lines of about this width, the first without a + in front; a term that is wider goes on behind a dot."""
    lines: List[str] = []
    for term in terms or ["0"]:
        is_wide = width_of(term) > width
        for piece in broken(term, width) if is_wide else [term]:
            if lines and not is_wide and width_of(lines[-1]) + width_of(piece) <= width:
                lines[-1] += " " + piece
            else:
                lines.append(piece)
    first, *others = lines
    return [re.sub("^[+] ", "", first)] + ["{} " + line for line in others]


def broken(term: str, width: int) -> List[str]:
    """A product in pieces of this width, where its factors are narrower."""
    pieces: List[str] = []
    for factor in term.split(r" \, "):
        if pieces and width_of(pieces[-1]) + width_of(factor) + 2 <= width:
            pieces[-1] += rf" \, {factor}"
        else:
            pieces.append(rf"\cdot {factor}" if pieces else factor)
    return pieces


def definition(left: str, terms: List[str]) -> str:
    return f"  {left} &= " + " \\\\\n  &\\quad ".join(lines_of(terms))


def identity(left: List[str], right: List[str]) -> str:
    return "  & " + " \\\\\n  &\\quad ".join(left + ["= " + right[0]] + right[1:])


class Writer:
    """Writes formulas of a problem; g stands for generators and h for lemmas."""

    def __init__(self, problem: Problem) -> None:
        self.problem = problem
        self.letters = [letter_in_latex(written) for written in problem.names]

    def terms(self, poly: Poly) -> List[str]:
        return [scaled(poly[word], [self.letters[letter] for letter in word]) for word in poly]

    def row(self, row: Row) -> str:
        left, right = ([self.letters[letter] for letter in word] for word in (row.left, row.right))
        return scaled(row.coefficient, left + [f"{'h' if row.is_lemma else 'g'}_{{{row.number}}}"] + right)

    def definitions(self, certificate: Certificate) -> Iterator[str]:
        generators = self.problem.generators()
        for number in generators_used([certificate]):
            yield definition(f"g_{{{number}}}", self.terms(generators[number - 1]))
        for number, lemma in enumerate(certificate.shares[:-1], 1):
            left = f"h_{{{number}}}" if lemma.scale == 1 else rf"{lemma.scale} \, h_{{{number}}}"
            yield definition(left, [self.row(row) for row in lemma.rows])

    def claim(self, certificate: Certificate) -> str:
        goal = certificate.shares[-1]
        left = lines_of(self.terms(self.problem.claims[certificate.claim - 1]))
        if goal.scale != 1:
            left[0], left[-1] = rf"{goal.scale} \, ({left[0]}", left[-1] + ")"
        return identity(left, lines_of([self.row(row) for row in goal.rows]))


def translate(problem: Problem, certificates: List[Certificate]) -> List[str]:
    lines, writer = [], Writer(problem)
    for block, certificate in enumerate(certificates, 1):
        lines.append(f"% certificate {block}, of claim {certificate.claim}")
        definitions = list(writer.definitions(certificate))
        for formulas in [definitions, [writer.claim(certificate)]] if definitions else [[writer.claim(certificate)]]:
            lines += [r"\begin{align*}", " \\\\\n".join(formulas), r"\end{align*}"]
    return lines


def main(words: List[str]) -> int:
    """Writes the translation, and gives the status."""
    return run("latex", __doc__, translate, words)
