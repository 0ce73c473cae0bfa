"""Certificates as a script for Singular

What is written makes a free algebra over the rational numbers (Letterplace), multiplies the rows out and prints for
each certificate whether they are equal to the claim times the denominator, or with lemmas times the scale of the goal.
"""
from __future__ import annotations

from typing import List

from opprove.checkers.check import Certificate, Poly, Problem
from opprove.translations.translation import Templates, added_up, ascii_names, run

TEMPLATES = Templates(
    let="poly {name} = {value};",
    start="\ntotal = 0;",
    add="total = total + {value};",
    lemma="if (defined({name})) {{ kill {name}; }} poly {name} = total/{scale};",
    compare="""total = total - {scale}*({claim});
if (total == 0) {{ "certificate {block} equal"; }} else {{ "certificate {block} differs by"; total; }}""",
)


def length(poly: Poly) -> int:
    """How many letters its longest word has."""
    return max(map(len, poly), default=0)


def degree_bound(problem: Problem, certificates: List[Certificate]) -> int:
    """How many letters a word can have on the way. A free algebra of Singular has a bound, of 2 at least."""
    bounds = [2, *map(length, problem.claims)]
    generators = [length(generator) for generator in problem.generators()]
    for certificate in certificates:
        lemmas: List[int] = []
        for share in certificate.shares:
            middles = [(lemmas if row.is_lemma else generators)[row.number - 1] for row in share.rows]
            lengths = [len(row.left) + middle + len(row.right) for row, middle in zip(share.rows, middles)]
            lemmas.append(max(lengths, default=0))
        bounds += lemmas
    return max(bounds)


def translate(problem: Problem, certificates: List[Certificate]) -> List[str]:
    names = ascii_names(problem)
    return [
        *(f"// {name} is {written}" for name, written in zip(names, problem.names)),
        'LIB "freegb.lib";',
        f"ring letters = 0,({','.join(names)}),dp;",
        f"ring words = freeAlgebra(letters, {degree_bound(problem, certificates)});",
        "poly total;",
        *added_up(problem, certificates, TEMPLATES),
        "quit;",
    ]


def main(words: List[str]) -> int:
    """Writes the translation, and gives the status."""
    return run("singular", __doc__, translate, words)
